"""What the program says of its commands (`chihome usage COMMAND`), as crates/chi_program/src/usages.rt has it."""

import re
from pathlib import Path
from typing import List, NamedTuple

USAGES = Path(__file__).resolve().parent.parent / "crates/chi_program/src/usages.rt"


class Option(NamedTuple):
    """An option with the name of its value, which is empty where it has none, the words that this may be, and what it does."""

    name: str
    value: str
    words: List[str]
    about: str


class Usage(NamedTuple):
    """A command: its name and its line, what it does, its options, and an example, where there is one."""

    name: str
    line: str
    about: str
    options: List[Option]
    example: str

    @property
    def takes_files(self):
        return " FILE" in self.line.partition("[")[0]

    @property
    def takes_command(self):
        return "[COMMAND]" in self.line


def texts():
    """The texts of usages.rt, by the command that each is of."""
    found = re.findall(r'fn (\w+)_usage\(\) -> &\'static str \{\s*"((?:[^"\\]|\\.|\\\n)*)"', USAGES.read_text())
    plain = ((name, re.sub(r"\\\n\s*", "", text)) for name, text in found)
    return {name: text.replace("\\x20", " ").replace("\\n", "\n").replace('\\"', '"') for name, text in plain if name != "all"}


def option_of(line, text):
    """An option of the command with this line, as the text has it."""
    name, value, about = re.fullmatch(r"  (--[\w-]+)(?: (\S+))? +(.+)", text).groups()
    words = re.search(rf"\[{name} ([a-z|-]+)\]", line)
    return Option(name, value or "", words[1].split("|") if words else [], about)


def usage_of(name, text):
    """What the program says of a command."""
    line, about, *rest = text.splitlines()
    example = next((it.partition(": ")[2] for it in rest if it.startswith("Example: ")), "")
    return Usage(name, line, about, [option_of(line, it) for it in rest if it.startswith("  --")], example)


def usages():
    """What the program says of each command."""
    return [usage_of(*it) for it in texts().items()]
