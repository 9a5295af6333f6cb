#!/usr/bin/env python3
"""Compares library/chihome.py with library/chihome.h: each enum with its names and numbers, each call with what it takes,
and each struct with the size and the offsets that a C compiler sees.

Usage: tests/python/layout.py

It prints what is different, and its status is 1 where anything is.
"""

import ctypes
import inspect
import re
import subprocess
import sys
import tempfile
from pathlib import Path

TOP = Path(__file__).resolve().parents[2]
sys.dont_write_bytecode = True
sys.path.insert(0, str(TOP / "library"))
import chihome  # noqa: E402

CODE = re.sub(r"/\*.*?\*/", "", (TOP / "library/chihome.h").read_text(), flags=re.S)
NUMBERS = {"uint8_t": ctypes.c_uint8, "uint16_t": ctypes.c_uint16, "uint32_t": ctypes.c_uint32,
           "uint64_t": ctypes.c_uint64, "size_t": ctypes.c_size_t, "void *": ctypes.c_void_p}


# What stands before the names of some enums in C, where all enums' names are in one place.
PREFIXES = {"Opcode": "Op_", "Resp": "Resp_", "ObserverReason": "Fault_", "Stores": "Stores_"}
# What is no refusal: the flit is taken.
TAKEN = {chihome.Answer.OK, chihome.Answer.SetAside}


def members(text, prefix=""):
    """The names and numbers between the braces of an enum; None is no name in Python."""
    each = re.findall(rf"CHI_{prefix}(\w+) = (\d+)", text)
    return {"None_" if name == "None" else name: int(number) for name, number in each}


def wrong_enums():
    """The enums of the header that the module has otherwise, and those that only it has."""
    known = {name: members(body, PREFIXES.get(name, "")) for name, body in re.findall(r"enum Chi(\w+) \{(.*?)\}", CODE, re.S)}
    ours = {name: {it.name: it.value for it in kind} for name, kind in inspect.getmembers(chihome, inspect.isclass)
            if issubclass(kind, chihome.enum.IntEnum)}
    wrong = [f"{it}: {known.get(it)}, and here {ours.get(it)}" for it in sorted({*known, *ours})
             if known.get(it) != ours.get(it)]
    single = members(" ".join(re.findall(r"enum \{(.*?)\}", CODE, re.S)))
    return wrong + [f"{name}: {number}" for name, number in single.items() if getattr(chihome, name, None) != number]


def refusals():
    """What is wrong about the exceptions: each refusal has one, of its number and name."""
    ours = {it.name: int(it.number) for it in chihome.Refused.__subclasses__()}
    wanted = {it.name: it.value for it in chihome.Answer if it not in TAKEN}
    names = [it for it in chihome.Refused.__subclasses__() if it.name != it.__name__]
    return [f"the refusals are {wanted}, and here {ours}"] * (ours != wanted) + [f"{it}" for it in names]


def type_of(words):
    """The type of ctypes of a type of C."""
    words = words.replace("const ", "").strip()
    if words == "char *":
        return ctypes.c_char_p
    if words in NUMBERS:
        return NUMBERS[words]
    name = words.rstrip("* ")
    return ctypes.POINTER(NUMBERS.get(name) or getattr(chihome, f"_{name}"))


def taken(word):
    """The type of a parameter, such as `const ChiAction *action` or `ChiSent sent[8]`."""
    kind, name, array = re.fullmatch(r"(.*?[ *])(\w+)(\[\d+\])?", word.strip()).groups()
    return type_of(kind.strip() + (" *" if array else ""))


def wrong_calls():
    """The calls of the header that the module takes otherwise, and those that only it has."""
    found = re.findall(r"^(uint8_t|const char \*)\s*(chi_\w+)\(([^;]*)\);", CODE, re.M)
    known = {name: (type_of(kind), [] if words == "void" else [taken(it) for it in words.split(",")])
             for kind, name, words in found}
    return [f"{it}: {known.get(it)}, and here {chihome._CALLS.get(it)}" for it in sorted({*known, *chihome._CALLS})
            if known.get(it) != chihome._CALLS.get(it)]


def wrong_structs():
    """The structs of the header that the module lays out otherwise than the compiler, and those that only it has."""
    known = re.findall(r"typedef struct \{.*?\} (\w+);", CODE, re.S)
    ours = {name[1:]: kind for name, kind in inspect.getmembers(chihome, inspect.isclass)
            if issubclass(kind, ctypes.Structure)}
    wrong = [f"{it} isn't in both" for it in sorted({*known} ^ {*ours})]
    fields = {name: re.findall(r"(\w+)(?:\[\w+\])?;", body)
              for body, name in re.findall(r"typedef struct \{(.*?)\} (\w+);", CODE, re.S)}
    lines = [f'printf("{it} %zu\\n", sizeof({it}));' for it in known]
    lines += [f'printf("{it}.{field} %zu %zu\\n", offsetof({it}, {field}), sizeof((({it} *)0)->{field}));'
              for it in known for field in fields[it]]
    seen = compiled("\n".join(lines)).split("\n")
    told = [f"{it} {ctypes.sizeof(ours[it])}" for it in known if it in ours]
    told += [f"{it}.{field} {getattr(ours[it], field).offset} {getattr(ours[it], field).size}"
             for it in known if it in ours for field, _ in ours[it]._fields_]
    return wrong + [f"only the compiler or only the module: {it}" for it in sorted({*seen} ^ {*told}) if it]


def compiled(lines):
    """What a program of C with these lines prints."""
    with tempfile.TemporaryDirectory() as folder:
        source = Path(folder, "layout.c")
        source.write_text(f'#include "chihome.h"\n#include <stdio.h>\nint main(void) {{\n{lines}\nreturn 0;\n}}\n')
        subprocess.run(["gcc", "-std=c11", f"-I{TOP / 'library'}", source, "-o", f"{folder}/layout"], check=True)
        return subprocess.run([f"{folder}/layout"], check=True, stdout=subprocess.PIPE, text=True).stdout


def main():
    wrong = [*wrong_enums(), *refusals(), *wrong_calls(), *wrong_structs()]
    for it in wrong:
        print(it)
    return 1 if wrong else 0


if __name__ == "__main__":
    sys.exit(main())
