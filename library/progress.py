"""How long something takes on this machine, and a command that is run while it is told how far it is."""

import os
import subprocess
import sys
import tempfile
import time


def reckoned(seconds, at_once):
    """How long something takes with what runs on this machine already, of which `at_once` parts run at a time and which
    takes `seconds` on idle processors."""
    wanted = os.getloadavg()[0] + at_once
    return seconds * max(1, wanted / len(os.sched_getaffinity(0)))


def tell(text, ends=True):
    """Tells on standard error how far it is: on a terminal in one line, which the next text takes the place of."""
    if sys.stderr.isatty():
        print(f"\r\033[K{text}", end="\n" if ends else "", file=sys.stderr, flush=True)
    else:
        print(text, file=sys.stderr, flush=True)


def run(command, what, about, meanwhile=lambda: None, **how):
    """Runs a command, telling that it does `what`, and how long of `about` seconds; its status, and what it wrote to
    its two streams. `meanwhile` is called five times a second."""
    start, told, every = time.monotonic(), -1, 1 if sys.stderr.isatty() else 15
    with tempfile.TemporaryFile("w+") as out, tempfile.TemporaryFile("w+") as err:
        process = subprocess.Popen(command, stdout=out, stderr=err, **how)
        try:
            while process.poll() is None:
                seconds = int(time.monotonic() - start)
                if seconds // every != told:
                    told = seconds // every
                    tell(f"{what}: {seconds} s of at most {about:.0f}", ends=False)
                meanwhile()
                time.sleep(0.2)
        except KeyboardInterrupt:
            process.terminate()
            process.wait()
            raise
        tell(f"{what}: done in {time.monotonic() - start:.0f} s")
        out.seek(0)
        err.seek(0)
        return process.returncode, out.read(), err.read()
