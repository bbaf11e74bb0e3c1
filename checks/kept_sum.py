"""Whether the script `tellcrock` sees each change of a source, though it hashes sources only where one was written, and what its own work costs.

    python3 checks/kept_sum.py

The script keeps the sum of the sources with their sizes, times and inodes. In a copy of this checkout sources are changed in ways that leave as few marks as can be: behind each the script has
to say that they aren't those of the release, and to run the program again once they are as before. How often files are hashed is seen by a `sha256sum` that is put before the system's.
The status is 1 where something isn't as it has to be."""

import os
import re
import resource
import shutil
import subprocess
import sys
import tempfile
import time

TOP = os.path.dirname(os.path.dirname(os.path.abspath(__file__)))
FAULTS = []


def say(line, holds):
    print(line if holds else f"{line}: NOT AS IT HAS TO BE", flush=True)
    if not holds:
        FAULTS.append(line)


class Copy:
    """A copy of what the script needs, whose record names the sources as they are."""

    def __init__(self, folder):
        self.top = f"{folder}/copy"
        os.mkdir(self.top)
        for name in ("tellcrock", "crates.txt"):
            shutil.copy2(f"{TOP}/{name}", f"{self.top}/{name}")
        for name in ("release", "examples"):
            shutil.copytree(f"{TOP}/{name}", f"{self.top}/{name}")
        for crate in os.listdir(f"{TOP}/crates"):
            for part in ("src", "specs", "proofs"):
                if os.path.isdir(f"{TOP}/crates/{crate}/{part}"):
                    shutil.copytree(f"{TOP}/crates/{crate}/{part}", f"{self.top}/crates/{crate}/{part}")
        self.kept = f"{self.top}/crates/gateway_cli/out/sum_of_sources"
        self.hashed = f"{folder}/hashed"
        os.mkdir(f"{folder}/bin")
        with open(f"{folder}/bin/sha256sum", "w", encoding="utf-8") as file:
            file.write(f'#!/bin/sh\n[ $# -eq 0 ] || echo "$#" >>{self.hashed}\nexec {shutil.which("sha256sum")} "$@"\n')
        os.chmod(f"{folder}/bin/sha256sum", 0o755)
        self.path = f"{folder}/bin:{os.environ['PATH']}"
        with open(f"{self.top}/release/RECORD", encoding="utf-8") as file:
            record = file.read()
        with open(f"{self.top}/release/RECORD", "w", encoding="utf-8") as file:
            file.write(re.sub(r"(?m)^sources \w+$", f"sources {self.call('sources').stdout.strip()}", record))

    def call(self, *words):
        return subprocess.run([f"{self.top}/tellcrock", *words], cwd=f"{self.top}/examples", env={**os.environ, "PATH": self.path}, capture_output=True, text=True)

    def price(self):
        return self.call("price", "books.graphql", "titles.graphql")

    def runs(self):
        ran = self.price()
        return ran.returncode == 0 and ran.stdout == "82.000 22.000\n" and not ran.stderr

    def is_refused(self):
        ran = self.price()
        return ran.returncode == 125 and "the sources here aren't those of the released program" in ran.stderr

    def files_hashed(self):
        """How many files were hashed by their names since this was asked last."""
        if not os.path.isfile(self.hashed):
            return 0
        with open(self.hashed, encoding="utf-8") as file:
            count = sum(int(it) for it in file)
        os.remove(self.hashed)
        return count

    def settled(self):
        """Waits until the last change is past, and lets the script keep its sum."""
        time.sleep(5.5)
        return self.runs() and os.path.isfile(self.kept)


def read(path):
    with open(path, "rb") as file:
        return file.read()


def write(path, text):
    with open(path, "r+b") as file:
        file.write(text)


def with_another_end(text):
    return text[:-1] + (b" " if text[-1:] == b"\n" else b"\n")


def byte_with_its_time(one, _):
    seen, text = os.stat(one), read(one)
    write(one, with_another_end(text))
    os.utime(one, ns=(seen.st_atime_ns, seen.st_mtime_ns))
    return lambda: write(one, text)


def replaced_with_its_time(one, aside):
    seen, text = os.stat(one), read(one)
    os.rename(one, aside)
    with open(one, "wb") as file:
        file.write(with_another_end(text))
    os.utime(one, ns=(seen.st_atime_ns, seen.st_mtime_ns))
    return lambda: os.replace(aside, one)


def exchanged(one, aside):
    other = sorted(it.path for it in os.scandir(os.path.dirname(one)) if it.path != one)[0]

    def turn():
        os.rename(one, aside)
        os.rename(other, one)
        os.rename(aside, other)

    turn()
    return turn


def one_more(one, _):
    shutil.copy2(one, f"{one}.more")
    return lambda: os.remove(f"{one}.more")


def one_less(one, aside):
    os.rename(one, aside)
    return lambda: os.rename(aside, one)


CHANGES = {
    "a byte is another, and the time of the last write is set back": byte_with_its_time,
    "a file is replaced by one of the same size and time": replaced_with_its_time,
    "two files have exchanged their names": exchanged,
    "a file more": one_more,
    "a file less": one_less,
}


def changes(copy):
    one = f"{copy.top}/crates/outside/src/lib.rt"
    for what, change in CHANGES.items():
        kept = copy.settled()
        back = change(one, f"{copy.top}/aside")
        seen = copy.is_refused()
        back()
        say(f"{what}: {'seen' if seen else 'not seen'}", kept and seen and copy.runs())
    kept = copy.settled()
    with open(copy.kept, "r+b") as file:
        file.truncate(1000)
    say("a kept sum that was cut: hashed anew", kept and copy.runs() and copy.files_hashed() > 1000)


def at_once(copy):
    """Changes in the very moment in which the sum could be kept: none may be passed over."""
    one, passed = f"{copy.top}/crates/cost_num/src/lib.rt", 0
    text = read(one)
    for _ in range(20):
        write(one, text)
        good = copy.runs()
        write(one, with_another_end(text))
        passed += not (good and copy.is_refused())
    write(one, text)
    say(f"changes at once behind a call: {20 - passed} of 20 seen", passed == 0)


def costs(copy):
    copy.settled()
    copy.files_hashed()
    say("a call beside unchanged sources hashes none of them", copy.runs() and copy.files_hashed() == 0)
    documents = [f"{copy.top}/examples/titles.graphql"] * 1000
    spent = []
    for program in (f"{copy.top}/tellcrock", f"{copy.top}/release/tellcrock"):
        before = resource.getrusage(resource.RUSAGE_CHILDREN)
        ran = subprocess.run([program, "audit", f"{copy.top}/examples/books.graphql", *documents], capture_output=True, text=True)
        after = resource.getrusage(resource.RUSAGE_CHILDREN)
        spent.append(after.ru_utime + after.ru_stime - before.ru_utime - before.ru_stime)
        say(f"audit of a thousand files by {os.path.basename(os.path.dirname(program))}/{os.path.basename(program)}: {spent[-1]:.2f} s of a processor", ran.returncode == 0)
    say("the script adds less than half a second", spent[0] - spent[1] < 0.5)


def main():
    with tempfile.TemporaryDirectory() as folder:
        copy = Copy(folder)
        say("nothing is kept while the last change is fresh", copy.runs() and not os.path.isfile(copy.kept))
        changes(copy)
        at_once(copy)
        costs(copy)
    print("all as it has to be" if not FAULTS else f"{len(FAULTS)} NOT AS THEY HAVE TO BE")
    return 1 if FAULTS else 0


if __name__ == "__main__":
    sys.exit(main())
