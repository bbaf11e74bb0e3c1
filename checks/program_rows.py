"""Holds the program that a gate has built to the rows of its library.

    python3 checks/program_rows.py     after a gate

The rows of `crates/worked_rows` call `run` from a program of their own, with streams in memory. Here the built program itself is started with the
words of each row that takes files alone: it has to write to the system's streams just what the row's streams took, and to end with the row's
status. So what `main` hands out is that of `run`. The status is 1 where a row differs."""

import os
import shutil
import subprocess
import sys
import tempfile

import release


def rows():
    """The words of each row that takes files alone, its status, and what it writes to the two streams."""
    words, written = None, {}
    for line in release.contents(f"{release.ROWS}/stdout").decode().split("\n"):
        mark, _, rest = line.partition(" ")
        if mark.startswith("$"):
            of_files = mark == "$" and not rest.startswith("serve ") and rest != "?"
            words, written = (rest.split() if of_files else None), {">": "", "!": ""}
        elif words is not None and mark in written:
            written[mark] += f"{rest}\n"
        elif words is not None and mark == "=":
            yield words, int(rest), written[">"].encode(), written["!"].encode()
            words = None


def differing():
    """How many rows there were, and the words of those for which the program ends or writes otherwise."""
    count, found = 0, []
    with tempfile.TemporaryDirectory(prefix="rows-") as room:
        data = f"{room}/data"
        shutil.copytree(f"{release.ROWS}/data", data)
        for words, *wanted in rows():
            count += 1
            if release.ran(release.BUILT, [release.filled(it, data) for it in words], data) != tuple(wanted):
                found.append(" ".join(words))
    return count, found


def end_without_output():
    """How the program ends where its output takes nothing."""
    with open("/dev/full", "w") as full:
        return subprocess.run([release.BUILT, "--version"], stdin=subprocess.DEVNULL, stdout=full, stderr=subprocess.DEVNULL, timeout=60).returncode


def main():
    if not os.path.isfile(release.BUILT):
        print("program rows: no gate has left a program here")
        return 1
    count, found = differing()
    statuses = sorted({status for _, status, *_ in rows()})
    if found:
        print(f"program rows: the program differs in {len(found)} of {count} rows, first in: {found[0]}")
        return 1
    if end_without_output() != 4:
        print("program rows: the program doesn't end with status 4 where its output takes nothing")
        return 1
    print(f"program rows: the program ends and writes as {count} rows do, with the statuses {', '.join(map(str, statuses))}, and with 4 where its output takes nothing")
    return 0


if __name__ == "__main__":
    sys.exit(main())
