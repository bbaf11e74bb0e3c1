"""Holds the released program to the one that the gate has just built.

    python3 checks/release.py              after a gate: whether release/ holds the program of these sources
    python3 checks/release.py --refresh    after a gate that passed: puts the program that it built, and its record, into release/

The record has to be whole, and the released program the one that it names. Where it names other sources than those here there is nothing to
compare, and it says so. Else the released program has to be, byte for byte, the one in `crates/gateway_cli/out`. A build on another machine may differ in bytes; then both run each command line of
`crates/worked_rows` that takes files alone, and have to write the same with the same statuses. The status is 1 where they don't."""

import hashlib
import glob
import os
import re
import shutil
import subprocess
import sys
import tempfile

TOP = os.path.dirname(os.path.dirname(os.path.abspath(__file__)))
BUILT = f"{TOP}/crates/gateway_cli/out/gateway_cli"
RELEASED = f"{TOP}/release/tellcrock"
RECORD = f"{TOP}/release/RECORD"
ROWS = f"{TOP}/crates/worked_rows"


def said_by(*words):
    return subprocess.run(words, capture_output=True, text=True, check=True).stdout.strip()


def contents(path):
    with open(path, "rb") as file:
        return file.read()


def recorded(word):
    """The sum that the record has for sources or program, which stands there once; none where it doesn't."""
    if not os.path.isfile(RECORD):
        return None
    found = [it.removeprefix(f"{word} ") for it in contents(RECORD).decode(errors="replace").split("\n") if it.startswith(f"{word} ")]
    return found[0] if len(found) == 1 and re.fullmatch("[0-9a-f]{64}", found[0]) else None


def newest_source():
    files = [it for part in ("src", "specs", "proofs") for it in glob.glob(f"{TOP}/crates/*/{part}/**", recursive=True) if os.path.isfile(it)]
    return max(os.path.getmtime(it) for it in [f"{TOP}/crates.txt", *files])


def put(path, text, mode):
    """Writes a file beside the one of this name, and then puts it in its place."""
    with open(f"{path}.new", "wb") as file:
        file.write(text)
    os.chmod(f"{path}.new", mode)
    os.replace(f"{path}.new", path)


def refresh():
    """Whether the program was put into the release, and what to say of that."""
    if not os.path.isfile(BUILT):
        return False, "no gate has left a program here"
    if os.path.getmtime(BUILT) < newest_source():
        return False, "a source is newer than the program that was built: run the gate again"
    text = contents(BUILT)
    program = hashlib.sha256(text).hexdigest()
    record = f"sources {said_by(f'{TOP}/tellcrock', 'sources')}\nkit {said_by('rt', 'version')}\nprogram {program}\n"
    os.makedirs(os.path.dirname(RELEASED), exist_ok=True)
    put(RELEASED, text, 0o755)
    put(RECORD, record.encode(), 0o644)
    return True, f"{len(text):,} bytes, {program}"


def command_lines():
    """The arguments of each row that takes files alone."""
    for name in contents(f"{ROWS}/args").decode().split():
        for line in contents(f"{ROWS}/data/{name}").decode().splitlines():
            words = line.split(" ")
            if words[0] == "$" and words[1:2] != ["serve"] and words[1:] != ["?"]:
                yield words[1:]


def filled(word, data):
    """The file that a row's word names; FILE+N is FILE, filled up with spaces to N bytes."""
    name, plus, size = word.rpartition("+")
    if not plus or not size.isdigit() or not os.path.isfile(f"{data}/{name}"):
        return word
    text = contents(f"{data}/{name}")
    with open(f"{data}/{word}", "wb") as file:
        file.write(text.ljust(int(size), b" "))
    return word


def ran(program, words, folder):
    """How a program ends with these arguments, and what it writes; or why it can't be run."""
    try:
        found = subprocess.run([program, *words], cwd=folder, stdin=subprocess.DEVNULL, capture_output=True, timeout=60)
    except (OSError, subprocess.TimeoutExpired) as error:
        return program, str(error)
    return found.returncode, found.stdout, found.stderr


def rows_that_differ():
    """The number of rows, and those for which the two programs end differently or write something else."""
    count, found = 0, []
    with tempfile.TemporaryDirectory(prefix="release-") as room:
        data = f"{room}/data"
        shutil.copytree(f"{ROWS}/data", data)
        for words in command_lines():
            count += 1
            words = [filled(it, data) for it in words]
            if ran(RELEASED, words, data) != ran(BUILT, words, data):
                found.append(" ".join(words))
    return count, found


def compare():
    """Whether the release is the program that was built, or of other sources; and what to say of it."""
    if not os.path.isfile(RECORD) or not os.path.isfile(RELEASED):
        return False, "release/ has no program with its record"
    if not recorded("sources") or not recorded("program"):
        return False, "release/RECORD doesn't name the sum of the sources and that of the program, each once"
    if recorded("program") != hashlib.sha256(contents(RELEASED)).hexdigest():
        return False, "release/tellcrock isn't the program that release/RECORD names"
    if recorded("sources") != said_by(f"{TOP}/tellcrock", "sources"):
        return True, "release/RECORD names other sources than those here, so it isn't compared"
    if not os.path.isfile(BUILT):
        return False, "the gate left no program to compare the release with"
    if contents(RELEASED) == contents(BUILT):
        return True, "release/tellcrock is the program that was built of these sources, byte by byte"
    count, found = rows_that_differ()
    if found:
        return False, f"release/tellcrock and the program that was built of these sources differ in {len(found)} of {count} rows, first in: {found[0]}"
    return True, f"release/tellcrock differs in bytes from the program that was built of these sources, and writes the same in {count} rows"


def main(words):
    is_well, told = refresh() if words == ["--refresh"] else compare()
    print(f"release: {told}")
    return 0 if is_well else 1


if __name__ == "__main__":
    sys.exit(main(sys.argv[1:]))
