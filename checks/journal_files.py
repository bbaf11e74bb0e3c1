"""Hands the built program files that are no journals, and journals that were cut short, with `serve --journal`.

    python3 checks/journal_files.py [PROGRAM]

A file that isn't empty and that the making of a journal can't have left is refused with status 9, and so are a folder, a pipe and a device; one of other clients, or with a slot
that is no step, with status 1 and a line that says so. Each is left as it is, byte for byte. An empty file, what a journal's making may leave where it is cut short, and a journal that
is cut off at any length or that has anything behind its first closed gate is opened, with the accounts of its present slots. The status is 1 where something differs."""

import concurrent.futures
import hashlib
import os
import sqlite3
import subprocess
import sys
import tempfile

sys.dont_write_bytecode = True
from crash_journal import RECORD, History, bodies, read
from preloaded import SCHEMA, UNIT, Room, closing, ended, program_of

LIMITS = {"reader": (300, False), "guest": (60, True)}
CLIENTS = [(most * UNIT, carry) for most, carry in LIMITS.values()]
STEPS = [(1, 0, 5, 9, 4), (1, 1, 5, 30, 20), (2, 0, 1, 7, 4), (1, 0, 5, 50, 1), (1, 0, 6, 300, 2), (2, 1, 2, 0, 1)]


def whole_journal(mark):
    """A journal with some steps, of which two grants are open."""
    slots = [b"\0" + mark + bytes(30)] + [RECORD.pack(kind, client, number, *(it * UNIT for it in cost)) for kind, client, number, *cost in STEPS]
    return b"".join(b"\1" + it for it in slots) + b"\0"


def database():
    """A small file of SQLite."""
    with tempfile.TemporaryDirectory() as folder:
        with sqlite3.connect(f"{folder}/data") as made:
            made.execute("create table accounts (client, spent)")
        made.close()
        return read(f"{folder}/data")


def no_journals(journal):
    """Files that are refused, by what they are."""
    yield "a text", b"This is no journal.\n"
    yield "a long text", b"This is no journal.\n" * 50
    yield "a blank", b" "
    yield "the schema", SCHEMA.encode()
    yield "a database", database()
    yield from ((f"{size} zeros", bytes(size)) for size in (66, 128, 4096))
    yield "a zero and a text", b"\0" + b"This is no journal.\n" * 4
    yield from ((f"a byte of {byte}", bytes([byte])) for byte in (2, 255))
    yield "a journal whose first gate is closed", b"\0" + journal[1:]
    yield "its header alone with a closed gate, and a byte more than its making leaves", b"\0" + journal[1:64] + b"\0\0"
    yield from ((f"a journal whose first byte is {byte}", bytes([byte]) + journal[1:]) for byte in (2, 49, 129, 255))


def other_journals(journal, mark):
    """Journals that are refused, and the line that says so."""
    yield journal[:2] + bytes(32) + journal[34:], "journal 2 OtherClients\n"
    yield b"\1\0" + mark[::-1] + bytes(31), "journal 2 OtherClients\n"
    for slot in range(1, len(STEPS) + 1):
        for at, byte in (1, 0), (1, 3), (5, 2), (63, 1):
            yield journal[: 64 * slot + at] + bytes([byte]) + journal[64 * slot + at + 1 :], f"journal 3 Damaged {slot}\n"
    yield journal[:-1] + b"\1" + RECORD.pack(2, 0, 1, 0, 0) + b"\0", f"journal 3 Damaged {len(STEPS) + 1}\n"
    yield journal[:-1] + b"\1" + RECORD.pack(1, 0, 6, 1, 0) + b"\0", f"journal 3 Damaged {len(STEPS) + 1}\n"


def short_journals(journal):
    """Files that are opened."""
    yield b""
    making = b"\0" + journal[1:64] + b"\0"
    for size in range(1, 66):
        yield from (bytes(size), making[:size], making[:size].ljust(65, b"\0"), bytes(size) + making[size:], b"\0" + b"\1" * (size - 1))
    yield from (journal[:size] for size in range(1, len(journal) + 1))
    yield from (journal[: 64 * slot] + b"\0" + b"anything at all" * slot for slot in range(1, len(STEPS) + 2))


class Checked:
    """The program, and what was found."""

    def __init__(self, program, room):
        self.program, self.room, self.found, self.count = program, room, [], 0
        self.mark = hashlib.sha256(subprocess.run([program, "migrate", "clients"], cwd=room.folder, capture_output=True, check=True).stdout).digest()

    def opened(self, name):
        return ended(self.room.start("--listen", "127.0.0.1:0", "--upstream", "127.0.0.1:1", "--stop", "stop", "--journal", name), 20)

    def each(self, look, files):
        """Looks at each of these files."""
        files = list(files)
        self.count += len(files)
        with concurrent.futures.ThreadPoolExecutor(os.cpu_count() or 1) as workers:
            self.found += [it for it in workers.map(look, range(len(files)), files) if it]

    def refused(self, name, text, wanted, what):
        how = self.opened(name)
        if how != wanted:
            return f"{what}: it ends with {how}"
        return "" if text is None or read(self.room.path(name)) == text else f"{what}: the file was changed"

    def no_journal(self, number, it):
        what, text = it
        self.room.put(f"none{number}", text)
        return self.refused(f"none{number}", text, (9, "", "disk\n"), what)

    def no_file(self, _, name):
        return self.refused(name, None, (9, "", "disk\n"), name)

    def other(self, number, it):
        text, line = it
        self.room.put(f"other{number}", text)
        return self.refused(f"other{number}", text, (1, "", line), f"a journal that is refused as {line.strip()}")

    def short(self, number, text):
        """Whether it is opened with the accounts of its present slots, and nothing is open in it then."""
        name = f"short{number}"
        self.room.put(name, text)
        status, out, err = self.opened(name)
        wanted = self.accounts(History(text, CLIENTS, self.mark))
        try:
            left = History(read(self.room.path(name)), CLIENTS, self.mark)
        except ValueError as fault:
            return f"a journal of {len(text)} bytes: {fault}"
        if (status, err) == (8, "door\n") and closing(out) == wanted and not left.open and self.accounts(left) == wanted:
            return ""
        return f"a journal of {len(text)} bytes, {text[:40]!r}: it ends with {status}, {out!r} and {err!r}"

    def accounts(self, history):
        history.recover()
        return {key: [it.window, *it.settled, *(it.carried if carry else [])] for (key, (_, carry)), it in zip(LIMITS.items(), history.accounts)}


def look(checked):
    journal = whole_journal(checked.mark)
    assert len(bodies(journal)) == len(STEPS) + 1
    os.mkdir(checked.room.path("folder"))
    os.mkfifo(checked.room.path("pipe"))
    checked.each(checked.no_journal, no_journals(journal))
    checked.each(checked.no_file, ["folder", "pipe", "/dev/null", "none/at/all"])
    checked.each(checked.other, other_journals(journal, checked.mark))
    checked.each(checked.short, short_journals(journal))


def main():
    program = program_of(sys.argv[1:])
    room = Room(program, LIMITS)
    try:
        checked = Checked(program, room)
        look(checked)
    finally:
        room.remove()
    for words in checked.found[:40]:
        print(f"journal files: {words}")
    print(f"journal files: {len(checked.found)} differ" if checked.found else f"journal files: {checked.count} files are opened, or refused and left as they are")
    return 1 if checked.found else 0


if __name__ == "__main__":
    sys.exit(main())
