"""Works on files of accounts as a gateway will: ends the program that writes them at any moment, has each of its calls to the disk fail, and hands it files that are none.

    python3 checks/account_files.py [--kills N] [--seed N] [PROGRAM]

PROGRAM is that of `crates/accounts_load`. It says each grant and each settlement once it is kept. What it leaves is read by python's sqlite3, from copies, not by itself:

- ended by SIGKILL while it works, it leaves the rows of all steps that it said, or of one more, and finds them when it opens the file again. Clients keep their numbers;
- each call to the disk fails in turn, with EIO, ENOSPC, EINTR or half done: the program says that it failed, or goes on; the rows are those of what it said, or of one step more, and
  the next opening has them;
- texts, other programs' databases, other formats, lengths of windows, tables and rows, and a file that another process has open are refused, each for its reason, and so is a
  database in which any byte of a page differs; each file has the bytes then that it had, and nothing stands beside it that didn't before, but for a log beside one with the mark.

The status is 1 where something differs. Where no C compiler is there, it says that the failing calls were skipped."""

import argparse
import os
import random
import shutil
import sqlite3
import subprocess
import sys
import tempfile
import time

sys.dont_write_bytecode = True
import preloaded

HERE = os.path.dirname(os.path.abspath(__file__))
SECONDS = 60
MARK = int.from_bytes(b"TCK1", "big")
TABLES = [
    "CREATE TABLE meta (id INTEGER PRIMARY KEY, value INTEGER NOT NULL) STRICT",
    "CREATE TABLE client (id INTEGER PRIMARY KEY, key_sha256 BLOB NOT NULL) STRICT",
    "CREATE TABLE account (id INTEGER PRIMARY KEY, window INTEGER NOT NULL, settled_types INTEGER NOT NULL, settled_fields INTEGER NOT NULL, carried_types INTEGER NOT NULL,"
    " carried_fields INTEGER NOT NULL) STRICT",
    "CREATE TABLE open_grant (id INTEGER PRIMARY KEY, client INTEGER NOT NULL, window INTEGER NOT NULL, types INTEGER NOT NULL, fields INTEGER NOT NULL) STRICT",
]
CLIENT = "INSERT INTO client VALUES (7, x'" + 32 * "ab" + "')"
FAULTS = {"pread": ("5", "4", "short"), "pwrite": ("5", "28", "4", "short", "torn"), "fsync": ("5", "28"), "fdatasync": ("5", "28"), "open": ("5", "28"), "fadvise": ("5",)}


def failed(text):
    sys.exit(f"account_files: {text}")


def content(name):
    with open(name, "rb") as file:
        return file.read()


def contents(folder):
    return {it: content(os.path.join(folder, it)) for it in sorted(os.listdir(folder))}


def whole_lines(said):
    return said[: said.rfind(b"\n") + 1].decode().splitlines()


class Rows:
    """The rows of accounts and open grants, and the steps that the program makes of them."""

    def __init__(self, accounts=(), grants=()):
        self.accounts, self.grants = dict(accounts), dict(grants)

    def past_all(self):
        return max([0, *(row[1] // 2 for row in self.accounts.values()), *self.grants]) + 1

    def steps(self, number, clients):
        """Makes the steps of a round, one after the other, and yields after each what is said of it."""
        client = clients[number % 2]
        self.accounts[client] = (number // 64, 2 * number, 7, 0, 0)
        self.grants[number] = (client, number // 64, 2_000_000 + number % 1_000, 1_000_000)
        yield f"granted {number} {client}"
        if number % 7:
            self.accounts[client] = (number // 64, 2 * number + 1, 7, 0, 0)
            del self.grants[number]
            yield f"settled {number} {client}"

    def said(self):
        lines = [f"account {client} {row[0]} {row[1]} {row[2]}" for client, row in sorted(self.accounts.items())]
        return lines + [f"open {number} " + " ".join(map(str, row)) for number, row in sorted(self.grants.items())]

    def __eq__(self, other):
        return (self.accounts, self.grants) == (other.accounts, other.grants)


def read(name, room):
    """What sqlite3 reads of a copy of the file and its log: the rows, and the clients."""
    copy = os.path.join(room, "copy")
    for end in ("", "-wal", "-shm"):
        if os.path.exists(copy + end):
            os.remove(copy + end)
        if end != "-shm" and os.path.exists(name + end):
            shutil.copyfile(name + end, copy + end)
    if os.path.exists(copy) and content(copy)[:1] == b"\0":
        # The making of the file was cut short: its first byte is written last.
        return Rows(), []
    with sqlite3.connect(copy) as base:
        if not base.execute("SELECT count(*) FROM sqlite_schema").fetchone()[0]:
            return Rows(), []
        accounts = {row[0]: row[1:] for row in base.execute("SELECT * FROM account")}
        grants = {row[0]: row[1:] for row in base.execute("SELECT * FROM open_grant")}
        clients = base.execute("SELECT * FROM client ORDER BY id").fetchall()
    base.close()
    return Rows(accounts, grants), clients


def run(program, name, rounds, seconds=SECONDS, **more):
    return subprocess.run([program, name, str(seconds), str(rounds)], capture_output=True, check=False, timeout=60, **more)


def kept(before, lines, name, room, what):
    """Whether the file has just the steps that were said, or one more behind them. The rows that it has."""
    made = [line for line in lines if line.split()[0] in ("granted", "settled")]
    clients = [int(line.split()[1]) for line in lines if line.startswith("client ")]
    found, _ = read(name, room)
    rows = Rows(before.accounts, before.grants)
    if len(clients) < 2:
        return found if found == rows else failed(f"{what}: without a step the rows are other ones")
    at, number = 0, rows.past_all()
    if at == len(made) and found == rows:
        return found
    while True:
        for line in rows.steps(number, clients):
            if at < len(made) and made[at] != line:
                failed(f"{what}: it said {made[at]!r} where {line!r} comes next")
            at += 1
            if at >= len(made) and found == rows:
                return found
            if at > len(made):
                failed(f"{what}: the file has other rows than those of the {len(made)} steps that it said")
        number += 1


def opened_again(program, name, rows, what):
    done = run(program, name, 0)
    lines = done.stdout.decode().splitlines()
    if done.returncode or lines != rows.said() + ["client 0", "client 1"]:
        failed(f"{what}: it finds {lines[-3:]}, and the rows are {rows.said()[-1:]}")


def kill_often(program, room, kills, seed):
    chance, name, said = random.Random(seed), os.path.join(room, "accounts"), os.path.join(room, "said")
    steps, rows = 0, Rows()
    for number in range(kills):
        with open(said, "wb") as out:
            process = subprocess.Popen([program, name, str(SECONDS), "1000000000"], stdout=out, stderr=subprocess.DEVNULL)
            time.sleep(chance.uniform(0.0005, 0.03) + chance.choice([0, 0.05, 0.25]))
            if process.poll() is not None:
                failed(f"the program ended by itself with status {process.returncode}: {content(said)[-200:]!r}")
            process.kill()
            process.wait()
        lines = whole_lines(content(said))
        steps += len([line for line in lines if line[0] in "gs"])
        if os.path.exists(name):
            rows = kept(rows, lines, name, room, f"kill {number}")
            if number % 5 == 0:
                opened_again(program, name, rows, f"kill {number}")
    clients = read(name, room)[1]
    if [row[0] for row in clients] != [0, 1]:
        failed(f"the clients have the numbers {clients}")
    print(f"{kills} kills: the rows were those of the {steps} steps that were said, or of one more each time, and {len(rows.grants)} grants stay open")


def fail_call(program, room, library, fault, is_new):
    """Runs the program on a new file, or on one with rows, where a call of the system fails. Whether that call was made, and whether the program told of it."""
    folder = os.path.join(room, "faults")
    shutil.rmtree(folder, ignore_errors=True)
    os.mkdir(folder)
    name, calls = os.path.join(folder, "accounts"), os.path.join(room, "calls")
    if not is_new:
        run(program, name, 3)
    before, _ = read(name, room)
    if os.path.exists(calls):
        os.remove(calls)
    done = run(program, name, 2, env={**os.environ, "LD_PRELOAD": library, "CALLS": calls, "FAULT": fault})
    call, number, _ = fault.split()
    if sum(line.startswith(call + " ") for line in content(calls).decode().splitlines()) < int(number):
        return False, False
    what = f"{fault} of a new file" if is_new else fault
    lines = whole_lines(done.stdout)
    rows = kept(before, lines, name, room, what)
    is_told = done.returncode != 0 or any(line.startswith(("refused: ", "failed: ")) for line in lines)
    if not is_told and len([line for line in lines if line[0] in "gs"]) < 3:
        failed(f"{what}: it made no steps and said nothing of it")
    opened_again(program, name, rows, what)
    return True, is_told


def fail_calls(program, room):
    library = preloaded.preload(room)
    if not library:
        print("no C compiler: the calls that fail are skipped")
        return
    tried = told = 0
    for call, way, is_new in [(call, way, is_new) for call, ways in FAULTS.items() for way in ways for is_new in (False, True)]:
        for number in range(1, 1000):
            was_made, is_told = fail_call(program, room, library, f"{call} {number} {way}", is_new)
            if not was_made:
                break
            tried, told = tried + 1, told + is_told
    print(f"{tried} calls to the disk failed or were done in part, {told} of them ended the program, and the rows were those of what it had said each time")


def database(name, tables=TABLES, version=MARK, meta=((1, 1), (2, SECONDS)), more=(), is_wal=False):
    base = sqlite3.connect(name)
    if is_wal:
        base.execute("PRAGMA journal_mode = WAL")
    for text in tables:
        base.execute(text)
    base.execute(f"PRAGMA user_version = {version}")
    for row in meta if tables is TABLES else ():
        base.execute("INSERT INTO meta VALUES (?, ?)", row)
    for text in more:
        base.execute(text)
    base.commit()
    base.close()


def refuse_others(program, room):
    none, foreign, row = "the file is no SQLite database", "the database has other tables than those of accounts", "a row is none of an account"
    notes = ["CREATE TABLE note (text TEXT)"]
    cases = [
        ("a text", none, lambda name: open(name, "wb").write(b"Some text. " * 600)),
        ("a short text", none, lambda name: open(name, "wb").write(b"hello")),
        ("one byte", none, lambda name: open(name, "wb").write(b"S")),
        ("another database", foreign, lambda name: database(name, notes, 0, more=["INSERT INTO note VALUES ('a')"])),
        ("another with a log", foreign, lambda name: database(name, notes, 0, is_wal=True)),
        ("another that is empty", foreign, lambda name: database(name, notes, 0, more=["DROP TABLE note"])),
        ("another with a version", foreign, lambda name: database(name, [], 5)),
        ("another with the mark", foreign, lambda name: database(name, notes)),
        ("a table more", foreign, lambda name: database(name, more=notes)),
        ("a table less", foreign, lambda name: database(name, more=["DROP TABLE open_grant"])),
        ("tables in another order", foreign, lambda name: database(name, [TABLES[0], TABLES[2], TABLES[1], TABLES[3]])),
        ("an index more", foreign, lambda name: database(name, more=["CREATE INDEX by_client ON open_grant (client)"])),
        ("no row in meta", foreign, lambda name: database(name, meta=())),
        ("a row more in meta", foreign, lambda name: database(name, meta=((1, 1), (2, SECONDS), (3, 0)))),
        ("another format", "the accounts have the format 2, which isn't known", lambda name: database(name, meta=((1, 2), (2, SECONDS)))),
        ("another format and window", "the accounts have the format 3, which isn't known", lambda name: database(name, meta=((1, 3), (2, 61)))),
        ("another window", "the windows of the accounts are 61 seconds long", lambda name: database(name, meta=((1, 1), (2, 61)))),
        ("a negative window", row, lambda name: database(name, more=["INSERT INTO account VALUES (1, -1, 0, 0, 0, 0)"])),
        ("a client with 33 bits", row, lambda name: database(name, more=["INSERT INTO account VALUES (4294967296, 0, 0, 0, 0, 0)"])),
        ("a grant of a negative client", row, lambda name: database(name, more=["INSERT INTO open_grant VALUES (1, -5, 0, 0, 0)"])),
        ("an account whose client is gone", row, lambda name: database(name, more=["INSERT INTO account VALUES (0, 0, 0, 0, 0, 0)"])),
        ("a grant past the clients", row, lambda name: database(name, more=[CLIENT, "INSERT INTO open_grant VALUES (1, 8, 0, 0, 0)"])),
        ("two clients of one key", row, lambda name: database(name, more=[CLIENT, CLIENT.replace("(7,", "(8,")])),
        ("a sum that is short", row, lambda name: database(name, more=["INSERT INTO client VALUES (7, x'00')"])),
    ]
    for what, why, make in cases:
        folder = os.path.join(room, "others")
        shutil.rmtree(folder, ignore_errors=True)
        os.mkdir(folder)
        name = os.path.join(folder, "file")
        make(name)
        before = contents(folder)
        done = run(program, name, 3)
        if done.stdout.decode() != f"refused: {why}\n":
            failed(f"{what}: {done.stdout!r} {done.stderr!r}")
        after = contents(folder)
        if after["file"] != before["file"] or (set(after) != set(before) and before["file"][60:64] != b"TCK1"):
            failed(f"{what}: the file isn't as it was, or something stands beside it: {sorted(after)}")
    print(f"{len(cases)} files that are none of these accounts are refused, each for its reason, and left as they are")


def refuse_window_and_second(program, room):
    name = os.path.join(room, "window")
    run(program, name, 20)
    before = (content(name), content(name + "-wal"))
    done = run(program, name, 5, seconds=61)
    if done.stdout.decode() != "refused: the windows of the accounts are 60 seconds long\n" or (content(name), content(name + "-wal")) != before:
        failed(f"another window: {done.stdout!r}")
    said = os.path.join(room, "first")
    with open(said, "wb") as out:
        process = subprocess.Popen([program, name, str(SECONDS), "1000000000"], stdout=out, stderr=subprocess.DEVNULL)
    try:
        until = time.monotonic() + 10
        while not content(said) and time.monotonic() < until:
            time.sleep(0.01)
        done = run(program, name, 5)
        if done.stdout.decode() != "refused: another process has the file open\n":
            failed(f"a second process: {done.stdout!r}")
    finally:
        process.kill()
        process.wait()
    print("another length of windows and a second process are refused")


def refuse_damage(program, room, seed):
    """Any byte of a page that differs is seen by the page's sum, or by the log's, and the file is left as it is."""
    chance, name, other = random.Random(seed), os.path.join(room, "whole"), os.path.join(room, "damaged")
    run(program, name, 40)
    with sqlite3.connect(name) as base:
        base.execute("PRAGMA wal_checkpoint(TRUNCATE)")
    base.close()
    for end in ("-wal", "-shm"):
        if os.path.exists(name + end):
            os.remove(name + end)
    text = content(name)
    if run(program, name, 0).returncode:
        failed("a file whose log was copied into it isn't opened")
    seen = 0
    for page in range(len(text) // 4096):
        for _ in range(6):
            at = 4096 * page + chance.randrange(4096)
            with open(other, "wb") as file:
                file.write(text[:at] + bytes([text[at] ^ (1 << chance.randrange(8))]) + text[at + 1 :])
            for end in ("-wal", "-shm"):
                if os.path.exists(other + end):
                    os.remove(other + end)
            before = content(other)
            done = run(program, other, 3)
            if not done.stdout.startswith(b"refused: ") or content(other) != before:
                failed(f"byte {at} differs: {done.stdout[-80:]!r}")
            seen += 1
    print(f"{seen} bytes of {len(text) // 4096} pages that differ are seen, and the file is left as it is")


def main():
    words = argparse.ArgumentParser(description=__doc__, formatter_class=argparse.RawDescriptionHelpFormatter)
    words.add_argument("program", nargs="?", default=os.path.join(HERE, "../crates/accounts_load/out/accounts_load"))
    words.add_argument("--kills", type=int, default=60)
    words.add_argument("--seed", type=int, default=1)
    given = words.parse_args()
    program = os.path.abspath(given.program)
    with tempfile.TemporaryDirectory() as room:
        refuse_others(program, room)
        refuse_window_and_second(program, room)
        refuse_damage(program, room, given.seed)
        kill_often(program, room, given.kills, given.seed)
        fail_calls(program, room)


if __name__ == "__main__":
    main()
