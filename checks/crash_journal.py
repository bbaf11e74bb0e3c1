"""Ends a program that works on a journal at random moments, opens the journal again each time, and tests that it kept its word.

    python3 checks/crash_journal.py [--kills N] [--seed N] [--folder FOLDER] [PROGRAM]
    python3 checks/crash_journal.py --speed [--folder FOLDER] [PROGRAM]

PROGRAM is that of `crates/journal_load`. It says each reservation and each settlement once the journal has acknowledged it, and is ended by
SIGKILL while it works. Then it opens the journal again. Each step that it said has to be in the file, every slot has to continue the history of
those before it, and the accounts that it says have to be those of the file's history with each open grant settled at its bound. Further files have up to 1,500
open grants, and the program is ended while it opens them: some first ones have to be settled then, each at its bound. The file is read
here by the rules of `crates/account_journal/README.md`, not by the program. Such an end leaves what the system has taken, so that this shows nothing
of a loss of power.

With --speed it measures: acknowledged reservations a second on a file of the folder and on one in memory, where a sync costs nothing, the opening
of a journal of a million slots, and what a journal without free slots answers.

Only the processes that this script has started are ended, each by its own number."""

import argparse
import os
import random
import struct
import subprocess
import sys
import tempfile
import time

HERE = os.path.dirname(os.path.abspath(__file__))
SLOT = 64
SLOTS = 4_194_304
MARK = bytes([7]) * 32
ALLOWANCE = 400_000_000_000_000_000
CLIENTS = [(ALLOWANCE, False), (ALLOWANCE, True)]
RECORD = struct.Struct(">BIQQQ34x")


class Account:
    """The account of a client, by the rules of `crates/account_core`."""

    def __init__(self, allowance, carry):
        self.allowance, self.carry = allowance, carry
        self.window, self.settled, self.held, self.carried = 0, [0, 0], [0, 0], [0, 0]

    def left(self):
        return [self.allowance + self.carried[i] - self.settled[i] - self.held[i] for i in (0, 1)]

    def move_to(self, window):
        if window == self.window:
            return
        if not self.carry:
            carried = [0, 0]
        elif window > self.window + 1:
            carried = [self.allowance] * 2
        else:
            carried = [min(self.allowance, left) for left in self.left()]
        self.window, self.settled, self.held, self.carried = window, [0, 0], [0, 0], carried

    def grant(self, window, bound):
        """Whether the bound is granted in just this window."""
        if window < self.window:
            return False
        self.move_to(window)
        if any(bound[i] > self.left()[i] for i in (0, 1)):
            return False
        self.held = [self.held[i] + bound[i] for i in (0, 1)]
        return True

    def settle(self, window, bound, measured):
        if window == self.window:
            self.settled = [self.settled[i] + measured[i] for i in (0, 1)]
            self.held = [self.held[i] - bound[i] for i in (0, 1)]

    def told(self):
        return [self.window, *self.settled, *self.held, *self.carried]


def bodies(data):
    """The bodies of the present slots."""
    found = []
    while len(data) >= SLOT * len(found) + SLOT + 1 and data[SLOT * len(found)] == 1:
        found.append(data[SLOT * len(found) + 1 : SLOT * len(found) + SLOT])
    return found


class History:
    """What the slots of a file come to."""

    def __init__(self, data, clients=None, mark=MARK):
        self.accounts = [Account(*client) for client in clients or CLIENTS]
        self.granted, self.settled, self.open = {}, {}, {}
        slots = bodies(data)
        if slots and slots[0] != b"\0" + mark + bytes(30):
            raise ValueError("slot 0 is no header with the mark")
        for slot, body in enumerate(slots[1:], 1):
            if not self.take(slot, body):
                raise ValueError(f"slot {slot} doesn't continue the history")

    def take(self, slot, body):
        if any(body[29:]):
            return False
        kind, client, number, *cost = RECORD.unpack(body)
        if kind not in (1, 2) or client >= len(self.accounts):
            return False
        if kind == 1:
            self.granted[slot] = self.open[slot] = (client, number, cost)
            return self.accounts[client].grant(number, cost) and slot + len(self.open) < SLOTS
        if number not in self.open or self.open[number][0] != client:
            return False
        _, window, bound = self.open.pop(number)
        self.settled[number] = cost
        self.accounts[client].settle(window, bound, cost)
        return all(cost[i] <= bound[i] for i in (0, 1))

    def recover(self):
        """Settles what is open at its bound, and gives the accounts."""
        for slot in sorted(self.open):
            client, window, bound = self.open[slot]
            self.accounts[client].settle(window, bound, bound)
        return [account.told() for account in self.accounts]


def accounts_in(lines):
    return [[int(word) for word in line.split()[2:]] for line in lines if line.startswith("account ")]


def whole_lines(said):
    """The lines that were written to their ends."""
    return said[: said.rfind(b"\n") + 1].decode().splitlines()


def read(name):
    with open(name, "rb") as file:
        return file.read()


def run_until_killed(program, name, folder, seconds):
    """Starts the program on a file, ends it after so long, and gives what it has said."""
    said = os.path.join(folder, "said")
    with open(said, "wb") as out:
        process = subprocess.Popen([program, name, "1000000000"], stdout=out, stderr=subprocess.DEVNULL)
        try:
            time.sleep(seconds)
            if process.poll() is not None:
                sys.exit(f"the program ended by itself with status {process.returncode}: {read(said)[-200:]!r}")
        finally:
            process.kill()
            process.wait()
    return whole_lines(read(said))


def kept(history, lines):
    """Which of the steps that were said the file lacks."""
    lost = []
    for line in lines:
        word, *numbers = line.split()
        numbers = [int(number) for number in numbers]
        if word == "granted":
            slot, client, window, *cost = numbers
            if history.granted.get(slot) != (client, window, cost):
                lost.append(line)
        elif word == "settled":
            slot, *cost = numbers
            if history.settled.get(slot) != cost:
                lost.append(line)
        elif word != "account":
            lost.append(line)
    return lost


def open_again(program, name):
    done = subprocess.run([program, name, "0"], capture_output=True, check=False)
    if done.returncode:
        sys.exit(f"the journal isn't opened again: {done.stdout!r} {done.stderr!r}")
    return accounts_in(done.stdout.decode().splitlines())[: len(CLIENTS)]


def kill_often(program, folder, kills, seed):
    chance = random.Random(seed)
    name = os.path.join(folder, "journal")
    said = steps = 0
    for number in range(kills):
        lines = run_until_killed(program, name, folder, chance.uniform(0.0005, 0.03) + chance.choice([0, 0.05, 0.25]))
        history = History(read(name)) if os.path.exists(name) else None
        if history is None:
            if lines:
                sys.exit(f"kill {number}: it said {lines[-1]!r}, and there is no file")
            continue
        lost = kept(history, lines)
        if lost:
            sys.exit(f"kill {number}: the file lacks {len(lost)} steps that were said, the first {lost[0]!r}")
        wanted = history.recover()
        found = open_again(program, name)
        if found != wanted:
            sys.exit(f"kill {number}: the accounts are {found}, and by the file {wanted}")
        after = History(read(name))
        if after.open or [account.told() for account in after.accounts] != wanted:
            sys.exit(f"kill {number}: the file isn't recovered")
        said += len([line for line in lines if line[0] != "a"])
        steps = len(history.granted) + len(history.settled)
        if os.path.getsize(name) > SLOT * SLOTS // 2:
            os.remove(name)
    print(f"{kills} kills: each of {said} steps that were said was in the file ({steps} at the last), and each opening gave the file's accounts")


def kill_openings(program, folder, kills, seed):
    chance = random.Random(seed)
    name = os.path.join(folder, "opened")
    cut = 0
    for number in range(kills):
        count = chance.randint(1, 1500)
        with open(name, "wb") as file:
            file.write(b"\1\0" + MARK + bytes(30))
            for slot in range(1, count + 1):
                file.write(b"\1" + RECORD.pack(1, slot % len(CLIENTS), slot // 500, slot, 1))
            file.write(b"\0")
        before = History(read(name))
        bounds = {slot: grant[2] for slot, grant in before.open.items()}
        wanted = before.recover()
        process = subprocess.Popen([program, name, "0"], stdout=subprocess.DEVNULL, stderr=subprocess.DEVNULL)
        time.sleep(chance.uniform(0.001, 0.2))
        process.kill()
        process.wait()
        left = History(read(name))
        if left.settled != {slot: bounds[slot] for slot in sorted(bounds)[: len(left.settled)]}:
            sys.exit(f"opening {number}: what is settled aren't the first grants at their bounds")
        cut += 0 < len(left.settled) < count
        if open_again(program, name) != wanted or History(read(name)).open:
            sys.exit(f"opening {number}: the file isn't recovered")
        os.remove(name)
    print(f"{kills} openings were ended, {cut} of them amid their settlements: each left first grants settled at their bounds, and opened again")


def locked(program, folder):
    """A journal that another process has open is refused."""
    import fcntl

    name = os.path.join(folder, "locked")
    with open(name, "w+b") as file:
        fcntl.flock(file, fcntl.LOCK_EX)
        done = subprocess.run([program, name, "0"], capture_output=True, check=False)
        if done.returncode == 0 or done.stdout or os.path.getsize(name):
            sys.exit(f"a locked journal is opened: {done.stdout!r}")
    print("a journal that another process has locked is refused, and left as it was")


def write_slots(name, count):
    """A journal of so many slots: the header, then grants, each with its settlement behind it."""
    with open(name, "wb") as file:
        file.write(b"\1\0" + MARK + bytes(30))
        for slot in range(1, count):
            grant = slot % 2 == 1
            file.write(b"\1" + RECORD.pack(1 if grant else 2, 0, 0 if grant else slot - 1, 2, 1))
        file.write(b"\0")


def timed(words):
    begun = time.monotonic()
    done = subprocess.run(words, capture_output=True, check=False)
    if done.returncode:
        sys.exit(f"{words}: {done.stdout!r} {done.stderr!r}")
    return time.monotonic() - begun, done.stdout.decode().splitlines()


def measure(program, folder, what, rounds):
    with tempfile.TemporaryDirectory(dir=folder) as inner:
        name = os.path.join(inner, "journal")
        empty, _ = timed([program, name, "0"])
        took, lines = timed([program, name, str(rounds)])
        granted = len([line for line in lines if line.startswith("granted")])
        settled = len([line for line in lines if line.startswith("settled")])
        print(f"{what}: {granted} reservations and {settled} settlements in {took - empty:.2f} s, {(granted + settled) / (took - empty):.0f} acknowledged a second")


def measure_opening(program, folder):
    with tempfile.TemporaryDirectory(dir=folder) as inner:
        name = os.path.join(inner, "journal")
        write_slots(name, 1_000_000)
        took, lines = timed([program, name, "0"])
        print(f"a journal of 1,000,000 slots is opened in {took:.2f} s: {lines[0]}")
        write_slots(name, SLOTS - 3)
        took, lines = timed([program, name, "3"])
        answers = [line for line in lines if not line.startswith("account")]
        if [line.split()[0] for line in answers] != ["granted", "settled", "full", "full"]:
            sys.exit(f"a journal with three slots left answers {answers}")
        print(f"one of {SLOTS - 3} slots in {took:.2f} s; three rounds on it: {answers}")


def main():
    words = argparse.ArgumentParser(description=__doc__, formatter_class=argparse.RawDescriptionHelpFormatter)
    words.add_argument("program", nargs="?", default=os.path.join(HERE, "../crates/journal_load/out/journal_load"))
    words.add_argument("--kills", type=int, default=500)
    words.add_argument("--seed", type=int, default=1)
    words.add_argument("--folder", default=None)
    words.add_argument("--speed", action="store_true")
    given = words.parse_args()
    program = os.path.abspath(given.program)
    if given.speed:
        measure(program, given.folder, "with the sync of the disk", 2000)
        measure(program, "/dev/shm", "on a file in memory", 100_000)
        measure_opening(program, given.folder)
        return
    with tempfile.TemporaryDirectory(dir=given.folder) as folder:
        locked(program, folder)
        kill_openings(program, folder, given.kills // 10, given.seed)
        kill_often(program, folder, given.kills, given.seed)


if __name__ == "__main__":
    main()
