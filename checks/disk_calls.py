"""Looks at each call that a gateway with a journal makes to its disk: what stands behind a sync, what a crash may leave, and what comes of a call that fails.

    python3 checks/disk_calls.py [PROGRAM]

The built program serves some requests over loopback, under a preload that records its calls (`calls.c`):

- each request goes to the upstream, and each reply that tells a charge to its client, only once all that it needs is synced in the file, and the file's name in its folder;
- at each moment of such a run, and of one that is started on a file whose last write wasn't synced, the images that a crash may leave (`crates/journal_disk/README.md`) are
  made: any part of what wasn't synced, and any bytes in its place. The program opens each, and has to have the accounts after some of the steps that were taken by then, and
  after all that anybody was told of. A first byte that no journal has may be refused, where no step was taken;
- each call to the disk fails in turn, with EIO, ENOSPC or EINTR, or does a part of what it was asked for: the program has to end with status 9, and its file has all that it
  told, or to serve as if nothing had been; where it was interrupted, or a part was done, it has to serve. Behind a sync that failed a crash may leave what it likes of all that wasn't
  synced until then, and these images are opened too.

The record of the same run without its syncs has to give images with wrong accounts: so it is seen that these images tell. It notices, each tried: a `sync` that does
nothing, a folder that isn't synced, a read that fails and counts as the end of the file, one that gives less than was asked for and no reason, a read or a write that
is interrupted and not made again, and a write that is made in part. The status is 1 where something differs; where no compiler is there it says that it was skipped."""

import concurrent.futures
import fcntl
import hashlib
import os
import subprocess
import sys
import threading

sys.dont_write_bytecode = True
import preloaded
from crash_journal import RECORD, History, bodies, read
from preloaded import BROKEN, FEWER, PLAIN, REFUSED, UNIT, Room, Upstream, ask, calls_in, closing, ended, program_of, request

LIMITS = {"reader": (300, False), "guest": (60, True), "few": (1, False)}
CLIENTS = [(most * UNIT, carry) for most, carry in LIMITS.values()]
ASKED = [("reader", PLAIN), ("guest", FEWER), ("few", PLAIN), ("reader", BROKEN), ("guest", REFUSED)]
ANSWERED = [200, 200, 429, 502, 400]
JOURNAL = "kept/journal"
FAULTS = {
    "pread": ("5", "4", "short"),
    "pwrite": ("5", "28", "4", "short", "torn"),
    "fsync": ("5", "28"),
    "fdatasync": ("5",),
    "flock": ("11", "5"),
    "fadvise": ("5",),
    "open": ("5", "28"),
}
GOES_ON = {("pread", "4"), ("pread", "short"), ("pwrite", "4"), ("pwrite", "short")}
AT_ONCE = os.cpu_count() or 1
# The advice that has the system read the disk anew.
GIVE_UP_COPIES = 4


def patched(text, place, piece):
    """A file in which these bytes were written at a place."""
    return text[:place].ljust(place, b"\0") + piece + text[place + len(piece) :]


class Disk:
    """The journal's file while calls are made to it: what is safe, and what a crash may leave of the rest."""

    def __init__(self, content=b"", pending=(), is_there=False):
        self.safe, self.pending, self.stuck, self.is_named = content, list(pending), [], is_there
        self.fds, self.folders, self.is_fresh, self.has_read_unsafe = set(), set(), False, False

    def content(self):
        text = self.safe
        for place, piece in self.stuck + self.pending:
            text = patched(text, place, piece)
        return text

    def is_safe(self):
        return self.is_named and not self.pending and not self.stuck

    def take(self, call):
        """Follows one call."""
        if call.name == "open" and call.result >= 0:
            name = call.bytes.decode()
            (self.fds if name == JOURNAL else self.folders if name == os.path.dirname(JOURNAL) else set()).add(call.result)
        elif call.name == "close":
            self.fds.discard(call.fd)
            self.folders.discard(call.fd)
        elif call.name in ("fsync", "fdatasync"):
            self.synced(call)
        elif call.fd in self.fds and call.name == "pwrite" and call.result > 0:
            self.pending.append((call.place, call.bytes[: call.result]))
        elif call.fd in self.fds and (call.name, call.place, call.result) == ("fadvise", GIVE_UP_COPIES, 0):
            self.is_fresh = not self.pending
        elif call.fd in self.fds and call.name == "pread" and not (self.is_fresh and self.is_safe()):
            self.has_read_unsafe = True

    def synced(self, call):
        if call.fd in self.folders and call.result == 0:
            self.is_named = True
        if call.fd in self.fds and call.result == 0:
            for place, piece in self.pending:
                self.safe = patched(self.safe, place, piece)
            self.pending = []
        elif call.fd in self.fds:
            # The system may call its pages clean all the same, so that no later sync writes them.
            self.stuck, self.pending = self.stuck + self.pending, []


def tears(text, place, piece, cuts):
    """What a crash may leave of one write that wasn't synced: any bytes in its range, and no file that is shorter than before or longer than with all of it."""
    whole = patched(text, place, piece)
    longer = text.ljust(len(whole), b"\0")
    yield from (text, longer, whole)
    for byte in (b"\0", b"\1", b"\2", b"\xff"):
        yield patched(text, place, byte * len(piece))
    for cut in cuts(len(piece)):
        at = place + cut
        yield whole[:at] + longer[at:]
        yield longer[:at] + whole[at:]
        if at >= len(text):
            yield whole[:at]


def all_cuts(size):
    return range(1, size)


def some_cuts(size):
    return sorted({it for it in (1, 2, size // 2, size - 1) if 0 < it < size})


def images(disk, cuts):
    """What a crash at this moment may leave; none stands for no file. Of several writes each whole one may be there or not, and the last is torn."""
    writes = disk.stuck + disk.pending
    if not disk.is_named:
        yield None
    if not writes:
        yield disk.safe
    for left_out in [*range(len(writes)), None] if len(writes) > 1 else [None]:
        text = disk.safe
        for at, (place, piece) in enumerate(writes[:-1]):
            text = text if at == left_out else patched(text, place, piece)
        if writes:
            yield from tears(text, *writes[-1], cuts)
    for place, piece in writes[:-1]:
        yield patched(disk.safe, place, piece)


def steps_in(text):
    return max(0, len(bodies(text)) - 1)


def moments(calls, disk, cuts, is_at_end=False):
    """At each moment of a run, or at its end, its images, each with how many steps somebody was told of before the next call to the disk, and how many were taken."""
    told, before = steps_in(disk.safe), None
    for call in calls:
        if call.name == "send":
            told = steps_in(disk.content())
        is_step = before is None or call.name in ("open", "pwrite", "fsync", "fdatasync")
        if is_step and before and not is_at_end:
            yield from ((image, told, before[1]) for image in before[0])
        disk.take(call)
        if is_step:
            before = (list(images(disk, cuts)), steps_in(disk.content()))
    yield from ((image, told, before[1]) for image in before[0])


def ill_told(calls, disk):
    """The requests and the replies that were sent before what they need was safe."""
    upstream, clients, begun = set(), set(), set()
    for call in calls:
        disk.take(call)
        if call.name == "connect" and call.result >= 0:
            upstream.add(call.fd)
        elif call.name == "accept4" and call.result >= 0:
            clients.add(call.result)
        elif call.name == "close":
            upstream.discard(call.fd), clients.discard(call.fd), begun.discard(call.fd)
        elif call.name == "send" and call.result > 0 and call.fd not in begun:
            begun.add(call.fd)
            kind, _, _, *cost = RECORD.unpack(bodies(disk.safe)[-1]) if steps_in(disk.safe) else (0, 0, 0)
            charged = preloaded.reply_in(call.bytes) if call.fd in clients else None
            if call.fd in upstream and not (kind == 1 and disk.is_safe()):
                yield "a request went to the upstream before its grant was synced"
            if charged and charged.charged and not (kind == 2 and cost == charged.charged and disk.is_safe()):
                yield "a reply went to its client before its settlement was synced"
    if disk.has_read_unsafe:
        yield "the file was read before it and its folder were synced, or from copies that the system had of it before"


def lines_of(accounts):
    """What closing lines tell of accounts."""
    return {key: [it.window, *it.settled, *(it.carried if carry else [])] for (key, (_, carry)), it in zip(LIMITS.items(), accounts)}


class Checked:
    """The runs of one program, and what was found."""

    def __init__(self, program, shim, room):
        self.program, self.shim, self.room = program, shim, room
        newest = subprocess.run([program, "migrate", "clients"], cwd=room.folder, capture_output=True, check=True).stdout
        self.mark, self.found, self.number, self.lock = hashlib.sha256(newest).digest(), [], 0, threading.Lock()
        self.accounts, self.is_endless = {}, False

    def history(self, text):
        return History(text, CLIENTS, self.mark)

    def after(self, text, steps):
        """What closing lines tell of the file's first steps, once what they leave open is settled at its bound."""
        history = self.history(text[: 64 * (steps + 1)] + b"\0" if text else b"")
        history.recover()
        return lines_of(history.accounts)

    def folder(self, content=None):
        """A folder for a run, with this journal in it."""
        with self.lock:
            self.number += 1
            folder = self.room.path(f"run{self.number}")
        os.makedirs(f"{folder}/kept")
        for name in ("schema", "clients", "stop"):
            os.link(self.room.path(name), f"{folder}/{name}")
        if content is not None:
            with open(f"{folder}/{JOURNAL}", "wb") as file:
                file.write(content)
        return folder

    def started(self, folder, *words, env=None):
        words = [self.program, "serve", "schema", "clients", "--journal", JOURNAL, *words]
        return subprocess.Popen(words, cwd=folder, env={**os.environ, **(env or {})}, stdin=subprocess.DEVNULL, stdout=subprocess.PIPE, stderr=subprocess.PIPE, text=True)

    def opened(self, content):
        """How the program ends that opens this file and is asked to stop at once, its accounts, and the file that it leaves. One that doesn't end is waited for once."""
        if self.is_endless:
            return "no end", "", {}, b""
        folder = self.folder(content)
        status, out, err = ended(self.started(folder, "--listen", "127.0.0.1:0", "--upstream", "127.0.0.1:1", "--stop", "stop"), 30)
        self.is_endless = self.is_endless or status == "no end"
        return status, err, closing(out), read(f"{folder}/{JOURNAL}")

    def served(self, content=None, fault=""):
        """A run of all requests on such a file: its calls, its replies, how it ended, how many requests the upstream got, and the file that it leaves."""
        folder, upstream = self.folder(content), Upstream()
        env = {"LD_PRELOAD": self.shim, "CALLS": f"{folder}/calls", "FAULT": fault}
        gateway = self.started(folder, "--listen", "127.0.0.1:0", "--upstream", upstream.address, "--connections", str(len(ASKED)), env=env)
        try:
            replies = [ask(gateway, request(*it)) for it in ASKED]
            how = ended(gateway)
        finally:
            upstream.close()
            if gateway.poll() is None:
                gateway.kill()
                gateway.communicate()
        left = read(f"{folder}/{JOURNAL}") if os.path.exists(f"{folder}/{JOURNAL}") else b""
        return calls_in(f"{folder}/calls"), replies, how, upstream.requests, left

    def note(self, words):
        with self.lock:
            self.found.append(words)

    def look_at_images(self, kind, wanted, final):
        """How many of these images the program opens with accounts that aren't those of a step between the two that stand beside each."""
        if not self.is_history(final):
            self.note(f"{kind}: the file that it leaves is no history")
            return 0, 0
        different = list({image for image, _, _ in wanted})
        with concurrent.futures.ThreadPoolExecutor(AT_ONCE) as workers:
            opened = dict(zip(different, workers.map(self.opened, different)))
        wrong = 0
        for image, told, taken in {*wanted}:
            status, err, accounts, left = opened[image]
            right = [self.accounts_after(final, steps) for steps in range(told, taken + 1)]
            is_right = (status, err) == (8, "door\n") and accounts in right and self.is_at_rest(left, accounts)
            is_refused = taken == 0 and image and image[0] > 1 and (status, err, left) == (9, "disk\n", image)
            if not is_right and not is_refused:
                wrong += 1
                if kind:
                    self.note(f"{kind}: an image with {told} to {taken} steps is opened with status {status}, {err.strip()} and {accounts}")
        return len(different), wrong

    def accounts_after(self, final, steps):
        if (final, steps) not in self.accounts:
            self.accounts[final, steps] = self.after(final, steps)
        return self.accounts[final, steps]

    def is_history(self, text):
        try:
            return bool(self.history(text))
        except ValueError:
            return False

    def is_at_rest(self, text, accounts):
        """Whether nothing is open in the file, and it has these accounts."""
        history = self.history(text) if self.is_history(text) else None
        return history is not None and not history.open and lines_of(history.accounts) == accounts

    def kept_word(self, before, replies, requests, left):
        """What the file lacks of what was there before, and of what anybody was told."""
        if left[: 64 * len(bodies(before))] != before[: 64 * len(bodies(before))]:
            return "what stood in the file was written over"
        try:
            history = self.history(left)
        except ValueError as fault:
            return str(fault)
        charges = [cost for slot, cost in sorted((number, cost) for number, cost in history.settled.items()) if slot > steps_in(before)]
        told = [it.charged for it in replies if it and it.charged]
        grants = [slot for slot in history.granted if slot > steps_in(before)]
        if charges[: len(told)] != told:
            return f"the replies told {told}, and the file has {charges}"
        return f"the upstream got {len(requests)} requests, and the file has {len(grants)} grants" if len(grants) < len(requests) else ""

    def look_at_fault(self, before, fault):
        """What is wrong with a run in which one call fails; nothing where it is right. And whether it served."""
        calls, replies, (status, out, err), requests, left = self.served(before, fault)
        name, _, way = fault.split()
        states = [it.status if it else None for it in replies]
        wrong = self.kept_word(before or b"", replies, requests, left) or next(ill_told(calls, Disk(before or b"", is_there=before is not None)), "")
        if status == 0 and (states != ANSWERED or err or not self.is_at_rest(left, closing(out))):
            wrong = wrong or f"the replies are {states}, and the closing lines {out!r}"
        if status != 0 and ((status, out, err) != (9, "", "disk\n") or (name, way) in GOES_ON):
            wrong = wrong or f"it ends with status {status}, {out!r} and {err!r}"
        if not wrong and left:
            again, err, accounts, after = self.opened(left)
            history = self.history(left)
            history.recover()
            if (again, err) != (8, "door\n") or accounts != lines_of(history.accounts) or not self.is_at_rest(after, accounts):
                wrong = f"it is opened again with status {again}, {err!r} and {accounts}"
        kind = f"{fault} on {'a journal' if before else 'a new journal'}"
        if wrong:
            self.note(f"{kind}: {wrong}")
        elif "sync" in name:
            last = list(moments(calls, Disk(before or b"", is_there=before is not None), some_cuts, is_at_end=True))
            self.look_at_images(kind, last, left)
        return status


def in_turn(calls):
    """Each call to the disk of a run, with each way to fail: its name, its number among those of that name, and the way."""
    fds, counts = set(), {}
    for call in calls:
        counts[call.name] = counts.get(call.name, 0) + 1
        is_file = call.name == "open" and call.bytes.decode() in (JOURNAL, os.path.dirname(JOURNAL))
        if is_file and call.result >= 0:
            fds.add(call.result)
        if is_file or (call.name in FAULTS and call.fd in fds):
            yield from (f"{call.name} {counts[call.name]} {way}" for way in FAULTS[call.name])
        if call.name == "close":
            fds.discard(call.fd)


def look_at_run(checked, kind, cuts, safe=None, pending=()):
    """Looks at one run on such a file, and at its images; gives its calls, the file that it leaves, and how many images there were."""
    before = None
    if safe is not None:
        before = Disk(safe, pending).content()
    calls, replies, how, _, left = checked.served(before)
    states = [it.status if it else None for it in replies]
    if states != ANSWERED or how[0] != 0 or not checked.is_at_rest(left, closing(how[1])):
        checked.note(f"{kind}: the replies are {states}, and it ends with {how}")
    for words in ill_told(calls, Disk(safe or b"", pending, safe is not None)):
        checked.note(f"{kind}: {words}")
    wanted = list(moments(calls, Disk(safe or b"", pending, safe is not None), cuts))
    return calls, left, checked.look_at_images(kind, wanted, left)[0]


def without_syncs(checked, calls, left):
    """Of the images of a run whose record has lost its syncs, how many there are, and how many are wrong."""
    calls = [it for it in calls if it.name not in ("fsync", "fdatasync")]
    wanted = list(moments(calls, Disk(), lambda size: []))
    return checked.look_at_images("", wanted[:: max(1, len(wanted) // 300)], left)


def last_unsynced(text):
    """Files whose last write wasn't synced: the gate of the last step, and its body."""
    last = 64 * steps_in(text)
    shut = text[:last] + b"\0" + text[last + 1 :]
    return [(shut, [(last, b"\1")]), (text[:last] + b"\0", [(last + 1, text[last + 1 : last + 65])])]


def look_at_lock(checked, text):
    """A journal that another process has open is refused, and left as it is."""
    folder = checked.folder(text)
    with open(f"{folder}/{JOURNAL}", "rb") as file:
        fcntl.flock(file, fcntl.LOCK_EX)
        how = ended(checked.started(folder, "--listen", "127.0.0.1:0", "--upstream", "127.0.0.1:1", "--stop", "stop"))
    if how != (9, "", "disk\n") or read(f"{folder}/{JOURNAL}") != text:
        checked.note(f"a journal that another process has locked: {how}")


def look(checked):
    calls, left, count = look_at_run(checked, "a new journal", all_cuts)
    slots = steps_in(left)
    opened = 0
    for end in range(slots - 1, slots + 1):
        for safe, pending in last_unsynced(left[: 64 * (end + 1)] + b"\0"):
            opened += look_at_run(checked, f"a journal of {end} steps whose last write wasn't synced", some_cuts, safe, pending)[2]
    many, wrong = without_syncs(checked, calls, left)
    if 2 * wrong < many:
        checked.note(f"of {many} images without syncs {wrong} are wrong: these images tell too little")
    look_at_lock(checked, left)
    owing = left[: 64 * slots] + b"\0"
    work = [(before, fault) for before in (None, owing) for fault in in_turn(checked.served(before)[0])]
    with concurrent.futures.ThreadPoolExecutor(AT_ONCE) as workers:
        statuses = list(workers.map(lambda it: checked.look_at_fault(*it), work))
    return (f"{count} images of a run and {opened} of runs on files whose last write wasn't synced, all with the accounts that were told ({wrong} of {many} are wrong without syncs); "
            f"{len(work)} calls failed in turn, status 9 at {statuses.count(9)}, served at {statuses.count(0)}")


def main():
    program = program_of(sys.argv[1:])
    room = Room(program, LIMITS)
    try:
        shim = preloaded.preload(room.folder)
        if shim is None:
            print("disk calls: skipped, since nothing here compiles calls.c")
            return 0
        checked = Checked(program, shim, room)
        said = look(checked)
    finally:
        room.remove()
    for words in list(dict.fromkeys(checked.found))[:12]:
        print(f"disk calls: {words}")
    print(f"disk calls: {len(checked.found)} differ" if checked.found else f"disk calls: {said}")
    return 1 if checked.found else 0


if __name__ == "__main__":
    sys.exit(main())
