"""Looks at each call that a gateway makes to its sockets, and at its clock: what is interrupted or done in part is made again, what fails costs what it should.

    python3 checks/socket_calls.py [PROGRAM]

The built program serves some requests over loopback with one worker, under a preload (`calls.c`) that records its calls, and has one of them fail:

- each read of a file or of a socket, and each write, is interrupted in turn, or only a byte of it is done, and each accept is interrupted, finds no descriptor, or a client
  that has gone: everything has to be as without;
- each read from a client and each write to it fails in turn: that client gets no reply, and is charged where its reply was written or its request granted; each read from the
  upstream and each write to it: 502 at the bound; a connection to the upstream: 503 at no charge. The others are served as without;
- before the first byte each socket has to have its limits of 30 seconds for a read and for a write, and to wait for no more bytes before it sends. With these limits divided by a
  hundred an upstream that never answers ends with 502 at the bound, and a client that is silent in the middle of a request gets no reply;
- in windows of two seconds a budget that is spent comes back in the next window, and the closing lines have the window of the system's clock.

It notices, each tried: a read that isn't made again where a signal interrupts it, a write to the upstream that answers for more than was done, a connection to the
upstream without limits, and a clock in minutes. The status is 1 where something differs; where no compiler is there it says that it was skipped."""

import concurrent.futures
import os
import re
import socket
import struct
import sys
import threading
import time

sys.dont_write_bytecode = True
import preloaded
from preloaded import BROKEN, FEWER, PLAIN, UNIT, Room, Upstream, answer_usually, ask, calls_in, closing, ended, port_of, program_of, received, reply_in, request

LIMITS = {"reader": (3000, False), "guest": (60, True), "few": (3, False)}
MANY = "{ %s }" % " ".join(f"a{number}: user {{ id }}" for number in range(400))
MANY_REPLY = b'{"data":{%s}}' % b",".join(b'"a%d":null' % number for number in range(400))
ASKED = [("reader", PLAIN), ("guest", FEWER), ("reader", MANY), ("reader", BROKEN)]
BOUNDS = [[2, 1], [5, 2], [401, 400], [14, 5]]
INTERRUPTED, RESET, REFUSED, HUNG_UP, NO_DESCRIPTOR = "4", "104", "111", "103", "24"
MOVES = ("read", "recv", "send", "write")
# Levels and numbers of what a socket is told, and the values that it has to have.
HALF_MINUTE, YES = struct.pack("<qq", 30, 0), struct.pack("<i", 1)
SET_UP = {(1, 20): HALF_MINUTE, (1, 21): HALF_MINUTE, (6, 1): YES}


def answer(client, text):
    """Answers as usual, and the long request too."""
    if text.count(b"user") == 400:
        client.sendall(b"HTTP/1.1 200 OK\r\ncontent-type: application/json\r\ncontent-length: %d\r\n\r\n%s" % (len(MANY_REPLY), MANY_REPLY))
    else:
        answer_usually(client, text)


class Run:
    """One run of all requests: the replies, how it ended, what the upstream got, and its calls."""

    def __init__(self, room, shim, number, fault=""):
        upstream, calls = Upstream(answer), room.path(f"calls{number}")
        words = ["--listen", "127.0.0.1:0", "--upstream", upstream.address, "--workers", "1", "--connections", str(len(ASKED))]
        gateway = room.start(*words, env={"LD_PRELOAD": shim, "CALLS": calls, "FAULT": fault})
        try:
            self.replies = [ask(gateway, request(*it)) for it in ASKED]
            self.how = ended(gateway)
        finally:
            upstream.close()
            if gateway.poll() is None:
                gateway.kill()
                gateway.communicate()
        # The address of the upstream is another in each run.
        self.requests = [it.replace(upstream.address.encode(), b"upstream") for it in upstream.requests]
        self.calls = calls_in(calls)

    def outcome(self):
        return self.replies, self.how, self.requests


def peers(calls):
    """For each call to a socket its index, on whose side it is, which of the exchanges it serves, and whether that reply was already begun."""
    sides, exchange, begun = {}, -1, False
    for index, call in enumerate(calls):
        if call.name == "accept4" and call.result >= 0:
            exchange, begun = exchange + 1, False
            sides[call.result] = "client"
        elif call.name == "connect":
            sides[call.fd] = "upstream"
        if call.fd in sides and call.name in ("connect", "recv", "send"):
            yield index, sides[call.fd], exchange, begun
            begun = begun or (call.name == "send" and sides[call.fd] == "client")
        if call.name == "close":
            sides.pop(call.fd, None)


def numbered(calls, index):
    """The name of a call, and its number among those of that name."""
    return calls[index].name, sum(1 for call in calls[: index + 1] if call.name == calls[index].name)


def soft(calls):
    """Each way to interrupt a call that moves bytes, to do a part of it, or to let an accept fail as it may while others go on."""
    counts = {}
    for call in calls:
        counts[call.name] = counts.get(call.name, 0) + 1
        if call.name in MOVES:
            yield f"{call.name} {counts[call.name]} {INTERRUPTED}"
            if call.size > 1 and call.result > 1:
                yield f"{call.name} {counts[call.name]} short"
        if call.name == "accept4":
            yield from (f"accept4 {counts[call.name]} {way}" for way in (INTERRUPTED, NO_DESCRIPTOR, HUNG_UP))


def hard(calls):
    """Each way to break a call to a socket, with the exchange that it is of, its status then (none: no reply), and what that exchange is charged."""
    for index, side, exchange, begun in peers(calls):
        name, number = numbered(calls, index)
        usual = None if begun else ("none", [0, 0])
        if name == "connect":
            yield f"connect {number} {REFUSED}", exchange, 503, [0, 0]
        elif side == "upstream":
            yield f"{name} {number} {RESET}", exchange, 502, [it * UNIT for it in BOUNDS[exchange]]
        elif name == "send":
            yield f"{name} {number} {RESET}", exchange, None, "as usual"
        elif usual:
            yield f"{name} {number} {RESET}", exchange, None, [0, 0]


def sums(run):
    """What the closing lines say that each client spent."""
    return {key: cost[1:3] for key, cost in closing(run.how[1]).items()}


def look_at_soft(run, usual, fault):
    return "" if run.outcome() == usual.outcome() else f"{fault}: {[it and it.status for it in run.replies]}, {run.how}, {[len(it) for it in run.requests]}"


def look_at_hard(run, usual, fault, exchange, status, charge):
    """What is wrong with a run in which a call of one exchange fails; nothing where it is right."""
    states = [it.status if it else None for it in usual.replies]
    states[exchange] = status
    spent, key, before = sums(usual), ASKED[exchange][0], usual.replies[exchange].charged
    if charge != "as usual":
        spent[key] = [spent[key][i] - before[i] + charge[i] for i in (0, 1)]
    found = [it.status if it else None for it in run.replies]
    if run.how[0] != 0 or found != states or sums(run) != spent:
        return f"{fault}: the replies are {found} and not {states}, it ends with {run.how}, and not with {spent}"
    return ""


def not_set_up(calls):
    """The sockets that move bytes before they have their limits."""
    told = {}
    for call in calls:
        if call.name in ("accept4", "connect") and call.result >= 0:
            told[call.result if call.name == "accept4" else call.fd] = {}
        elif call.name == "setsockopt" and call.fd in told:
            told[call.fd][call.size, call.place] = call.bytes
        elif call.name in ("recv", "send") and call.fd in told:
            if any(told[call.fd].get(it) != value for it, value in SET_UP.items()):
                yield f"{call.name}: a socket has {told[call.fd]}"
            del told[call.fd]


def look_at_limits(room, shim):
    """A hundredth of the limits: an upstream that never answers, and a client that is silent in the middle of its request."""
    over = threading.Event()
    upstream = Upstream(lambda client, text: over.wait(30))
    gateway = room.start("--listen", "127.0.0.1:0", "--upstream", upstream.address, "--workers", "1", "--connections", "2", env={"LD_PRELOAD": shim, "HASTE": "100"})
    begun = time.monotonic()
    reply = ask(gateway, request("reader", PLAIN))
    first, begun = time.monotonic() - begun, time.monotonic()
    with socket.create_connection(("127.0.0.1", port_of(gateway)), timeout=20) as client:
        client.sendall(request("reader", PLAIN)[:-9])
        try:
            silent = received(client)
        except OSError:
            silent = None
    second = time.monotonic() - begun
    over.set()
    upstream.close()
    how = ended(gateway, 20)
    if not reply or reply.status != 502 or reply.charged != [2 * UNIT, UNIT] or not 0.25 < first < 15:
        yield f"an upstream that never answers: {reply} after {first:.1f} s"
    if silent != b"" or not 0.25 < second < 15 or how[0] != 0:
        yield f"a client that is silent in its request: {silent} after {second:.1f} s, and {how}"


def look_at_clock(program, limits):
    """A budget that is spent comes back in the next window; the windows are those of the system's clock."""
    room = Room(program, limits, window=2)
    upstream = Upstream(answer)
    gateway = room.start("--listen", "127.0.0.1:0", "--upstream", upstream.address, "--workers", "1", "--connections", "3")
    port_of(gateway)
    time.sleep(2.05 - time.time() % 2)
    found = [ask(gateway, request("few", PLAIN)) for _ in range(2)]
    window = int(time.time()) // 2
    time.sleep(2.05 - time.time() % 2)
    found.append(ask(gateway, request("few", PLAIN)))
    status, out, _ = ended(gateway)
    upstream.close()
    room.remove()
    found = [it and it.status for it in found]
    last = closing(out).get("few", [None])[0]
    if found != [200, 429, 200] or status != 0 or last not in (window + 1, int(time.time()) // 2):
        yield f"in windows of two seconds the replies are {found}, and the window {last} and not {window + 1}"


def look(room, shim, program):
    """What was found, and what was seen."""
    usual = Run(room, shim, 0)
    states = [it.status if it else None for it in usual.replies]
    if states != [200, 200, 200, 502] or usual.how[0] != 0:
        return [f"the replies are {states}, and it ends with {usual.how}"], ""
    works = [(look_at_soft, (fault,)) for fault in soft(usual.calls)] + [(look_at_hard, it) for it in hard(usual.calls)]
    with concurrent.futures.ThreadPoolExecutor(os.cpu_count() or 1) as workers:
        aside = [workers.submit(lambda: list(look_at_clock(program, LIMITS))), workers.submit(lambda: list(look_at_limits(room, shim)))]
        runs = workers.map(lambda it: it[1][0](Run(room, shim, it[0], it[1][1][0]), usual, *it[1][1]), enumerate(works, 1))
        found = [it for it in runs if it] + [it for one in aside for it in one.result()]
    found += list(not_set_up(usual.calls))
    count = sum(1 for work, _ in works if work is look_at_soft)
    return found, f"{count} calls were interrupted or done in part or passed by, and nothing differs; {len(works) - count} failed, and only their exchange does; limits and clock hold"


def main():
    program = program_of(sys.argv[1:])
    room = Room(program, LIMITS)
    try:
        shim = preloaded.preload(room.folder)
        if shim is None:
            print("socket calls: skipped, since nothing here compiles calls.c")
            return 0
        found, said = look(room, shim, program)
    finally:
        room.remove()
    for words in list(dict.fromkeys(found))[:12]:
        print(f"socket calls: {words}")
    print(f"socket calls: {len(found)} differ" if found else f"socket calls: {said}")
    return 1 if found else 0


if __name__ == "__main__":
    sys.exit(main())
