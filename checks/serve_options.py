"""Shows that the built program hears each option of `serve`, over loopback.

    python3 checks/serve_options.py [PROGRAM]

Proofs say what a gateway does that is served so and so; that `main` hands each option to it is seen here, where a client or the upstream notices it: with
the option and without. Of `--endless` only that such a gateway serves, with a journal too. It notices, each tried: a `main` whose doors are the plain ones, so that `--idle` and
`--stop` aren't heard, and a waiting room that lets the wrong clients go where it is full. The status is 1 where an option isn't heard."""

import concurrent.futures
import contextlib
import hashlib
import json
import os
import socket
import sys
import threading
import time

sys.dont_write_bytecode = True
from preloaded import FEWER, PLAIN, UNIT, Room, Upstream, answer_usually, ask, closing, ended, one_message, port_of, program_of, reply_in, request

LISTED = hashlib.sha256(PLAIN.encode()).hexdigest()
BY_HASH = json.dumps({"extensions": {"persistedQuery": {"version": 1, "sha256Hash": LISTED}}}).encode()
SCHEMA = "type Query { user: User users: [User!] } type User { id: ID! friends: [User!] @listSize(assumedSize: 3) }"
USERS = "{ users { id } }"
LIMITS = {"reader": (300, False), "guest": (60, True), "few": (3, False)}
# How long is waited for what has to come, and for what mustn't.
LONG, SHORT = 20, 0.3


class Heard(Exception):
    """What shows that an option isn't heard."""


def expect(holds, words):
    if not holds:
        raise Heard(words)


class Kept:
    """A client that keeps its connection."""

    def __init__(self, gateway):
        self.stream = socket.create_connection(("127.0.0.1", port_of(gateway)), timeout=LONG)

    def ask(self, seconds=LONG, document=PLAIN):
        """The status of the reply to a request; none where no reply comes in that time."""
        self.stream.settimeout(seconds)
        with contextlib.suppress(OSError):
            self.stream.sendall(request("reader", document, last=False))
        return self.reads(seconds)

    def reads(self, seconds=LONG):
        self.stream.settimeout(seconds)
        try:
            reply = reply_in(one_message(self.stream)[0])
        except OSError:
            return None
        return reply.status if reply else "the end"

    def can_send(self, size=1):
        """Whether the connection is still there once so many bytes were sent, and a few more."""
        with contextlib.suppress(OSError):
            for count in (size, 1, 1):
                self.stream.sendall(bytes(count))
                time.sleep(SHORT / 6)
            return True
        return False

    def close(self):
        self.stream.close()


class Runs:
    """Gateways of a program, each before an upstream of its own."""

    def __init__(self, program, room):
        self.program, self.room, self.running = program, room, []

    def start(self, *words, answer=answer_usually, listen="127.0.0.1:0"):
        upstream = Upstream(answer)
        gateway = self.room.start("--listen", listen, "--upstream", upstream.address, *words)
        gateway.upstream = upstream
        self.running.append(gateway)
        return gateway

    def once(self, *words, text=None, answer=answer_usually):
        """The reply to one request, the request that the upstream got for it, and the upstream's address."""
        gateway = self.start("--workers", "1", "--connections", "1", *words, answer=answer)
        reply = ask(gateway, text or request("reader", PLAIN))
        ended(gateway)
        return reply, b"".join(gateway.upstream.requests), gateway.upstream.address

    def end(self):
        for gateway in self.running:
            gateway.upstream.close()
            if gateway.poll() is None:
                gateway.kill()
                gateway.communicate()


def listen(runs):
    gateway = runs.start(listen="127.0.0.2:0")
    with socket.create_connection(("127.0.0.2", port_of(gateway) or 1), timeout=LONG) as client:
        client.sendall(request("reader", PLAIN))
        expect(reply_in(one_message(client)[0]).status == 200, "no reply at 127.0.0.2")
    expect(ask(gateway, request("reader", PLAIN)) is None, "a reply at 127.0.0.1, where it was told to listen at 127.0.0.2")


def upstream(runs):
    for _ in range(2):
        reply, got, address = runs.once()
        expect(reply and reply.status == 200 and f"\r\nhost: {address}\r\n".encode() in got, f"the upstream at {address} got {got!r}")


def target(runs):
    expect(runs.once()[1].startswith(b"POST /graphql HTTP/1.1\r\n"), "the target is another without the option")
    expect(runs.once("--target", "/api/v2")[1].startswith(b"POST /api/v2 HTTP/1.1\r\n"), "the target isn't the one that is given")


def unsized(runs):
    hangs_up = lambda client, text: None
    for words, cost in ((), 11), (("--unsized", "4"), 5):
        reply, *_ = runs.once(*words, text=request("reader", USERS), answer=hangs_up)
        expect(reply and reply.charged == [cost * UNIT, UNIT], f"{words}: the charge is {reply and reply.charged}")


def passed(runs):
    text = request("reader", PLAIN, "authorization: Bearer 1", "x-user: 7")
    for words, wanted in ((), (False, False)), (("--pass", "authorization"), (True, False)), (("--pass", "x-user", "--pass", "authorization"), (True, True)):
        _, got, _ = runs.once(*words, text=text)
        expect(got and (b"authorization: Bearer 1\r\n" in got, b"x-user: 7\r\n" in got) == wanted, f"{words}: the upstream got {got!r}")


def hints(runs):
    for words, wanted in ((), False), (("--hints",), True):
        gateway = runs.start("--workers", "1", "--connections", "2", *words)
        ask(gateway, request("few", PLAIN))
        reply = ask(gateway, request("few", PLAIN))
        expect(reply and reply.status == 429, f"{words}: no 429")
        expect(("\r\nretry-after: " in reply.head, "\r\nx-cost-left: 1.000 2.000" in reply.head) == (wanted, wanted), f"{words}: {reply.head}")


def most_work(runs):
    """A request that takes more steps than that is refused, and the upstream isn't asked; in a document of few fields there are few."""
    many = "{ " + " ".join(f"u{number}: user {{ id }}" for number in range(200)) + " }"
    hangs_up = lambda client, text: None
    for words, document, wanted in ((), many, 502), (("--most-work", "1000000"), many, 502), (("--most-work", "1000"), many, 400), (("--most-work", "1000"), PLAIN, 502):
        reply, got, _ = runs.once(*words, text=request("reader", document), answer=hangs_up)
        expect(reply and reply.status == wanted and bool(got) == (wanted == 502), f"{words}: {reply and reply.status}, and the upstream got {got!r}")
        expect((reply.charged is None and b"work 1 TooMuch" in reply.body) == (wanted == 400), f"{words}: {reply.head} {reply.body}")


def hashed():
    head = f"POST /graphql HTTP/1.1\r\nhost: g\r\nx-client-key: reader\r\ncontent-type: application/json\r\nconnection: close\r\ncontent-length: {len(BY_HASH)}\r\n\r\n"
    return head.encode() + BY_HASH


def trusted(runs):
    runs.room.put("listed", json.dumps({LISTED: PLAIN}))
    for words, by_hash, other in ((), 400, 200), (("--trusted", "listed"), 200, 200), (("--trusted", "listed", "--trusted-only"), 200, 400):
        gateway = runs.start("--workers", "1", "--connections", "2", *words)
        found = [ask(gateway, text) for text in (hashed(), request("reader", FEWER))]
        expect([it and it.status for it in found] == [by_hash, other], f"{words}: {found}")


def journal(runs):
    for number, words in (1, ("--journal", "kept")), (2, ("--journal", "kept")), (1, ()):
        gateway = runs.start("--connections", "1", *(words or ("--workers", "1")))
        ask(gateway, request("reader", PLAIN))
        status, out, err = ended(gateway)
        expect((status, err) == (0, "") and closing(out)["reader"][1:] == [2 * number * UNIT, number * UNIT], f"{words}: {status} {out} {err}")
    with open(runs.room.path("kept"), "rb") as file:
        expect(len(file.read()) == 5 * 64 + 1, "the journal hasn't five slots")


def at_once(runs, count, seconds, *words):
    """Whether the requests of so many clients stand at the upstream at the same time."""
    barrier = threading.Barrier(count)

    def answer(client, text):
        with contextlib.suppress(threading.BrokenBarrierError):
            barrier.wait(seconds)
            answer_usually(client, text)

    gateway = runs.start(*words, answer=answer)
    with concurrent.futures.ThreadPoolExecutor(count) as clients:
        replies = list(clients.map(lambda _: ask(gateway, request("reader", PLAIN)), range(count)))
    return all(it and it.status == 200 for it in replies)


def workers(runs):
    for words, count in (("--workers", "1"), 1), (("--workers", "3"), 3), (("--workers", "16"), 16), ((), 4), (("--journal", "alone"), 1):
        expect(at_once(runs, count, LONG, *words), f"{words}: {count} requests don't stand at the upstream at once")
        expect(not at_once(runs, count + 1, SHORT, *words), f"{words}: {count + 1} requests stand at the upstream at once")


def connections(runs):
    for workers, each in (1, 3), (2, 2):
        gateway = runs.start("--workers", str(workers), "--connections", str(each))
        for _ in range(workers * each):
            expect(ask(gateway, request("reader", PLAIN)), f"{workers} workers of {each} connections each don't serve so many")
        status, out, _ = ended(gateway, LONG)
        expect(status == 0 and f"connections {workers * each} exchanges {workers * each}\n" in out, f"the end is {status}, {out}")
    for words in ("--workers", "16"), ("--journal", "many"):
        gateway = runs.start("--connections", "1000000", *words)
        expect(all(ask(gateway, request("reader", PLAIN)) for _ in range(3)), f"{words}: it doesn't serve where it has a million connections to come")


def endless(runs):
    for number, words in enumerate((("--idle", "4"), ("--journal", "forever"), ())):
        gateway = runs.start("--endless", *words, "--stop", f"later{number}")
        expect(all(ask(gateway, request("reader", PLAIN)) for _ in range(2)), f"{words}: it doesn't serve")
        runs.room.put(f"later{number}", "")
        expect(ended(gateway, LONG)[0] == 8, f"{words}: it doesn't end")
    expect(ended(runs.start("--endless", "--connections", "7"))[0] == 2, "it is taken beside --connections")


def idle(runs):
    """With one worker, another client is served while the first one keeps its connection; without the option it waits until that one has gone."""
    for words in ("--idle", "8"), ():
        gateway = runs.start("--workers", "1", *words)
        one = Kept(gateway)
        expect(one.ask() == 200, "the first client gets no reply")
        two = Kept(gateway)
        if words:
            expect(two.ask() == 200, f"{words}: the second client isn't served while the first keeps its connection")
            expect(one.ask() == 200 and two.ask() == 200, f"{words}: the clients have no second turns")
        else:
            expect(two.ask(SHORT) is None, "without --idle the second client is served while the first keeps its connection")
            one.close()
            expect(two.reads() == 200, "without --idle the second client isn't served once the first has gone")


def idle_number(runs):
    """Of three clients that keep their connections the first is let go where two may wait, and none where three may."""
    for most in (2, 3):
        gateway = runs.start("--workers", "1", "--idle", str(most))
        clients = [Kept(gateway) for _ in range(3)] if most == 3 else []
        for _ in range(3 - len(clients)):
            clients.append(Kept(gateway))
            expect(clients[-1].ask() == 200, "a client gets no reply")
        if most == 2:
            expect(clients[0].reads() == "the end", "--idle 2: three clients are kept")
        found = [it.ask() for it in clients[3 - most :]]
        expect(found == [200] * most, f"--idle {most}: {found}")


def idle_order(runs):
    """Where three may wait and a fourth comes, the one that is idle longest is let go, and not the one that has sent a part of its request before."""
    gateway = runs.start("--workers", "1", "--idle", "3")
    part, text = Kept(gateway), request("reader", PLAIN, last=False)
    part.stream.sendall(text[:-9])
    clients = []
    for _ in range(3):
        time.sleep(SHORT)
        clients.append(Kept(gateway))
        expect(clients[-1].ask() == 200, "a client gets no reply")
    expect(clients[0].reads() == "the end", "the client that was idle longest is kept")
    part.stream.sendall(text[-9:])
    expect(part.reads() == 200, "the client that has sent a part of its request is let go")
    expect([it.ask() for it in clients[1:]] == [200, 200], "the clients that were idle for less are let go")


def idle_leaving(runs):
    """Where three may stay, whose last reply is oldest is let go first, before two that are idle; and what the newest still sends is dropped up to 64 kB."""
    gateway = runs.start("--workers", "1", "--idle", "3")
    clients = [Kept(gateway) for _ in range(2)]
    expect([it.ask() for it in clients] == [200, 200], "a client gets no reply")
    others = []
    for _ in range(4):
        others.append(Kept(gateway))
        others[-1].stream.sendall(request("reader", PLAIN))
        expect(others[-1].reads() == 200, "a client gets no last reply")
        if len(others) == 3:
            time.sleep(SHORT)
            expect([it.ask() for it in clients] == [200, 200], "clients that are idle are let go for others who had their last reply")
            expect([it.can_send() for it in others] == [False, False, True], "beside two idle clients it isn't just the last one that may still send")
    expect(others[-1].can_send(60_000), "a client can't send 60 kB behind its last reply")
    others[-1].can_send(10_000)
    ended = time.monotonic() + 1
    while others[-1].can_send() and time.monotonic() < ended:
        pass
    expect(time.monotonic() < ended, "a client can send more than 64 kB behind its last reply")


def stop(runs):
    """The file ends it with its closing lines and status 8, whether clients take turns or not; one of that name that isn't named doesn't."""
    for number, words in enumerate(((), ("--idle", "8"), ("--journal", "ending"))):
        name = f"end{number}"
        gateway = runs.start("--stop", name, *words)
        expect(ask(gateway, request("guest", PLAIN)), f"{words}: no reply")
        expect(gateway.poll() is None, f"{words}: it ends before the file is there")
        runs.room.put(name, "")
        status, out, err = ended(gateway, LONG)
        cost = [2 * UNIT, UNIT]
        expect((status, err) == (8, "door\n"), f"{words}: the end is {status}, {out} {err}")
        expect(closing(out)["guest"][1:3] == cost and closing(out)["reader"][1:] == [0, 0] and out.endswith("connections 1 exchanges 1\n"), f"{words}: {out}")
    gateway = runs.start("--idle", "8")
    expect(ask(gateway, request("reader", PLAIN)), "no reply where a file is there that isn't named")
    time.sleep(2 * SHORT)
    expect(gateway.poll() is None, "it ends at a file that isn't named")


OPTIONS = {
    "--listen": listen, "--upstream": upstream, "--target": target, "--unsized": unsized, "--pass": passed, "--hints": hints, "--most-work": most_work, "--trusted and --trusted-only": trusted,
    "--journal": journal, "--workers": workers, "--connections": connections, "--endless": endless, "--idle": idle, "the number of --idle": idle_number, "its order": idle_order, "leave there": idle_leaving, "--stop": stop,
}


def looked_at(program, option):
    """What shows that an option isn't heard; nothing where it is."""
    room = Room(program, LIMITS, SCHEMA)
    runs = Runs(program, room)
    try:
        OPTIONS[option](runs)
    except (Heard, OSError, AttributeError, KeyError, TimeoutError) as fault:
        return f"{option}: {fault!r}"
    finally:
        runs.end()
        room.remove()
    return ""


def main():
    program = program_of(sys.argv[1:])
    with concurrent.futures.ThreadPoolExecutor(len(OPTIONS)) as pool:
        found = [it for it in pool.map(lambda option: looked_at(program, option), OPTIONS) if it]
    for words in found:
        print(f"serve options: {words}")
    print(f"serve options: {len(found)} aren't heard" if found else f"serve options: {', '.join(OPTIONS)} are heard")
    return 1 if found else 0


if __name__ == "__main__":
    sys.exit(main())
