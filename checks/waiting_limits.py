"""Waits for each limit of a gateway's waiting, by clients and upstreams that keep to one side of it or to the other.

    python3 checks/waiting_limits.py [PROGRAM]

They all wait side by side, on real clocks, so that it takes 85 seconds. In the waiting room 75 seconds without a byte and 10 from the first byte of a
request; 30 for one read of a worker, from a client or from the upstream; 2 for a client that doesn't close its side behind the last reply. Who comes just before a limit has to be
served, and who comes behind it has to meet the end of the connection at its limit, without a byte; where the room waits for the rest of a request, it is told
that this is bad, and where the upstream is waited for 502 at the bound. It notices, each tried: other limits in the room, and a connection to the upstream
without limits. The status is 1 where something differs."""

import concurrent.futures
import contextlib
import socket
import sys
import threading
import time

sys.dont_write_bytecode = True
from preloaded import BROKEN, FEWER, PLAIN, UNIT, Room, Upstream, answer_usually, one_message, port_of, program_of, reply_in, request

LIMITS = {"reader": (3000, False)}
# How much earlier and how much later than at its limit a connection may end.
EARLY, LATE = 0.2, 3
BODY = b'{"query":"{ user { id } }"' + b" " * 29_900 + b"}"
LONG = b"POST /graphql HTTP/1.1\r\nhost: g\r\nx-client-key: reader\r\ncontent-type: application/json\r\ncontent-length: %d\r\n\r\n" % len(BODY) + BODY
SHORT = request("reader", PLAIN, last=False)


class Client:
    """A client, and when it called."""

    def __init__(self, port):
        self.stream = socket.create_connection(("127.0.0.1", port), timeout=100)
        self.begun = time.monotonic()

    def passed(self):
        return time.monotonic() - self.begun

    def send_at(self, seconds, piece):
        """Sends a piece so long after it called, where the connection is still there."""
        time.sleep(max(0, seconds - self.passed()))
        with contextlib.suppress(OSError):
            self.stream.sendall(piece)

    def reply(self):
        return reply_in(one_message(self.stream)[0])

    def ends_at(self, seconds):
        """What is wrong with the end of the connection, which has to come then and without a byte."""
        try:
            text = self.stream.recv(65536)
        except ConnectionResetError:
            text = b""
        passed = self.passed()
        return "" if text == b"" and seconds - EARLY <= passed <= seconds + LATE else f"{text!r} after {passed:.1f} s, and not the end after {seconds} s"


def is_served(reply):
    return "" if reply and reply.status == 200 else f"the reply is {reply and reply.status}"


def sends(*pieces, ends=None):
    """A client that sends these pieces, each so long after it called. It is served, or meets the end then."""

    def look(port):
        client = Client(port)
        threading.Thread(target=lambda: [client.send_at(*it) for it in pieces], daemon=True).start()
        return is_served(client.reply()) if ends is None else client.ends_at(ends)

    return look


def told(*pieces, message, at):
    """A client that sends these pieces, each so long after it called, and is told then, and not before, that its request is bad; and then meets the end."""

    def look(port):
        client = Client(port)
        threading.Thread(target=lambda: [client.send_at(*it) for it in pieces], daemon=True).start()
        reply, passed = client.reply(), client.passed()
        holds = reply and reply.status == 400 and message in reply.body and at - EARLY <= passed <= at + LATE and client.stream.recv(1) == b""
        return "" if holds else f"{reply and (reply.status, reply.body)} after {passed:.1f} s, and not {message} after {at} s"

    return look


def again(rest, ends=None):
    """A client that has had a reply, and then rests so long. It is served again, or meets the end then."""

    def look(port):
        client = Client(port)
        client.send_at(2, SHORT)
        first = is_served(client.reply())
        if ends is None:
            client.send_at(2 + rest, SHORT)
            return first or is_served(client.reply())
        return first or client.ends_at(2 + ends)

    return look


def asks(document, status, after, charged):
    """A client that gets such a reply so long after it asked."""

    def look(port):
        client = Client(port)
        client.send_at(0, request("reader", document))
        reply, passed = client.reply(), client.passed()
        holds = reply and reply.status == status and reply.charged == charged and after - EARLY <= passed <= after + LATE
        return "" if holds else f"{reply and (reply.status, reply.charged)} after {passed:.1f} s"

    return look


def can_send(stream):
    """Whether nothing says that the connection is gone."""
    try:
        stream.sendall(b"x")
        time.sleep(0.3)
        stream.sendall(b"x")
    except OSError:
        return False
    return True


def stays(port):
    """A client that doesn't close its side behind the last reply: it sees the end at once, and is let go after two seconds."""
    client = Client(port)
    client.send_at(0, request("reader", PLAIN))
    served, end = is_served(client.reply()), client.stream.recv(1)
    passed = client.passed()
    early = can_send(client.stream)
    time.sleep(max(0, 2 + LATE - client.passed()))
    late = can_send(client.stream)
    return served or ("" if (end, early, late) == (b"", True, False) and passed < LATE else f"{end!r} after {passed:.1f} s; it can send: {early}, and later {late}")


def halves(piece, *at):
    """A request of which the first part is sent at one time, and the rest at another where it is sent."""
    half = 20_000 if len(piece) > 20_000 else len(piece) // 2
    return list(zip(at, (piece[:half], piece[half:])))


BY_TURNS = {
    "70 s without a byte, then a request": sends((70, SHORT)),
    "no byte": sends(ends=75),
    "70 s behind a reply, then a request": again(70),
    "nothing behind a reply": again(0, ends=75),
    "a request whose rest comes 8 s later": sends(*halves(SHORT, 0, 8)),
    "a request whose rest comes 14 s later": told(*halves(SHORT, 0, 14), message=b"BAD_HEAD", at=10),
    "the same, 20 s after the call": told(*halves(SHORT, 20, 34), message=b"BAD_HEAD", at=30),
    "a byte each second": told(*((at, SHORT[at : at + 1]) for at in range(20)), message=b"BAD_HEAD", at=10),
    "a body whose last byte doesn't come": told((0, SHORT[:-1]), message=b"TRUNCATED 1", at=10),
    "the same of a client that isn't known": told((0, SHORT[:-2].replace(b"reader", b"nobody")), message=b"TRUNCATED 2", at=10),
    "a long body whose rest comes 26 s later": sends(*halves(LONG, 0, 26)),
    "a long body whose rest comes 36 s later": sends(*halves(LONG, 0, 36), ends=30),
    "a client that stays behind its last reply": stays,
}
BY_HOLDING = {
    "26 s without a byte, then a request": sends((26, SHORT)),
    "no byte": sends(ends=30),
    "26 s behind a reply, then a request": again(26),
    "nothing behind a reply": again(0, ends=30),
    "a request whose rest comes 26 s later": sends(*halves(SHORT, 0, 26)),
    "a request whose rest comes 36 s later": sends(*halves(SHORT, 0, 36), ends=30),
    "an upstream that answers after 26 s": asks(FEWER, 200, 26, [3 * UNIT, 2 * UNIT]),
    "an upstream that never answers": asks("{ user { friends { friends { friends { id } } } } }", 502, 30, [41 * UNIT, 14 * UNIT]),
    "an upstream that stops in its reply": asks(BROKEN, 502, 30, [14 * UNIT, 5 * UNIT]),
    "a client that stays behind its last reply": stays,
}


def answer(client, text):
    """Answers late, never, in part, or as usual, by how deep is asked."""
    depth = text.count(b"friends")
    if depth == 1:
        time.sleep(26)
    if depth == 2:
        client.sendall(b"HTTP/1.1 200 OK\r\ncontent-type: application/json\r\ncontent-length: 100\r\n\r\n{")
    if depth > 1:
        time.sleep(45)
    else:
        answer_usually(client, text)


def look(program, words, cases, workers):
    """What is wrong at a gateway with these words."""
    room, upstream = Room(program, LIMITS), Upstream(answer)
    gateway = room.start("--listen", "127.0.0.1:0", "--upstream", upstream.address, "--workers", "16", *words)
    try:
        port = port_of(gateway)
        for name, found in zip(cases, workers.map(lambda case: case(port), cases.values())):
            if found:
                yield f"{' '.join(words)} {name}: {found}"
    finally:
        gateway.kill()
        gateway.communicate()
        upstream.close()
        room.remove()


def main():
    program = program_of(sys.argv[1:])
    with concurrent.futures.ThreadPoolExecutor(64) as workers:
        both = [workers.submit(lambda it=it: list(look(program, *it, workers))) for it in ((("--idle", "64"), BY_TURNS), ((), BY_HOLDING))]
        found = [it for one in both for it in one.result()]
    for words in found:
        print(f"waiting limits: {words}")
    print(f"waiting limits: {len(found)} differ" if found else f"waiting limits: {len(BY_TURNS) + len(BY_HOLDING)} clients were served, or let go, as the limits say")
    return 1 if found else 0


if __name__ == "__main__":
    sys.exit(main())
