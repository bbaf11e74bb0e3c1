"""Serves two requests with one request for memory refused, for each in turn, and tests the replies, the status and the accounts.

    python3 checks/refused_serving.py [PROGRAM]

They are served once from fresh accounts, and once over a new journal. Whatever is refused: the gateway ends with the status of want of memory and no line, or with closing lines whose accounts are the sum
of the charges that the replies told. At most one of the two requests notices, and the other one is answered as usual. The
file of the journal has each charge that a reply told; where the gateway served to its end it has no others and no open grant. Where its disk could not
be opened the status is 9."""

import collections
import os
import re
import socket
import subprocess
import sys
import tempfile
import threading
import time

sys.dont_write_bytecode = True
from crash_journal import RECORD, bodies, read

HERE = os.path.dirname(os.path.abspath(__file__))
EXAMPLES = os.path.join(os.path.dirname(HERE), "examples")
PROGRAM = os.path.abspath(sys.argv[1] if len(sys.argv) > 1 else os.path.join(HERE, "../crates/gateway_cli/out/gateway_cli"))
LISTEN, UPSTREAM = ("127.0.0.1", 8377), ("127.0.0.1", 4377)
BODY = b'{"query":"{ shelf { label } }"}'
ASK = b"POST /graphql HTTP/1.1\r\nhost: g\r\nx-client-key: reader\r\ncontent-type: application/json\r\nconnection: close\r\n"
ASK += b"content-length: %d\r\n\r\n" % len(BODY) + BODY
DATA = b'{"data":{"shelf":{"label":"A"}}}'
REPLY = b"HTTP/1.1 200 OK\r\ncontent-type: application/json\r\ncontent-length: %d\r\nconnection: close\r\n\r\n" % len(DATA) + DATA


def upstream():
    """Answers each connection with the one reply."""
    listener = socket.create_server(UPSTREAM)

    def answer():
        while True:
            client, _ = listener.accept()
            text = b""
            while b"\r\n\r\n" not in text:
                text += client.recv(65536) or b"\r\n\r\n"
            client.sendall(REPLY)
            client.close()

    threading.Thread(target=answer, daemon=True).start()


def ask(gateway):
    """The reply to the request, as it came; None where nobody accepts it any more."""
    for _ in range(4000):
        try:
            with socket.create_connection(LISTEN, timeout=40) as client:
                client.sendall(ASK)
                text = b""
                while piece := client.recv(65536):
                    text += piece
                return text
        except (ConnectionRefusedError, ConnectionResetError):
            if gateway.poll() is not None:
                return None
            time.sleep(0.001)
    sys.exit("the gateway doesn't answer")


def serve(number, shim, told="/dev/null", journal=None):
    """The two replies, the status, and what was written."""
    env = dict(os.environ, LD_PRELOAD=shim, REFUSE=str(number), TOLD=told)
    words = ["serve", "books.graphql", "day.clients", "--listen", "%s:%d" % LISTEN, "--upstream", "%s:%d" % UPSTREAM, "--connections", "2", *(["--journal", journal] if journal else ["--workers", "1"])]
    gateway = subprocess.Popen([PROGRAM, *words], cwd=EXAMPLES, env=env, stdout=subprocess.PIPE, stderr=subprocess.PIPE)
    replies = [ask(gateway), ask(gateway)]
    out, err = gateway.communicate(timeout=60)
    return replies, gateway.returncode, out.decode(), err.decode()


def cost(text, name):
    """A cost of a reply's head in millionths, or nothing."""
    found = re.search(rb"\r\n" + name + rb": (\S+) (\S+)\r\n", text or b"")
    return [millionths(part.decode()) for part in found.groups()] if found else [0, 0]


def millionths(text):
    whole, _, part = text.partition(".")
    return int(whole) * 1000000 + int(part.ljust(6, "0"))


def kind(replies, status, out, err, journal=None):
    """What came of a run in a few words; ends the test where it is none of those that may be."""
    told = [sum(part) for part in zip(*(cost(reply, b"x-cost-charged") for reply in replies))]
    states = [reply.split(b" ")[1].decode() if reply else "none" for reply in replies]
    if status == 5 and (out, err) == ("", ""):
        return "status 5, replies " + " ".join(states)
    if journal and status == 9 and (out, err) == ("", "disk\n") and told == [0, 0]:
        return "status 9, replies " + " ".join(states)
    found = re.fullmatch(r"reader window \d+ settled (\S+) (\S+)\n(?:.*\n)*connections (\d) exchanges (\d)\n", out)
    if not found or (status, err) not in ((0, ""), (8, "door\n")):
        sys.exit(f"{replies} {status} {out} {err}")
    settled = [millionths(part) for part in found.groups()[:2]]
    answered = sum(1 for reply in replies if reply)
    if settled != told or int(found.group(4)) != answered or (status == 0 and int(found.group(3)) != 2) or (status == 0 and states.count("200") < 1):
        sys.exit(f"{replies} {status} {out} {err}")
    return f"status {status}, replies " + " ".join(states)


def kept(journal):
    """The grants in the file of a journal that are open, and what is settled there."""
    opened, settled = set(), [0, 0]
    for slot, body in enumerate(bodies(read(journal))[1:], 1):
        kind, _, number, *cost = RECORD.unpack(body)
        if kind == 1:
            opened.add(slot)
        else:
            opened.remove(number)
            settled = [settled[i] + cost[i] for i in (0, 1)]
    return opened, settled


def compare(journal, replies, status):
    """Ends the test where the file of the journal lacks what was told, or has more at a regular end."""
    opened, settled = kept(journal) if os.path.exists(journal) else (set(), [0, 0])
    told = [sum(part) for part in zip(*(cost(reply, b"x-cost-charged") for reply in replies))]
    if any(settled[i] < told[i] for i in (0, 1)) or (status in (0, 8) and (opened or settled != told)):
        sys.exit(f"{replies} {status}: the journal has {settled} settled and {opened} open")


def refuse_each(shim, told, journal=None):
    """Refuses each request for memory in turn, over a new journal each time, and prints what came of it."""
    kinds, number = collections.Counter(), 1
    while True:
        if journal and os.path.exists(journal):
            os.remove(journal)
        found = serve(number, shim, told, journal)
        if not os.path.exists(told):
            break
        os.remove(told)
        kinds[kind(*found, journal)] += 1
        if journal:
            compare(journal, *found[:2])
        number += 1
    print(f"refused in turn {number - 1}{', over a journal' if journal else ''}")
    for name, times in sorted(kinds.items()):
        print(f"{times:6} {name}")


def main():
    upstream()
    with tempfile.TemporaryDirectory() as folder:
        shim, told = os.path.join(folder, "refuse.so"), os.path.join(folder, "told")
        subprocess.run(["cc", "-shared", "-fPIC", "-O1", "-o", shim, os.path.join(HERE, "refuse.c"), "-ldl"], check=True)
        print("nothing refused:", kind(*serve(0, shim)))
        refuse_each(shim, told)
        refuse_each(shim, told, os.path.join(folder, "journal"))


main()
