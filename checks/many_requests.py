"""Sends many requests over sixteen workers and an upstream, and compares the accounts at the end with the charges that the replies told.

    python3 checks/many_requests.py [COUNT [PROGRAM]]

COUNT is 100,000 without it. The upstream is examples/upstream.py. Sixteen connections are open at a time, each for up to a thousand requests
of one client: operations of several shapes, and some that are refused. One client's allowance runs out on the way."""

import collections
import multiprocessing
import os
import re
import socket
import subprocess
import sys
import tempfile
import time

HERE = os.path.dirname(os.path.abspath(__file__))
EXAMPLES = os.path.join(os.path.dirname(HERE), "examples")
COUNT = int(sys.argv[1]) if len(sys.argv) > 1 else 100_000
PROGRAM = os.path.abspath(sys.argv[2] if len(sys.argv) > 2 else os.path.join(HERE, "../crates/gateway_cli/out/gateway_cli"))
LISTEN, UPSTREAM, WORKERS = ("127.0.0.1", 8378), ("127.0.0.1", 4000), 16
EACH = 900
CLIENTS = "clients 2\nwindow 86400\nalpha 100000000.000 100000000.000\nbeta 20000.000 20000.000\ngamma 50000000.000 50000000.000 carry\n"
DOCUMENTS = ["{ shelf { label } }", "{ shelf { books { title authors { name } } } }", "{ shelf { colour } }", "{ shelf { books { title } } }", "{ shelf "]


def request(key, document, last):
    body = b'{"query":"%s"}' % document.encode()
    head = f"POST /graphql HTTP/1.1\r\nhost: g\r\nx-client-key: {key}\r\ncontent-type: application/json\r\ncontent-length: {len(body)}\r\n"
    return head.encode() + (b"connection: close\r\n" if last else b"") + b"\r\n" + body


def reply(client, kept):
    """A whole reply, and the bytes behind it."""
    while b"\r\n\r\n" not in kept:
        piece = client.recv(65536)
        if not piece:
            raise EOFError(kept)
        kept += piece
    head, rest = kept.split(b"\r\n\r\n", 1)
    length = int(re.search(rb"content-length: (\d+)", head).group(1))
    while len(rest) < length:
        rest += client.recv(65536)
    return head, rest[length:]


def millionths(text):
    whole, _, part = text.partition(".")
    return int(whole) * 1000000 + int(part.ljust(6, "0"))


def connection(number):
    """What the replies of one connection told: how many of each status, and the charges of its client."""
    key = ("alpha", "beta", "gamma")[number % 3]
    states, types, fields, kept = collections.Counter(), 0, 0, b""
    with socket.create_connection(LISTEN) as client:
        for at in range(EACH):
            client.sendall(request(key, DOCUMENTS[(number + at) % len(DOCUMENTS)], at + 1 == EACH))
            head, kept = reply(client, kept)
            states[head.split(b" ")[1].decode()] += 1
            charged = re.search(rb"x-cost-charged: (\S+) (\S+)", head)
            if charged:
                types += millionths(charged.group(1).decode())
                fields += millionths(charged.group(2).decode())
    return key, states, types, fields


def main():
    rounds = -(-COUNT // (WORKERS * EACH))
    with tempfile.TemporaryDirectory() as folder, multiprocessing.Pool(WORKERS) as pool:
        clients = os.path.join(folder, "clients")
        with open(clients, "w") as file:
            file.write(CLIENTS)
        upstream = subprocess.Popen([sys.executable, os.path.join(EXAMPLES, "upstream.py")])
        words = ["serve", os.path.join(EXAMPLES, "books.graphql"), clients, "--listen", "%s:%d" % LISTEN, "--upstream", "%s:%d" % UPSTREAM,
                 "--workers", str(WORKERS), "--connections", str(rounds)]
        gateway = subprocess.Popen([PROGRAM, *words], stdout=subprocess.PIPE)
        time.sleep(1)
        begun = time.time()
        told, states = {}, collections.Counter()
        for key, some, types, fields in pool.imap_unordered(connection, range(WORKERS * rounds)):
            states += some
            before = told.get(key, (0, 0))
            told[key] = (before[0] + types, before[1] + fields)
        out, _ = gateway.communicate(timeout=120)
        seconds = time.time() - begun
        upstream.kill()
    found = {key: (millionths(types), millionths(fields)) for key, types, fields in re.findall(r"(\w+) window \d+ settled (\S+) (\S+)", out.decode())}
    print(out.decode(), end="")
    print(f"{sum(states.values())} requests in {seconds:.1f} s, replies {dict(states)}, status {gateway.returncode}")
    print("the accounts are the sums of the charges" if found == told else f"THE ACCOUNTS ARE NOT THE CHARGES: {found} {told}")
    sys.exit(0 if found == told and gateway.returncode == 0 else 1)


if __name__ == "__main__":
    main()
