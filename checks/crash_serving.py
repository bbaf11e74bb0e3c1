"""Ends a gateway that keeps a journal at random moments while it serves four clients, starts it again each time, and tests that nobody got more than its allowance.

    python3 checks/crash_serving.py [--kills N] [--seed N] [PROGRAM]

N is 200 without it. The clients make requests as fast as they can, over loopback; their windows last three seconds, and what they may spend in one is soon
spent. After each end by SIGKILL the file of the journal is read here, by the rules of `crates/account_journal/README.md`: every slot has to continue the
history of those before it, no client may have more granted in a window than its allowance (what carries over aside, for which the account machine of
`crash_journal.py` reckons), and each charge that a client was told has to be in the file, in the order in which it was told. At the end the gateway is asked to
stop, and its closing lines have to be the accounts of the file. Only processes that were started here are ended."""

import argparse
import collections
import hashlib
import multiprocessing
import os
import random
import re
import socket
import subprocess
import sys
import tempfile
import time

sys.dont_write_bytecode = True
from crash_journal import History, read

HERE = os.path.dirname(os.path.abspath(__file__))
PROGRAM = os.path.join(HERE, "../crates/gateway_cli/out/gateway_cli")
SCHEMA = "type Query { user: User } type User { id: ID! friends: [User!] @listSize(assumedSize: 3) }"
UNIT = 10**6
LIMITS = {"alpha": (300, False), "beta": (90, False), "gamma": (200, True), "delta": (5, False)}
DOCUMENTS = [b"{ user { id } }", b"{ user { friends { id } } }", b"{ user { colour } }"]


def free_port():
    with socket.create_server(("127.0.0.1", 0)) as server:
        return server.getsockname()[1]


def answer(listener):
    """An upstream that answers each request with what its document asks for, at once or a little later."""
    chance = random.Random(7)
    while True:
        client, _ = listener.accept()
        with client:
            try:
                kept = b""
                while not kept.endswith(b"}"):
                    piece = client.recv(65536)
                    if not piece:
                        break
                    kept += piece
                time.sleep(chance.choice([0, 0, 0.001, 0.01]))
                data = b'{"data":{"user":{"friends":[{"id":"2"}]}}}' if b"friends" in kept else b'{"data":{"user":{"id":"1"}}}'
                client.sendall(b"HTTP/1.1 200 OK\r\ncontent-type: application/json\r\ncontent-length: %d\r\n\r\n%s" % (len(data), data))
            except OSError:
                pass


def millionths(text):
    whole, _, part = text.partition(b".")
    return int(whole) * UNIT + int(part.ljust(6, b"0"))


def whole_reply(client):
    """The head of a reply that came to its end."""
    kept = b""
    while b"\r\n\r\n" not in kept:
        piece = client.recv(65536)
        if not piece:
            raise EOFError
        kept += piece
    head, rest = kept.split(b"\r\n\r\n", 1)
    length = int(re.search(rb"content-length: (\d+)", head).group(1))
    while len(rest) < length:
        piece = client.recv(65536)
        if not piece:
            raise EOFError
        rest += piece
    return head


def calls(number, key, port, told, going):
    """Makes requests of one client, a few on each connection, and puts each charge that it is told into the queue."""
    chance = random.Random(number)
    while going.is_set():
        try:
            with socket.create_connection(("127.0.0.1", port), timeout=5) as client:
                for at in range(8):
                    body = b'{"query":"%s"}' % chance.choice(DOCUMENTS)
                    last = b"connection: close\r\n" if at == 7 else b""
                    client.sendall(b"POST /graphql HTTP/1.1\r\nhost: g\r\nx-client-key: %s\r\ncontent-type: application/json\r\n%scontent-length: %d\r\n\r\n%s" % (key.encode(), last, len(body), body))
                    head = whole_reply(client)
                    charged = re.search(rb"x-cost-charged: (\S+) (\S+)", head)
                    told.put((key, head.split(b" ")[1].decode(), [millionths(it) for it in charged.groups()] if charged else None))
        except (OSError, EOFError):
            time.sleep(0.002)


def client_file():
    return "clients 2\nwindow 3\n" + "".join(f"{key} {most}.000 {most}.000{' carry' if carry else ''}\n" for key, (most, carry) in LIMITS.items())


class Serving:
    """The gateway, the clients, and what they were told."""

    def __init__(self, program, folder):
        self.folder, self.port = folder, free_port()
        listener = socket.create_server(("127.0.0.1", 0), backlog=256)
        self.stop, self.journal = f"{folder}/stop", f"{folder}/journal"
        self.words = [program, "serve", "schema", "clients", "--listen", f"127.0.0.1:{self.port}", "--upstream", "127.0.0.1:%d" % listener.getsockname()[1], "--journal", self.journal,
                      "--endless", "--stop", self.stop]
        self.told, self.going = multiprocessing.SimpleQueue(), multiprocessing.Event()
        self.going.set()
        works = [(answer, (listener,))] * 2 + [(calls, (n, key, self.port, self.told, self.going)) for n, key in enumerate(LIMITS)]
        self.running = [multiprocessing.Process(target=work, args=given, daemon=True) for work, given in works]
        for it in self.running:
            it.start()

    def start(self):
        self.run = subprocess.Popen(self.words, cwd=self.folder, stdout=subprocess.PIPE, stderr=subprocess.PIPE, text=True)

    def taken(self, charges, states):
        """Puts what was told since the last time behind what was told before."""
        while not self.told.empty():
            key, status, charged = self.told.get()
            states[status] += 1
            if charged:
                charges[key].append(charged)


def lacking(history, charges):
    """Of which clients a charge that was told isn't in the file, in its order: each grant has one settling."""
    settled = {key: [] for key in LIMITS}
    for slot, (client, _, _) in sorted(history.granted.items()):
        if slot in history.settled:
            settled[list(LIMITS)[client]].append(history.settled[slot])
    lost = []
    for key, wanted in charges.items():
        left = iter(settled[key])
        if not all(any(one == it for it in left) for one in wanted):
            lost.append(key)
    return lost


def looked_at(serving, charges, kill):
    clients = [(most * UNIT, carry) for most, carry in LIMITS.values()]
    try:
        history = History(read(serving.journal), clients, serving.mark)
    except ValueError as fault:
        sys.exit(f"kill {kill}: {fault}")
    lost = lacking(history, charges)
    if lost:
        sys.exit(f"kill {kill}: a charge that was told isn't in the file, of {', '.join(lost)}")
    return history


def kill_often(serving, kills, seed):
    chance, charges, states = random.Random(seed), collections.defaultdict(list), collections.Counter()
    for kill in range(kills):
        serving.start()
        time.sleep(chance.uniform(0.02, 0.4))
        if serving.run.poll() is not None:
            sys.exit(f"kill {kill}: the gateway ended by itself with status {serving.run.returncode}: {serving.run.stderr.read()!r}")
        serving.run.kill()
        serving.run.communicate()
        time.sleep(0.03)
        serving.taken(charges, states)
        if os.path.exists(serving.journal) and os.path.getsize(serving.journal) >= 65:
            history = looked_at(serving, charges, kill)
    print(f"{kills} ends: {sum(states.values())} replies {dict(states)}, {sum(map(len, charges.values()))} charges told, each in the file; {len(history.granted)} grants; each within its allowance")
    return charges, states


def end_well(serving, charges, states):
    """Starts the gateway once more, asks for its end, and compares its closing lines with the file."""
    serving.start()
    time.sleep(1)
    serving.going.clear()
    time.sleep(0.3)
    open(serving.stop, "w").close()
    out, err = serving.run.communicate(timeout=60)
    serving.taken(charges, states)
    history = looked_at(serving, charges, "the end")
    accounts = {key: account for key, account in zip(LIMITS, history.accounts)}
    lines = re.findall(r"(\w+) window (\d+) settled (\S+) (\S+)", out)
    wanted = [(key, str(it.window), *it.settled) for key, it in accounts.items()]
    found = [(key, window, millionths(a.encode()), millionths(b.encode())) for key, window, a, b in lines]
    print(out, end="")
    return found == wanted and not history.open and serving.run.returncode in (0, 8)


def main():
    words = argparse.ArgumentParser(description=__doc__, formatter_class=argparse.RawDescriptionHelpFormatter)
    words.add_argument("--kills", type=int, default=200)
    words.add_argument("--seed", type=int, default=1)
    words.add_argument("program", nargs="?", default=PROGRAM)
    given = words.parse_args()
    with tempfile.TemporaryDirectory() as folder:
        for name, text in (("schema", SCHEMA), ("clients", client_file())):
            with open(os.path.join(folder, name), "w") as file:
                file.write(text)
        newest = subprocess.run([os.path.abspath(given.program), "migrate", "clients"], cwd=folder, capture_output=True, check=True).stdout
        serving = Serving(os.path.abspath(given.program), folder)
        serving.mark = hashlib.sha256(newest).digest()
        try:
            holds = end_well(serving, *kill_often(serving, given.kills, given.seed))
        finally:
            if getattr(serving, "run", None) and serving.run.poll() is None:
                serving.run.kill()
            for it in serving.running:
                it.kill()
    print("the closing lines are the accounts of the file" if holds else "THE CLOSING LINES AREN'T THE ACCOUNTS OF THE FILE")
    return 0 if holds else 1


if __name__ == "__main__":
    sys.exit(main())
