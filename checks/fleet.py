"""Serves fifty clients by three gateways behind a proxy, as docs/operating.md says, and compares the accounts with what the clients were told.

    python3 checks/fleet.py [COUNT [PROGRAM]]

COUNT requests (100,000 without it) go through nginx, and as many through haproxy, over loopback (Debian's nginx-light and haproxy). Each client has to
be served by one gateway; no client may have more settled in the window than its allowance; and what all gateways have settled has to be the sum of the
charges that clients were told. Where the program keeps a journal, one gateway is ended by SIGKILL on the way and started again over its journal: then what
was settled may be above what was told by the bounds of the requests that were cut off, and by no more. At last the clients are served by two gateways in
place of three, and a line says how many have moved. Only processes that were started here are ended."""

import collections
import multiprocessing
import os
import re
import shutil
import signal
import socket
import subprocess
import sys
import tempfile
import time

HERE = os.path.dirname(os.path.abspath(__file__))
COUNT = int(sys.argv[1]) if len(sys.argv) > 1 else 100_000
PROGRAM = os.path.abspath(sys.argv[2] if len(sys.argv) > 2 else os.path.join(HERE, "../crates/gateway_cli/out/gateway_cli"))
SCHEMA = "type Query { user: User } type User { id: ID! friends: [User!] @listSize(assumedSize: 3) }"
DOCUMENTS = [b"{ user { id } }", b"{ user { friends { id } } }", b"{ user { colour } }"]
CLIENTS, CALLERS, WORKERS = 50, 16, 4
FAULTS, STARTED = [], []


def say(line, holds=True):
    print(line if holds else f"{line}: NOT AS IT HAS TO BE", flush=True)
    if not holds:
        FAULTS.append(line)


def free_port():
    with socket.create_server(("127.0.0.1", 0)) as server:
        return server.getsockname()[1]


def wait_for(port):
    for _ in range(200):
        try:
            socket.create_connection(("127.0.0.1", port)).close()
            return
        except OSError:
            time.sleep(0.05)
    sys.exit(f"nobody listens at {port}")


def millionths(text):
    whole, _, part = text.partition(".")
    return int(whole) * 1000000 + int(part.ljust(6, "0"))


def allowance(number):
    """A tenth of the clients runs out of its allowance on the way."""
    return 400 if number % 10 == 0 else 10_000_000


# ---- who is started

def started(words, port, **more):
    run = subprocess.Popen(words, **more)
    STARTED.append(run)
    wait_for(port)
    return run


def answer(listener):
    """Answers each request with what its document asks for."""
    while True:
        client, _ = listener.accept()
        with client:
            try:
                kept = b""
                while not kept.endswith(b"}"):
                    piece = client.recv(65536)
                    if not piece:
                        break
                    kept += piece
                data = b'{"data":{"user":{"friends":[{"id":"2"}]}}}' if b"friends" in kept else b'{"data":{"user":{"id":"1"}}}'
                client.sendall(b"HTTP/1.1 200 OK\r\ncontent-type: application/json\r\ncontent-length: %d\r\n\r\n%s" % (len(data), data))
            except OSError:
                pass


def upstream():
    """Four processes that answer, and where they listen."""
    listener = socket.create_server(("127.0.0.1", 0), backlog=1024)
    running = [multiprocessing.Process(target=answer, args=(listener,), daemon=True) for _ in range(4)]
    for it in running:
        it.start()
    return listener.getsockname()[1]


class Gateway:
    """One of the gateways: where it listens, the file that asks for its end, and its journal where it keeps one."""

    def __init__(self, folder, number, up, has_journal):
        self.folder, self.port = folder, free_port()
        self.stop, self.out = f"{folder}/stop{number}", f"{folder}/out{number}"
        journal = ["--journal", f"{folder}/journal{number}"] if has_journal else ["--workers", str(WORKERS)]
        self.words = [PROGRAM, "serve", "schema", "clients", "--listen", f"127.0.0.1:{self.port}", "--upstream", f"127.0.0.1:{up}", "--endless", "--stop", self.stop, *journal]
        self.start()

    def start(self):
        with open(self.out, "w") as out:
            self.run = started(self.words, self.port, cwd=self.folder, stdout=out, stderr=subprocess.DEVNULL)

    def kill_and_start(self):
        self.run.send_signal(signal.SIGKILL)
        self.run.wait()
        self.start()

    def accounts(self):
        """Asks for the end, and reads what the closing lines say is settled."""
        open(self.stop, "w").close()
        status = self.run.wait(timeout=60)
        with open(self.out) as file:
            text = file.read()
        say(f"the gateway at {self.port} ended with status {status}: {text.splitlines()[-1] if text else 'no lines'}", status == 8 and "exchanges" in text)
        return {key: (millionths(a), millionths(b)) for key, a, b in re.findall(r"(\w+) window \d+ settled (\S+) (\S+)", text)}


def keys():
    return [f"client{n}" for n in range(CLIENTS)]


def nginx(folder, gateways, name):
    port = free_port()
    temp = " ".join(f"{part}_temp_path {folder}/{name}_{part};" for part in ("client_body", "proxy", "fastcgi", "uwsgi", "scgi"))
    servers = " ".join(f"server 127.0.0.1:{it.port} max_fails=0;" for it in gateways)
    known = " ".join(f'"Bearer {key}" {key};' for key in keys())
    with open(f"{folder}/{name}.conf", "w") as file:
        file.write(f"worker_processes 2; daemon off; pid {folder}/{name}.pid; error_log /dev/null; events {{ worker_connections 1024; }}\n"
                   f"http {{ access_log off; {temp} map_hash_bucket_size 128; keepalive_requests 1000000;\n upstream gateways {{ hash $client_key consistent; {servers} }}\n"
                   f" map $http_authorization $client_key {{ {known} }}\n server {{ listen 127.0.0.1:{port}; client_max_body_size 16k; location = /graphql {{ proxy_pass http://gateways;\n"
                   "  proxy_set_header x-client-key $client_key; proxy_http_version 1.1; proxy_set_header Connection close; proxy_next_upstream off; add_header x-served-by $upstream_addr always; } } }\n")
    return started(["nginx", "-c", f"{folder}/{name}.conf", "-p", folder], port, stderr=subprocess.DEVNULL), port


def haproxy(folder, gateways, name):
    port = free_port()
    with open(f"{folder}/{name}.map", "w") as file:
        file.writelines(f"{key} {key}\n" for key in keys())
    servers = "\n".join(f"    server g{it.port} 127.0.0.1:{it.port} maxconn {WORKERS}" for it in gateways)
    with open(f"{folder}/{name}.cfg", "w") as file:
        file.write("defaults\n    mode http\n    timeout connect 5s\n    timeout client 60s\n    timeout http-request 10s\n    timeout queue 30s\n    timeout server 120s\n"
                   f"frontend api\n    bind 127.0.0.1:{port}\n    http-request deny deny_status 413 if {{ req.body_size gt 16384 }}\n"
                   f"    http-request set-header x-client-key %[req.hdr(authorization),word(2,\\ ),map({folder}/{name}.map)]\n    default_backend gateways\n"
                   "backend gateways\n    balance hdr(x-client-key)\n    hash-type consistent\n    option http-server-close\n    option http-buffer-request\n"
                   f"    http-response set-header x-served-by %s\n{servers}\n")
    return started(["haproxy", "-db", "-f", f"{folder}/{name}.cfg"], port, stderr=subprocess.DEVNULL), port


# ---- the clients

def reply(client, kept):
    """A whole reply, and the bytes behind it."""
    while b"\r\n\r\n" not in kept:
        piece = client.recv(65536)
        if not piece:
            raise EOFError
        kept += piece
    head, rest = kept.split(b"\r\n\r\n", 1)
    length = int(re.search(rb"(?i)content-length: (\d+)", head).group(1))
    while len(rest) < length:
        piece = client.recv(65536)
        if not piece:
            raise EOFError
        rest += piece
    return head, rest[length:]


def calls(task):
    """What one caller is told, for some of the clients by turns: by client the sums of the charges, who served, and how many requests were cut off."""
    port, number, count = task
    own = keys()[number::CALLERS]
    told, by, states, cut = collections.defaultdict(lambda: [0, 0]), collections.defaultdict(set), collections.Counter(), collections.Counter()
    client, kept = None, b""
    for at in range(count):
        key, body = own[at % len(own)], b'{"query":"%s"}' % DOCUMENTS[(at // len(own)) % len(DOCUMENTS)]
        try:
            if client is None:
                client, kept = socket.create_connection(("127.0.0.1", port), timeout=20), b""
            client.sendall(b"POST /graphql HTTP/1.1\r\nhost: g\r\nauthorization: Bearer %s\r\ncontent-type: application/json\r\ncontent-length: %d\r\n\r\n%s" % (key.encode(), len(body), body))
            head, kept = reply(client, kept)
        except (OSError, EOFError):
            client = None
            cut[key] += 1
            continue
        status = head.split(b" ")[1].decode()
        states[status] += 1
        served, charged = re.search(rb"x-served-by: (\S+)", head), re.search(rb"x-cost-charged: (\S+) (\S+)", head)
        if served:
            by[key].add(served.group(1).decode())
        if charged:
            told[key][0] += millionths(charged.group(1).decode())
            told[key][1] += millionths(charged.group(2).decode())
        elif status.startswith("5"):
            cut[key] += 1
        if re.search(rb"(?i)connection: close", head):
            client.close()
            client = None
    return {key: tuple(it) for key, it in told.items()}, dict(by), states, cut


def made(port, count, between=None):
    """What all callers are told; `between` is done once on the way."""
    told, by, states, cut = {}, {}, collections.Counter(), collections.Counter()
    with multiprocessing.Pool(CALLERS) as pool:
        running = pool.map_async(calls, [(port, n, -(-count // CALLERS)) for n in range(CALLERS)])
        if between:
            time.sleep(2)
            between()
        for one in running.get(timeout=1200):
            told.update(one[0])
            by.update(one[1])
            states += one[2]
            cut += one[3]
    return told, by, states, cut


# ---- what has to hold

BOUND = (4 * 10**6, 3 * 10**6)


def compare(name, gateways, found):
    """The accounts of all gateways beside what clients were told."""
    told, by, states, cut = found
    say(f"{name}: {sum(states.values())} replies {dict(states)}, {sum(cut.values())} cut off")
    say(f"{name}: each client was served by one gateway: {sum(len(it) == 1 for it in by.values())} of {len(by)}", len(by) == CLIENTS and all(len(it) == 1 for it in by.values()))
    settled = collections.defaultdict(lambda: (0, 0))
    for gateway in gateways:
        for key, (types, fields) in gateway.accounts().items():
            settled[key] = (settled[key][0] + types, settled[key][1] + fields)
    past = [key for n, key in enumerate(keys()) if max(settled[key]) > allowance(n) * 10**6]
    say(f"{name}: {CLIENTS - len(past)} of {CLIENTS} clients have no more settled than their allowance", not past)
    wrong = [key for key in keys() if not all(t <= s <= t + cut[key] * b for s, t, b in zip(settled[key], told.get(key, (0, 0)), BOUND))]
    more = sum(settled[key][0] - told.get(key, (0, 0))[0] for key in keys())
    say(f"{name}: settled is what was told for {CLIENTS - len(wrong)} of {CLIENTS} clients" + (f", {more / 1e6:g} in types above it by what was cut off" if more else ""), not wrong)


def run(folder, up, proxy, name, has_journal):
    own = tempfile.mkdtemp(dir=folder)
    for file in ("schema", "clients"):
        shutil.copy(f"{folder}/{file}", own)
    gateways = [Gateway(own, n, up, has_journal) for n in range(3)]
    front, port = proxy(own, gateways, "front")
    found = made(port, COUNT, gateways[1].kill_and_start if has_journal else None)
    front.terminate()
    front.wait(timeout=10)
    compare(name, gateways, found)
    return found[1]


def moved(folder, up, proxy, name, before):
    """How many clients have another gateway where two of three serve."""
    own = tempfile.mkdtemp(dir=folder)
    for file in ("schema", "clients"):
        shutil.copy(f"{folder}/{file}", own)
    gateways = [Gateway(own, n, up, False) for n in range(3)]
    seen = []
    for some, call in ((gateways, "three"), (gateways[:2], "two")):
        front, port = proxy(own, some, call)
        seen.append(made(port, CLIENTS * CALLERS)[1])
        front.terminate()
        front.wait(timeout=10)
    changed = sum(seen[0].get(key) != seen[1].get(key) for key in keys())
    lost = sum(any(it.endswith(str(gateways[2].port)) for it in seen[0].get(key, ())) for key in keys())
    say(f"{name}: with two gateways in place of three {changed} of {CLIENTS} clients have moved; {lost} were those of the gateway that went", changed >= lost)
    for gateway in gateways:
        gateway.accounts()


def main():
    has_journal = "--journal" in subprocess.run([PROGRAM], capture_output=True, text=True).stderr
    with tempfile.TemporaryDirectory() as folder:
        with open(f"{folder}/schema", "w") as file:
            file.write(SCHEMA)
        with open(f"{folder}/clients", "w") as file:
            file.write("clients 2\nwindow 86400\n" + "".join(f"{key} {allowance(n)} {allowance(n)}\n" for n, key in enumerate(keys())))
        try:
            up = upstream()
            for proxy, name in ((nginx, "nginx"), (haproxy, "haproxy")):
                moved(folder, up, proxy, name, run(folder, up, proxy, name, has_journal))
        finally:
            for it in STARTED:
                if it.poll() is None:
                    it.kill()
    print("the journal's part wasn't tried: this program keeps none" if not has_journal else "one gateway was ended and started again over its journal")
    print("all as it has to be" if not FAULTS else f"{len(FAULTS)} NOT AS THEY HAVE TO BE")
    return 1 if FAULTS else 0


if __name__ == "__main__":
    sys.exit(main())
