"""What the checks share that run the built program over loopback: a compiler's preload (`calls.c`), an upstream, and clients."""

import collections
import os
import re
import shutil
import socket
import subprocess
import sys
import tempfile
import threading
import time

HERE = os.path.dirname(os.path.abspath(__file__))
PROGRAM = os.path.join(HERE, "../crates/gateway_cli/out/gateway_cli")
UNIT = 10**6

SCHEMA = "type Query { user: User } type User { id: ID! friends: [User!] @listSize(assumedSize: 3) }"
PLAIN = "{ user { id } }"
FEWER = "{ user { friends { id } } }"
BROKEN = "{ user { friends { friends { id } } } }"
REFUSED = "{ user { colour } }"
REPLIES = {PLAIN: b'{"data":{"user":{"id":"1"}}}', FEWER: b'{"data":{"user":{"friends":[{"id":"2"}]}}}'}

Call = collections.namedtuple("Call", "name fd size place result error bytes")
Reply = collections.namedtuple("Reply", "status head body charged")


def said_by(*words):
    try:
        return subprocess.run(words, capture_output=True, text=True, check=True).stdout.strip()
    except (OSError, subprocess.CalledProcessError):
        return ""


def compilers():
    """Command lines that may compile a preload: the system's compilers, and the one of the kit."""
    common = ["-shared", "-fPIC", "-O1", "-nostdlib"]
    yield from ([name, *common] for name in ("cc", "clang", "gcc") if shutil.which(name))
    page = said_by("rt", "doc")
    if page:
        tools = f"{os.path.dirname(page)}/toolchain/bin"
        yield [f"{tools}/clang", "--target=x86_64-unknown-linux-gnu", "--no-default-config", "-fuse-ld=lld", f"--ld-path={tools}/ld.lld", *common]


def preload(folder):
    """The preload `calls.c`, compiled into this folder; none where nothing here compiles it, or the program wouldn't be run by it."""
    made = os.path.join(folder, "calls.so")
    for words in compilers():
        done = subprocess.run([*words, "-o", made, os.path.join(HERE, "calls.c")], capture_output=True, check=False)
        if done.returncode == 0:
            return made
    return None


def calls_in(name):
    """The calls that a preload has recorded."""
    found = []
    with open(name) as file:
        for line in file:
            word, *numbers, data = line.split()
            found.append(Call(word, *map(int, numbers), b"" if data == "-" else bytes.fromhex(data)))
    return found


def listening(number):
    """The port at which this process listens over IPv4; none where it doesn't."""
    try:
        own = {os.readlink(f"/proc/{number}/fd/{it}") for it in os.listdir(f"/proc/{number}/fd")}
    except OSError:
        return None
    with open("/proc/net/tcp") as table:
        for _, address, _, state, *_, inode in (line.split()[:10] for line in list(table)[1:]):
            if state == "0A" and f"socket:[{inode}]" in own:
                return int(address.split(":")[1], 16)
    return None


def port_of(gateway, seconds=30):
    """The port at which a gateway listens that was told to take any; none where it has ended before it does."""
    until = time.monotonic() + seconds
    while getattr(gateway, "port", None) is None and time.monotonic() < until:
        gateway.port = listening(gateway.pid)
        if gateway.poll() is not None:
            break
        time.sleep(0.003)
    return gateway.port


def millionths(text):
    whole, _, part = text.partition(".")
    return int(whole) * UNIT + int(part.ljust(6, "0"))


def received(client):
    """What comes until the end, or until the connection is reset."""
    text = b""
    try:
        while piece := client.recv(65536):
            text += piece
    except ConnectionResetError:
        pass
    return text


def one_message(client, text=b""):
    """One request or one reply with its length: all of it, or what there was before the end. And what came behind it."""
    while True:
        head, ends, rest = text.partition(b"\r\n\r\n")
        length = re.search(rb"\r\ncontent-length: *(\d+)", head, re.I)
        whole = len(head) + 4 + int(length.group(1) if length else 0)
        if ends and len(text) >= whole:
            return text[:whole], text[whole:]
        piece = client.recv(65536)
        if not piece:
            return text, b""
        text += piece


def answer_usually(client, request):
    """Answers a request whose document is known, and hangs up at another."""
    asked = request.count(b"friends")
    if asked < 2:
        data = REPLIES[FEWER if asked else PLAIN]
        client.sendall(b"HTTP/1.1 200 OK\r\ncontent-type: application/json\r\ncontent-length: %d\r\n\r\n%s" % (len(data), data))


class Upstream:
    """A GraphQL server: one thread for each connection, and what each request was."""

    def __init__(self, answer=answer_usually):
        self.listener = socket.create_server(("127.0.0.1", 0), backlog=256)
        self.address = "127.0.0.1:%d" % self.listener.getsockname()[1]
        self.requests = []
        self.answer = answer
        threading.Thread(target=self.serve, daemon=True).start()

    def serve(self):
        while True:
            try:
                client, _ = self.listener.accept()
            except OSError:
                return
            threading.Thread(target=self.serve_one, args=(client,), daemon=True).start()

    def serve_one(self, client):
        with client:
            try:
                request, _ = one_message(client)
                self.requests.append(request)
                self.answer(client, request)
            except OSError:
                pass

    def close(self):
        self.listener.close()


def request(key, document, *fields, last=True, variables=""):
    """The text of a request."""
    body = ('{"query":"%s"%s}' % (document, variables)).encode()
    lines = [f"x-client-key: {key}", "content-type: application/json", f"content-length: {len(body)}", *(["connection: close"] if last else []), *fields]
    return ("POST /graphql HTTP/1.1\r\nhost: g\r\n" + "".join(f"{line}\r\n" for line in lines) + "\r\n").encode() + body


def reply_in(text):
    """A reply from its text; none where it isn't whole."""
    head, ends, body = text.partition(b"\r\n\r\n")
    status = re.match(rb"HTTP/1\.1 (\d{3}) ", head)
    length = re.search(rb"content-length: (\d+)", head)
    if not ends or not status or not length or len(body) < int(length.group(1)):
        return None
    charged = re.search(rb"x-cost-charged: (\S+) (\S+)", head)
    return Reply(int(status.group(1)), head.decode(), body, [millionths(it.decode()) for it in charged.groups()] if charged else None)


def ask(gateway, text):
    """The reply of a gateway to a request on a connection of its own; none where there is none."""
    port = port_of(gateway)
    if port is None:
        return None
    try:
        with socket.create_connection(("127.0.0.1", port), timeout=40) as client:
            client.sendall(text)
            return reply_in(received(client))
    except OSError:
        return None


def closing(lines):
    """The accounts that closing lines tell: by its key the window of each client, what it spent there, and what it carried into it."""
    found = {}
    for key, window, *cost in re.findall(r"^(\S+) window (\d+) settled (\S+) (\S+)(?: carried (\S+) (\S+))?$", lines, re.M):
        found[key] = [int(window), *(millionths(it) for it in cost if it)]
    return found


class Room:
    """A folder with a schema and a client file, in which gateways are run."""

    def __init__(self, program, clients, schema=SCHEMA, window=86400):
        self.folder = tempfile.mkdtemp(prefix="served-", dir="/dev/shm" if os.path.isdir("/dev/shm") else None)
        self.program = os.path.abspath(program)
        self.put("schema", schema)
        self.put("clients", f"clients 2\nwindow {window}\n" + "".join(f"{key} {most}.000 {most}.000{' carry' if carry else ''}\n" for key, (most, carry) in clients.items()))
        self.put("stop", "")

    def put(self, name, text):
        with open(os.path.join(self.folder, name), "wb" if isinstance(text, bytes) else "w") as file:
            file.write(text)

    def path(self, name):
        return os.path.join(self.folder, name)

    def start(self, *words, env=None):
        """A gateway with these words behind its schema and its clients."""
        return subprocess.Popen([self.program, "serve", "schema", "clients", *words], cwd=self.folder, env={**os.environ, **(env or {})}, stdin=subprocess.DEVNULL,
                                stdout=subprocess.PIPE, stderr=subprocess.PIPE, text=True)

    def remove(self):
        shutil.rmtree(self.folder, ignore_errors=True)


def ended(gateway, seconds=60):
    """The status of a gateway that ends by itself, and what it wrote."""
    try:
        out, err = gateway.communicate(timeout=seconds)
    except subprocess.TimeoutExpired:
        gateway.kill()
        out, err = gateway.communicate()
        return "no end", out, err
    return gateway.returncode, out, err


def program_of(words):
    """The program that is named, or the one that a gate has built; ends the check where there is none."""
    program = words[0] if words else PROGRAM
    if not os.path.isfile(program):
        print(f"{os.path.basename(sys.argv[0])}: there is no program {program}")
        sys.exit(1)
    return os.path.abspath(program)
