"""Serves many clients that are idle, and clients that send a byte a second, beside a few that make requests; over loopback alone.

    python3 checks/many_clients.py [IDLE [PROGRAM]]

IDLE clients (10,000 without it) make one request each and keep their connections. Then it has to take no longer than 5 ms more, at the median, to
answer a request of a further one, and the gateway has to hold less than 100 MB. Then 1,000 clients send a byte each second, and hold nobody up.
Some of the idle ones make a further request on their connections. At the end the gateway is asked to stop, and has to write its closing lines. Beside 4
and 16 workers 64 clients a second get their last reply and keep their connections, and hold nobody up for more than 5 ms; one of them can send for two
seconds. Who is refused by its head alone is answered at once, though it announces a body. Where wrk is installed, it makes requests on 4 and on 1,000
connections by turns; where nginx is, that is the upstream then, and wrk does so through an nginx too.

All ends within some three minutes. Only processes that were started here are ended."""

import multiprocessing
import os
import random
import re
import resource
import shutil
import signal
import socket
import statistics
import subprocess
import sys
import tempfile
import threading
import time

HERE = os.path.dirname(os.path.abspath(__file__))
IDLE = int(sys.argv[1]) if len(sys.argv) > 1 else 10_000
PROGRAM = os.path.abspath(sys.argv[2] if len(sys.argv) > 2 else os.path.join(HERE, "../crates/gateway_cli/out/gateway_cli"))
SCHEMA = "type Query { user: User } type User { id: ID! }"
CLIENTS = "clients 2\nwindow 86400\nalpha 100000000 100000000\n"
BODY = b'{"query":"{ user { id } }"}'
HEAD = b"POST /graphql HTTP/1.1\r\nhost: g\r\nx-client-key: alpha\r\ncontent-type: application/json\r\ncontent-length: %d\r\n\r\n" % len(BODY)
DATA = b'{"data":{"user":{"id":"1"}}}'
SLOW = 1_000
LEAVING = 64
LAST = [b"\x00\x00\x00\x00\n", HEAD.replace(b"host: g", b"connection: close") + BODY, HEAD.replace(b"x-client-key: alpha\r\n", b""), HEAD.replace(b"/graphql", b"/other") + BODY]
PAIRS = 9
FAULTS = []
STARTED = []


def free_port():
    with socket.create_server(("127.0.0.1", 0)) as server:
        return server.getsockname()[1]


def say(line, holds=True):
    print(line if holds else f"{line}: NOT AS IT HAS TO BE", flush=True)
    if not holds:
        FAULTS.append(line)


def upstream(port, ready):
    """Answers each request with the same data, in a few processes."""
    server = socket.create_server(("127.0.0.1", port), backlog=1024, reuse_port=False)
    for _ in range(3):
        if os.fork() == 0:
            break
    ready.release()
    reply = b"HTTP/1.1 200 OK\r\ncontent-length: %d\r\n\r\n%s" % (len(DATA), DATA)
    while True:
        connection, _ = server.accept()
        with connection:
            kept = b""
            while not kept.endswith(b"}"):
                piece = connection.recv(65536)
                if not piece:
                    break
                kept += piece
            try:
                connection.sendall(reply)
            except OSError:
                pass


def ask(client):
    """One request on a connection that is kept, and how long its answer took."""
    begun = time.perf_counter()
    client.sendall(HEAD + BODY)
    kept = b""
    while not kept.endswith(DATA):
        piece = client.recv(65536)
        if not piece:
            raise EOFError(kept)
        kept += piece
    return time.perf_counter() - begun


def connect(port):
    client = socket.create_connection(("127.0.0.1", port), timeout=60)
    client.setsockopt(socket.IPPROTO_TCP, socket.TCP_NODELAY, 1)
    return client


def times(port, count):
    """How long requests take, each second one on a connection of its own."""
    found = []
    with connect(port) as kept:
        for at in range(count):
            if at % 2:
                with connect(port) as client:
                    found.append(ask(client))
            else:
                found.append(ask(kept))
    return found


def told(found):
    ordered = sorted(found)
    return "half within %.2f ms, 99 of 100 within %.2f ms, all within %.2f ms" % tuple(1000 * ordered[int(len(ordered) * part) - 1] for part in (0.5, 0.99, 1))


def memory(process):
    return int(re.search(r"VmRSS:\s+(\d+)", open(f"/proc/{process.pid}/status").read())[1]) / 1024


def open_all(port, count):
    clients = []
    for _ in range(count):
        client = connect(port)
        ask(client)
        clients.append(client)
    return clients


def send_slowly(port, end):
    """A byte each second on each of many connections, until the end; those that are closed are opened anew."""
    text, clients = HEAD + BODY, []
    while not end.is_set():
        begun = time.time()
        while len(clients) < SLOW and not end.is_set():
            clients.append([connect(port), 0])
        for each in clients:
            try:
                each[0].send(text[each[1]:each[1] + 1])
                each[1] += 1
            except OSError:
                each[0].close()
                each[1] = -1
        clients = [each for each in clients if 0 <= each[1] < len(text)]
        end.wait(max(0, begun + 1 - time.time()))
    for client, _ in clients:
        client.close()


def start(folder, port, up, workers, *words, descriptors=None):
    stop = os.path.join(folder, "stop")
    if os.path.exists(stop):
        os.remove(stop)
    gateway = subprocess.Popen([PROGRAM, "serve", os.path.join(folder, "schema"), os.path.join(folder, "clients"), "--listen", f"127.0.0.1:{port}",
                                "--upstream", f"127.0.0.1:{up}", "--workers", str(workers), "--stop", stop, *words], stdout=subprocess.PIPE, stderr=subprocess.PIPE,
                               preexec_fn=None if descriptors is None else lambda: resource.setrlimit(resource.RLIMIT_NOFILE, (descriptors, descriptors)))
    STARTED.append(gateway)
    for _ in range(500):
        try:
            connect(port).close()
            return gateway
        except OSError:
            time.sleep(0.02)
    raise SystemExit("the gateway doesn't listen")


def stopped(folder, gateway):
    """Asks for the end, and tells how long it took and what was written."""
    begun = time.time()
    open(os.path.join(folder, "stop"), "w").close()
    try:
        out, err = gateway.communicate(timeout=40)
    except subprocess.TimeoutExpired:
        gateway.kill()
        out, err = gateway.communicate()
    return time.time() - begun, out.decode(), err.decode(), gateway.returncode


def many_idle(folder, up):
    port = free_port()
    gateway = start(folder, port, up, 16, "--idle", str(IDLE + 2 * SLOW), "--endless")
    before = times(port, 1000)
    say(f"with no other client: {told(before)}; the gateway holds {memory(gateway):.1f} MB")
    begun = time.time()
    idle = open_all(port, IDLE)
    say(f"{len(idle)} clients made a request each in {time.time() - begun:.1f} s and keep their connections")
    beside = times(port, 1000)
    more = 1000 * (statistics.median(beside) - statistics.median(before))
    say(f"beside them: {told(beside)}; {more:+.2f} ms at the median", more <= 5)
    held = memory(gateway)
    say(f"the gateway holds {held:.1f} MB", held < 100)
    end = threading.Event()
    slow = threading.Thread(target=send_slowly, args=(port, end))
    slow.start()
    time.sleep(3)
    beside, until = [], time.time() + 15
    while time.time() < until:
        beside += times(port, 50)
    say(f"beside {SLOW} more that send a byte each second, {len(beside)} requests in 15 s: {told(beside)}", statistics.median(beside) - statistics.median(before) <= 0.005)
    end.set()
    slow.join()
    again = [ask(client) for client in random.sample(idle, min(500, len(idle)))]
    say(f"{len(again)} of the idle clients made a further request on their connections: {told(again)}")
    seconds, out, err, status = stopped(folder, gateway)
    say(f"asked to stop, it ended after {seconds:.1f} s with status {status}: {out.strip()!r} {err.strip()!r}", status == 8 and "exchanges" in out and seconds < 5)
    for client in idle:
        client.close()


def keep_last(port, end, kept):
    """Clients that get their last reply, so many a second, and keep their connections until the end."""
    while not end.is_set():
        begun = time.time()
        for at in range(LEAVING):
            client = connect(port)
            client.sendall(LAST[at % len(LAST)])
            kept.append(client)
            end.wait(max(0, begun + at / LEAVING - time.time()))


def many_leaving(folder, up):
    """Beside clients that don't close after their last reply, a good one; and for how long one of them can send."""
    for workers in (4, 16):
        port, end, kept = free_port(), threading.Event(), []
        gateway = start(folder, port, up, workers, "--idle", "1000", "--endless")
        before = times(port, 400)
        leaving = threading.Thread(target=keep_last, args=(port, end, kept), daemon=True)
        leaving.start()
        time.sleep(4)
        beside, until = [], time.time() + 6
        try:
            while time.time() < until:
                beside += times(port, 20)
        except (OSError, EOFError) as fault:
            say(f"{workers} workers: a request isn't answered: {fault}", False)
            beside.append(60)
        more = 1000 * (statistics.median(beside) - statistics.median(before))
        say(f"{workers} workers, beside {LEAVING} more a second that don't close after their last reply, {len(beside)} requests: {told(beside)}; {more:+.2f} ms at the median", more <= 5)
        with connect(port) as client:
            client.sendall(LAST[0])
            begun = time.time()
            try:
                while time.time() < begun + 10:
                    client.sendall(b" ")
                    time.sleep(0.05)
            except OSError:
                pass
            passed = time.time() - begun
            say(f"one of them could send for {passed:.1f} s", 1.9 < passed < 2.9)
        end.set()
        leaving.join()
        held = len(os.listdir(f"/proc/{gateway.pid}/fd"))
        seconds, out, err, status = stopped(folder, gateway)
        say(f"with {held} descriptors and {len(kept)} such clients it ended after {seconds:.1f} s with status {status}", status == 8 and seconds < 5 and held < 4 * LEAVING + 100)
        for client in kept:
            client.close()


def reply(client):
    """All that comes before the end, and how long that took."""
    begun, kept = time.time(), b""
    try:
        while piece := client.recv(65536):
            kept += piece
    except OSError:
        pass
    return time.time() - begun, kept


def told_in_time(folder, up):
    """Clients that announce a body and don't send it: what they are told, and when."""
    port = free_port()
    gateway = start(folder, port, up, 4, "--idle", "1000", "--endless")
    for text, status, message, least, most in (
            (HEAD.replace(b"POST", b"GET"), 405, b"BAD_METHOD", 0, 1), (HEAD.replace(b"/graphql", b"/other"), 404, b"NOT_FOUND", 0, 1),
            (HEAD.replace(b"x-client-key: alpha\r\n", b""), 401, b"NO_KEY", 0, 1), (HEAD.replace(b"host: g", b"transfer-encoding: chunked"), 501, b"CHUNKED", 0, 1),
            (HEAD.replace(b"host: g", b"content-encoding: gzip"), 415, b"CODED", 0, 1), (HEAD.replace(b"content-type: application/json\r\n", b""), 415, b"BAD_MEDIA", 0, 1),
            (HEAD.replace(b"host: g", b"expect: 100-continue").replace(b"alpha", b"a b"), 401, b"NO_KEY", 9.5, 13)):
        with connect(port) as client:
            client.sendall(text)
            seconds, came = reply(client)
            first = came.split(b"\r\n")[0].decode()
            say(f"{message.decode()}: {first!r} after {seconds:.1f} s", first.startswith(f"HTTP/1.1 {status} ") and message in came and least <= seconds <= most)
    stopped(folder, gateway)


def few_descriptors(folder, up):
    """Calls by more clients than the gateway has descriptors for, and then by one more."""
    for words, wanted in ((["--idle", "1000"], 400), ([], 4)):
        port = free_port()
        gateway = start(folder, port, up, 4, "--endless", *words, descriptors=60 if words else 14)
        kept = [connect(port) for _ in range(40)] if not words else open_all(port, wanted)
        time.sleep(0.5)
        for client in kept:
            client.close()
        time.sleep(1.5)
        found = times(port, 200)
        _, out, err, status = stopped(folder, gateway)
        say(f"with few descriptors{' and turns' if words else ''}, after {len(kept)} clients: {told(found)}; {out.split(chr(10))[-2]}", status == 8)


def by_wrk(port, connections, script):
    run = subprocess.run(["wrk", "-t2", f"-c{connections}", "-d2s", "--latency", "--timeout", "10s", "-s", script, f"http://127.0.0.1:{port}/graphql"], capture_output=True, text=True)
    rate = float(re.search(r"Requests/sec:\s+(\S+)", run.stdout)[1])
    halves = re.findall(r"^ +(50|99)% +(\S+)", run.stdout, re.M)
    faults = re.findall(r"(Socket errors.*|Non-2xx.*)", run.stdout)
    return rate, f"{rate:.0f} requests a second, p50 {halves[0][1]}, p99 {halves[1][1]} {' '.join(faults)}"


def with_nginx(folder, up):
    """An nginx that answers each request with the same data, and one before it as a proxy: both in one process, and where they listen. Without nginx, none."""
    if not shutil.which("nginx"):
        return None, up, None
    data, proxy, config = free_port(), free_port(), os.path.join(folder, "nginx.conf")
    paths = " ".join(f"{name}_temp_path {folder}/{name};" for name in ("client_body", "proxy", "fastcgi", "uwsgi", "scgi"))
    with open(config, "w") as file:
        file.write(f"worker_processes 4; daemon off; pid {folder}/nginx.pid; error_log /dev/null; worker_rlimit_nofile 20000; events {{ worker_connections 4096; }}\n"
                   f"http {{ access_log off; {paths} keepalive_requests 1000000;\n"
                   f"server {{ listen 127.0.0.1:{data} backlog=1024; location / {{ default_type application/json; return 200 '{DATA.decode()}'; }} }}\n"
                   f"server {{ listen 127.0.0.1:{proxy} backlog=1024; location / {{ proxy_pass http://127.0.0.1:{data}; proxy_set_header connection close; }} }} }}\n")
    nginx = subprocess.Popen(["nginx", "-c", config, "-p", folder], stderr=subprocess.DEVNULL)
    STARTED.append(nginx)
    time.sleep(1)
    return nginx, data, proxy


def load(folder, up):
    """Requests a second, in turns with 4 and with 1,000 connections, so that whatever else the machine does falls on both."""
    script = os.path.join(folder, "post.lua")
    with open(script, "w") as file:
        file.write('wrk.method = "POST"\nwrk.body = \'%s\'\nwrk.headers["x-client-key"] = "alpha"\nwrk.headers["content-type"] = "application/json"\n' % BODY.decode())
    nginx, data, proxy = with_nginx(folder, up)
    port = free_port()
    gateway = start(folder, port, data, 4, "--idle", "4000", "--endless")
    found = {4: [], 1000: []}
    for at in range(PAIRS):
        for connections in (4, 1000) if at % 2 else (1000, 4):
            found[connections].append(by_wrk(port, connections, script))
    few, many = (statistics.median_low(found[each]) for each in (4, 1000))
    say(f"wrk, 4 workers, 4 connections: {few[1]}, the middle of {PAIRS}")
    say(f"wrk, 4 workers, 1000 connections: {many[1]}, the middle of {PAIRS}", few[0] <= many[0])
    stopped(folder, gateway)
    if nginx:
        say(f"the same through nginx, 1000 connections: {by_wrk(proxy, 1000, script)[1]}")
        nginx.send_signal(signal.SIGTERM)
        nginx.wait(timeout=10)


def main():
    most = resource.getrlimit(resource.RLIMIT_NOFILE)[1]
    wanted = 2 * IDLE + 10 * SLOW
    try:
        resource.setrlimit(resource.RLIMIT_NOFILE, (wanted, max(most, wanted)))
    except (ValueError, OSError):
        resource.setrlimit(resource.RLIMIT_NOFILE, (most, most))
    up, ready = free_port(), multiprocessing.Semaphore(0)
    with tempfile.TemporaryDirectory() as folder:
        for name, text in (("schema", SCHEMA), ("clients", CLIENTS)):
            with open(os.path.join(folder, name), "w") as file:
                file.write(text)
        server = multiprocessing.Process(target=lambda: (os.setpgrp(), upstream(up, ready)), daemon=True)
        server.start()
        ready.acquire()
        try:
            few_descriptors(folder, up)
            many_leaving(folder, up)
            told_in_time(folder, up)
            many_idle(folder, up)
            if shutil.which("wrk"):
                load(folder, up)
        finally:
            for gateway in STARTED:
                gateway.kill()
            os.killpg(server.pid, signal.SIGKILL)
    say("all as it has to be" if not FAULTS else f"{len(FAULTS)} NOT AS THEY HAVE TO BE")
    sys.exit(1 if FAULTS else 0)


if __name__ == "__main__":
    main()
