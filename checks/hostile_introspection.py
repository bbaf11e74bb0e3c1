#!/usr/bin/env python3
"""Asks a gateway for its schema in ways that nobody can pay for, and says what that took.

    python3 checks/hostile_introspection.py [--program PROGRAM] [NAME..]

Each body has up to 16,384 bytes and asks a schema of 85 kB with 149 types for as much as it can. It is sent to a gateway (the built program, or the one that is
named) with `--most-answer 4194304` by a client whose account is empty and by one that has room for any answer, and to one without that option by the client whose
account is empty. This client is refused with 429, or with 400 where the answer is too large; the other one is refused so too, or answered with 200 and at most 4 MiB. A line
says each status, the processor seconds that it took, and how much the gateway's memory has grown beyond what it had before its first body.

Refusing and answering may take 0.2 seconds and 64 MB for each body, and some body has to be refused with 429. The status is 0 exactly where that is so.
"""
import argparse
import itertools
import os
import socket
import subprocess
import sys
import tempfile
import time

TOP = os.path.dirname(os.path.dirname(os.path.abspath(__file__)))
BODY, SECONDS, MEGABYTES, MOST = 16384, 0.2, 64, 4194304
LETTERS = "abcdefghijklmnopqrstuvwxyz"
NAMES = ["".join(name) for length in (1, 2, 3) for name in itertools.product(LETTERS, repeat=length)]
TICK = os.sysconf("SC_CLK_TCK")


def told_types():
    """Types whose descriptions are most of the text."""
    words = ("What is told of this thing, as those have it who look after it. " * 9)[:480]
    types = ['"%s" type T%d { f0: T%d f1: T0 f2: [T1!]! }' % (words, i, (i + 1) % 148) for i in range(148)]
    return "type Query { t: T0 }\n" + "\n".join(types)


def many_fields():
    """Types that are full of fields."""
    types = []
    for i in range(148):
        fields = ['"So." f%d(n: Int = 3): [T%d!]!' % (k, (i * 7 + k * 3) % 148) if k % 3 else "f%d: T%d" % (k, (i + k) % 148) for k in range(24)]
        types.append("type T%d { %s }" % (i, " ".join(fields)))
    return "type Query { t: T0 }\n" + "\n".join(types)


def of_names(piece, around):
    """As many pieces as the body has room for, each under a name of its own."""
    found, used = [], len(around)
    for name in NAMES:
        one = piece % name
        if used + len(one) + 1 > BODY - 40:
            break
        found.append(one)
        used += len(one) + 1
    return around.replace("@", " ".join(found))


BODIES = {
    "descriptions of types below fields": (told_types, of_names("%s:description", "{__schema{types{fields{type{@}}}}}")),
    "descriptions two levels down": (told_types, of_names("%s:description", "{__schema{types{fields{type{fields{type{@}}}}}}}")),
    "descriptions through fragments": (told_types, of_names("%s:__schema{...F}", "{@}fragment F on __Schema{types{fields{type{fields{type{description}}}}}}")),
    "fields of types of fields": (many_fields, of_names("%s:types{fields{type{ofType{ofType{ofType{fields{name}}}}}}}", "{__schema{@}}")),
    "names of fields": (many_fields, of_names("%s:name", "{__schema{types{fields{@}}}}")),
    "reasons": (many_fields, of_names("%s:deprecationReason", "{__schema{types{fields{@}}}}")),
    "defaults": (many_fields, of_names("%s:args{defaultValue}", "{__schema{types{fields{@}}}}")),
    "types by name": (many_fields, of_names('%s:__type(name:\\"T7\\"){...F}', "{@}fragment F on __Type{fields{type{ofType{ofType{ofType{fields{description}}}}}}}")),
}


def free_port():
    with socket.create_server(("127.0.0.1", 0)) as listener:
        return listener.getsockname()[1]


def serve(program, folder, schema, more):
    """A gateway for one client without an allowance and one with a great one, with more words."""
    with open(os.path.join(folder, "schema.graphql"), "w") as file:
        file.write(schema)
    with open(os.path.join(folder, "clients"), "w") as file:
        file.write("clients 2\nwindow 3600\npoor 0.000 0.000\nrich 10000000.000 10000000.000\n")
    port = free_port()
    words = ["serve", "schema.graphql", "clients", "--listen", f"127.0.0.1:{port}", "--upstream", "127.0.0.1:9", "--workers", "1", "--endless", *more]
    gateway = subprocess.Popen([program, *words], cwd=folder, stdout=subprocess.DEVNULL)
    for _ in range(400):
        try:
            socket.create_connection(("127.0.0.1", port)).close()
            return gateway, port
        except OSError:
            time.sleep(0.05)
    sys.exit("the gateway didn't begin")


def ask(port, key, document):
    body = b'{"query":"%s"}' % document.encode()
    assert len(body) <= BODY
    head = f"POST /graphql HTTP/1.1\r\nhost: g\r\nx-client-key: {key}\r\ncontent-type: application/json\r\nconnection: close\r\ncontent-length: {len(body)}\r\n\r\n"
    with socket.create_connection(("127.0.0.1", port)) as client:
        client.sendall(head.encode() + body)
        pieces = []
        while piece := client.recv(1 << 20):
            pieces.append(piece)
    text = b"".join(pieces)
    return text.split(b" ", 2)[1].decode(), len(text.split(b"\r\n\r\n", 1)[1])


def seconds_of(process):
    with open(f"/proc/{process}/stat") as file:
        fields = file.read().rsplit(")", 1)[1].split()
    return (int(fields[11]) + int(fields[12])) / TICK


def peak_of(process):
    with open(f"/proc/{process}/status") as file:
        return next(int(line.split()[1]) / 1024 for line in file if line.startswith("VmHWM"))


def told(program, schema, document, keys, more):
    """Of each client's request: its status, the bytes of the answer, the seconds that it took, and how much memory has grown."""
    with tempfile.TemporaryDirectory() as folder:
        gateway, port = serve(program, folder, schema, more)
        try:
            found, peak = [], peak_of(gateway.pid)
            for key in keys:
                before = seconds_of(gateway.pid)
                status, length = ask(port, key, document)
                found.append((status, length, seconds_of(gateway.pid) - before, peak_of(gateway.pid) - peak))
            return found
        finally:
            gateway.kill()
            gateway.wait()


def main():
    arguments = argparse.ArgumentParser()
    arguments.add_argument("--program", default=os.path.join(TOP, "crates/gateway_cli/out/gateway_cli"))
    arguments.add_argument("names", nargs="*")
    asked = arguments.parse_args()
    program, kept, statuses = os.path.abspath(asked.program), True, set()
    for name in asked.names or BODIES:
        schema, document = BODIES[name][0](), BODIES[name][1]
        found = told(program, schema, document, ["poor", "rich"], ["--most-answer", str(MOST)]) + told(program, schema, document, ["poor"], [])
        poor, rich, unbounded = (status for status, _, _, _ in found)
        good = poor in ("429", "400") and rich in ("200", "400") and unbounded in ("429", "400") and found[1][1] <= MOST
        good = good and all(seconds <= SECONDS and grown <= MEGABYTES for _, _, seconds, grown in found)
        kept = kept and good
        statuses.add(unbounded)
        line = ", ".join(f"{who} {status} in {seconds:.2f} s and {grown:.0f} MB" for who, (status, _, seconds, grown) in zip(("poor", "rich", "poor without the option"), found))
        print(f"{name}: {line}{'' if good else ' <- TOO MUCH'}", flush=True)
    sys.exit(0 if kept and (asked.names or "429" in statuses) else 1)


if __name__ == "__main__":
    main()
