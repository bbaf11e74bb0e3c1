#!/usr/bin/env python3
"""Whether the schemas of examples/schemas, which hold numbers with a fraction, are priced, served and introspected.

    checks/schemas.py [PROGRAM]

PROGRAM is the built program (release/tellcrock unless named). Of each schema NAME.graphql: its operation NAME_query.graphql is priced with the variables of NAME.json; a gateway over it
is asked the operation, over an upstream that replies NAME_reply.json, and has to answer what `meter` says, at that cost, with each number as the double that the reply holds; what it
sends on has to be what `forward` prints; and it is asked the usual introspection query of graphql-js, from whose answer a client's schema is built and compared. A reply whose numbers stand
at other types has to be refused. graphql-js has to stand where Debian's package node-graphql puts it, or where GRAPHQL_JS says. Ends with status 1 where something differs.
"""
import json
import os
import socket
import subprocess
import sys
import tempfile
import threading
import time

HERE = os.path.dirname(os.path.realpath(__file__))
FOLDER = os.path.dirname(HERE) + "/examples/schemas"
CLIENT = HERE + "/introspection/client.js"
CLIENTS = "clients 2\nwindow 86400\nreader 1000000.000 1000000.000\n"


def free_port():
    with socket.socket() as one:
        one.bind(("127.0.0.1", 0))
        return one.getsockname()[1]


def body_of(taken):
    """The body of a request or a reply whose length its head says, once it is whole."""
    head, mark, rest = taken.partition(b"\r\n\r\n")
    if not mark:
        return None
    for line in head.split(b"\r\n"):
        if line.lower().startswith(b"content-length:"):
            return rest if len(rest) >= int(line.split(b":")[1]) else None
    return rest


def upstream(door, reply, sent):
    """Replies this to one request, and keeps its body."""
    wire, _ = door.accept()
    with wire:
        taken = b""
        while body_of(taken) is None:
            taken += wire.recv(65536)
        sent.append(body_of(taken).decode())
        wire.sendall(b"HTTP/1.1 200 OK\r\ncontent-type: application/json\r\ncontent-length: %d\r\n\r\n" % len(reply) + reply)


def asked(port, query):
    """The status, the charged cost and the body that a gateway replies."""
    body = json.dumps(query).encode()
    with socket.create_connection(("127.0.0.1", port)) as wire:
        wire.sendall(b"POST /graphql HTTP/1.1\r\nhost: g\r\nx-client-key: reader\r\ncontent-type: application/json\r\nconnection: close\r\ncontent-length: %d\r\n\r\n" % len(body) + body)
        taken = b""
        while body_of(taken) is None:
            piece = wire.recv(65536)
            if not piece:
                break
            taken += piece
    head = taken.split(b"\r\n\r\n")[0].decode()
    cost = [line.split(": ")[1] for line in head.split("\r\n") if line.startswith("x-cost-charged")]
    return int(head.split(" ")[1]), (cost or [""])[0], (body_of(taken) or b"").decode()


def connected(port, gateway):
    for _ in range(200):
        with socket.socket() as one:
            if gateway.poll() is not None:
                break
            line = open("/proc/net/tcp").read()
            if ":%04X 00000000:0000 0A" % port in line:
                return
        time.sleep(0.05)
    sys.exit("the gateway didn't begin")


def served(program, name, files, variables, operation, folder):
    """What a gateway answers to the operation and to the introspection query, and what it sent on."""
    with open(folder + "/clients", "w") as file:
        file.write(CLIENTS)
    port, sent = free_port(), []
    with socket.socket() as door:
        door.bind(("127.0.0.1", 0))
        door.listen()
        answers = threading.Thread(target=upstream, args=(door, open(files + "_reply.json", "rb").read(), sent), daemon=True)
        answers.start()
        gateway = subprocess.Popen([program, "serve", files + ".graphql", folder + "/clients", "--listen", "127.0.0.1:%d" % port, "--upstream", "127.0.0.1:%d" % door.getsockname()[1],
                                    "--workers", "1", "--connections", "2"], stdout=subprocess.DEVNULL, stderr=subprocess.DEVNULL)
        try:
            connected(port, gateway)
            query = {"query": open(files + "_query.graphql").read(), "variables": variables}
            if operation:
                query["operationName"] = operation
            told = asked(port, query)
            usual = subprocess.run(["node", CLIENT, "query"], capture_output=True, text=True, check=True).stdout
            return told, asked(port, {"query": usual}), sent
        finally:
            try:
                gateway.wait(5)
            except subprocess.TimeoutExpired:
                gateway.kill()


def run(program, *words):
    return subprocess.run([program, *words], capture_output=True, text=True)


def lines(program, name):
    """What is to be so of a schema, each with whether it is."""
    files = FOLDER + "/" + name
    raw = json.load(open(files + ".json"))
    operation = "Move" if name == "issues" else None
    words = [files + ".graphql", files + "_query.graphql", "--variables", files + ".json"] + (["--operation", operation] if operation else [])
    price = run(program, "price", *words)
    yield price.returncode == 0, "priced " + (price.stdout or price.stderr).strip()
    meter = run(program, "meter", *words[:2], files + "_reply.json", *words[2:])
    yield meter.returncode == 0, "metered " + (meter.stdout.split("\n")[0] or meter.stderr.strip())
    cost, text = (meter.stdout + "\n").split("\n")[:2]
    yield json.loads(text or "{}")["data"] == without_added(json.load(open(files + "_reply.json"))["data"]), "each number as the reply has it"
    forward = run(program, "forward", *words)
    with tempfile.TemporaryDirectory() as folder:
        told, schema, sent = served(program, name, files, raw, operation, folder)
        yield told == (200, cost, text), "served %d, charged %s" % told[:2]
        yield sent == [forward.stdout.rstrip("\n")], "sent on as forward prints it"
        with open(folder + "/answer", "w") as file:
            file.write(schema[2])
        client = subprocess.run(["node", CLIENT, folder + "/answer", files + ".graphql"], capture_output=True, text=True)
        yield schema[0] == 200 and client.returncode == 0, "introspected: " + (client.stdout or client.stderr).strip()
        with open(folder + "/without", "w") as file:
            file.write("".join(line for line in open(files + ".graphql") if not line.startswith("scalar Float @floats")))
        refused = run(program, "check", folder + "/without")
        yield refused.returncode == 1 and "Float" in refused.stderr, "without the line: " + refused.stderr.strip()


def without_added(value):
    """Without the names of types that were added."""
    if isinstance(value, list):
        return [without_added(it) for it in value]
    if isinstance(value, dict):
        return {key: without_added(it) for key, it in value.items() if key != "gateway_typename"}
    return value


def main():
    program = os.path.abspath(sys.argv[1] if len(sys.argv) > 1 else HERE + "/../release/tellcrock")
    names = sorted(it[:-len("_query.graphql")] for it in os.listdir(FOLDER) if it.endswith("_query.graphql"))
    bad = 0
    for name in names:
        for good, line in lines(program, name):
            bad += not good
            print("%s %s: %s" % ("ok " if good else "BAD", name, line))
    print("%d schemas, %d differ" % (len(names), bad))
    sys.exit(1 if bad or not names else 0)


main()
