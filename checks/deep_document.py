"""Sends a document of as many fragments as a body holds, each spread in the one before, on a type of objects and on an interface of twelve of them, and
one of fifty-one levels: the first two are priced and served by a worker's thread, the third refused.

    python3 checks/deep_document.py [PROGRAM [COUNT]]"""

import itertools
import os
import shutil
import socket
import subprocess
import sys
import tempfile
import threading
import time

HERE = os.path.dirname(os.path.abspath(__file__))
EXAMPLES = os.path.join(os.path.dirname(HERE), "examples")
PROGRAM = os.path.abspath(sys.argv[1] if len(sys.argv) > 1 else os.path.join(HERE, "../crates/gateway_cli/out/gateway_cli"))
LISTEN, UPSTREAM = ("127.0.0.1", 8379), ("127.0.0.1", 4379)
DATA = b'{"data":{"opened":true}}'
NONE = b'{"data":{"item":null}}'
LEVELS = "{ shelf { books " + "{ authors { books " * 25 + "{ title }" + " } }" * 25 + " } }"


def chain(count, on="Query", around="{%s}"):
    """A chain of so many fragments whose names are as short as can be, on a type whose objects are so far below the root."""
    digits = "abcdefghijklmnopqrstuvwxyz"
    names = ["".join(name) for name in itertools.islice(itertools.product(digits, repeat=3), count)]
    spreads = [f"fragment {name} on {on}{{...{after}}}" for name, after in zip(names, names[1:])]
    return around % ("..." + names[0]) + "".join(spreads) + f"fragment {names[-1]} on {on}{{opened}}"


def schema_of_items(count):
    """A schema whose query has an interface of so many types of objects."""
    types = "".join(f"type Item{at} implements Item{{opened:Boolean}}" for at in range(count))
    return "type Query{item:Item}interface Item{opened:Boolean}" + types


def upstream():
    listener = socket.create_server(UPSTREAM)

    def answer():
        while True:
            client, _ = listener.accept()
            text = b""
            while b"\r\n\r\n" not in text:
                text += client.recv(65536)
            head, body = text.split(b"\r\n\r\n", 1)
            length = int(head.lower().split(b"content-length: ")[1].split(b"\r\n")[0])
            while len(body) < length:
                body += client.recv(65536)
            data = NONE if b"item" in body else DATA
            client.sendall(b"HTTP/1.1 200 OK\r\ncontent-length: %d\r\nconnection: close\r\n\r\n" % len(data) + data)
            client.close()

    threading.Thread(target=answer, daemon=True).start()


def ask(document):
    body = b'{"query":"%s"}' % document.encode()
    head = "POST /graphql HTTP/1.1\r\nhost: g\r\nx-client-key: reader\r\ncontent-type: application/json\r\nconnection: close\r\n"
    with socket.create_connection(LISTEN) as client:
        client.sendall(head.encode() + b"content-length: %d\r\n\r\n" % len(body) + body)
        text = b""
        while piece := client.recv(65536):
            text += piece
    return text.split(b" ", 2)[1].decode(), text[text.index(b"\r\n\r\n") + 4 :].decode(), len(body)


def serve(folder, schema):
    words = ["serve", schema, "day.clients", "--listen", "%s:%d" % LISTEN, "--upstream", "%s:%d" % UPSTREAM, "--workers", "2", "--connections", "1"]
    gateway = subprocess.Popen([PROGRAM, *words], cwd=folder, stdout=subprocess.PIPE)
    time.sleep(1)
    return gateway


def ask_chain(named, document):
    begun = time.time()
    status, body, size = ask(document)
    print(f"{named}, {size} bytes: {status} {body} in {time.time() - begun:.2f} s")
    return status, body


def end(gateway):
    out, _ = gateway.communicate(timeout=60)
    print(out.decode(), end="")
    return gateway.returncode


def main():
    count = int(sys.argv[2]) if len(sys.argv) > 2 else 8900
    upstream()
    gateway = serve(EXAMPLES, "books.graphql")
    first = ask_chain("a chain of fragments", chain(count))
    other, refusal, _ = ask(LEVELS)
    print(f"fifty-two levels: {other} {refusal}")
    status = end(gateway)
    with tempfile.TemporaryDirectory() as folder:
        with open(os.path.join(folder, "items.graphql"), "w") as file:
            file.write(schema_of_items(12))
        shutil.copy(os.path.join(EXAMPLES, "day.clients"), folder)
        gateway = serve(folder, "items.graphql")
        second = ask_chain("a chain of fragments on an interface of twelve types", chain(count, "Item", "{item{%s}}"))
        third = ask_chain("the same, shorter", chain(9, "Item", "{item{%s}}"))
        status = end(gateway) or status
    found = [first, second, third]
    sys.exit(0 if found == [("200", DATA.decode()), ("200", NONE.decode()), ("200", NONE.decode())] and other == "400" and status == 0 else 1)


main()
