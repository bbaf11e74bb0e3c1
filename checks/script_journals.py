"""Serves by `tellcrock` with files of many kinds as the journal, and holds what the script says of each, the status, and what is left of the file to what they have to be.

    python3 checks/script_journals.py [PROGRAM]

The program is the released one, or the one that is named. A file that no journal is opened on has to stay as it was. What is opened is asked for its end at once. Each file prints a
line; the status is 1 where one is taken otherwise than it has to be."""

import fcntl
import os
import shutil
import signal
import socket
import subprocess
import sys
import tempfile
import time

TOP = os.path.dirname(os.path.dirname(os.path.abspath(__file__)))
PROGRAM = os.path.abspath(sys.argv[1]) if len(sys.argv) > 1 else None
REQUEST = b'{"query":"{ shelf { label } }"}'
FAULTS = []


def free_port():
    with socket.create_server(("127.0.0.1", 0)) as server:
        return server.getsockname()[1]


def call(port):
    """A request, whose grant and settlement the journal gets: nobody is the upstream."""
    with socket.create_connection(("127.0.0.1", port), timeout=10) as client:
        client.sendall(b"POST /graphql HTTP/1.1\r\nhost: g\r\nx-client-key: reader\r\ncontent-type: application/json\r\nconnection: close\r\ncontent-length: %d\r\n\r\n%s" % (len(REQUEST), REQUEST))
        return client.recv(65536)


def served(folder, journal, requests=0):
    """Serves with this journal until it is up, sends so many requests, asks for the end; gives the status and what the script said, beside the line that it is up."""
    port = free_port()
    run = subprocess.Popen([f"{folder}/tellcrock", "released", "serve", "books.graphql", "day.clients", "--listen", f"127.0.0.1:{port}", "--upstream", f"127.0.0.1:{free_port()}",
                            "--journal", journal, "--endless"], cwd=f"{TOP}/examples", stdout=subprocess.PIPE, stderr=subprocess.PIPE, text=True)
    for _ in range(200):
        if run.poll() is not None:
            break
        try:
            socket.create_connection(("127.0.0.1", port)).close()
            for _ in range(requests):
                call(port)
            time.sleep(0.3)
            run.send_signal(signal.SIGTERM)
            break
        except OSError:
            time.sleep(0.05)
    try:
        _, said = run.communicate(timeout=30)
    except subprocess.TimeoutExpired:
        run.kill()
        return None, "it hung"
    return run.returncode, "\n".join(it for it in said.splitlines() if it.startswith("tellcrock: ") and ": up at " not in it)


def written(path, text):
    with open(path, "wb") as file:
        file.write(text)


def read(path):
    with open(path, "rb") as file:
        return file.read()


def say(what, status, said, holds):
    line = f"{what}: status {status}{': ' + said.splitlines()[-1] if said else ''}"
    print(line if holds else f"{line}: NOT AS IT HAS TO BE\n{said}", flush=True)
    if not holds:
        FAULTS.append(what)


def refused(folder, what, text, why):
    """A file that stays as it is, with status 9."""
    path = f"{folder}/refused"
    written(path, text)
    status, said = served(folder, path)
    say(what, status, said.replace(folder, ".."), status == 9 and why in said and read(path) == text)


def opened(folder, what, text, told):
    """A file that is opened, with this said of it before."""
    path = f"{folder}/opened"
    written(path, text)
    status, said = served(folder, path)
    say(what, status, said.replace(folder, ".."), status == 0 and (told in said if told else said == "") and read(path)[:1] == b"\1")


def files(folder):
    no_journal, no_header = "it is there, and isn't a journal", "isn't empty and has no header"
    path = f"{folder}/journal"
    status, said = served(folder, path, 3)
    whole = read(path)
    say("a file that isn't there", status, said, status == 0 and said == "" and len(whole) == 65 + 3 * 128)
    opened(folder, "the same again", whole, "")
    opened(folder, "an empty file", b"", "")
    opened(folder, "a making that was cut short", bytes(65), no_header)
    opened(folder, "one that was cut shorter", bytes(20), no_header)
    opened(folder, "one whose header was cut short", b"\0" + whole[1:65], no_header)
    opened(folder, "a slot that was cut short", whole[:-20], "")
    opened(folder, "the last gate closed", whole[: 64 * 6] + b"\0" + whole[64 * 6 + 1 :], "")
    opened(folder, "a gate in the middle closed", whole[: 64 * 3] + b"\0" + whole[64 * 3 + 1 :], "slot 3 of ")
    opened(folder, "a gate in the middle of another value", whole[: 64 * 2] + b"\2" + whole[64 * 2 + 1 :], "slot 2 of ")
    refused(folder, "the first gate closed", b"\0" + whole[1:], no_journal)
    refused(folder, "a text", b"type Query { a: Int }\n", no_journal)
    refused(folder, "a long text", b"type Query { a: Int }\n" * 100, no_journal)
    refused(folder, "a database", b"SQLite format 3\0" + bytes(4080), no_journal)
    refused(folder, "zeros", bytes(66), no_journal)
    refused(folder, "many zeros", bytes(4096), no_journal)
    os.mkfifo(f"{folder}/pipe")
    for what, path, why in (("a pipe", f"{folder}/pipe", "it isn't a file"), ("a folder", f"{folder}/bin", "it is a folder"), ("a file in a folder that isn't there", f"{folder}/none/journal", "there is no folder"),
                            ("no file of the system's", "/dev/null", "it isn't a file")):
        status, said = served(folder, path)
        say(what, status, said.replace(folder, ".."), status == 9 and why in said)
    path = f"{folder}/locked"
    written(path, whole)
    with open(path, "rb") as file:
        fcntl.flock(file, fcntl.LOCK_EX)
        status, said = served(folder, path)
        say("a journal that another has open", status, said.replace(folder, ".."), status == 9 and "another program has it open" in said and read(path) == whole)


def long_journal(folder):
    """How long the script takes to look at a full journal."""
    path = f"{folder}/long"
    with open(path, "wb") as file:
        for _ in range(1024):
            file.write((b"\1" + bytes([1]) * 63) * 4096)
        file.write(b"\0")
    with open(f"{TOP}/tellcrock", encoding="utf-8") as file:
        text = file.read()
    call = text[text.index("slot_passed_over() {") : text.index("# Says of the journal what is lost")]
    began = time.time()
    ran = subprocess.run(["sh", "-c", f"journal=$1\n{call}\nslot_passed_over", "sh", path], capture_output=True, text=True)
    spent = time.time() - began
    say(f"a look at a full journal of 256 MB: {spent:.1f} s", ran.returncode, ran.stdout, ran.stdout == "" and spent < 20)
    os.remove(path)


def main():
    with tempfile.TemporaryDirectory() as folder:
        os.makedirs(f"{folder}/bin")
        os.makedirs(f"{folder}/release")
        shutil.copy2(f"{TOP}/tellcrock", folder)
        for name in ("tellcrock", "RECORD"):
            shutil.copy2(f"{TOP}/release/{name}", f"{folder}/release/{name}")
        if PROGRAM:
            shutil.copy2(PROGRAM, f"{folder}/release/tellcrock")
            told = subprocess.run(["sha256sum", PROGRAM], capture_output=True, text=True, check=True).stdout.split()[0]
            written(f"{folder}/release/RECORD", b"sources %s\nkit none\nprogram %s\n" % (b"0" * 64, told.encode()))
        files(folder)
        long_journal(folder)
    print("all as it has to be" if not FAULTS else f"{len(FAULTS)} NOT AS THEY HAVE TO BE")
    return 1 if FAULTS else 0


if __name__ == "__main__":
    sys.exit(main())
