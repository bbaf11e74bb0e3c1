"""Runs nginx as examples/deploy/nginx.conf has it before a gateway, over loopback, and asks what pages and clients ask.

    python3 checks/deploy.py [PROGRAM]

It needs nginx, openssl and curl (Debian's nginx-light, openssl, curl). Addresses, the certificate and the log are replaced by some of its own, and nothing else of
the file. Only processes that were started here are ended. Each question prints a line; the status is 1 where one is answered otherwise than it has to be."""

import os
import re
import shutil
import socket
import subprocess
import sys
import tempfile
import time

TOP = os.path.dirname(os.path.dirname(os.path.abspath(__file__)))
PROGRAM = os.path.abspath(sys.argv[1]) if len(sys.argv) > 1 else f"{TOP}/release/tellcrock"
TOKEN, PAGE, ELSEWHERE = "authorization: Bearer 3f9c2a", "origin: https://app.example", "origin: https://other.example"
TITLES = '{"query":"{ shelf { books { title authors { name } } } }"}'
FAULTS, STARTED = [], []


def free_port():
    with socket.create_server(("127.0.0.1", 0)) as server:
        return server.getsockname()[1]


def started(words, port, **more):
    run = subprocess.Popen(words, stdout=subprocess.DEVNULL, stderr=subprocess.DEVNULL, **more)
    STARTED.append(run)
    for _ in range(200):
        try:
            socket.create_connection(("127.0.0.1", port)).close()
            return run
        except OSError:
            time.sleep(0.05)
    sys.exit(f"nobody listens at {port}: {' '.join(words)}")


def configured(folder, port, gateway):
    """The example, at this port and before this gateway."""
    with open(f"{TOP}/examples/deploy/nginx.conf", encoding="utf-8") as file:
        text = file.read()
    for old, new in (("listen 443 ", f"listen 127.0.0.1:{port} "), ("127.0.0.1:8081", f"127.0.0.1:{gateway}"), ("/etc/ssl/", f"{folder}/"), ("/var/log/nginx/", f"{folder}/")):
        if text.count(old) < 1:
            sys.exit(f"examples/deploy/nginx.conf has no {old}")
        text = text.replace(old, new)
    with open(f"{folder}/site.conf", "w", encoding="utf-8") as file:
        file.write(text)
    temp = " ".join(f"{part}_temp_path {folder}/{part};" for part in ("client_body", "proxy", "fastcgi", "uwsgi", "scgi"))
    with open(f"{folder}/nginx.conf", "w", encoding="utf-8") as file:
        file.write(f"daemon off; pid {folder}/pid; error_log /dev/null; events {{ worker_connections 256; }}\nhttp {{ {temp} include {folder}/site.conf; }}\n")
    return f"{folder}/nginx.conf"


def asked(port, *words, body=TITLES):
    """The status, the fields and the body of a reply."""
    fields = [it for word in ("content-type: application/json", *words) if not word.startswith("-") for it in ("-H", word)]
    flags = [it for word in words if word.startswith("-") for it in word.split()]
    ran = subprocess.run(["curl", "-sik", "--max-time", "20", *flags, *fields, *(["--data-binary", "@-"] if body else []), f"https://127.0.0.1:{port}/graphql"],
                         input=body, capture_output=True, text=True)
    head, _, rest = ran.stdout.replace("\r\n", "\n").partition("\n\n")
    found = re.match(r"HTTP/\S+ (\d+)", head)
    return int(found[1]) if found else 0, {name.lower(): value for name, value in re.findall(r"(?m)^(\S+): (.*)$", head)}, rest


def say(what, told, holds):
    status, fields, body = told
    print(f"{what}: {status} {body[:60]}" + ("" if holds else f": NOT AS IT HAS TO BE, {fields}"), flush=True)
    if not holds:
        FAULTS.append(what)


def is_json(told, status, message):
    return told[0] == status and told[1].get("content-type") == "application/json" and message in told[2] and told[2].startswith('{"errors"')


def questions(port):
    told = asked(port, TOKEN, PAGE)
    say("a page of the allowed origin", told, told[0] == 200 and told[1].get("access-control-allow-origin") == "https://app.example" and told[1].get("x-cost-charged") == "7.000 4.000"
        and {"x-cost-bound", "x-cost-charged"} <= {*told[1].get("access-control-expose-headers", "").split(", ")})
    told = asked(port, TOKEN, ELSEWHERE)
    say("a page of another origin", told, told[0] == 200 and "access-control-allow-origin" not in told[1])
    told = asked(port, PAGE, "access-control-request-method: POST", "-X OPTIONS", body="")
    say("what a browser asks before", told, told[0] == 204 and told[1].get("access-control-allow-origin") == "https://app.example" and told[1].get("access-control-allow-methods") == "POST"
        and "authorization" in told[1].get("access-control-allow-headers", "") and "content-type" in told[1].get("access-control-allow-headers", ""))
    told = asked(port, PAGE)
    say("no token", told, is_json(told, 401, "NO_KEY") and told[1].get("access-control-allow-origin") == "https://app.example")
    told = asked(port, "x-client-key: reader")
    say("a key in place of a token", told, is_json(told, 401, "NO_KEY"))
    told = asked(port, TOKEN, PAGE, body=TITLES + " " * 16384)
    say("a long body", told, is_json(told, 413, "BODY_TOO_LARGE") and told[1].get("access-control-allow-origin") == "https://app.example")
    told = asked(port, TOKEN, "transfer-encoding: chunked")
    say("a body in chunks", told, told[0] == 200)
    told = asked(port, TOKEN, PAGE, body=TITLES.replace("title authors { name }", "authors { books { title } }"))
    say("over budget", told, is_json(told, 429, "OVER_BUDGET") and told[1].get("access-control-allow-origin") == "https://app.example")


def often(port):
    """More requests at once than the limit lets through."""
    urls = " ".join([f"https://127.0.0.1:{port}/graphql"] * 150)
    ran = subprocess.run(["curl", "-sk", "--max-time", "30", "-Z", "--parallel-max", "30", "-H", TOKEN, "-H", "content-type: application/json", "-d", '{"query":"{ shelf { colour } }"}',
                          "-w", "%{http_code}\n", *urls.split()], capture_output=True, text=True)
    limited = ran.stdout.count('{"errors":[{"message":"TOO_OFTEN"}]}')
    say("a hundred and fifty at once", (0, {}, f"{limited} were TOO_OFTEN"), 0 < limited < 150 and ran.stdout.count("429") == limited and ran.stdout.count("UnknownField") == 150 - limited)


def main():
    folder = tempfile.mkdtemp()
    os.chmod(folder, 0o755)
    port, gateway = free_port(), free_port()
    try:
        subprocess.run(["openssl", "req", "-x509", "-newkey", "rsa:2048", "-nodes", "-days", "1", "-subj", "/CN=localhost", "-keyout", f"{folder}/api.key", "-out", f"{folder}/api.pem"],
                       check=True, capture_output=True)
        up = free_port()
        started([sys.executable, f"{TOP}/examples/upstream.py", str(up)], up)
        serving = started([PROGRAM, "serve", "books.graphql", "day.clients", "--listen", f"127.0.0.1:{gateway}", "--upstream", f"127.0.0.1:{up}", "--idle", "100", "--hints", "--endless",
                           "--stop", f"{folder}/stop"], gateway, cwd=f"{TOP}/examples")
        started(["nginx", "-c", configured(folder, port, gateway), "-p", folder], port)
        questions(port)
        often(port)
        serving.kill()
        serving.wait()
        time.sleep(1.5)
        told = asked(port, TOKEN, PAGE)
        say("no gateway", told, is_json(told, 502, "NO_GATEWAY") and told[1].get("access-control-allow-origin") == "https://app.example")
        with open(f"{folder}/costs.log", encoding="utf-8") as file:
            said = file.read()
        say("the log", (0, {}, said.split("\n")[0]), " reader 200 82.000 22.000 / 7.000 4.000\n" in said)
    finally:
        for it in STARTED:
            if it.poll() is None:
                it.terminate()
                it.wait()
        shutil.rmtree(folder, ignore_errors=True)
    print("all as it has to be" if not FAULTS else f"{len(FAULTS)} NOT AS THEY HAVE TO BE")
    return 1 if FAULTS else 0


if __name__ == "__main__":
    sys.exit(main())
