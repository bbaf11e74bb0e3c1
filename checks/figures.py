"""Measures Tellcrock beside others on this machine, and draws the figures of docs/performance.md.

    python3 checks/figures.py [--program FILE] [--quick] [--parts pricing,serving,waiting,hostile,memory] [--together N]
    python3 checks/figures.py --plot-only FILE.json

- pricing: five operations of growing size over a schema of 500 types, from the bytes of the body to the reservation, beside graphql-js and
  gqlparser, which parse and validate the same (Debian's node-graphql, golang-go and golang-github-vektah-gqlparser-dev);
- serving: requests a second and how long they wait, by `wrk` on 1, 16 and 256 connections with 1, 4 and 16 workers, beside nginx as a proxy
  before the same upstream (Debian's wrk and nginx-light);
- waiting: the same before an upstream that answers 50 milliseconds after a request;
- hostile: processor seconds for documents that are made to be slow, by their length, under a bound on their work; N of them at a time (one without it);
- memory: what the gateway holds while 1,000,000 requests are served.

What was measured goes into docs/figures/measures.json, every run of it; the page and the plots are written from that file, and with --plot-only
from another such file. With --quick each measure is short, to try the script, and goes to a folder `figures` of the system's temporary files: its
figures say little. Only processes that were started here are ended. On a machine that does nothing else it takes a quarter of an hour."""

import argparse
import asyncio
import functools
import json
import multiprocessing
import os
import re
import resource
import shutil
import socket
import subprocess
import sys
import tempfile
import time

sys.dont_write_bytecode = True
import hostile_documents
import performance_page

HERE = os.path.dirname(os.path.abspath(__file__))
ROOT = os.path.dirname(HERE)
SCHEMA = os.path.join(ROOT, "crates", "price_bench", "data", "five_hundred_types.graphql")
NODE_PATH, GO_PATH = "/usr/share/nodejs", "/usr/share/gocode"
CLIENTS = "clients 2\nwindow 86400\nalpha 1000000000 1000000000\n"
STARTED = []
# So many families of documents are measured at a time.
TOGETHER = 1


def say(line):
    print(line, flush=True)


def processor(words, **more):
    """The processor seconds of a run that ends well, and the seconds that it took."""
    begun = time.monotonic()
    ran = subprocess.Popen(words, **more)
    _, status, used = os.wait4(ran.pid, 0)
    ran.returncode = status
    if status:
        sys.exit(f"{words[0]} ended with status {status}")
    return used.ru_utime + used.ru_stime, time.monotonic() - begun


# ---- pricing

def operation(parts):
    """An operation with two fragments, and as many aliased fields as are wanted."""
    fields = " ".join(f"f{n}: feed(first: {n % 20 + 1}) {{ total items {{ ...itemParts }} }}" for n in range(parts))
    return ("query Page { user { ...userParts friends { id } } " + fields + " } fragment userParts on User { id name friends { id name } } "
            "fragment itemParts on Item { ... on User { ...userParts } ... on Post { title author { name } } }")


OPERATIONS = ["{ user { friends { id friends { name } } } }"] + [operation(parts) for parts in (1, 8, 80, 600)]
DIRECTIVES = ("directive @cost(weight: String!) on ARGUMENT_DEFINITION | ENUM | FIELD_DEFINITION | INPUT_FIELD_DEFINITION | OBJECT | SCALAR directive @listSize(assumedSize: Int, "
              "slicingArguments: [String!], sizedFields: [String!], requireOneSlicingArgument: Boolean = true) on FIELD_DEFINITION ")

# Both print the microseconds of an operation, by the processor's clock and by the wall's: over so many seconds, after as many that aren't counted. With 0 seconds
# the operation is done once.
IN_NODE = r"""
const { buildSchema, parse, validate } = require("graphql"); const fs = require("fs");
const schema = buildSchema(fs.readFileSync("own", "utf8") + fs.readFileSync(process.argv[2], "utf8"));
const text = fs.readFileSync("query", "utf8"), seconds = +process.argv[3], now = () => Number(process.hrtime.bigint()) / 1e9;
function run() {
  let count = 0; const begun = now();
  do { const faults = validate(schema, parse(text)); if (faults.length) throw faults[0]; count++; } while (now() - begun < seconds);
  return count;
}
run();
if (seconds > 0) {
  const begun = now(), before = process.cpuUsage(), count = run(), used = process.cpuUsage(before);
  console.log((used.user + used.system) / count, (now() - begun) * 1e6 / count);
}
"""

IN_GO = r"""
package main
import ("fmt"; "os"; "strconv"; "syscall"; "time"; "github.com/vektah/gqlparser/v2"; "github.com/vektah/gqlparser/v2/ast")
func used() float64 { var it syscall.Rusage; syscall.Getrusage(0, &it); return float64(it.Utime.Nano() + it.Stime.Nano()) / 1000 }
func main() {
	own, _ := os.ReadFile("own"); text, _ := os.ReadFile(os.Args[1]); query, _ := os.ReadFile("query"); seconds, _ := strconv.ParseFloat(os.Args[2], 64)
	schema := gqlparser.MustLoadSchema(&ast.Source{Input: string(own) + string(text)})
	run := func() (count float64) {
		for begun := time.Now(); count == 0 || time.Since(begun).Seconds() < seconds; count++ { gqlparser.MustLoadQuery(schema, string(query)) }
		return
	}
	run()
	if seconds > 0 {
		begun, before := time.Now(), used()
		count := run()
		fmt.Println((used()-before)/count, float64(time.Since(begun).Microseconds())/count)
	}
}
"""


def replayed(program, folder, text, times):
    """A replay in which the operation is begun so many times, each of which has to be granted."""
    body = json.dumps({"query": text})
    with open(f"{folder}/script", "w") as file:
        file.writelines(f"begin r{n} alpha 0 {body}\n" for n in range(times))
    with open(f"{folder}/lines", "w") as out:
        used = processor([program, "replay", SCHEMA, "clients", "script"], cwd=folder, stdout=out)
    with open(f"{folder}/lines") as file:
        granted = sum(" granted " in line for line in file)
    return used if granted == times else sys.exit(f"{granted} of {times} were granted")


def in_tellcrock(program, folder, text, times):
    """Microseconds of an operation: what a replay of many takes less what one of one takes. A script holds at most 4 MB and 5,000 requests, so some are replayed one after the other."""
    one, found = replayed(program, folder, text, 1), (0.0, 0.0)
    each = max(2, min(times, 4900, 3_900_000 // (len(json.dumps(text)) + 50)))
    rounds = max(1, round(times / each))
    for _ in range(rounds):
        many = replayed(program, folder, text, each)
        found = tuple(a + b - c for a, b, c in zip(found, many, one))
    return tuple(it / rounds / (each - 1) * 1e6 for it in found)


def printed(words, folder):
    ran = subprocess.run(words, cwd=folder, capture_output=True, text=True, env={**os.environ, "NODE_PATH": NODE_PATH})
    return tuple(float(it) for it in ran.stdout.split()) if ran.returncode == 0 else sys.exit(ran.stderr)


def go_program(folder):
    """Builds the program in Go: the package has no module file, so it is put where its import path is looked up."""
    made = f"{folder}/go/src/github.com/vektah/gqlparser"
    os.makedirs(made)
    os.symlink(f"{GO_PATH}/src/github.com/vektah/gqlparser", f"{made}/v2")
    with open(f"{folder}/run.go", "w") as file:
        file.write(IN_GO)
    env = {**os.environ, "GO111MODULE": "off", "GOFLAGS": "", "GOPATH": f"{folder}/go:{GO_PATH}", "GOCACHE": f"{folder}/cache"}
    subprocess.run(["go", "build", "-o", "in_go", "run.go"], cwd=folder, env=env, check=True)


def rivals(folder):
    """Those of the others that are installed: by their name how they are started."""
    found = {}
    if shutil.which("go") and os.path.isdir(f"{GO_PATH}/src/github.com/vektah/gqlparser"):
        go_program(folder)
        found["gqlparser"] = ["./in_go", SCHEMA]
    if shutil.which("node") and os.path.isdir(f"{NODE_PATH}/graphql"):
        with open(f"{folder}/run.js", "w") as file:
            file.write(IN_NODE)
        found["graphql-js"] = ["node", "run.js", SCHEMA]
    return found


def pricing(program, folder, quick):
    """By program and size: microseconds of an operation, warm, and seconds of a process that does one alone, both by processor and by clock, in rounds of all programs by turns."""
    others, found = rivals(folder), {"warm": {}, "cold": {}}
    for text in OPERATIONS:
        with open(f"{folder}/query", "w") as file:
            file.write(text)
        times = max(30, (100_000 if quick else 3_000_000) // len(text))
        warm = {"Tellcrock": lambda: in_tellcrock(program, folder, text, times), **{name: lambda it=it: printed([*it, "0.1" if quick else "1"], folder) for name, it in others.items()}}
        cold = {"Tellcrock": lambda: replayed(program, folder, text, 1), **{name: lambda it=it: processor([*it, "0"], cwd=folder, env={**os.environ, "NODE_PATH": NODE_PATH}) for name, it in others.items()}}
        for kind, runs in (("warm", warm), ("cold", cold)):
            for _ in range(1 if quick else 5):
                for name, run in runs.items():
                    found[kind].setdefault(name, {}).setdefault(str(len(text)), []).append(run())
        say(f"pricing {len(text)} bytes: " + ", ".join(f"{name} {min(it[str(len(text))])[0]:.1f} us" for name, it in found["warm"].items()))
    return found


# ---- serving

def wait_for(port):
    for _ in range(200):
        try:
            socket.create_connection(("127.0.0.1", port)).close()
            return
        except OSError:
            time.sleep(0.05)
    sys.exit(f"nobody listens at {port}")


def free_port():
    with socket.create_server(("127.0.0.1", 0)) as server:
        return server.getsockname()[1]


def started(words, port, **more):
    run = subprocess.Popen(words, stderr=subprocess.DEVNULL, stdout=subprocess.DEVNULL, **more)
    STARTED.append(run)
    wait_for(port)
    return run, port


def ended(run):
    run.terminate()
    run.wait(timeout=20)


def nginx(folder, processes, does, more=""):
    """An nginx of so many processes that does one thing at each path; and where it listens."""
    port, own = free_port(), tempfile.mkdtemp(dir=folder)
    paths = " ".join(f"{name}_temp_path {own}/{name};" for name in ("client_body", "proxy", "fastcgi", "uwsgi", "scgi"))
    with open(f"{own}/conf", "w") as file:
        file.write(f"worker_processes {processes}; daemon off; pid {own}/pid; error_log /dev/null; worker_rlimit_nofile 20000; events {{ worker_connections 4096; }}\n"
                   f"http {{ access_log off; {paths} keepalive_requests 100000000; {more} server {{ listen 127.0.0.1:{port} backlog=1024; location / {{ {does} }} }} }}\n")
    return started(["nginx", "-c", f"{own}/conf", "-p", own], port)


def upstream(folder):
    """The upstream of all: an nginx that answers each request with the same data."""
    return nginx(folder, 4, "default_type application/json; return 200 '{\"data\":{\"user\":{\"id\":\"1\"}}}';")


def proxy(folder, processes, up, keeps=False):
    """An nginx as a proxy: it opens a connection for each request, as the gateway does, or keeps its connections to the upstream."""
    if keeps:
        return nginx(folder, processes, "proxy_pass http://up; proxy_http_version 1.1; proxy_set_header connection '';", f"upstream up {{ server 127.0.0.1:{up}; keepalive 256; keepalive_requests 100000000; }}")
    return nginx(folder, processes, f"proxy_pass http://127.0.0.1:{up}; proxy_set_header connection close;")


def gateway(program, folder, workers, up):
    port = free_port()
    return started([program, "serve", "schema", "clients", "--listen", f"127.0.0.1:{port}", "--upstream", f"127.0.0.1:{up}", "--workers", str(workers), "--endless", "--idle", "1000"], port, cwd=folder)


def milliseconds(text):
    number, unit = re.match(r"([\d.]+)(us|ms|s|m)$", text).groups()
    return float(number) * {"us": 0.001, "ms": 1, "s": 1000, "m": 60000}[unit]


def by_wrk(folder, port, connections, seconds):
    """Requests a second, the milliseconds within which half and 99 of 100 were answered, how many were answered, and what wrk says went wrong."""
    words = ["wrk", f"-t{min(2, connections)}", f"-c{connections}", f"-d{seconds}s", "--latency", "--timeout", "10s", "-s", "post.lua", f"http://127.0.0.1:{port}/graphql"]
    text = subprocess.run(words, cwd=folder, capture_output=True, text=True, check=True).stdout
    waits = dict(re.findall(r"^ +(50|99)% +(\S+)", text, re.M))
    return {"rate": float(re.search(r"Requests/sec:\s+(\S+)", text)[1]), "half": milliseconds(waits["50"]), "most": milliseconds(waits["99"]),
            "count": int(re.search(r"(\d+) requests in", text)[1]), "faults": re.findall(r"(Socket errors.*|Non-2xx.*)", text)}


def rounds(folder, ports, quick):
    """By who serves and by connections: all runs of wrk, made by turns."""
    found = {name: {} for name in ports}
    for connections in (1, 16, 256):
        for _ in range(1 if quick else 5):
            for name, port in ports.items():
                run = by_wrk(folder, port, connections, 1 if quick else 2)
                found[name].setdefault(str(connections), []).append(run)
                if run["faults"]:
                    say(f"  {name} at {connections} connections: " + "; ".join(run["faults"]))
        say(f"{connections} connections: " + ", ".join(f"{name} {max(it['rate'] for it in runs[str(connections)]):.0f}" for name, runs in found.items()))
    return found


def served_by(program, folder, up, processes):
    """Where those listen who serve before one upstream: gateways of 1, 4 and 16 workers, and nginx of so many processes, once with connections that it keeps."""
    ports = {f"Tellcrock {n}": gateway(program, folder, n, up)[1] for n in (1, 4, 16)}
    ports.update({f"nginx {n}": proxy(folder, n, up)[1] for n in processes})
    return {**ports, "nginx 4, connections kept": proxy(folder, 4, up, keeps=True)[1], "the upstream alone": up}


def serving(program, folder, quick):
    """Before an upstream that answers at once."""
    _, up = upstream(folder)
    found = rounds(folder, served_by(program, folder, up, (1, 4, 16)), quick)
    end_all()
    return found


# ---- serving before an upstream that takes its time

DELAY = 0.05
DATA = b'{"data":{"user":{"id":"1"}}}'


class Slow(asyncio.Protocol):
    """A connection whose requests are each answered so many seconds after their last byte."""

    def connection_made(self, transport):
        self.transport, self.kept = transport, b""

    def data_received(self, piece):
        self.kept += piece
        head, end, body = self.kept.partition(b"\r\n\r\n")
        length = re.search(rb"(?i)content-length: *(\d+)", head)
        if end and length and len(body) >= int(length[1]):
            self.kept = body[int(length[1]):]
            asyncio.get_running_loop().call_later(DELAY, self.answer)

    def answer(self):
        if not self.transport.is_closing():
            self.transport.write(b"HTTP/1.1 200 OK\r\ncontent-type: application/json\r\ncontent-length: %d\r\n\r\n%s" % (len(DATA), DATA))


def answer_slowly(listener):
    async def run():
        server = await asyncio.get_running_loop().create_server(Slow, sock=listener, backlog=1024)
        await server.serve_forever()
    asyncio.run(run())


def waiting(program, folder, quick):
    """Before an upstream of two processes that answers each request DELAY seconds after it."""
    listener = socket.create_server(("127.0.0.1", 0), backlog=1024)
    running = [multiprocessing.Process(target=answer_slowly, args=(listener,), daemon=True) for _ in range(2)]
    for it in running:
        it.start()
    found = rounds(folder, served_by(program, folder, listener.getsockname()[1], (4,)), quick)
    end_all()
    for it in running:
        it.terminate()
    return found


# ---- documents made to be slow

def family(program, quick, name):
    """Of each length of a family, under the bound that docs/operating.md advises: processor seconds, megabytes, and whether it was refused for its work."""
    found = []
    with tempfile.TemporaryDirectory() as own:
        for length in (16384, 32768, 65536, 131072, 262144)[: 2 if quick else 5]:
            ran = hostile_documents.measured(program, own, name, length, hostile_documents.ADVISED)
            found.append((length, ran.beside, ran.megabytes, ran.refused))
    say(f"hostile {name}: " + ", ".join(f"{it[1]:.2f} s" for it in found))
    return found


def hostile(program, folder, quick):
    """What is measured of each family, so many at a time as are wanted."""
    names = list(hostile_documents.FAMILIES)[:: 8 if quick else 1]
    with multiprocessing.Pool(TOGETHER) as pool:
        return dict(zip(names, pool.map(functools.partial(family, program, quick), names, chunksize=1)))


# ---- memory

def held(pid):
    """The megabytes of a process that are in memory."""
    with open(f"/proc/{pid}/status") as file:
        return int(re.search(r"VmRSS:\s+(\d+)", file.read())[1]) / 1024


def memory(program, folder, quick):
    """By workers and connections: what the gateway holds after so many requests."""
    _, up = upstream(folder)
    found = {}
    for workers, connections in ((4, 256), (16, 16)):
        run, port = gateway(program, folder, workers, up)
        line, wanted = [(0, held(run.pid))], 20_000 if quick else 1_000_000
        while line[-1][0] < wanted:
            line.append((line[-1][0] + by_wrk(folder, port, connections, 1 if quick else 2)["count"], held(run.pid)))
        found[f"{workers} workers, {connections} connections"] = line
        say(f"memory of {workers} workers: {line[0][1]:.1f} MB at first, {line[-1][1]:.1f} MB after {line[-1][0]:,} requests")
    end_all()
    return found


# ---- the machine, and the whole

def first_line(*words):
    ran = subprocess.run(words, capture_output=True, text=True)
    return (ran.stdout + ran.stderr).strip().splitlines()[0]


def file_line(path, pattern):
    with open(path) as file:
        return re.search(pattern, file.read()).group(1)


def versions(program):
    """What was compared, each as it names itself."""
    found = {"Tellcrock": "program " + first_line("sha256sum", program)[:12]}
    if shutil.which("node") and os.path.isdir(f"{NODE_PATH}/graphql"):
        found["graphql-js"] = file_line(f"{NODE_PATH}/graphql/package.json", r'"version"\s*:\s*"([^"]+)"') + ", node " + first_line("node", "--version")
    if shutil.which("go") and os.path.isdir(f"{GO_PATH}/src/github.com/vektah/gqlparser"):
        found["gqlparser"] = first_line("dpkg-query", "-W", "-f", "${Version}", "golang-github-vektah-gqlparser-dev") + ", " + first_line("go", "version")
    for name, words in (("nginx", ["nginx", "-v"]), ("wrk", ["wrk", "-v"])):
        if shutil.which(name):
            found[name] = re.sub(r"^nginx version: nginx/|^wrk | Copyright.*| \[epoll\]", "", first_line(*words))
    return found


def busy():
    """The part of the processors' time that others take, over a second."""
    def read():
        with open("/proc/stat") as file:
            times = [int(it) for it in file.readline().split()[1:]]
        return sum(times), times[3] + times[4]
    before = read()
    time.sleep(1)
    after = read()
    return 1 - (after[1] - before[1]) / max(1, after[0] - before[0])


def machine(program):
    return {"processor": file_line("/proc/cpuinfo", r"model name\s*: (.*)"), "count": os.cpu_count(), "memory": int(file_line("/proc/meminfo", r"MemTotal:\s+(\d+)")) / 1048576,
            "kernel": " ".join(os.uname()[it] for it in (0, 2)), "day": time.strftime("%Y-%m-%d"), "load": os.getloadavg()[0], "busy": busy(), "versions": versions(program)}


def end_all():
    while STARTED:
        run = STARTED.pop()
        if run.poll() is None:
            ended(run)


def measure(given, kept):
    """Measures what was asked for, and keeps it beside what was kept before."""
    program = os.path.abspath(given.program)
    resource.setrlimit(resource.RLIMIT_NOFILE, (min(20000, resource.getrlimit(resource.RLIMIT_NOFILE)[1]),) * 2)
    with tempfile.TemporaryDirectory() as folder:
        post = 'wrk.method = "POST"\nwrk.body = \'{"query":"{ user { id } }"}\'\nwrk.headers["x-client-key"] = "alpha"\nwrk.headers["content-type"] = "application/json"\n'
        for name, text in (("schema", "type Query { user: User } type User { id: ID! }"), ("clients", CLIENTS), ("own", DIRECTIVES), ("post.lua", post)):
            with open(f"{folder}/{name}", "w") as file:
                file.write(text)
        try:
            for name in given.parts:
                about = machine(program)
                say(f"{name}: begun at {time.strftime('%H:%M:%S')}, others take {about['busy']:.0%} of the processors")
                found = PARTS[name](program, folder, given.quick)
                measures = json.load(open(kept)) if os.path.exists(kept) else {}
                measures[name] = {"machine": about, "quick": given.quick, "together": TOGETHER, "found": found}
                with open(kept, "w") as file:
                    json.dump(measures, file, indent=1)
        finally:
            end_all()


PARTS = {"pricing": pricing, "serving": serving, "waiting": waiting, "hostile": hostile, "memory": memory}


def main():
    words = argparse.ArgumentParser(description=__doc__, formatter_class=argparse.RawDescriptionHelpFormatter)
    words.add_argument("--program", default=os.path.join(ROOT, "release", "tellcrock"))
    words.add_argument("--quick", action="store_true")
    words.add_argument("--parts", type=lambda text: text.split(","), default=list(PARTS))
    words.add_argument("--together", type=int, default=1)
    words.add_argument("--plot-only", metavar="FILE.json")
    given = words.parse_args()
    global TOGETHER
    TOGETHER = given.together
    if not set(given.parts) <= set(PARTS):
        words.error("the parts are " + ", ".join(PARTS))
    lacking = [name for name in ("wrk", "nginx") if {"serving", "waiting", "memory"} & set(given.parts) and not shutil.which(name)]
    if lacking and not given.plot_only:
        sys.exit("needed for serving, waiting and memory, and not here: " + ", ".join(lacking))
    docs = os.path.join(tempfile.gettempdir(), "figures") if given.quick else os.path.join(ROOT, "docs")
    os.makedirs(os.path.join(docs, "figures"), exist_ok=True)
    kept = given.plot_only or os.path.join(docs, "figures", "measures.json")
    if not given.plot_only:
        measure(given, kept)
    performance_page.write(json.load(open(kept)), docs)


if __name__ == "__main__":
    main()
