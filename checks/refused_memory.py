"""Runs commands with one request for memory refused, for each request in turn, and tests what comes of it.

    python3 checks/refused_memory.py [PROGRAM]

A command must then end with the status of want of memory and have written nothing, or come to the same as with all its memory. In a
replay a step may answer 500 instead: then everything else must be as if that step had not found its memory, and the budgets too.
With a number of steps, of which enough are left, it is told as want of memory all the same."""

import os
import subprocess
import sys
import tempfile

HERE = os.path.dirname(os.path.abspath(__file__))
EXAMPLES = os.path.join(os.path.dirname(HERE), "examples")
PROGRAM = os.path.abspath(sys.argv[1] if len(sys.argv) > 1 else os.path.join(HERE, "../crates/gateway_cli/out/gateway_cli"))
NO_MEMORY = 5

COMMANDS = [
    ["check", "books.graphql"],
    ["price", "catalog.graphql", "search.graphql", "--variables", "search.json"],
    ["explain", "catalog.graphql", "search.graphql", "--variables", "search.json"],
    ["introspect", "books.graphql", "book_type.graphql"],
    ["worst", "books.graphql", "titles.graphql", "types"],
    ["forward", "catalog.graphql", "search.graphql", "--variables", "search.json"],
    ["meter", "catalog.graphql", "search.graphql", "search_reply.json", "--variables", "search.json"],
    ["migrate", "budgets.clients"],
    ["check", "misspelt.graphql"],
]
COUNTED = ["--most-work", "100000"]
COMMANDS += [[*it, *COUNTED] for it in COMMANDS if it[0] not in ("check", "migrate")]


def run(words, refused, shim, told="/dev/null"):
    """What a command comes to, where the request for memory of this number is refused: status, output, errors."""
    env = dict(os.environ, LD_PRELOAD=shim, REFUSE=str(refused), TOLD=told)
    done = subprocess.run([PROGRAM, *words], cwd=EXAMPLES, env=env, capture_output=True, check=False)
    return done.returncode, done.stdout.decode(), done.stderr.decode()


def each(words, shim, folder):
    """What a command comes to with the first request for memory refused, the second, and so on, as long as one is."""
    told = os.path.join(folder, "told")
    number = 1
    while True:
        found = run(words, number, shim, told)
        if not os.path.exists(told):
            return
        os.remove(told)
        yield number, found
        number += 1


def plain(words, shim, folder):
    """Tests a command without steps, and gives how many requests for memory ended it, and how many it did without."""
    whole = run(words, 0, shim)
    ended = without = 0
    for number, found in each(words, shim, folder):
        if found == (NO_MEMORY, "", ""):
            ended += 1
        elif found == whole:
            without += 1
        else:
            sys.exit(f"{' '.join(words)}: with request {number} refused: {found}")
    return ended, without


def as_if(script, lines):
    """The script in which the steps that found no memory are left out, or become transfers that failed; and for each step its line there, or None. An
    answer about the schema that there was no memory to write is charged as one that is written."""
    steps, kept, expected, gone = script.splitlines(), [], [], set()
    for step, line in zip(steps, lines):
        kind, name = step.split(" ")[:2]
        if kind == "begin" and line == f"{name} 500 NO_MEMORY":
            gone.add(name)
            expected.append(line)
        elif kind != "begin" and name in gone:
            expected.append(f"{name} not open")
        elif kind != "begin" and line.startswith(f"{name} 500 charged "):
            kept.append(f"fail {name}")
            expected.append(line)
        elif line.startswith(f"{name} 500 charged "):
            kept.append(step)
            expected.append(f"{line}WRITTEN")
        else:
            kept.append(step)
            expected.append(None)
    return "".join(step + "\n" for step in kept), expected


def replay(words, shim, folder):
    """Tests a replay, and gives how many requests for memory ended it, how many it did without, and how many a step answered."""
    with open(os.path.join(EXAMPLES, words[3])) as file:
        script = file.read()
    whole = run(words, 0, shim)
    counts = {"ended": 0, "without": 0, "begins": 0, "answers": 0, "ends": 0}
    for number, found in each(words, shim, folder):
        if found == (NO_MEMORY, "", ""):
            counts["ended"] += 1
            continue
        if found == whole:
            counts["without"] += 1
            continue
        lines = found[1].splitlines()
        other, expected = as_if(script, lines)
        name = os.path.join(folder, "script")
        with open(name, "w") as file:
            file.write(other)
        told = iter(run([*words[:3], name, *words[4:]], 0, shim)[1].splitlines())
        wanted = []
        for line in expected:
            if line is None:
                wanted.append(next(told))
            elif line.endswith("NO_MEMORY"):
                wanted.append(line)
                counts["begins"] += 1
            elif line.endswith("WRITTEN"):
                other_line = next(told).replace(" 200 charged ", " 500 charged ")
                wanted.append(other_line[: other_line.index("{")])
                counts["answers"] += 1
            elif " 500 charged " in line:
                other_line = next(told).replace(" 502 charged ", " 500 charged ")
                wanted.append(other_line[: other_line.index("{")])
                counts["ends"] += 1
            else:
                wanted.append(line)
        if found[0] != 0 or found[2] != "" or lines != [*wanted, *told]:
            sys.exit(f"{' '.join(words)}: with request {number} refused: {found}")
    return counts


def main():
    with tempfile.TemporaryDirectory() as folder:
        shim = os.path.join(folder, "refuse.so")
        subprocess.run(["cc", "-shared", "-fPIC", "-O1", "-o", shim, os.path.join(HERE, "refuse.c"), "-ldl"], check=True)
        for words in COMMANDS:
            ended, without = plain(words, shim, folder)
            print(f"{' '.join(words)}: refused in turn {ended + without}, status 5 at {ended}, done without at {without}")
        for script, *options in (["minute.script"], ["minute.script", *COUNTED], ["trusted.script", "--trusted", "trusted.json", "--trusted-only"]):
            words = ["replay", "books.graphql", "budgets.clients", script, *options]
            counts = replay(words, shim, folder)
            print(f"{' '.join(words)}: refused in turn {sum(counts.values())}, status 5 at {counts['ended']}, done without at "
                  f"{counts['without']}, a begin's 500 at {counts['begins']}, that of an answer about the schema at {counts['answers']}, an end's 500 at {counts['ends']}")


main()
