"""Compares how `tellcrock` looks at arguments with how the released program reads them, by made-up lists of arguments.

    python3 checks/arguments.py [COUNT [SEED]]       2000 lists unless said otherwise

Where the script refuses a list, the program has to end with status 2 on it, and where it doesn't, the two have to print the same with the same
status (behind a line of a door or a disk the script adds what it may come from). The lists are made of names of commands and options, of files of `examples/`, and of numbers inside and outside of what an option takes;
addresses are such that no door is started. The status is 1 where a list is found that the two take differently."""

import os
import random
import shutil
import subprocess
import sys
import tempfile

TOP = os.path.dirname(os.path.dirname(os.path.abspath(__file__)))
RELEASED = f"{TOP}/release/tellcrock"
OPTIONS = ["variables", "operation", "unsized", "listen", "upstream", "target", "workers", "connections", "endless", "idle", "stop", "journal",
           "trusted", "trusted-only", "pass", "hints", "most-answer", "most-work", "most", "variables-none", "help", "limit"]
NUMBERS = ["0", "1", "00010", "16", "17", "5000", "5001", "999", "1000", "1000000", "1000001", "1000000000", "1000000001", "99999999999999999999", "+4", "-1", "1.0", "", "ten"]
AMOUNTS = ["0", "0.5", "21", "007.125000000", "1000000000000", "1000000000000.0", "1000000000000.1", "1000000000001", "0.0000001", "1.", ".5", "1.2.3", "-1", "x", ""]
FILES = ["books.graphql", "titles.graphql", "search.json", "reply.json", "day.clients", "minute.script", "trusted.json", "not_there", "-", ""]
# What an option takes, so that most lists are nearly right.
VALUES = {
    "variables": FILES,
    "operation": ["", "A", "é", "-"],
    "unsized": NUMBERS,
    "listen": ["x.invalid:1", "1.2.3.4:0", ""],
    "upstream": ["127.0.0.1:4000", "[::1]:80"],
    "target": ["/", "/graphql", ""],
    "workers": NUMBERS,
    "connections": NUMBERS,
    "idle": NUMBERS,
    "most-answer": NUMBERS,
    "most-work": NUMBERS,
    "stop": ["not_there", ""],
    "journal": ["not_there/journal", ""],
    "trusted": ["trusted.json", "trusted.json", *FILES],
    "pass": ["x-trace", "authorization", "Host", "proxy-x", "x:y", "x y", "", "'", "*", "-x", "é"],
}
# The usual arguments of each command.
USUAL = {
    "check": ["books.graphql"],
    "price": ["books.graphql", "titles.graphql"],
    "explain": ["books.graphql", "titles.graphql"],
    "audit": ["books.graphql", "titles.graphql", "misspelt.graphql"],
    "introspect": ["books.graphql", "titles.graphql"],
    "worst": ["books.graphql", "titles.graphql", "types"],
    "forward": ["books.graphql", "titles.graphql"],
    "meter": ["books.graphql", "titles.graphql", "reply.json"],
    "replay": ["books.graphql", "budgets.clients", "minute.script"],
    "serve": ["books.graphql", "day.clients", "--listen", "x.invalid:1", "--upstream", "127.0.0.1:4000"],
    "exercise": ["8"],
    "migrate": ["day.clients"],
}
# The options of each command, each of which comes as often as all others together.
OWN = {
    **dict.fromkeys(["price", "explain", "worst", "forward", "meter"], ["variables", "operation", "unsized", "most-work"]),
    "audit": ["most", "most", "variables-none", "unsized", "most-work"],
    "introspect": ["variables", "operation", "most-work"],
    "replay": ["unsized", "trusted", "trusted-only", "most-work"],
    "serve": ["target", "workers", "connections", "endless", "idle", "stop", "journal", "trusted", "trusted-only", "pass", "pass", "hints", "most-answer", "unsized", "most-work"],
}


def option(chance, command):
    name = chance.choice([chance.choice(OPTIONS), *OWN.get(command, OPTIONS)])
    if name == "most" and chance.random() < 0.9:
        return ["--most", chance.choice(AMOUNTS), chance.choice(["7", *AMOUNTS])]
    value = chance.choice(VALUES.get(name, FILES))
    return chance.choice([[f"--{name}", value], [f"--{name}={value}"], [f"--{name}"]])


def made_up(chance):
    """A list of arguments that is right, or nearly so."""
    command = chance.choice([*USUAL, "serve", "serve", chance.choice(["prices", "-x", "--", "", "Check"])])
    words = [*USUAL.get(command, FILES[:2])]
    for _ in range(chance.choice([0, 0, 1, 1, 2, 3])):
        at, kind = chance.randrange(len(words) + 1), chance.random()
        if kind < 0.55:
            words[at:at] = option(chance, command)
        elif kind < 0.7:
            words[at:at] = [chance.choice(["--", "-x", "-", "fields", *NUMBERS, *FILES])]
        elif kind < 0.85 and words:
            del words[at - 1]
        else:
            chance.shuffle(words)
    # (the script writes the usage of one command for this)
    return [command, *words] if words != ["--help"] else [command]


def ran(folder, *words):
    how = {"cwd": folder, "stdin": subprocess.DEVNULL, "capture_output": True, "timeout": 60}
    found = subprocess.run(words, **how)
    return found.returncode, found.stdout, found.stderr


def agree(folder, words):
    script, program = ran(folder, f"{TOP}/tellcrock", "released", *words), ran(folder, RELEASED, *words)
    if program[0] == 2:
        # (what the script refuses it reports in a line of its own)
        return script[0] == 2 and script[2].startswith(b"tellcrock: ")
    if script[0] == 2:
        # (an address that can't be one is refused by the script alone)
        return b"--upstream is HOST:PORT" in script[2]
    if program[0] in (8, 9):
        return script[:2] == program[:2] and script[2].startswith(program[2])
    return script == program


def main(words):
    count, seed = [*map(int, words), *[2000, 1][len(words) :]]
    chance, missed = random.Random(seed), 0
    with tempfile.TemporaryDirectory() as top:
        # (in a copy, since a file that is named as a journal is written)
        folder = shutil.copytree(f"{TOP}/examples", f"{top}/examples")
        for _ in range(count):
            made = made_up(chance)
            if not agree(folder, made):
                missed += 1
                print("taken differently:", made)
    print(f"{count - missed} lists are taken alike, {missed} not")
    return 1 if missed else 0


if __name__ == "__main__":
    sys.exit(main(sys.argv[1:]))
