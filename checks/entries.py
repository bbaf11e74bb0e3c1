"""Says what the entries of crates.txt cost a gate of `rattle-kit-13b`.

    python3 checks/entries.py [N]

That kit sums the sources of a library and of all that it stands on before and after its proof, once for each way down: the ways of a crate are one, and those of
each of its entries. Printed are the ways of the libraries together, the crates that have most of them, and the N entries (20, unless named) without which there
would be fewest, each with the number of words that the crate's files take from it. An entry of no words may still be one that the check asks for."""

import functools
import os
import re
import sys

os.chdir(os.path.dirname(os.path.dirname(os.path.abspath(__file__))))


def entries():
    lines = [it.split(":", 1) for it in open("crates.txt") if ":" in it and not it.startswith("#")]
    known = {head.split()[0]: below.split() for head, below in lines}
    return {name: [it for it in below if it in known] for name, below in known.items()}


def is_program(name):
    return os.path.isfile(f"crates/{name}/src/main.rt")


def ways_in(known):
    @functools.lru_cache(None)
    def ways(name):
        return 1 + sum(ways(it) for it in known[name])

    return {name: ways(name) for name in known if not is_program(name)}


def words_taken(name, below):
    """The words of a library below that the files of a crate name."""
    found = set()
    for part in ("src", "specs", "proofs"):
        for at, _, files in os.walk(f"crates/{name}/{part}"):
            for file in files:
                text = open(os.path.join(at, file), encoding="utf-8").read()
                for shared, own in re.findall(rf"(?:Rattle\.{below}\.[^\s;{{]*|\b{below}::)(?:\{{([^}}]*)\}}|(\w+))", text):
                    found |= {it.split(" as ")[0].strip() for it in (shared or own).split(",")} - {""}
    return len(found)


def main(words):
    known = entries()
    ways = ways_in(known)
    print(f"{sum(ways.values()):,} ways; most have " + ", ".join(f"{it} {ways[it]:,}" for it in sorted(ways, key=ways.get, reverse=True)[:6]))
    spared = []
    for name, below in known.items():
        for it in below:
            fewer = ways_in({**known, name: [other for other in below if other != it]})
            spared.append((sum(ways.values()) - sum(fewer.values()), name, it))
    for count, name, it in sorted(spared, reverse=True)[: int(words[0]) if words else 20]:
        print(f"{count:7,}  {name}: {it}, {words_taken(name, it)} words")


if __name__ == "__main__":
    main(sys.argv[1:])
