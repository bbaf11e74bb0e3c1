#!/usr/bin/env python3
"""Says whether a bound on the work of a request changes nothing but that an operation is refused for it.

    python3 checks/any_work.py [--program PROGRAM] [--documents N] [--seed N] [--beside OTHER]

Operations that are made here (fragments, variables, conditions, interfaces, a union, literals, questions about the schema; a part of them with one fault), and the
rows of `crates/worked_rows` that take files alone are given to `price`, `explain`, `audit`, `worst`, `forward`, `meter`, `introspect` and `replay` without `--most-work`, and with it:
with the greatest number, with the steps that `explain` tells and one more and one fewer, with numbers at random between, and with 1000. What comes out has to be, letter for letter,
what comes without the option, but for the steps that `explain` and `audit` tell; or the refusal `work 1 TooMuch`, with nothing charged. With more steps than were enough, it may not be
refused; nor `explain` and `audit` with as many as they tell. Each command has to be refused in some run. So no comparison that is given up for want of steps becomes another price or another refusal.

With `--beside`, another program without the option is run on each operation and row too, and has to write the same. The status is 0 exactly where all is so.
"""
import argparse
import concurrent.futures
import json
import os
import random
import re
import shutil
import subprocess
import sys
import tempfile

import program_rows
import release
import steps

COMMANDS = ("price", "explain", "audit", "worst", "forward", "meter", "introspect", "replay")
REFUSAL = "work 1 TooMuch"
OBJECTS = "ABCDEF"
FIELDS = ('id: ID! count: Int label(as: String = "a", size: Int = 2): String next: Node peer(id: ID, kind: Kind = ONE): Node found(first: Int = 2): [Found!] @listSize(slicingArguments: ["first"]) '
          'list(first: Int = 3, where: Filter): [Node!] @listSize(slicingArguments: ["first"]) some: [Node] @listSize(assumedSize: 2)')
SCHEMA = "\n".join(
    ["interface Node { %s }" % FIELDS, "enum Kind { ONE TWO THREE }", "scalar JSON", "union Found = A | B | C", "type Mutation { set(where: Filter!): Node }",
     'input Filter { text: String = "x" kinds: [Kind!] = [ONE, TWO] all: [Filter!] none: Filter at: Int = 3 rest: Rest @cost(weight: "0.5") }',
     'input Rest { a: [Int!] = [1] b: JSON c: ID @cost(weight: "2") }', "type Query { %s }" % FIELDS]
    + ["type %s implements Node { %s only%s: Int }" % (it, FIELDS, it) for it in OBJECTS]) + "\n"
VARIABLES = {"i": ("Int", "3", 4), "s": ("String", '"s"', "t"), "b": ("Boolean!", None, False), "f": ("Filter", "{at: 1}", {"text": "y", "all": [{"at": 2}, {"kinds": ["TWO"]}]}),
             "fs": ("[Filter!]", "[{}]", [{}, {"rest": {"b": {"z": [1, None]}}}]), "d": ("ID", '"7"', 7), "k": ("Kind!", None, "THREE")}
FAULTS = ("unknown: nothing", "count: id count", 'label(as: "a", size: "b")', "label(other: 1)", "count { id }", "next", "label(size: $undeclared)", "...Nowhere",
          "list(first: -1) { id }", "list(first: 4000000) { list(first: 4000000) { list(first: 4000000) { id } } }", 'x: list(where: {at: 1, at: 2}) { id }', "peer(kind: FOUR) { id }")


class Writer:
    """One operation, written at random."""

    def __init__(self, rng):
        self.rng, self.used, self.fragments, self.keys = rng, set(), [], {}
        self.left = rng.choice((15, 60, 200, 500))
        self.fault = rng.choice(FAULTS) if rng.random() < 0.3 else None

    def variable(self, name):
        self.used.add(name)
        return "$" + name

    def filter(self, depth=0):
        """The literal of a filter, or a variable that has one."""
        rng = self.rng
        if rng.random() < 0.2:
            return self.variable("f")
        parts = [rng.choice(('text: "%s"' % ("t" * rng.choice((1, 5, 200))), "text: " + self.variable("s"))), "at: " + rng.choice(("1", "null", self.variable("i"))),
                 "kinds: " + rng.choice(("[ONE]", "TWO", "[%s]" % self.variable("k"), "null")), "rest: {b: {u: [1, 2, {v: ONE}]}, a: [1, 2], c: %s}" % rng.choice(("1", '"1"'))]
        if depth < 3:
            parts += ["all: [%s]" % ", ".join(self.filter(depth + 1) for _ in range(rng.randint(0, 2))), "all: " + self.variable("fs"), "none: " + self.filter(depth + 2)]
        chosen = {it.split(":")[0]: it for it in rng.sample(parts, rng.randint(0, len(parts)))}
        return "{%s}" % ", ".join(chosen.values())

    def call(self, name):
        """What is written behind a field's name."""
        rng = self.rng
        given = {"label": [('as: "%s"' % rng.choice("ab"), "as: " + self.variable("s")), ("size: %d" % rng.randint(1, 3), "size: " + self.variable("i"))],
                 "peer": [("id: %d" % rng.randint(1, 2), "id: " + self.variable("d")), ("kind: TWO", "kind: " + self.variable("k"))],
                 "list": [("first: %d" % rng.randint(1, 3), "first: " + self.variable("i")), ("where: " + self.filter(),) * 2], "found": [("first: 2", "first: " + self.variable("i"))]}
        chosen = [rng.choice(it) for it in given.get(name, []) if rng.random() < 0.6]
        return "(%s)" % ", ".join(chosen) if chosen else ""

    def condition(self):
        return self.rng.choice((" @skip(if: false)", " @include(if: %s)" % self.variable("b"), " @include(if: true)")) if self.rng.random() < 0.1 else ""

    def field(self, on, depth):
        """A field by a key that stands for its call."""
        leaves, inner = ["id", "count", "label", "__typename"] + (["only" + on] if on in OBJECTS else []), ["next", "peer", "list", "some", "found"]
        name = self.rng.choice(leaves if depth > 5 or self.rng.random() < 0.4 else inner)
        call = self.call(name)
        key = "%s%d" % (name.lower().strip("_"), self.keys.setdefault((name, call), len(self.keys)))
        below = self.selections("Found" if name == "found" else "Node", depth + 1) if name in inner else ""
        return "%s: %s%s%s%s" % (key, name, call, self.condition(), below)

    def fragment(self, on, depth):
        """A spread of a fragment that stands already, or of a new one."""
        known = [it[0] for it in self.fragments if it[1] == on and it[2] >= depth]
        if known and self.rng.random() < 0.6:
            return "...%s%s" % (self.rng.choice(known), self.condition())
        name = "F%d" % (len(self.fragments))
        self.fragments.append((name, None, 0, ""))
        at, text = len(self.fragments) - 1, self.selections(on, depth + 1)
        self.fragments[at] = (name, on, depth, "fragment %s on %s%s" % (name, on, text))
        return "..." + name

    def selection(self, on, depth):
        rng = self.rng
        self.left -= 1
        if self.fault and on == "Node" and self.left < 10:
            fault, self.fault = self.fault, None
            return fault
        if on == "Found" or rng.random() < 0.25:
            to = rng.choice("ABC" if on == "Found" else OBJECTS) if on != "Query" else "Query"
            return "... on %s%s%s" % (to, self.condition(), self.selections(to, depth + 1))
        if rng.random() < 0.25 and depth < 6:
            return self.fragment(on, depth)
        return self.field(on, depth)

    def selections(self, on, depth):
        last = "" if on == "Found" else "id "
        count = self.rng.randint(1, 5) if self.left > 0 and depth < 8 else 0
        return " { __typename %s%s }" % (last, " ".join(self.selection(on, depth) for _ in range(count)))

    def document(self):
        """The text of the document, and the values of its variables."""
        root = " ".join(self.selection("Query", 0) for _ in range(self.rng.randint(2, 6)))
        while self.left > 0:
            root += " " + self.selection("Query", 0)
        declared, given = [], {}
        for name in sorted(self.used):
            of, default, value = VARIABLES[name]
            by_default = default is not None and self.rng.random() < 0.4
            declared.append("$%s: %s%s" % (name, of, " = " + default if by_default else ""))
            if not by_default or self.rng.random() < 0.3:
                given[name] = value
        head = "query Q%s" % ("(%s)" % ", ".join(declared) if declared else "")
        return "%s { %s }\n%s\n" % (head, root, "\n".join(it[3] for it in self.fragments)), given


def question(rng):
    """A question about the schema, some hundred to some ten thousand values long."""
    inner = ["name", "kind", "description", "__typename"]
    of_type = lambda depth: "{ %s }" % " ".join(rng.sample(inner, 2) + ([] if depth > 2 else [
        "%s%d: %s%s" % (it[0], rng.randint(0, 9), it, of_type(depth + 1)) for it in rng.sample(("ofType", "possibleTypes", "interfaces", "fields", "inputFields"), 1) if it in ("ofType", "possibleTypes", "interfaces")]
        + ["fields { name args { name defaultValue type %s } type %s }" % (of_type(depth + 1), of_type(depth + 1))]))
    return "{ __schema { types %s queryType %s } %s }" % (of_type(1), of_type(rng.randint(1, 2)), " ".join(
        't%d: __type(name: "%s") %s' % (i, rng.choice(OBJECTS), of_type(2)) for i in range(rng.randint(0, 4))))


def ran(program, words, folder):
    """The status of a command, and what it wrote to each of the two streams."""
    done = subprocess.run([program, *words], cwd=folder, stdin=subprocess.DEVNULL, capture_output=True, timeout=120)
    return done.returncode, done.stdout.decode(errors="replace"), done.stderr.decode(errors="replace")


def without_steps(command, found):
    """What a command wrote without the steps that it told, and these."""
    status, out, err = found
    told = re.findall(r"(?m)^(?:.* )?work (\d+)$", out) if command in ("explain", "audit") else []
    if command == "explain":
        out = re.sub(r"(?m)^work \d+\n", "", out)
    elif command == "audit":
        out = re.sub(r"(?m)^(.* \d+\.\d{3} \d+\.\d{3}) work \d+$", r"\1", out)
    return (status, out, err), [int(it) for it in told]


def is_audit_refused(found, plain):
    """Whether some lines of an audit are refused for their steps, each other one is as it is without, and the last line counts them."""
    lines, olds = found[1].split("\n"), plain[1].split("\n")
    refused = [it.endswith(" " + REFUSAL) for it in lines]
    same = len(lines) == len(olds) and all(gone and new.split(" ")[:2] == old.split(" ")[:2] or new == old or old.startswith("operations ") for gone, new, old in zip(refused, lines, olds))
    counted = re.search(r"operations (\d+) priced (\d+) ", found[1])
    priced = sum(1 for it in lines if re.search(r" \d+\.\d{3} \d+\.\d{3}$", it) and not it.startswith("operations "))
    return any(refused) and same and found[0] == 1 and found[2] == "" and counted is not None and int(counted[2]) == priced


def is_refused(command, found, plain, charged_nothing):
    """Whether a command tells nothing but that the operation takes too many steps."""
    status, out, err = found
    if command == "audit":
        return is_audit_refused(found, plain)
    if command == "replay":
        first, _, rest = out.partition("\n")
        return status == 0 and first == "a 400 REFUSED " + REFUSAL and rest == charged_nothing and err == ""
    return status == 1 and out == "" and err.split("\n")[0] == REFUSAL and (command == "explain" or err == REFUSAL + "\n")


def with_steps(words, most):
    """The words with a number of steps, which stands before all others, since names may stand behind `--`."""
    return [words[0], "--most-work", str(most), *words[1:]]


def words_of(command, name, given, beside):
    """The words of a command for one of the operations in the folder; an audit takes one beside it."""
    values = ["--variables", given] if given else []
    return {"audit": ["audit", "schema", name, beside], "worst": ["worst", "schema", name, "types", *values], "meter": ["meter", "schema", name, "reply", *values],
            "replay": ["replay", "schema", "clients", name + ".script"]}.get(command, [command, "schema", name, *values])


def steps_about(program, name, given, folder):
    """The steps that `explain` tells of an operation, or else those with which its refusal is told."""
    told = without_steps("explain", ran(program, with_steps(words_of("explain", name, given, None), steps.MOST), folder))[1]
    return told[0] if told else steps.least_steps(program, words_of("price", name, given, None), folder, part=0.05) or steps.MOST


def numbers(rng, about):
    """Numbers of steps to try, where about so many do."""
    between = {int(steps.LEAST * (max(about, steps.LEAST) * 1.1 / steps.LEAST) ** rng.random()) for _ in range(8)}
    near = {about + by for by in (-1, 0, 1)} | {int(about * (1 - rng.random() / 8)) for _ in range(4)}
    return sorted(it for it in between | near | {steps.LEAST, steps.MOST} if steps.LEAST <= it <= steps.MOST)


def faults_of(program, other, command, words, folder, rng, about, charged_nothing):
    """What is wrong with a command for one operation, a line each; and in how many runs it was refused for its steps."""
    plain, found, refused, enough = ran(program, words, folder), [], 0, None
    if other and ran(other, words, folder) != plain:
        found.append("%s: the other program writes otherwise" % " ".join(words))
    at = lambda most: without_steps(command, ran(program, with_steps(words, most), folder))
    told = at(steps.MOST)[1]
    exact = max(told) if len(told) == (2 if command == "audit" else 1) else steps.MOST
    for most in numbers(rng, about):
        result, _ = at(most)
        gone = is_refused(command, result, plain, charged_nothing)
        if gone and most < exact and enough is None:
            refused += 1
        elif gone or result != plain:
            found.append("%s: %s" % (" ".join(with_steps(words, most)), "refused, though %s were enough" % (enough or exact) if gone else "another answer: %r" % (result,)))
        else:
            enough = most
    return found, refused


def make(folder, rng, count):
    """Writes the operations into a folder: their names, and the names of the files with their values."""
    def put(name, text):
        with open(os.path.join(folder, name), "w") as file:
            file.write(text)

    put("schema", SCHEMA)
    put("reply", '{"data":null}')
    put("clients", "clients 1\nwindow 60\nalpha 900000000.000 900000000.000\n")
    made = []
    for at in range(count):
        text, given = (question(rng), {}) if at % 8 == 7 else Writer(rng).document()
        name = "d%d" % at
        put(name, text)
        put(name + ".json", json.dumps(given))
        put(name + ".script", "begin a alpha 0 %s\n" % json.dumps({"query": text, "variables": given}) + 'begin b alpha 0 {"query":"{ __typename }"}\n')
        made.append((name, name + ".json" if given else None))
    put("none.script", 'begin a alpha 0 {"query":"{"}\nbegin b alpha 0 {"query":"{ __typename }"}\n')
    return made


def row_faults(program, other, words, folder):
    """What is wrong with a row, whose words are these, and in how many runs it was refused for its steps."""
    plain, found, refused = ran(program, words, folder), [], 0
    if other and ran(other, words, folder) != plain:
        found.append("%s: the other program writes otherwise" % " ".join(words))
    for most in (steps.LEAST, steps.MOST):
        result, _ = without_steps(words[0], ran(program, with_steps(words, most), folder))
        gone = REFUSAL in result[1] + result[2]
        refused += gone
        if result != plain and not (gone and most == steps.LEAST):
            found.append("%s: another answer: %r" % (" ".join(with_steps(words, most)), result))
    return found, refused


def rows_in(folder):
    """The words of the rows that a number of steps can stand behind, with their files in a folder."""
    shutil.copytree("%s/data" % release.ROWS, folder, dirs_exist_ok=True)
    for words, status, *_ in program_rows.rows():
        names = [it for before, it in zip(words, words[1:]) if not it.startswith("--") and not before.startswith("--")]
        of_schema = words[:1] == ["explain"] and len(names) < 2
        if words and words[0] in COMMANDS and status != 2 and not of_schema and not any(it.startswith("--most-work") for it in words):
            yield [release.filled(it, folder) for it in words]


def main():
    words = argparse.ArgumentParser(description=__doc__, formatter_class=argparse.RawDescriptionHelpFormatter)
    words.add_argument("--program", default="crates/gateway_cli/out/gateway_cli")
    words.add_argument("--documents", type=int, default=100)
    words.add_argument("--seed", type=int, default=1)
    words.add_argument("--beside")
    given = words.parse_args()
    program, other = os.path.abspath(given.program), given.beside and os.path.abspath(given.beside)
    rng, faults, refused, runs = random.Random(given.seed), [], dict.fromkeys(COMMANDS, 0), 0
    with tempfile.TemporaryDirectory() as folder, tempfile.TemporaryDirectory() as rows, concurrent.futures.ThreadPoolExecutor(os.cpu_count()) as pool:
        made = make(folder, rng, given.documents)
        nothing = ran(program, ["replay", "schema", "clients", "none.script"], folder)[1].partition("\n")[2]
        asked, abouts = [], list(pool.map(lambda it: steps_about(program, *it, folder), made))
        for at, (name, values) in enumerate(made):
            for command in COMMANDS:
                words_asked, about = words_of(command, name, values, made[at - 1][0]), abouts[at]
                asked.append((command, pool.submit(faults_of, program, other, command, words_asked, folder, random.Random(rng.random()), about, nothing)))
        asked += [(it[0], pool.submit(row_faults, program, other, it, rows)) for it in rows_in(rows)]
        for command, it in asked:
            found, gone = it.result()
            faults, runs = faults + found, runs + 1
            refused[command] += gone
    for line in faults[:20]:
        print(line[:600])
    print("%d commands, %d faults; runs refused for their steps: %s" % (runs, len(faults), ", ".join("%s %d" % it for it in refused.items())))
    return 1 if faults or not all(refused.values()) else 0


if __name__ == "__main__":
    sys.exit(main())
