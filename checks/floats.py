#!/usr/bin/env python3
"""Whether what graphql-js takes at Float is taken, and means the same double: 2,000 random texts.

    checks/floats.py [PROGRAM] [COUNT]

PROGRAM is the built program (release/tellcrock unless named). Each text stands as a literal of an operation, as JSON in its variables, and as a number of a reply.
What graphql-js takes has to be taken, and what it refuses refused; a variable that is sent on and a reply that is answered have to hold the double that graphql-js has of the
text, and a literal is sent on as it is written. Known differences: a literal past the greatest double is refused here, and an integer of more than 128 bits; the
literal -0 is sent as 0; a number past the greatest double makes JSON none. The reply null is none of these.
graphql-js has to stand where Debian's package node-graphql puts it, or where GRAPHQL_JS says. Ends with status 1 where something differs.
"""
import json
import os
import random
import re
import struct
import subprocess
import sys
import tempfile

HERE = os.path.dirname(os.path.realpath(__file__))
SCHEMA = "scalar Float @floats\ntype Query { a(x: Float): Float }\n"
INTEGER = re.compile(r"-?(?:0|[1-9][0-9]*)")


def digits(rng, most):
    return "".join(rng.choice("0123456789") for _ in range(rng.choice([1, 1, 2, 3, 5, 17, most])))


def numeral(rng):
    text = rng.choice(["", "", "-"]) + (rng.choice(["0", "1"]) if rng.random() < 0.3 else str(rng.randrange(1, 10)) + digits(rng, 30))
    if rng.random() < 0.6:
        text += "." + digits(rng, 40)
    if rng.random() < 0.5:
        text += rng.choice("eE") + rng.choice(["", "+", "-"]) + str(rng.choice([0, 1, 2, 15, 16, 21, 22, 300, 307, 308, 309, 323, 324, 325, rng.randrange(400)]))
    return text


def damaged(rng, text):
    at = rng.randrange(len(text) + 1)
    return text[:at] + rng.choice(["", "0", ".", "e", "-", "+", "_", "x", "00", " ", ",", "1e", "..", "\"", "E+"]) + text[at + rng.choice([0, 0, 1]):]


def text_of(rng):
    kind = rng.random()
    if kind < 0.12:
        return rng.choice(["-0", "-0.0", "0", "0.0", "1e2", "1E-7", "5e-324", "2e-324", "1.7976931348623157e308", "1.7976931348623158e308", "1.7976931348623159e308", "1e309", "0.1",
                           "18446744073709551616", "9007199254740993", "9007199254740993.0", "null", "true", "\"1.5\"", "[1.5]", "{}", "1.", ".5", "01.5", "+1", "1e", "0x1", "NaN",
                           "170141183460469231731687303715884105728", "170141183460469231731687303715884105727", "1e-400", "4.35", "2.2250738585072011e-308"])
    return damaged(rng, numeral(rng)) if kind < 0.35 else numeral(rng)


def bits(number):
    return "%x" % struct.unpack(">Q", struct.pack(">d", number))


def run(program, folder, *words):
    return subprocess.run([program, *words], cwd=folder, capture_output=True, text=True)


def write(folder, name, text):
    with open(os.path.join(folder, name), "w") as file:
        file.write(text)


def number_in(text, before, after):
    """The double of the number between these, or none."""
    if text.startswith(before) and text.endswith(after):
        try:
            return bits(float(text[len(before):len(text) - len(after)]))
        except ValueError:
            return None
    return None


def told(program, folder, kind, text):
    """What the program makes of a text: the bits of a double, or that it is refused."""
    if kind == "literal":
        write(folder, "d", "{ a(x: %s) }" % text)
        ran = run(program, folder, "forward", "s", "d")
        if ran.returncode:
            return "refused"
        sent = json.loads(ran.stdout)["query"]
        return number_in(sent, "query { a ( x : ", " ) }") or "sent as " + sent
    if kind == "variable":
        write(folder, "d", "query ($x: Float) { a(x: $x) }")
        write(folder, "v", '{"x":%s}' % text)
        ran = run(program, folder, "forward", "s", "d", "--variables", "v")
        return "refused" if ran.returncode else number_in(ran.stdout.strip(), '{"query":"query ( $x : Float ) { a ( x : $x ) }","variables":{"x":', "}}") or "sent as " + ran.stdout
    write(folder, "d", "{ a }")
    write(folder, "r", '{"data":{"a":%s}}' % text)
    ran = run(program, folder, "meter", "s", "d", "r")
    return "refused" if ran.returncode else number_in(ran.stdout.split("\n")[1], '{"data":{"a":', "}}") or "answered " + ran.stdout


def is_known(kind, text, theirs, ours):
    """Whether this difference is one of those that are meant."""
    if text == "null":
        return True
    if ours == "refused" and theirs == "infinite":
        return True
    if kind == "literal" and text == "-0":
        return (theirs, ours) == (bits(-0.0), bits(0.0))
    whole = INTEGER.fullmatch(text)
    if kind == "literal" and ours == "refused" and whole:
        return not -2**127 <= int(text) < 2**127
    return kind == "reply" and ours == "refused" and text in ("true", '"1.5"')


def main():
    program = os.path.abspath(sys.argv[1] if len(sys.argv) > 1 else HERE + "/../release/tellcrock")
    count = int(sys.argv[2]) if len(sys.argv) > 2 else 2000
    rng = random.Random(2985)
    cases = [(rng.choice(["literal", "variable", "reply"]), text_of(rng)) for _ in range(count)]
    differ, known, taken = [], 0, 0
    with tempfile.TemporaryDirectory() as folder:
        write(folder, "s", SCHEMA)
        write(folder, "cases", "".join(json.dumps(case) + "\n" for case in cases))
        theirs = subprocess.run(["node", HERE + "/floats.js", folder + "/cases"], capture_output=True, text=True, check=True).stdout.split()
        for (kind, text), their in zip(cases, theirs):
            our = told(program, folder, kind, text)
            taken += our != "refused"
            if our != their:
                if is_known(kind, text, their, our):
                    known += 1
                else:
                    differ.append("%s %r: graphql-js %s, here %s" % (kind, text, their, our))
    print("\n".join(differ + ["%d texts: %d taken, %d known differences, %d others" % (count, taken, known, len(differ))]))
    sys.exit(1 if differ or len(theirs) != count else 0)


main()
