#!/usr/bin/env python3
"""Whether a GraphQL client takes the gateway's answers to introspection for what their schemas are.

    checks/introspection.py [PROGRAM]

PROGRAM is the built program (release/tellcrock unless named). graphql-js has to stand where Debian's package node-graphql puts it, or where
GRAPHQL_JS says. The usual introspection query of graphql-js is answered over each schema of
checks/introspection/. The client builds its schema from the answer, and prints the types of the text. Then rows: operations over one schema, each
with its cost and its answer, or why it is refused. Last, what many types and many aliases cost. Ends with status 1 where something differs.
"""
import os
import resource
import subprocess
import sys
import tempfile
import time

HERE = os.path.dirname(os.path.realpath(__file__))
CLIENT = HERE + "/introspection/client.js"
USER = "type Query { user: User } type User { id: ID! friends: [User!]! @listSize(assumedSize: 3) }"
SECONDS, KILOBYTES = 0.5, 300_000

ROWS = [
    ("{ __schema { types { name } } }", "{}", "15.000 2.000", '{"data":{"__schema":{"types":[' + ",".join('{"name":"%s"}' % it for it in (
        "Query User String Boolean ID __Schema __Type __TypeKind __Field __InputValue __EnumValue __Directive __DirectiveLocation").split()) + ']}}}'),
    ('{ __type(name: "User") { name fields { name type { kind ofType { name } } } } }', "{}", "8.000 6.000",
     '{"data":{"__type":{"name":"User","fields":[{"name":"id","type":{"kind":"NON_NULL","ofType":{"name":"ID"}}},'
     '{"name":"friends","type":{"kind":"NON_NULL","ofType":{"name":null}}}]}}}'),
    ('{ __type(name: "X") { name } }', "{}", "1.000 1.000", '{"data":{"__type":null}}'),
    ("query($n: String!) { t: __type(name: $n) { ...F } __typename } fragment F on __Type { kind @skip(if: true) name }", '{"n":"ID"}', "2.000 1.000",
     '{"data":{"t":{"name":"ID"},"__typename":"Query"}}'),
    ("{ user { id } __schema { types { name } } }", "{}", "local 1 Mixed 2", None),
    ("{ user { id } }", "{}", "local 7 NotLocal", None),
    ("{ __schema { __foo } }", "{}", "local 2 Rule 12 UnknownField 13", None),
    ("query($n: String!) { __type(name: $n) { name } }", "{}", "local 3 Variable 1 Missing n", None),
    ("{ __type { name } }", "{}", "local 4 Plan 1 Argument data.__type 1 Missing name", None),
]


def run(program, schema, document, variables="{}"):
    """What `introspect` writes, in lines, and the seconds of a processor that it takes."""
    with tempfile.TemporaryDirectory() as folder:
        names = []
        for name, text in (("schema", schema), ("document", document), ("variables", variables)):
            names.append(os.path.join(folder, name))
            with open(names[-1], "w") as file:
                file.write(text)
        before = resource.getrusage(resource.RUSAGE_CHILDREN).ru_utime
        ran = subprocess.run([program, "introspect", *names[:2], "--variables", names[2]], capture_output=True, text=True)
        seconds = resource.getrusage(resource.RUSAGE_CHILDREN).ru_utime - before
        return (ran.stdout.splitlines() or [ran.stderr.strip()]), seconds


def clients(program, query):
    for name in sorted(os.listdir(HERE + "/introspection")):
        if name.endswith(".graphql"):
            path = HERE + "/introspection/" + name
            lines, _ = run(program, open(path).read(), query)
            with tempfile.NamedTemporaryFile("w", suffix=".json") as answer:
                answer.write(lines[-1])
                answer.flush()
                told = subprocess.run(["node", CLIENT, answer.name, path], capture_output=True, text=True)
            yield told.returncode == 0, "client of %s: %s" % (name, (told.stdout or told.stderr).strip())


def rows(program):
    for document, variables, first, text in ROWS:
        lines, _ = run(program, USER, document, variables)
        yield lines == [it for it in (first, text) if it], "row %s: %s" % (document, lines[0])
    deep = "{ __schema { types { %s%%s%s } } }%%s" % ("ofType { " * 47, " }" * 47)
    lines, _ = run(program, USER, deep % ("name", ""))
    yield lines[0] == "15.000 15.000", "50 levels: " + lines[0]
    lines, _ = run(program, USER, deep % ("...F", " fragment F on __Type { ofType { name } }"))
    yield lines[0].startswith("local 4 Plan 6 TooDeep data.__schema.types.ofType"), "51 levels: " + lines[0][:50]
    # 757 types of 1,320 values each, with themselves, their list, the schema and the root
    many = "type Query { a: String }" + "".join(" type T%d { a: String }" % it for it in range(746))
    kinds = "{ __schema { types { %s } } %%s }" % " ".join("k%d: kind" % it for it in range(1320))
    lines, _ = run(program, many, kinds % "")
    yield lines[0] == "759.000 2.000", "1,000,000 values: " + lines[0]
    lines, _ = run(program, many, kinds % "__typename")
    yield lines == ["local 5 TooLarge"], "1,000,001 values: " + lines[0]


def sized(types, fields):
    """A schema of so many types and fields, whose whole answer is large."""
    each = fields // types
    names = " ".join
    return "type Query { a: T0 }\n" + "\n".join(
        "type T%d { %s }" % (i, names("f%d: T%d" % (j, (7 * i + j) % types) for j in range(each))) for i in range(types))


def costs(program, query):
    schema = sized(4950, 49500)
    _, small = run(program, schema, "{ __type(name: \"X\") { name } }")
    yield small < SECONDS, "reading 4,950 types and 49,500 fields, what is known of them, and a small question: %.2f s" % small
    lines, seconds = run(program, schema, query)
    yield seconds - small < SECONDS and lines[0].endswith("000"), "the usual query over them: %.2f s more, %s" % (seconds - small, lines[0])
    aliases = "query($v: String!) { %s }" % " ".join("a%d: __type(name: $v) { name }" % i for i in range(4000))
    lines, seconds = run(program, USER, aliases, '{"v":"%s"}' % ("x" * 130_000))
    yield seconds < 2 * SECONDS, "4,000 aliases with a name of 130,000 letters: %.2f s, %s" % (seconds, lines[0])


def main():
    program = os.path.abspath(sys.argv[1] if len(sys.argv) > 1 else HERE + "/../release/tellcrock")
    asked = subprocess.run(["node", CLIENT, "query"], capture_output=True, text=True)
    if asked.returncode:
        sys.exit("graphql-js isn't there: " + asked.stderr.strip())
    failed = 0
    for part in (clients(program, asked.stdout), rows(program), costs(program, asked.stdout)):
        for is_right, told in part:
            failed += not is_right
            print("ok  " if is_right else "FAIL", told)
    most = resource.getrusage(resource.RUSAGE_CHILDREN).ru_maxrss
    failed += most > KILOBYTES
    print("ok  " if most <= KILOBYTES else "FAIL", "most memory: %d KB" % most)
    sys.exit(failed > 0)


main()
