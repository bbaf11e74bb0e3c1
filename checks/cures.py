"""Applies to refusals the cures that `told_refusals` names.

    python3 checks/cures.py [PROGRAM]       crates/gateway_cli/out/gateway_cli unless another program is named

Each case has texts that are refused, and the same texts after what the sentence says has been done to them: then the same command has to end with status
0. The first line that `explain` prints has to be the refusal, and the last two the sentences of it, what is wrong and what helps. `explain` reads no client
files, scripts, lists of trusted documents and replies; refusals of these are those of the commands that read them, which print their line alone. The
status is 1 where a case doesn't hold, or sentences have no case: each pair of them needs one."""

import hashlib
import json
import os
import re
import subprocess
import sys
import tempfile

TOP = os.path.dirname(os.path.dirname(os.path.abspath(__file__)))
BUILT = f"{TOP}/crates/gateway_cli/out/gateway_cli"
ADVICE = f"{TOP}/crates/told_refusals/src/advice.rt"
# The files that a command reads, in their order, and the statuses of refusals that have one of their own.
READS = {"explain": ["schema", "document"], "introspect": ["schema", "document"], "worst": ["schema", "document"], "meter": ["schema", "document", "reply"], "replay": ["schema", "clients", "script"]}
STATUSES = {"meter 1": 7, "meter 2": 6}

SCHEMA = """scalar Any
directive @mine on FIELD
enum Color { RED GREEN }
input By { title: String! pages: Int }
interface Node { id: ID! }
interface Empty { id: ID! }
type Query {
  name: String
  title: String
  number(n: Int): Int
  numbers(of: [Int!]): Int
  any(x: Any): Int
  color(c: Color): Int
  find(by: By): Book
  user(id: ID!): User
  node: Node
  none: Empty
  books(first: Int, last: Int): [Book!] @listSize(slicingArguments: ["first", "last"])
}
type User implements Node { id: ID! friend: User }
type Book implements Node { id: ID! title: String }
"""


class Case:
    """A refusal, the command that ends with it, the texts that it is told of, and what was done to them."""

    def __init__(self, refusal, schema, document, words=(), variables=None, cured=None, command="explain", **others):
        self.refusal, self.command, self.texts = refusal, command, {"schema": schema, "document": document, "variables": variables, "words": words, **others}
        self.cured = {**self.texts, **cured}


CASES = []


def of_schema(refusal, schema, cured):
    CASES.append(Case(refusal, schema, None, cured={"schema": cured}))


def of_document(refusal, document, cured, schema=SCHEMA, **others):
    CASES.append(Case(refusal, schema, document, cured={"document": cured}, **others))


def of_replay(refusal, cured, clients="clients 2\nwindow 60\nalpha 60 60\n", script="", **others):
    CASES.append(Case(refusal, SCHEMA, None, cured=cured, command="replay", clients=clients, script=script, **others))


def of_reply(refusal, document, reply, cured, schema=SCHEMA):
    CASES.append(Case(refusal, schema, document, cured=cured if isinstance(cured, dict) else {"reply": cured}, command="meter", reply=reply))


def of_variables(refusal, document, variables, cured):
    CASES.append(Case(refusal, SCHEMA, document, variables=variables, cured={"variables": cured}))


def files():
    of_document("input 1 TooLarge", "{ name }" + " " * 262144, "{ name }")
    of_document("input 2 NotText", "{ name } # caf\xe9".encode("latin-1"), "{ name } # caf\xe9")
    of_variables("body 1 NotJson", "query ($id: ID!) { user(id: $id) { id } }", "{id: 7}", '{"id": "7"}')
    of_variables("body 5 BadVariables", "query ($id: ID!) { user(id: $id) { id } }", '["7"]', '{"id": "7"}')


def tokens():
    of_document("document 1 Lex 1 BadChar", "{ ?name }", "{ name }")
    of_document("document 1 Lex 2 BadNumber", "{ number(n: 01) }", "{ number(n: 1) }")
    of_document("document 1 Lex 3 OpenText", '{ user(id: "7) { id } }', '{ user(id: "7") { id } }')
    of_document("document 1 Lex 4 BadEscape", '{ user(id: "\\q") { id } }', '{ user(id: "\\\\") { id } }')
    of_document("document 1 Lex 5 FloatValue", "{ number(n: 1.5) }", "{ number(n: 2) }")
    of_schema("text 1 Lex 1 BadChar", "type Query { a: Int; b: Int }", "type Query { a: Int b: Int }")


def schema_texts():
    of_schema("text 2 Unexpected", "type Query { a: Int } type Page { }", "type Query { a: Int } type Page { a: Int }")
    of_schema("text 3 Extension", "type Query { a: Int } extend type Query { b: Int }", "type Query { a: Int b: Int }")
    deep = "type Query { a(x: %sInt%s): Int }"
    of_schema("text 4 TooDeep", deep % ("[" * 51, "]" * 51), deep % ("[" * 50, "]" * 50))


def schemas():
    many = "type Query { a: Int } " + " ".join(f"scalar S{n}" for n in range(5000))
    of_schema("schema 1 TooMany", many, many.replace("scalar S4999", ""))
    of_schema("schema 2 Repeated", "type Query { a: Int a: String }", "type Query { a: Int b: String }")
    of_schema("schema 3 Reserved", "type Query { __a: Int }", "type Query { a: Int }")
    of_schema("schema 4 UnknownType", "type Query { a: Autor } type Author { id: ID }", "type Query { a: Author } type Author { id: ID }")
    of_schema("schema 5 NoQuery", "type Root { a: Int }", "schema { query: Root } type Root { a: Int }")
    of_schema("schema 6 WrongKind", "type Query { a(by: By): Int } type By { n: Int }", "type Query { a(by: By): Int } input By { n: Int }")
    of_schema("schema 7 FloatScalar", "type Query { price: Float }", "type Query { price: Money } scalar Money")
    of_schema("schema 7 FloatScalar", "type Query { price: Float }", "type Query { price: Float } scalar Float @floats")
    of_schema("schema 8 NestedList", "type Query { rows: [[Int]] }", "type Query { rows: [Row] } type Row { cells: [Int] }")
    of_schema("schema 9 EmptyType", "type Query { a: Page } type Page", "type Query { a: Page } type Page { n: Int }")
    of_schema("schema 10 NotImplemented", "interface I { a: Int } type Query implements I { b: Int }", "interface I { a: Int } type Query implements I { a: Int b: Int }")
    of_schema("schema 11 BadDirective", "type Query { a: Int @cost(weight: 5) }", 'type Query { a: Int @cost(weight: "5") }')
    of_schema("schema 12 BadDefault", 'type Query { a(n: Int = "1"): Int }', "type Query { a(n: Int = 1): Int }")


def weights():
    weighed = 'type Query { a: Int @cost(weight: "%s") }'
    for number, name, weight, cured in [
        (1, "Empty", "", "1.5"),
        (2, "Negative", "-1", "0"),
        (3, "Exponent", "1e3", "1000"),
        (4, "BadDigit", "1,5", "1.5"),
        (5, "TooFine", "0.1234567", "0.123457"),
        (6, "TooLarge", "1000001", "1000000"),
    ]:
        of_schema(f"directive 1 Weight Query.a {number} {name}", weighed % weight, weighed % cured)


def directives():
    sized = "type Query { %s } type Page { rows: [Int] one: Int }"

    def case(refusal, field, cured):
        of_schema(f"directive {refusal}", sized % field, sized % cured)

    case("2 NotAList", "a: Page @listSize(assumedSize: 5)", 'a: Page @listSize(assumedSize: 5, sizedFields: ["rows"])')
    case("3 Dotted", 'a(in: Int): [Int] @listSize(slicingArguments: ["in.first"])', 'a(in: Int): [Int] @listSize(slicingArguments: ["in"])')
    case("4 SlicingUnknown", 'a(first: Int): [Int] @listSize(slicingArguments: ["frist"])', 'a(first: Int): [Int] @listSize(slicingArguments: ["first"])')
    case("5 SlicingNotInt", 'a(first: String): [Int] @listSize(slicingArguments: ["first"])', 'a(first: Int!): [Int] @listSize(slicingArguments: ["first"])')
    case("6 SizedOnList", 'a: [Page] @listSize(assumedSize: 5, sizedFields: ["rows"])', 'a: Page @listSize(assumedSize: 5, sizedFields: ["rows"])')
    case("7 SizedUnknown", 'a: Page @listSize(assumedSize: 5, sizedFields: ["one"])', 'a: Page @listSize(assumedSize: 5, sizedFields: ["rows"])')
    case("8 NegativeSize", "a: [Int] @listSize(assumedSize: -1)", "a: [Int] @listSize(assumedSize: 0)")
    two = 'interface I { a: Int @cost(weight: "1") } interface J { a: Int @cost(weight: "2") } type Query implements I & J { a: Int%s }'
    of_schema("directive 9 Disagree", two % "", two % ' @cost(weight: "2")')


def documents():
    of_document("document 2 Unexpected", "{ name }}", "{ name }")
    deep = "{ any(x: %s%s) }"
    of_document("document 3 TooDeep", deep % ("[" * 50, "]" * 50), deep % ("[" * 49, "]" * 49))
    of_document("pick 1 NoOperation", "fragment F on Query { name }", "{ ...F } fragment F on Query { name }")
    several = "query A { name } query B { title }"
    CASES.append(Case("pick 2 Several", SCHEMA, several, cured={"words": ["--operation", "A"]}))
    CASES.append(Case("pick 3 NotThere", SCHEMA, several, words=["--operation", "a"], cured={"words": ["--operation", "A"]}))


def rules():
    of_document("rule 1 RepeatedName", "query A { name } query A { title }", "query A { name } query B { title }", words=["--operation", "A"])
    of_document("rule 2 LoneAnonymous", "query A { name } { title }", "query A { name } query B { title }", words=["--operation", "A"])
    of_document("rule 3 Subscription", "subscription { name }", "query { name }")
    mutation = "type Query { a: Int }%s"
    CASES.append(Case("rule 4 NoRoot", mutation % "", "mutation { b }", cured={"schema": mutation % " type Mutation { b: Int }"}))
    named = "schema { query: Query%s } type Query { a: Int } type Mutation { b: Int }"
    CASES.append(Case("rule 4 NoRoot", named % "", "mutation { b }", cured={"schema": named % " mutation: Mutation"}))
    of_document("rule 5 UnknownFragment", "{ ...Names }", "{ ...Names } fragment Names on Query { name }")
    of_document("rule 6 FragmentCycle", "{ user(id: 1) { ...F } } fragment F on User { friend { ...F } }", "{ user(id: 1) { friend { friend { id } } } }")
    of_document("rule 7 FragmentOn", "{ ... on Color { name } }", "{ ... on Query { name } }")
    of_document("rule 8 UnknownDirective", "{ name @lower }", "{ name }")
    of_document("rule 9 CustomDirective", "{ name @mine }", "{ name }")
    of_document("rule 10 DirectiveUse", "{ name @skip }", "{ name @skip(if: false) }")
    of_document("rule 11 Introspection", "{ user(id: 1) { __kind } }", "{ user(id: 1) { __typename } }")
    of_document("rule 11 Introspection", "{ __x }", "{ name }")
    of_document("rule 11 Introspection", "{ user(id: 1) { __schema { description } } }", "{ __schema { description } }")
    of_document("rule 12 UnknownField", "{ node { title } }", "{ node { ... on Book { title } } }")
    of_document("rule 13 LeafWithSelection", "{ name { x } }", "{ name }")
    of_document("rule 14 CompositeWithout", "{ user(id: 1) }", "{ user(id: 1) { id } }")
    of_document("rule 15 RepeatedVariable", "query ($n: Int, $n: Int) { number(n: $n) }", "query ($n: Int) { number(n: $n) }")
    of_document("rule 16 VariableType", "query ($n: Float) { number(n: $n) }", "query ($n: Int) { number(n: $n) }")
    of_document("rule 17 UndefinedVariable", "query A { number(n: $n) }", "query A($n: Int) { number(n: $n) }")
    of_document("rule 18 UnknownArgument", "{ number(m: 1) }", "{ number(n: 1) }")
    of_document("rule 19 RepeatedArgument", "{ number(n: 1, n: 2) }", "{ number(n: 1) }")
    of_document("rule 20 VariablePlace", "query ($id: ID) { user(id: $id) { id } }", 'query ($id: ID = "7") { user(id: $id) { id } }')


def values():
    of_variables("variable 1 Missing", "query ($id: ID!) { user(id: $id) { id } }", "{}", '{"id": "7"}')
    of_variables("variable 2 BadValue", "query ($by: By) { find(by: $by) { id } }", '{"by": {"title": "a", "pages": 1.5}}', '{"by": {"title": "a", "pages": 1}}')
    of_variables("variable 3 TooLarge", "query ($l: [Int!]) { numbers(of: $l) }", '{"l": [%s]}' % ",".join(["1"] * 20000), '{"l": [%s]}' % ",".join(["1"] * 10000))


def plans():
    of_document("plan 1 Argument data.user 1 Missing", "{ user { id } }", "{ user(id: 7) { id } }")
    of_document("plan 1 Argument data.color 2 BadValue", '{ color(c: "RED") }', "{ color(c: RED) }")
    listed = "{ numbers(of: [%s]) }"
    of_document("plan 1 Argument data.numbers 3 TooLarge", listed % ("1 " * 20000), listed % ("1 " * 10000))
    of_document("plan 2 Conflict", "{ a: name a: title }", "{ a: name b: title }")
    of_document("plan 3 Size data.books 1 SlicingCount", "{ books { id } }", "{ books(first: 20) { id } }")
    of_document("plan 3 Size data.books 2 NegativeSlice", "{ books(first: -1) { id } }", "{ books(first: 0) { id } }")
    of_document("plan 4 NoPossibleType", "{ none { id } name }", "{ name }")
    aliases = [f"a{n}:name" for n in range(20001)]
    of_document("plan 5 TooLarge", "{ %s }" % " ".join(aliases), "{ %s }" % " ".join(aliases[:10000]))

    def chain(levels):
        """A chain of fields, in two parts of which none has 50 levels."""
        half = levels // 2
        return "{ user(id: 1) %s...F%s } fragment F on User %s id %s" % ("{ friend " * half + "{ ", " }" * (half + 1), "{ friend " * (levels - half - 2) + "{", "}" * (levels - half - 1))

    of_document("plan 6 TooDeep", chain(51), chain(50))


def bounds():
    big = 'type Query { t: T } type T%s { id: ID! ts: [T!] @listSize(assumedSize: %d)%s }'
    three = "{ t { ts { ts { ts { id } } } } }"
    for part, of_type, of_field in [("types", "", ' @cost(weight: "0")'), ("fields", ' @cost(weight: "0")', ""), ("both", "", "")]:
        levels = three.replace("ts {", "ts { ts {", 1).replace("}", "} }", 1)
        CASES.append(Case(f"bound 1 TooCostly {part}", big % (of_type, 1000000, of_field), levels, cured={"schema": big % (of_type, 100, of_field)}))


def own_answers():
    of_document("local 1 Mixed", "{ __schema { types { name } } name }", "{ __schema { types { name } } }")
    of_document("local 2 Rule 12 UnknownField", "{ __schema { kinds } }", "{ __schema { types { kind } } }")
    CASES.append(Case("local 3 Variable 1 Missing", SCHEMA, "query ($n: String!) { __type(name: $n) { kind } }", cured={"variables": '{"n": "User"}'}))
    of_document("local 4 Plan 1 Argument data.__type 1 Missing", "{ __type { kind } }", '{ __type(name: "User") { kind } }')
    node = "interface Node { id: ID! } type Query implements Node { id: ID! }"
    of_document("local 2 Rule 7 FragmentOn", "{ ... on Node { __schema { description } } }", "{ ... on Query { __schema { description } } }", schema=node)
    of_document("local 2 Rule 7 FragmentOn", "{ ... on Node { __schema { description } } }", "{ __schema { description } }", schema=node)
    of_document("local 2 Rule 8 UnknownDirective", "{ __schema @mine { description } }", "{ __schema { description } }")
    CASES.append(Case("local 2 Rule 16 VariableType", SCHEMA, "query ($c: Color) { __schema { description } }", cured={"document": "query ($n: String!) { __type(name: $n) { kind } }", "variables": '{"n": "User"}'}))
    CASES.append(Case("local 7 NotLocal", SCHEMA, "{ name }", command="introspect", cured={"document": "{ __schema { description } }"}))
    wide = "type Query { %s }" % " ".join(f"f{n}: Query" for n in range(100))
    below = "{ __schema { types { %s } } }"
    of_document("local 5 TooLarge", below % ("fields { type { " * 3 + "fields { name }" + " } }" * 3), below % "name", schema=wide)


def written():
    lists = "{ books(first: %d) { id } }"
    CASES.append(Case("worst 1 TooLarge", SCHEMA, lists % 100000, words=["types"], command="worst", cured={"document": lists % 100}))


def client_files():
    head, alpha, beta = "clients 2\nwindow 60\n", "alpha 60 60\n", "beta 60 60\n"
    of_replay("clients 1 BadLine 3", {"clients": head + alpha}, clients=head + "alpha 60\n")
    of_replay("clients 1 BadLine 1", {"clients": head + alpha}, clients="window 60\n" + alpha)
    of_replay("clients 2 Repeated 4", {"clients": head + alpha + beta}, clients=head + alpha + alpha)
    many = [f"c{n} 1 1\n" for n in range(1001)]
    of_replay("clients 3 TooMany 1003", {"clients": head + "".join(many[:1000])}, clients=head + "".join(many))
    of_replay("clients 4 NoClient", {"clients": head + alpha}, clients=head)


def scripts():
    begin = '%s 1 alpha 0 {"query":"{ name }"}\n' % "begin"
    of_replay("script 1 BadLine 1", {"script": begin}, script=begin.replace("begin", "start"))
    of_replay("script 1 BadLine 10001", {"script": begin + "down 1\n" * 9999}, script=begin + "down 1\n" * 10000)
    of_replay("script 2 RepeatedId 2", {"script": begin + begin.replace(" 1 ", " 2 ", 1)}, script=begin + begin)
    of_replay("script 3 UnknownId 1", {"script": begin + "down 1\n"}, script="down 1\n" + begin)


def trusted_documents():
    def listed(*documents):
        return json.dumps({hashlib.sha256(it.encode()).hexdigest(): it for it in documents})

    def case(refusal, text, cured):
        of_replay(refusal, {"trusted": cured}, trusted=text)

    good = listed("{ name }")
    case("trusted 1 NotJson", good[:-1], good)
    case("trusted 2 NotObject", "[" + good + "]", good)
    case("trusted 3 TooMany 10001", listed(*[f"{{ a{n}: name }}" for n in range(10001)]), listed(*[f"{{ a{n}: name }}" for n in range(10000)]))
    case("trusted 4 BadHash", good.upper().replace("NAME", "name"), good)
    case("trusted 5 NotString", good.replace('"{ name }"', "7"), good)
    case("trusted 6 TooLong", listed("{ name }" + " " * 262144), good)
    case("trusted 7 WrongHash", good.replace("{ name }", "{ name  }"), good)


def replies():
    def case(fault, document, data, cured, schema=SCHEMA):
        of_reply(f"meter 1 NotResponse {fault}", document, json.dumps({"data": data}), json.dumps({"data": cured}), schema)

    name = '{"data": {"name": "a"}}'
    of_reply("meter 1 NotResponse data NotJson", "{ name }", name[:-1], name)
    of_reply("meter 1 NotResponse data NotJson", "{ name }", name.replace('"a"', '"\\ud83d"'), name.replace('"a"', '"\\ud83d\\ude00"'))
    of_reply("meter 1 NotResponse data NotObject", "{ name }", "[" + name + "]", name)
    of_reply("meter 1 NotResponse data BadErrors", "{ name }", '{"errors": ["no"]}', '{"errors": [{"message": "no"}]}')
    of_reply("meter 1 NotResponse data NoData", "{ name }", "{}", name)
    case("data.title MissingKey", "{ name title }", {"name": "a"}, {"name": "a", "title": None})
    case("data ExtraKey", "{ name }", {"name": "a", "title": "b"}, {"name": "a"})
    case("data.user.id NullHere", "{ user(id: 1) { id } }", {"user": {"id": None}}, {"user": {"id": "1"}})
    case("data.books NotList", "{ books(first: 1) { id } }", {"books": {"id": "1"}}, {"books": [{"id": "1"}]})
    case("data.number BadLeaf", "{ number }", {"number": "7"}, {"number": 7})
    money = "type Query { price: Money } scalar Money"
    case("data.price BadLeaf", "{ price }", {"price": 1.5}, {"price": "1.50"}, money)
    case("data.price BadLeaf", "{ price }", {"price": 1.5}, {"price": 150}, money)
    case("data.node BadType", "{ node { id } }", {"node": {"id": "1"}}, {"node": {"id": "1", "gateway_typename": "User"}})
    case("data.user BadObject", "{ user(id: 1) { id } }", {"user": "1"}, {"user": {"id": "1"}})
    one = "type Query { a: [Int!] @listSize(assumedSize: %d) } scalar Int @cost(weight: \"1\")"
    of_reply("meter 2 SizeBroken data.a 1 2", "{ a }", '{"data": {"a": [1, 2]}}', {"schema": one % 2}, one % 1)


def told(program, room, command, texts):
    """The lines and the status of a command."""
    for kind, text in texts.items():
        if kind != "words" and text is not None:
            with open(f"{room}/{kind}", "wb") as file:
                file.write(text if isinstance(text, bytes) else text.encode())
    words = [it for it in READS[command] if texts[it] is not None] + list(texts["words"])
    for option in ("variables", "trusted"):
        words += [f"--{option}", option] if texts.get(option) is not None else []
    ran = subprocess.run([program, command, *words], cwd=room, capture_output=True, timeout=120)
    return (ran.stderr or ran.stdout).decode().rstrip("\n").split("\n"), ran.returncode


def plain(literal):
    """What a literal of the source says."""
    return literal.replace('\\"', '"').replace("\\\\", "\\")


def advice():
    """What refusals begin with and the stages of these, in their order; and the sentences, by stage, fault and the fault behind the first field."""
    text = open(ADVICE).read()
    fronts = re.findall(r'^    \("([^"]+)", "([^"]+)"\),$', text, re.M)
    stages = {name: stage for stage, name in re.findall(r'"([\w ]+)" => ([A-Z_]+),', text)}
    found = {}
    for name, body in re.findall(r"const ([A-Z_]+): &\[Advice\] = &\[(.*?)\n?\];", text, re.S):
        for fault, inner, wrong, helps in re.findall(r'fault: "(.*?)",\s*inner: "(.*?)",\s*wrong:\s*"((?:\\.|[^"\\])*)",\s*helps:\s*"((?:\\.|[^"\\])*)"', body, re.S):
            found[(stages[name], fault, inner)] = (plain(wrong), plain(helps))
    if len(found) != text.count(' fault: "'):
        sys.exit(f"{len(found)} pairs of sentences are read, and the text has others")
    return fronts, found


def behind(text, front):
    """What stands behind words at the front of a text, or None."""
    return text[len(front) + 1 :] if text == front or text.startswith(front + " ") else None


def key_of(line, fronts, sentences):
    """The stage, the fault and the inner fault of a refusal, by which its sentences are found, and its fields: the first, those behind it, all of them."""
    for front, stage in fronts:
        rest = behind(line, front)
        for of, fault, inner in sentences if rest is not None else ():
            every = behind(rest, fault) if of == stage else None
            if every is not None:
                first, _, others = every.partition(" ")
                others = behind(others, inner) if inner else others
                if others is not None:
                    return (of, fault, inner), {"1": first, "2": others, "*": every}
    return None, None


def pattern(sentence, fields):
    """What a sentence is once its marks are filled; at the name of a place anything may stand."""
    return re.sub(r"\\\{(.|\\.)\\\}", lambda m: {"(": r"\{", ")": r"\}", "@": ".+"}.get(m[1].replace("\\", "")) or re.escape(fields[m[1].replace("\\", "")]), re.escape(sentence))


def holds(program, room, case, fronts, sentences, met):
    """What is wrong with a case; nothing where it holds."""
    lines, status = told(program, room, case.command, case.texts)
    if status != STATUSES.get(case.refusal[:7], 1) or not (lines[0] + " ").startswith(case.refusal + " "):
        return f"told as {lines[0]!r} with status {status}"
    key, fields = key_of(lines[0], fronts, sentences)
    if key is None:
        return f"no sentences for {lines[0]!r}"
    if case.command == "explain":
        for sentence, line in zip(sentences[key], lines[-2:]):
            if not re.fullmatch(pattern(sentence, fields), line):
                return f"the line {line!r} for {sentence!r}"
    met.add(key)
    after, status = told(program, room, case.command, case.cured)
    return "" if status == 0 else f"after the cure: {after[0]!r} with status {status}"


def main(words):
    program, (fronts, sentences), met, failed = os.path.abspath(words[0] if words else BUILT), advice(), set(), 0
    for part in (files, tokens, schema_texts, schemas, weights, directives, documents, rules, values, plans, bounds, own_answers, written, client_files, scripts, trusted_documents, replies):
        part()
    with tempfile.TemporaryDirectory(prefix="cures-") as room:
        for case in CASES:
            wrong = holds(program, room, case, fronts, sentences, met)
            if wrong:
                failed += 1
                print(f"{case.refusal}: {wrong}")
    for key in sentences:
        if key not in met:
            failed += 1
            print(f"{' '.join(key)}: no case holds")
    print(f"{len(CASES)} cases, {len(met)} pairs of sentences of {len(sentences)}, {failed} don't hold")
    return 1 if failed else 0


if __name__ == "__main__":
    sys.exit(main(sys.argv[1:]))
