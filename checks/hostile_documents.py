#!/usr/bin/env python3
"""Prices documents that are made to be slow under a bound on the work of a request, and says what they take.

    python3 checks/hostile_documents.py [--program PROGRAM] [--most-work N] [NAME..]
    python3 checks/hostile_documents.py --without [--program PROGRAM] [NAME..]

Each family is built for bodies (document and variables together) of 16,384 bytes and of 262,144, the longest that the gateway takes, and priced with
`--most-work 3000000` by the built program (`crates/gateway_cli/out/gateway_cli`, or the one that is named). A line says the processor seconds and the megabytes
at each length, whether the document was refused for its work, and how long a step took. The seconds are those of `price` less those of
`{ __typename }` by the same schema (of a question about the schema, less those of `{ __schema { __typename } }`), which a gateway reads once; the megabytes are all, and never fewer than this script has itself.

A family may take 0.25 seconds and 200 MB at the shorter length, and a second at the longer one; one that takes more is measured again, and the quickest of three runs counts. Where checking, planning and pricing take more than a
twentieth of a second, a step of them may take a microsecond: so a loop whose steps aren't counted is seen. The status is 0 exactly where all families are so.
With names, only these families are tried.

With `--without`, no bound is set, and a line says how time and memory grow over four lengths: a report, whose status is 0.
"""
import argparse
import itertools
import json
import os
import re
import sys
import tempfile

import steps

ADVISED = 3000000
WITHIN = {16384: (0.25, 200), 262144: (1.0, None)}
SEEN, MICROSECONDS = 0.05, 1.0
ALONE = {}
ONE = "type Query { n: N } type N { a: Int b(x: Int): Int n: N }"
TWO = "type Query { n: I } interface I { a: Int } type N implements I { a: Int } type M implements I { a: Int }"


def filled(length, piece, room=0):
    """Pieces by their numbers, together as long as may be."""
    found, used = [], 0
    while True:
        one = piece(len(found))
        if used + len(one) + room > length:
            return "".join(found)
        found.append(one)
        used += len(one)


def halves(length, keys, inside, on="N"):
    """An operation of many keys that spread one fragment of as much text."""
    fragment = "fragment F on %s{%s}" % (on, filled(length // 2, inside))
    return "{%s}%s" % (filled(length - len(fragment) - 2, keys), fragment)


def key(text):
    return lambda i: "k%d:n{%s}" % (i, text)


def orders(i):
    """A selection set of seven keys in an order of its own."""
    left, order = list("abcdefg"), []
    for n in range(7, 0, -1):
        order.append(left.pop(i % n))
        i //= n
    return "n{%s}" % " ".join(it if it == "a" else it + ":a" for it in order)


def chain(length):
    """Fragments that each spread the next one twice."""
    return "{n{...F0}}" + filled(length - 30, lambda i: "fragment F%d on N{a ...F%d ...F%d}" % (i, i + 1, i + 1), 30) + "fragment F%d on N{a}"


def whole_chain(length):
    text = chain(length)
    last = text.count("fragment") - 1
    return text % last


def many_types(count):
    types = "".join(" type T%d implements I { a: Int }" % i for i in range(count))
    return "type Query { n: I } interface I { a: Int }" + types


def own_orders(length):
    """Fragments that each hold a selection set in an order of its own, and spread the next one."""
    count = 1
    while True:
        fragments = "".join("fragment F%d on N{%s ...F%d}" % (i, orders(i), i + 1) for i in range(count)) + "fragment F%d on N{a}" % count
        keys = "".join("k%d:n{...F%d}" % (i, i) for i in range(count))
        if len(fragments) + len(keys) + 2 > length:
            return before
        before = "{%s}%s" % (keys, fragments)
        count += max(1, (length - len(before)) // 80)


def orders_in_fragments(length):
    """A fragment whose sets are fragments of their own, each with fields in an order of its own."""
    count = max(1, length // 150)
    fragments = "".join("fragment G%d on N%s" % (i, orders(i)[1:]) for i in range(count))
    return "{%s}fragment F on N{%s}%s" % (filled(length // 3, key("...F")), "".join("n{...G%d}" % i for i in range(count)), fragments)


def own_keys(length):
    """Fragments that each hold a key of their own, and spread the next one."""
    count = length // 60
    fragments = "".join("fragment F%d on N{a%d:a ...F%d}" % (i, i, i + 1) for i in range(count))
    return "{%s}%sfragment F%d on N{a}" % ("".join("k%d:n{...F%d}" % (i, i) for i in range(count)), fragments, count)


def two_ways(length):
    """Fragments that each spread the next one through two others, with a key of its own on each way."""
    count = length // 160
    way = "fragment %s%d on N{%s%d:a ...F%d}"
    fragments = "".join("fragment F%d on N{...A%d ...B%d}" % (i, i, i) + way % ("A", i, "x", i, i + 1) + way % ("B", i, "y", i, i + 1) for i in range(count))
    return "{%s}%sfragment F%d on N{a}" % ("".join("k%d:n{...F%d}" % (i, i) for i in range(count)), fragments, count)


def by_turns(text, other):
    """Keys that make one call and another by turns."""
    return lambda n: "query($a:[Int],$b:[Int]){%s}" % filled(n - 30, lambda i: "k%d:%s" % (i, other if i % 2 else text))


def defaults(count):
    return "type Query { o(i: [I]): Int } input I { z: Int %s }" % " ".join("f%d: Int = 1" % i for i in range(count))


def nested_defaults():
    """An input object whose defaults have 20,000 nodes."""
    return "type Query { o(i: I): Int } input I { z: Int %s } input J { %s }" % (" ".join("f%d: J = {}" % i for i in range(19)), " ".join("g%d: Int = 1" % i for i in range(998)))


def many_arguments(count):
    return "type Query { o(z: Int %s): Int }" % " ".join("a%d: Int = 1" % i for i in range(count))


def own_calls(text, head=""):
    """Keys whose calls all differ."""
    return lambda n: head + "{%s}" % filled(n - len(head) - 2, lambda i: "k%d:o(%s)" % (i, text % i))


def in_two_orders(i):
    """A key with a call of its own, written in two ways."""
    items = "{}" * 18
    return "k%d:o(i:[{z:%d f0:2}%s])k%d:o(i:[{f0:2 z:%d}%s])" % (i, i, items, i, i, items)


def great(*values):
    """Variables a, b.. that are lists, each of one value again and again: as many as an argument may have, or as there is room for."""
    def build(room):
        count = min(19990, (room - 20) // (2 * len(values)))
        return json.dumps({name: [value] * count for name, value in zip("ab", values)}, separators=(",", ":"))
    return build


def scalars(room):
    """A variable v that is as long a list."""
    return json.dumps({"v": [1] * min(19980, (room - 20) // 2)}, separators=(",", ":"))


def permutation(i, items):
    """The order of a number."""
    left, order = list(items), []
    for n in range(len(left), 0, -1):
        order.append(left.pop(i % n))
        i //= n
    return order


EIGHT = "type Query { n: N } type N { n: N %s }" % " ".join("%s: Int" % it for it in "abcdefgh")


def many_kept(sets, fragments):
    """Keys that spread F: so many sets, each of which spreads the same fragments of eight fields, in an order of its own."""
    def build(length):
        inner = "".join("fragment G%d on N{a b c d e f g h}" % i for i in range(fragments))
        some = min(sets, max(1, length // 2 // (6 * fragments)))
        f = "fragment F on N{%s}" % "".join("n{%s}" % "".join("...G%d" % ((i + j) % fragments) for i in range(fragments)) for j in range(some))
        rest = inner + f
        count = min(20000 // 10, max(1, (length - len(rest) - 2) // 14))
        return "{%s}%s" % ("".join("k%d:n{...F}" % i for i in range(count)), rest)
    return build


def equal_calls(length):
    """A fragment whose calls are equal, and written in orders of their own."""
    fields = filled(length // 2, lambda i: "c:o(i:{%s})" % ",".join("%s:1" % it for it in permutation(i, "abcdefg")))
    fragment = "fragment F on N{%s}" % fields
    return "{%s}%s" % (filled(length - len(fragment) - 2, key("...F")), fragment)


def interfaces(count):
    """An object type of as many interfaces."""
    names = ["I%d" % i for i in range(count)]
    return "type Query { n: N } %s type N implements %s { a: Int }" % (" ".join("interface %s { a: Int }" % it for it in names), " & ".join(names))


def interfaces_of_types(count):
    """An object type of as many interfaces, whose field has a type of its own on each of them."""
    numbers = range(count)
    return "type Query { n: N } %s type X implements %s { b: Int } type N implements %s { a: X }" % (
        " ".join("interface J%d { a: X%d } interface X%d { b: Int }" % (i, i, i) for i in numbers),
        " & ".join("X%d" % i for i in numbers),
        " & ".join("J%d" % i for i in numbers),
    )


def by_interfaces(length):
    """A fragment with a condition on each of many interfaces."""
    return halves(length, key("...F"), lambda i: "...on I%d{a}" % (i % 4990))


def great_literals(count):
    """Keys that make calls by turns, whose literals differ in their last value alone."""
    def build(length):
        each = min(19990, (length * 120000 // 262144) // count // 2)
        fields = " ".join("c%d:b(x:[%s %d])" % (i, "1 " * each, i % 10) for i in range(count))
        fragment = "fragment F on N{%s}" % fields
        places = min(20000 // (count + 1), (length - len(fragment)) // 14)
        return "{%s}%s" % ("".join("k%d:n{...F}" % i for i in range(places)), fragment)
    return build


def fields_of(count):
    """A schema of as many fields that take a list."""
    return "type Query { n: N } type N { %s }" % " ".join("o%d(i: [Int]): Int" % i for i in range(count))


def calls_by_turns(count, texts):
    """Keys that make many great calls by turns."""
    def build(length):
        fields = " ".join("%s" % " ".join(text % (i, i) for text in texts) for i in range(count))
        fragment = "fragment F on N{%s}" % fields
        places = min(20000 // (count + 1), (length - 40 - len(fragment)) // 14)
        return "query($a:[Int]){%s}%s" % ("".join("k%d:n{...F}" % i for i in range(places)), fragment)
    return build


def paired(length, make, room=0):
    """As many pairs of texts as fit, and how many there are."""
    found, used = [], 0
    while True:
        one = make(len(found))
        if used + sum(map(len, one)) + room > length:
            return ["".join(it) for it in zip(*found)], len(found)
        used += sum(map(len, one))
        found.append(one)


def chain_of_calls(length):
    """Fragments that each make a call, equal to the others and written otherwise, and spread the next one."""
    (heads, fragments), count = paired(length, lambda i: ("$a%d:Int=1," % i, "fragment F%d on I{b(x:$a%d)...F%d}" % (i, i, i + 1)), 100)
    return "query(%s){k0:n{...F0}k1:n{...F0}k2:n{...F0}}%sfragment F%d on I{a}" % (heads, fragments, count)


def types_elsewhere(length):
    """Keys that spread a fragment with conditions on seventeen types that can't stand there."""
    fragment = "fragment F on I{%s}" % "".join("...on X%d{a}" % i for i in range(17))
    return "{%s}%s" % (filled(length - len(fragment) - 2, key("...F")), fragment)


def many_types_elsewhere(count):
    types = "".join(" type T%d implements I { a: Int n: I }" % i for i in range(count))
    return "type Query { n: I } interface I { a: Int n: I }" + types + "".join(" type X%d { a: Int }" % i for i in range(17))


def two_interfaces(count):
    """Two interfaces of as many types, below one another."""
    types = "".join(" type T%d implements I { a: Int m: J } type U%d implements J { a: Int n: I }" % (i, i) for i in range(count))
    return "type Query { n: I } interface I { a: Int m: J } interface J { a: Int n: I }" + types


def types_by_turns(length):
    """Keys at one interface and at another by turns, beside a chain of fragments."""
    chain = filled(length // 2, lambda i: "fragment F%d on I{...F%d}" % (i, i + 1), 40)
    chain += "fragment F%d on I{a}" % chain.count("fragment")
    return "{n{...F0}%s}%s" % (filled(length - len(chain) - 12, key("...on T0{m{...on U0{a}}}")), chain)


def pairs_of_calls(length):
    """Keys that each make a call of their own and as many others, all equal and written otherwise."""
    (others, calls), _ = paired(length // 2, lambda i: ("$w%d:I={}," % i, "c:o(i:$w%d)" % i))
    (own, keys), _ = paired(length // 2 - 40, lambda i: ("$v%d:I={}," % i, "k%d:n{c:o(i:$v%d)...F}" % (i, i)))
    return "query(%s%s){%s}fragment F on N{%s}" % (others, own, keys, calls)


def own_variables(text):
    """Keys that each make a call with a variable of its own, whose default fills an input object."""
    def build(length):
        count = (length - 20) // 32
        head = "query(%s)" % ",".join("$v%d:I={}" % i for i in range(count))
        return head + "{%s}" % "".join("k%d:o(i:%s)" % (i, text % i) for i in range(count))
    return build


def colliding(length):
    """Two calls by turns, whose last integer took all that was written before it out of std's hash with a fixed seed."""
    number = (0x9E3779B97F4A7C15 << 64) - (1 << 128)
    fragment = "fragment F on N{c:b(x:[$v 0 %d])d:b(x:[$v 1 %d])}" % (number, number)
    return "query($v:S){%s}%s" % (filled(length - len(fragment) - 20, key("...F")), fragment)


def long_key(length):
    """Keys that spread a fragment with a response key of half the length."""
    half = length // 2
    return "{%s}fragment F on N{%s:a}" % (filled(length - half - 30, key("...F")), "x" * half)


def doubled(levels, piece, last, on="N", field="n"):
    """Fragments that each spread the next one below two keys: two to the power of `levels` places, in few bytes."""
    def build(length):
        chain = "".join("fragment F%d on %s{%s}" % (i, on, piece % (i + 1, i + 1)) for i in range(levels))
        return "{%s{...F0}}%sfragment F%d on %s{%s}" % (field, chain, levels, on, last)
    return build


def of_no_type(count):
    """A fragment that spreads fragments on types. What these have stands under conditions on two types, behind three fragments of conditions in one another."""
    nested = lambda inside: "...on I{" * 45 + inside + "}" * 45
    names = ["X%d" % i for i in range(count)]
    chain = [("Y", "...Z"), ("Z", "...W"), ("W", "...on T1{...on T2{a}}")]
    return "fragment V on I{%s}%s%s" % (
        "".join("..." + it for it in names),
        "".join("fragment %s on T%d{...Y}" % (it, 100 + i) for i, it in enumerate(names)),
        "".join("fragment %s on I{%s}" % (name, nested(inside)) for name, inside in chain),
    )


def behind_fragments(length):
    """Doubled places of a type, each with fragments on seventeen others that have no field."""
    return doubled(12, "...on T0{a:n{...F%d}b:n{...F%d}}...V", "...on T0{a}...V", "I")(length) + of_no_type(17)


def joined(count):
    """A field of an interface of as many types, below an object type."""
    types = "".join(" type J%d implements J { a: Int }" % i for i in range(count))
    return "type Query { n: N } type N { g: J n: N } interface J { a: Int }" + types


def joined_sets(length):
    """Keys that spread a fragment of thousands of sets at an interface, none of which has a field."""
    fragment = "fragment F on N{%s}" % filled(length // 2, lambda i: "g{...on J0{...on J1{x%d:a}}}" % i)
    places = min(9000, (length - len(fragment)) // 14)
    return "{%s}%s" % ("".join("k%d:n{...F}" % i for i in range(places)), fragment)


def doubled_types(count):
    return "type Query { n: I } interface I { a: Int n: I } " + " ".join("type T%d implements I { a: Int n: I }" % i for i in range(count))


def spreads_behind_chain(length):
    """A chain of fragments, at whose end one is spread by thousands."""
    chain = filled(length // 2, lambda i: "fragment F%d on N{...F%d}" % (i, i + 1))
    last = "fragment F%d on N{" % chain.count("fragment")
    return "{n{...F0}}%s%s%s a}fragment G on N{a}" % (chain, last, filled(length - len(chain) - 60, lambda i: "...G"))


def great_enum(count):
    return "type Query { e(x: [E]): Int } enum E { %s }" % " ".join("V%030d" % i for i in range(count))


def enum_lists(count):
    """Calls with lists of the last values of an enum of so many."""
    return lambda n: "{%s}" % filled(n - 2, lambda i: "k%d:e(x:[%s])" % (i, " ".join("V%030d" % (count - 1 - j) for j in range(100))))


def long_types(size):
    """An object type and an input type with names of so many bytes."""
    name = "T" * size
    return "type Query { n: %s } type %s { n: %s a: Int o(i: I%s): Int } input I%s { z: Int i: I%s }" % ((name,) * 6)


def sliced(count):
    """Lists with so many slicing arguments."""
    numbers = range(count)
    return 'type Query { o(%s): [N] @listSize(slicingArguments: [%s], requireOneSlicingArgument: false) } type N { a: Int }' % (
        " ".join("a%d: Int" % i for i in numbers), " ".join('"a%d"' % i for i in numbers))


def two_apart(one, other):
    """An interface of types, so many of which are of a second and the others of a third one."""
    types = ["type T%d implements I & %s { a: Int n: I }" % (i, "J" if i < one else "K") for i in range(one + other)]
    return "type Query { n: I } interface I { a: Int n: I } interface J { a: Int } interface K { a: Int } " + " ".join(types)


def apart(length):
    """Keys that spread a fragment with conditions on two interfaces in one another."""
    fragment = "fragment F on I{...on J{...on K{a}}}"
    return "{%s}%s" % (filled(length - len(fragment) - 2, key("...F")), fragment)


def fieldless_chain(length):
    """A chain of fragments, none of which has a field for a type, at two keys."""
    chain = filled(length - 100, lambda i: "fragment F%d on I{...on J{...on K{a b:a c:a d:a e:a f:a g:a}}...F%d}" % (i, i + 1))
    return "{k0:n{...F0}k1:n{...F0}k2:n{...F0}}%sfragment F%d on I{...on J{...on K{a}}}" % (chain, chain.count("fragment"))


def nearly_alike(kinds, types):
    """So many interfaces, all of the same types but for one each."""
    names = ["I%d" % i for i in range(kinds)]
    all_of = " ".join("type T%d implements %s { a: Int }" % (i, " & ".join(names)) for i in range(types))
    own = " ".join("type U%d implements I%d { a: Int }" % (i, i) for i in range(kinds))
    return "type Query { %s } %s %s %s" % (" ".join("n%d: I%d" % (i, i) for i in range(kinds)), " ".join("interface %s { a: Int }" % it for it in names), all_of, own)


def beside_none(types):
    """An interface of so many types, and one of none."""
    return "type Query { n: I } interface I { a: Int } interface E { a: Int } " + " ".join("type T%d implements I { a: Int }" % i for i in range(types))


def below_all(kinds, types):
    """So many interfaces of as many types, and one of them all."""
    numbers = range(kinds)
    interfaces = " ".join("interface I%d { a: Int }" % i for i in numbers)
    all_types = " ".join("type T%dx%d implements A & I%d { a: Int }" % (k, i, k) for k in numbers for i in range(types))
    return "type Query { %s } interface A { a: Int } %s %s" % (" ".join("n%d: I%d" % (i, i) for i in numbers), interfaces, all_types)


def kinds_beside_chain(kinds):
    """Keys at interfaces by turns, each of which spreads a chain of fragments."""
    def build(length):
        chain = filled(length // 2, lambda i: "fragment F%d on A{...F%d}" % (i, i + 1), 40)
        chain += "fragment F%d on A{...on T0x0{a}}" % chain.count("fragment")
        return "{%s}%s" % (filled(length - len(chain) - 2, lambda i: "k%d:n%d{...F0}" % (i, i % kinds)), chain)
    return build


def beside_another(kinds, types):
    """So many interfaces of fifteen types, five of which are of one of thousands of types; and an interface of its last type alone."""
    text = ["type Query { %s } interface X { a: Int } interface B { a: Int }" % " ".join("n%d: I%d" % (i, i) for i in range(kinds))]
    text += ["interface I%d { a: Int }" % i for i in range(kinds)]
    for i in range(types):
        own = " & I%d" % (i // 5) if i // 5 < kinds else ""
        text.append("type T%d implements X%s%s { a: Int }" % (i, own, " & B" if i == types - 1 else ""))
    text += ["type U%dx%d implements I%d { a: Int }" % (i, j, i) for i in range(kinds) for j in range(10)]
    return " ".join(text)


def beside_conditions(kinds):
    """Keys at so many interfaces, each of which spreads a fragment of conditions on two others in one another."""
    def build(length):
        keys = "{%s}" % " ".join("n%d{...F}" % i for i in range(kinds))
        return keys + "fragment F on X{%s}" % filled(length - len(keys) - 20, lambda i: "...on B{...on X{a%d:a}}" % i)
    return build


def each_beside_chain(kinds):
    """A key at each of so many interfaces, which spreads a chain of fragments on the first of them."""
    def build(length):
        keys = "{%s}" % "".join("n%d{...F0}" % i for i in range(kinds))
        chain = filled(length - len(keys) - 40, lambda i: "fragment F%d on I0{...F%d}" % (i, i + 1))
        return "%s%sfragment F%d on I0{a}" % (keys, chain, chain.count("fragment"))
    return build


def last_type(count):
    return "type Query { n: N } " + " ".join("type T%d { a: Int }" % i for i in range(count)) + " type N { a: Int n: N }"


def bare_chain(length):
    """A chain of fragments that three keys spread."""
    chain = filled(length - 80, lambda i: "fragment F%d on N{...F%d}" % (i, i + 1))
    return "{k0:n{...F0}k1:n{...F0}k2:n{...F0}}%sfragment F%d on N{a}" % (chain, chain.count("fragment"))


def written_again(times):
    """Doubled places, each of which spreads fragments with the same great literal: so few of them that nothing is kept."""
    def build(length):
        doubles = "".join("fragment P%d on N{a:n{...P%d}b:n{...P%d}}" % (i, i + 1, i + 1) for i in range(13))
        names = "FGHIJ"[:times]
        doubles += "fragment P13 on N{%s}" % "".join("..." + it for it in names)
        literal = "1 " * min(19990, (length - len(doubles)) // times // 2 - 20)
        return "{n{...P0}}" + doubles + "".join("fragment %s on N{c:b(x:[%s])}" % (it, literal) for it in names)
    return build


def agreeing_keys(length):
    """Keys that spread a fragment whose response keys have 4,150 bytes in common."""
    fragment = "fragment F on N{%s}" % filled(length // 3 * 2, lambda i: "x" * 4150 + "%d:a " % i)
    return "{%s}%s" % (filled(length - len(fragment) - 2, key("...F")), fragment)


def interfaces_of_interfaces(count):
    """Interfaces that each implement all before them, and a type of them all."""
    names = ["I%d" % i for i in range(count)]
    chain = ["interface %s%s{n:I0 a:Int}" % (names[i], " implements " + "&".join(names[:i]) if i else "") for i in range(count)]
    return "type Query{n:I0}" + " ".join(chain) + "".join("type T%d implements %s{n:I0 a:Int}" % (i, "&".join(names)) for i in range(2))


def crossed(count, types):
    """So many types, each of as many interfaces."""
    names = ["I%d" % i for i in range(count)]
    return "type Query{n:I0}" + " ".join("interface %s{n:I0 a:Int}" % it for it in names) + "".join("type T%d implements %s{n:I0 a:Int}" % (i, "&".join(names)) for i in range(types))


def crossed_but_one(count, types):
    """The same, where each type lacks one of them."""
    names = ["I%d" % i for i in range(count)]
    lacking = lambda i: "&".join(it for at, it in enumerate(names) if at != 1 + i % (count - 1))
    return "type Query{n:I0}" + " ".join("interface %s{n:I0 a:Int}" % it for it in names) + "".join("type T%d implements %s{n:I0 a:Int}" % (i, lacking(i)) for i in range(types))


def lacking_pairs(count, types):
    """So many types, each of all interfaces of so many but for a pair of its own."""
    pairs = itertools.islice(itertools.combinations(range(1, count), 2), types)
    names = ["I%d" % i for i in range(count)]
    all_types = " ".join("type T%d implements %s { a: Int }" % (i, " & ".join(it for at, it in enumerate(names) if at not in pair)) for i, pair in enumerate(pairs))
    return "type Query { %s } %s %s" % (" ".join("n%d: I0" % i for i in range(count)), " ".join("interface %s { a: Int }" % it for it in names), all_types)


def chain_beside_conditions(count):
    """Keys that spread a chain of fragments, of which the first has a condition on each of so many interfaces too."""
    def build(length):
        conditions = "".join("...on I%d{a}" % i for i in range(1, count))
        keys = "{%s}" % "".join("n%d{...F0 %s}" % (i, conditions if i == 0 else "") for i in range(count))
        chain = filled(length - len(keys) - 40, lambda i: "fragment F%d on I0{...F%d}" % (i, i + 1))
        return "%s%sfragment F%d on I0{a}" % (keys, chain, chain.count("fragment"))
    return build


def nested_interfaces(count):
    """A fragment with conditions on three interfaces in one another, again and again."""
    return lambda n: halves(n, key("...F"), lambda i: "...on I%d{...on I%d{...on I%d{a}}}" % (i % count, (i * 7 + 1) % count, (i * 13 + 2) % count), "I0")


def unions(count, types):
    """So many unions, each of most of the types."""
    members = ["|".join("T%d" % j for j in range(types) if (j * 7 + i) % 11) for i in range(count)]
    return "type Query{n:U0}" + "".join("type T%d{a:Int n:U0}" % i for i in range(types)) + "".join("union U%d=%s " % (i, it) for i, it in enumerate(members))


def nested_unions(count):
    return lambda n: halves(n, key("...F"), lambda i: "...on U%d{...on U%d{__typename}}" % (i % count, (i * 7 + 1) % count), "U0")


def by_variables(length):
    """Keys that spread a fragment whose sets differ in a condition of a variable alone."""
    (heads, sets), _ = paired(length // 2, lambda i: ("$v%d:Boolean=true " % i, "n{a@include(if:$v%d)}" % i))
    return "query(%s){%s}fragment F on N{%s}" % (heads, filled(length - len(heads) - len(sets) - 40, key("...F")), sets)


def differ_in_one(i):
    """A selection set of twenty keys, one of which is its own."""
    names = list("abcdefghijklmnopqrst")
    names[i % 20] = "x%d" % i
    return "n{%s}" % " ".join(it if it == "a" else it + ":a" for it in names)


def variables_at_places(length):
    """Keys that spread a fragment of calls of one key, each with a variable of its own."""
    (heads, calls), _ = paired(length // 2, lambda i: ("$v%d:Int=1 " % i, "b(x:$v%d)" % i))
    return "query(%s){%s}fragment F on N{%s}" % (heads, filled(length - len(heads) - len(calls) - 40, key("...F")), calls)


def variables_at_doubled_places(length):
    """Doubled places, each of which spreads a fragment of calls of one key, each with a variable of its own."""
    doubles = "".join("fragment P%d on N{a:n{...P%d}b:n{...P%d}}" % (i, i + 1, i + 1) for i in range(13)) + "fragment P13 on N{...F}"
    (heads, calls), _ = paired(length - len(doubles) - 60, lambda i: ("$v%d:Int=1 " % i, "b(x:$v%d)" % i))
    return "query(%s){n{...P0}}%sfragment F on N{%s}" % (heads, doubles, calls)


def where_none_is_kept(length):
    """Calls that fill what is kept; and then doubled places, each of which spreads a fragment of calls of one key that are equal and written otherwise."""
    great = "".join("k%d:o(i:[%s{z:%d}])" % (i, "{}" * 620, i) for i in range(min(36, length // 2000)))
    doubles = "".join("fragment P%d on N{a:n{...P%d}b:n{...P%d}}" % (i, i + 1, i + 1) for i in range(13)) + "fragment P13 on N{...F}"
    some = itertools.chain.from_iterable(itertools.combinations(range(30), size) for size in range(1, 5))
    rest = length - len(great) - len(doubles) - 40
    calls = filled(rest, lambda i: "c:o(i:{%s})" % " ".join("f%d:1" % it for it in next(some)))
    return "{%sn{...P0}}%sfragment F on N{%s}" % (great, doubles, calls)


def deep_variables(length):
    """Variables of lists in lists, whose values are lists of one at each level; none is used."""
    kind = "[" * 44 + "Int" + "]" * 44
    return "query(%s){__typename}" % filled(length - 30, lambda i: "$v%d:%s=[%s]" % (i, kind, "1 " * 440))


def of_kinds(count):
    return "type Query { n: I } interface I { a: Int b(x: Int): Int n: I }" + "".join(" type T%d implements I { a: Int b(x: Int): Int n: I }" % i for i in range(count))


def variables_at_types(levels):
    """The same at an interface: each place has the calls once for each of its types."""
    def build(length):
        doubles = "".join("fragment P%d on I{...on T0{a:n{...P%d}b:n{...P%d}}}" % (i, i + 1, i + 1) for i in range(levels)) + "fragment P%d on I{...F}" % levels
        (heads, calls), _ = paired(length - len(doubles) - 60, lambda i: ("$v%d:Int=1 " % i, "b(x:$v%d)" % i))
        return "query(%s){n{...P0}}%sfragment F on I{%s}" % (heads, doubles, calls)
    return build


def great_scalar(room):
    """A variable v that is an object of objects."""
    return json.dumps({"v": {"k%d" % i: {"a": 1} for i in range(min(9000, (room - 20) // 18))}}, separators=(",", ":"))


def long_names(length):
    """Keys that spread a fragment with two calls, whose variables have names of an eighth of the length."""
    names = [it * (length // 8 - 20) for it in "ab"]
    rest = "fragment F on N{c:b(x:$%s)d:b(x:$%s)}" % tuple(names)
    return "query($%s:Int $%s:Int){%s}%s" % (*names, filled(length // 2 - 60, key("...F")), rest)


def room_for_kept(length):
    """Sets of many equal calls, until no more is kept; and then sets in orders."""
    part = length // 4
    (heads, calls), _ = paired(part, lambda i: ("$a%d:Int=1," % i, "b(x:$a%d)" % i))
    twice = filled(part, lambda i: "e%d:n{n{x%d:a ...E}}f%d:n{n{x%d:a ...E}}" % (i, i, i, i))
    fragments = "fragment E on N{%s}fragment F on N{%s}" % (calls, filled(part - 60, orders))
    rest = length - len(heads) - len(twice) - len(fragments) - 20
    return "query(%s){%s%s}%s" % (heads, twice, filled(rest, key("...F")), fragments)


def apart_below_queries(one, other):
    """The same below the type of queries, where a field gives queries again."""
    types = ["type T%d implements I & %s { a: Int }" % (i, "J" if i < one else "K") for i in range(one + other)]
    return "type Query { q: Query n: I } interface I { a: Int } interface J { a: Int } interface K { a: Int } " + " ".join(types)


def optional_fields(count):
    return "type Query { o(i: [I]): Int } input I { %s }" % " ".join("f%d: Int" % i for i in range(count))


def sized_names(count):
    """A field whose size goes to as many fields below it."""
    names = ["f%d" % i for i in range(count)]
    return "type Query { o: C @listSize(assumedSize: 2, sizedFields: [%s]) } type C { %s } type N { a: Int }" % (
        " ".join('"%s"' % it for it in names), " ".join("%s: [N]" % it for it in names))


def lists_of_one_call(count):
    return "type Query { n: N } type N { n: N b(%s): Int }" % " ".join("x%d: [Int]" % i for i in range(count))


def lists_again(count):
    """Doubled places of one call with so many great lists."""
    def build(length):
        each = min(19990, (length - 1000) // count // 2)
        return doubled(13, "a:n{...F%d}b:n{...F%d}", "b(%s)" % " ".join("x%d:[%s]" % (i, "1 " * each) for i in range(count)))(length)
    return build


def places_of_their_own(head, text, variable="$v%d:Int=1 ", call="b(x:$v%d)", first=""):
    """Keys that each have something of their own beside a fragment of calls, each with a variable of its own."""
    def build(length):
        (heads, calls), _ = paired(length // 2, lambda i: (variable % i, call % i))
        (others, keys), _ = paired(length - len(first) - len(heads) - len(calls) - 40, lambda i: (head % i if head else "", text % (i, i)))
        return "query(%s%s%s){%s}fragment F on N{%s}" % (first, heads, others, keys, calls)
    return build


def orders_of_their_own(length):
    """Keys that each have a key of their own below, beside a fragment of calls that are equal and written in orders of their own."""
    fragment = "fragment F on N{%s}" % filled(length // 2, lambda i: "c:o(i:{%s})" % ",".join("%s:1" % it for it in permutation(i, "abcdefg")))
    return "{%s}%s" % (filled(length - len(fragment) - 2, lambda i: "k%d:n{x%d:a ...F}" % (i, i)), fragment)


def deprecated_values(count):
    return "type Query { a: Int } enum E { A %s }" % " ".join("V%d @deprecated" % i for i in range(count))


def many_fields(types, fields, text=""):
    """So many types of as many fields, each with a description."""
    described = '"""%s""" ' % text if text else ""
    return "type Query { t: T0 } " + " ".join("type T%d { %s }" % (i, " ".join("%sf%d: T%d" % (described, j, (i + j) % types) for j in range(fields))) for i in range(types))


def long_string(room):
    """A variable s that is a long string."""
    return json.dumps({"s": "x" * (room - 20)}, separators=(",", ":"))


def types_of(count, fields, other=""):
    """An interface of so many types with these fields, in which each type may have something of its own by its number."""
    types = "".join(" type T%d implements I { %s }" % (i, fields(i)) for i in range(count))
    return "%s type Query { n: I } interface I { %s }%s" % (other, fields(None), types)


def defaulted(i):
    return "o(i: [Int]%s): Int" % ("" if i is None else " z: Int = %d" % i)


def weighed(i):
    return "o(i: [Int]%s): Int" % ("" if i is None else ' @cost(weight: "0.%06d")' % (i + 1))


def input_of(count):
    return "input J { %s }" % " ".join("p%d: Int = %d" % (i, i) for i in range(count))


def lists_of_own_lengths(keys, item):
    """So many keys whose calls have great lists, each of a length of its own."""
    def build(length):
        each = min(19990, (length // keys - 40) // len(item))
        return "{%s}" % "".join("k%d:n{o(i:[%s])}" % (i, item * max(1, each - i)) for i in range(keys))
    return build


def small_lists(item, each):
    """Keys whose calls have lists of about so many items, each of a length of its own."""
    return lambda n: "{%s}" % filled(n - 2, lambda i: "k%d:n{o(i:[%s])}" % (i, item * (each - i)))


def ids(i):
    """A list of identifiers, written as numbers and as texts by the digits of a number."""
    return " ".join(('"%d"' if i >> at & 1 else "%d") % (at % 10) for at in range(13))


def ids_at_places(length):
    """Keys that each have a key of their own below, beside a fragment of calls whose lists of identifiers are equal and each written otherwise."""
    fragment = "fragment F on N{%s}" % filled(length // 2, lambda i: "b(ids:[%s])" % ids(i))
    return "{%s}%s" % (filled(length - len(fragment) - 2, lambda i: "k%d:n{x%d:a ...F}" % (i, i)), fragment)


def ids_in_a_chain(length):
    """The same in a chain of fragments, which keys enter at many places."""
    count = max(2, length * 2 // 3 // 75)
    chain = "".join("fragment F%d on I{b(ids:[%s])%s}" % (i, ids(i), "...F%d" % (i + 1) if i + 1 < count else "") for i in range(count))
    return "{%s}%s" % (filled(length - len(chain) - 2, lambda i: "k%d:n{...F%d}" % (i, i * 7 % (count // 2))), chain)


def given_by_a_list(length):
    """One call with a list of many variables."""
    (heads, items), _ = paired(length - 40, lambda i: ("$v%d:Int=1 " % i, "$v%d " % i))
    return "query(%s){n{o(i:[%s])}}" % (heads, items)


def weighed_fields(count):
    return "type Query { n: N } type N { %s }" % " ".join('f%d(i: [Int] @cost(weight: "0.%06d")): Int' % (i, i + 1) for i in range(count))


def long_default(length):
    """An input type whose default is a text of so many bytes."""
    return 'input I { s: String = "%s" } type Query { n: N o(i: I): Int } type N { n: N a: Int }' % ("x" * length)


def long_value(length):
    """An input type whose default is an enum value with a name of so many bytes."""
    return "enum E { %s } input I { e: E = %s } type Query { o(i: [I]): Int }" % ("V" * length, "V" * length)


def behind_short_calls(count, build):
    """The same behind as many short calls."""
    first = "".join("z%d:o(i:[{f%d:1}])" % (i, i) for i in range(count))
    return lambda n: "{" + first + build(n - len(first))[1:]


def scalar_objects(length):
    """Keys that each have a key of their own below, beside a fragment of four sets whose calls have great equal objects, in which the last text is written otherwise."""
    fields = filled(length // 9, lambda i: "k%d:0 " % i)
    fragment = "fragment F on N{%s}" % "".join("n{b(x:{%sz:%s})}" % (fields, it) for it in ('"ab"', '"""ab"""', '"\\u0061b"', '"a\\u0062"'))
    return "{%s}%s" % (filled(length - len(fragment) - 2, lambda i: "k%d:n{n{x%d:a}...F}" % (i, i)), fragment)


def blank_lines(length):
    """Keys beside a fragment of calls with the same block string, between other numbers of blank lines."""
    fragment = "fragment F on N{%s}" % filled(length * 3 // 4, lambda i: 'b(x:"""%s a%s""")' % ("\n" * (i % 40 + 1), "\n" * (i % 23)))
    return "{%s}%s" % (filled(length - len(fragment) - 2, lambda i: "k%d:n{x%d:a ...F}" % (i, i)), fragment)


def conditions_at_places(length):
    """Keys that each have a key of their own three levels below, beside a fragment of sets that differ in the variable of a condition."""
    (heads, sets), _ = paired(length // 2, lambda i: ("$v%d:Boolean=true " % i, "n{n{n{a@include(if:$v%d)}}}" % i))
    return "query(%s){%s}fragment F on N{%s}" % (heads, filled(length - len(heads) - len(sets) - 40, lambda i: "k%d:n{n{n{n{x%d:a}}}...F}" % (i, i)), sets)


def field_of_interfaces(count):
    """A type of so many interfaces, of which the last alone says the weight and the size of its field."""
    field = "f(first: Int): [O]"
    said = ' @listSize(slicingArguments: ["first"]) @cost(weight: "3")'
    interfaces = "".join("interface I%d { %s%s } " % (i, field, said if i == count - 1 else "") for i in range(count))
    return "type Query { o: O } %stype O implements %s { a: Int %s }" % (interfaces, " & ".join("I%d" % i for i in range(count)), field)


SLICED = ' @listSize(slicingArguments: ["first"], requireOneSlicingArgument: false)'


def spreading_all_later(length):
    """Fragments that each spread all later ones, and keys that each have a key of their own beside two of them."""
    def fragments(count):
        return "".join("fragment F%d on N{a %s}" % (i, " ".join("...F%d" % j for j in range(i + 1, count))) for i in range(count))
    count = 2
    while len(fragments(count + 1)) < length // 2:
        count += 1
    return "{%s}%s" % (filled(length - len(fragments(count)) - 2, lambda i: "k%d:n{x%d:a ...F%d ...F%d}" % (i, i, i % count, (i // count * 7 + i + 1) % count)), fragments(count))


def written_in_two_ways(one, other):
    """Keys that each have a key of their own beside a fragment of two calls, which are equal and take half the length."""
    def build(length):
        fragment = "fragment F on N{b(x:%s)b(x:%s)}" % (one(length // 4), other(length // 4))
        room = length - len(json.dumps(fragment)) - 2
        return "{%s}%s" % (filled(room, lambda i: "k%d:n{x%d:a ...F}" % (i, i)), fragment)
    return build


def lines_of_one(room):
    return "x\n" * (room // 4)


def object_that_ends(text):
    """An object of a custom scalar, whose last value is this."""
    return lambda room: "{%sz:%s}" % (filled(room, lambda i: "a%d:%d " % (i, i % 10)), text)


def great_defaults(count):
    """A field with so many arguments, whose defaults are lists as great as they may be."""
    return "type Query { o(x: Int %s): Int }" % " ".join('a%d: [Int] = [%s] @cost(weight: "0.001")' % (i, "1 " * 998) for i in range(count))


def literals_at_places_of_their_own(count, item=" 1", first="%d"):
    """Keys that each have a key of their own beside a fragment of so many calls with great literals."""
    def build(length):
        items = item * min(19990 // (2 if "{" in item else 1), length * 2 // 3 // count // len(item))
        fragment = "fragment F on N{%s}" % " ".join("c%d:b(x:[%s%s])" % (i, first % i, items) for i in range(count))
        return "{%s}%s" % (filled(length - len(fragment) - 2, lambda i: "k%d:n{x%d:a ...F}" % (i, i)), fragment)
    return build


def small_variables(variable, item, many):
    """Keys that make a call with a list of one value of its own and so many of a variable."""
    return lambda n: "query(%s){%s}" % (variable, filled(n - len(variable) - 9, lambda i: "k%d:n{o(i:[%s%s])}" % (i, item % i, "$v" * many)))


def many_types_below(count):
    """A field of an interface of so many types, below a type."""
    return "type Query { n: N } type N { i: I } interface I { a: Int }" + "".join(" type T%d implements I { a: Int }" % i for i in range(count))


def sets_of_two_types(count):
    """Three keys that spread a fragment of sets at one key, each with conditions on two of so many types of its own; two of them add a set."""
    def build(length):
        head = "{x:n{...F}y:n{...F i{...on T0{b:a}}}z:n{...F i{...on T%d{b:a}}}}" % (count - 1)
        return head + "fragment F on N{%s}" % filled(length - len(head) - 17, lambda i: "i{...on T%d{a}...on T%d{a}}" % (i % count, (i + 1 + i // count * 7) % count))
    return build


def sets_of_fragments(count, each):
    """Three keys that spread a fragment of sets at one key, each of which spreads two fragments with conditions on so many types; two of them add a set."""
    def build(length):
        many = max(2, min(count // each, length // 2 // (16 * each + 30)))
        fragments = "".join("fragment G%d on I{%s}" % (i, "".join("...on T%d{a}" % at for at in range(i * each, i * each + each))) for i in range(many))
        head = "{x:n{...F}y:n{...F i{...on T0{b:a}}}z:n{...F i{...on T%d{b:a}}}}" % (count - 1)
        return head + "fragment F on N{%s}" % filled(length - len(head) - len(fragments) - 17, lambda i: "i{...G%d...G%d}" % (i % many, (i + 1 + i // many * 7) % many)) + fragments
    return build


def subsets_of_unions(count):
    """Types of all subsets of so many unions, and as many unions of the types that are in none of them."""
    numbers = range(1 << count)
    members = lambda name, at, bit: "union %s%d = %s" % (name, at, " | ".join("T%d" % i for i in numbers if i >> at & 1 == bit))
    unions = " ".join(members("U", at, 1) + " " + members("V", at, 0) for at in range(count))
    return "type Query { n: I } interface I { a: Int } %s %s" % (" ".join("type T%d implements I { a: Int }" % i for i in numbers), unions)


def ways_of_their_own(length):
    """Four keys that spread a chain of fragments, each of which spreads the next one under two conditions, one of which applies to each type."""
    keys = "{k0:n{a ...F0}k1:n{...on T1{y:a}...F0}k2:n{...on T2{z:a}...F0}k3:n{x:a ...F0}}"
    chain = filled(length - len(keys) - 40, lambda i: "fragment F%d on I{...on U%d{...F%d}...on V%d{...F%d}}" % (i, i % 12, i + 1, i % 12, i + 1))
    return keys + chain + "fragment F%d on I{a}" % chain.count("fragment")


def without_types(kinds, types):
    """An interface of no type, beside so many types of as many interfaces."""
    names = ["I%d" % i for i in range(kinds)]
    interfaces = " ".join("interface %s { a: Int }" % it for it in names)
    return "type Query { a: Int } interface E { a: Int } %s %s" % (interfaces, " ".join("type T%d implements %s { a: Int }" % (i, " & ".join(names)) for i in range(types)))


def optional_arguments(count):
    return "type Query { o(%s): Int }" % " ".join("a%d: Int" % i for i in range(count))


def written_twice(length):
    """Two calls of one key that write thousands of arguments, in opposite orders."""
    names = ["a%d:1" % (29999 - i) for i in range(max(1, (length - 20) // 18))]
    return "{o(%s)o(%s)}" % (" ".join(names), " ".join(reversed(names)))


def at_every_level(length):
    """A fragment of thousands of sets in orders, which keys spread at each of forty-four levels above a key of their own."""
    sets = itertools.chain.from_iterable(itertools.permutations("abcdefg", size) for size in range(7, 0, -1))
    keys = "".join("k%d:%sx%d:a%s" % (i, "n{...F " * 44, i, "}" * 44) for i in range(50 if length > 60000 else 1))
    return "{%s}fragment F on N{%s}" % (keys, filled(length - len(keys) - 20, lambda i: "n{%s}" % " ".join(next(sets, "a"))))


def below_long_keys(length):
    """Keys of thousands of bytes in one another, above thousands of short ones."""
    keys = "".join("%s%d:n{" % ("p" * max(1, length // 88 - 8), i) for i in range(44))
    return "{%s%s%s}" % (keys, filled(length - len(keys) - 50, lambda i: "k%d:a " % i), "}" * 44)


def filters(length):
    """Keys that each have a key of their own beside a fragment of a call with a filter that is a variable, and one with that filter as a literal."""
    ids = " ".join("%d" % (100 + i % 900) for i in range(length // 16))
    fragment = "fragment F on N{p(f:$f)p(f:{and:[{text:\"x\"}]ids:[%s]})}" % ids
    head = "query($f:F={ids:[%s]and:[{text:\"x\"}]}){" % ids
    return head + filled(length - len(head) - len(fragment) - 2, lambda i: "k%d:n{...F x%d:a}" % (i, i)) + "}" + fragment


def directives_again(count):
    """A type whose definition has so many directives, and says behind them that its field is deprecated."""
    return 'directive @x repeatable on FIELD_DEFINITION type Query { b: Int a: Int %s @deprecated(reason: "r") }' % ("@x" * count)


def long_directives(count):
    """A field, its argument and its type with so many directives, with weights of as many places and half more, and with as many names of sized fields."""
    said = '%s @cost(weight: "1.%s")' % ("@x" * count, "0" * (count * 3 // 2))
    return "directive @x repeatable on FIELD_DEFINITION | ARGUMENT_DEFINITION | OBJECT type Query { p(x: Int %s): P %s @listSize(assumedSize: 2, sizedFields: [%s]) } type P %s { l: [N] b: [N] } type N { a: Int }" % (
        said, said, '"l"' * count, said)


def longer_keys(most, text):
    """Keys of calls that all differ, as many as fit, but at most so many: in longer bodies they are longer."""
    return lambda n: "{%s}" % filled(n - 2, lambda i: "k%0*d:" % (max(1, n // most - 14), i) + text % i)


def lists_of_objects(length):
    """Variables whose defaults are lists of empty objects, as many as fit."""
    head = "query(%s){o(i:$v0)}"
    each = min(9900, length // 4)
    return head % filled(length - 20, lambda i: "$v%d:[I]=[%s]" % (i, "{}" * each))


def long_fields():
    """A type with fields whose names are of a thousand bytes, and of twice as many up to 64,000."""
    return "type Query { n: N } type N { %s }" % " ".join("x" * (1000 << i) + ": Int" for i in range(7))


def longest_field(length):
    """Keys that spread a fragment with the field that has the longest name that fits."""
    name = "x" * max(1000 << i for i in range(7) if 1000 << i <= max(1000, length // 2))
    return "{%s}fragment F on N{%s}" % (filled(length - len(name) - 20, key("...F")), name)


def among_many(count):
    """A list of so many arguments, of which one slices."""
    return 'type Query { o(%s): [N] @listSize(slicingArguments: ["a0"], requireOneSlicingArgument: false) } type N { a: Int }' % " ".join("a%d: Int" % i for i in range(count))


def unknown_locations(count):
    """A directive whose locations are none that there are."""
    return "directive @d on %s type Query { a: Int }" % "|".join("X" * count)


def specified_behind(count):
    """A scalar whose definition has so many directives, and says behind them by what it is specified."""
    return 'directive @x repeatable on SCALAR scalar S %s @specifiedBy(url: "u") type Query { a: S }' % ("@x" * count)


def below_types(count):
    """An interface of so many types, with a field of an object type."""
    return "type Query { n: I } interface I { m: N } type N { n: N a: Int }" + "".join(" type T%d implements I { m: N }" % i for i in range(count))


def beside_own_sets(count):
    """A fragment of sets in orders at an interface, where each of so many types has a set of its own beside it."""
    def build(length):
        own = "".join("...on T%d{m{x%d:a}}" % (i, i) for i in range(min(count, length // 56)))
        return "{n{...F %s}}fragment F on I{%s}" % (own, filled(length - len(own) - 30, lambda i: "m" + orders(i)[1:]))
    return build


def below_own_conditions(count):
    """A fragment of sets in orders at an interface, where each of so many types has a set beside it that has a field for one of them alone."""
    def build(length):
        own = "".join("...on T%d{n{...on T0{x%d:a}}}" % (i, i) for i in range(min(count, length // 90)))
        return "{n{n{...F} %s}}fragment F on I{%s}" % (own, filled(length - len(own) - 40, orders))
    return build


def chosen_fragments(length):
    """Thirty fragments of sets in orders, and keys that each spread another seventeen of them."""
    each = length // 2 // 30 - 22
    fragments = "".join("fragment F%d on N{%s}" % (j, filled(each, lambda i: orders(i + j * 266)) or "a") for j in range(30))
    some = lambda i: "".join("...F%d" % j for j in sorted(range(30), key=lambda j: (i + 1) * (j + 7) * 2654435761 % 4294967291)[:17])
    return "{%s}%s" % (filled(length - len(fragments) - 2, lambda i: "k%d:n{%s}" % (i, some(i))), fragments)


def left_out(i):
    """Arguments without a value, those of a number's digits."""
    return ",".join("%s:$v" % it for at, it in enumerate("abcdefghijklm") if i % 8190 + 1 >> at & 1)


def left_out_in_a_chain(length):
    """A chain of fragments, each with a call that is equal to the others and written otherwise, which keys enter at all places."""
    chain = filled(length * 3 // 4, lambda i: "fragment F%d on N{b(%s)...F%d}" % (i, left_out(i), i + 1))
    count = chain.count("fragment")
    return "query($v:Int){%s}%sfragment F%d on N{a}" % (filled(length - len(chain) - 60, lambda i: "k%d:n{...F%d}" % (i, i * 7 % count)), chain, count)


def left_out_at_places(length):
    """Keys that each have a key of their own below, beside a fragment of such calls."""
    fragment = "fragment F on N{%s}" % filled(length // 2, lambda i: "b(%s)" % left_out(i))
    return "query($v:Int){%s}%s" % (filled(length - len(fragment) - 16, lambda i: "k%d:n{x%d:a ...F}" % (i, i)), fragment)


def orders_at_types(length):
    """A fragment of equal calls, written in orders of their own, at an interface."""
    return "{n{...F}}fragment F on I{%s}" % filled(length - 40, lambda i: "o(i:{%s})" % ",".join("%s:1" % it for it in permutation(i, "abcdefg")))


def ids_at_types(length):
    """The same of calls with lists of identifiers."""
    return "{n{...F}}fragment F on I{%s}" % filled(length - 40, lambda i: "b(ids:[%s])" % ids(i))


def beside_great_defaults(length):
    """Pairs of calls that are equal, of which one writes what the other leaves to a default."""
    head = "query($a:[Int]=[%s])" % ("1 " * 998)
    return head + "{%s}" % filled(length - len(head) - 2, lambda i: "k%d:o(a0:$a x:%d)k%d:o(x:%d)" % (i, i, i, i))


def written_defaults(length):
    """The same where the default is written as a literal."""
    return "{%s}" % filled(length - 2, lambda i: "k%d:o(z:[%s]x:%d)k%d:o(x:%d)" % (i, "1 " * 70, i, i, i))


def ids_below_sizes(length):
    """Keys that spread a fragment of calls whose lists of identifiers are equal, below a field that hands down a size."""
    fragment = "fragment F on C{%s}" % "".join("b(ids:[%s])" % ids(i) for i in range(60))
    return "{%s}%s" % (filled(length - len(fragment) - 2, lambda i: "k%d:o{...F}" % i), fragment)


def spreads_in_the_deepest(length):
    """A chain of fragments, the last of which spreads one fragment again and again."""
    chain = filled(length // 2, lambda i: "fragment F%d on N{...F%d}" % (i, i + 1))
    return "{n{...F0}}%sfragment G on N{a}fragment F%d on N{%s}" % (chain, chain.count("fragment"), filled(length // 2 - 60, lambda i: "...G"))


def at_fifty_places(call, head=""):
    """Fifty keys at an interface, each with a key of its own beside a fragment of equal calls that are each written otherwise."""
    def build(length):
        places = "".join("k%d:n{x%d:a ...F}" % (i, i) for i in range(50))
        return "%s{%s}fragment F on I{%s}" % (head, places, filled(length - len(places) - len(head) - 30, call))
    return build


def pairs_of_interfaces(count, types):
    """An interface of so many types, each of which implements some of so many others by the digits of its number."""
    each = lambda i: "".join(" & J%d" % at for at in range(count) if (i * 2654435761 >> at) & 1)
    return "type Query { n: I } interface I { a: Int n: I } %s%s" % (
        " ".join("interface J%d { a: Int n: I }" % at for at in range(count)), "".join(" type T%d implements I%s { a: Int n: I }" % (i, each(i)) for i in range(types)))


def conditions_on_pairs(count):
    """Keys that each have conditions on pairs of so many interfaces, with a key of their own in each."""
    pairs = list(itertools.permutations(range(count), 2))
    return lambda n: "{%s}" % filled(n - 2, lambda i: "k%d:n{%s}" % (i, "".join("...on J%d{...on J%d{x%d:a}}" % (*pairs[(i * 5 + j) % len(pairs)], i) for j in range(5))))


NODES = types_of(120, lambda i: "a: Int n: I p(f: F ids: [ID!] d: Int = 7): Int", "input F { %s and: [F!] }" % " ".join("%s: Int" % it for it in "abcdefg"))
INPUTS = "type Query { o(i: I): Int } input I { z: Int i: I l: [I] d: Int = 1 }"
SCALARS = "type Query { o(x: [S]): Int } scalar S"
THIRTY = "type Query { n: N o(i: [I]): Int } type N { n: N o(i: [I]): Int } input I { z: Int %s }" % " ".join("f%d: Int = 1" % i for i in range(30))
SEVEN = "type Query { n: N } type N { n: N o(i: I): Int } input I { %s }" % " ".join("%s: Int" % it for it in "abcdefg")
LITERALS = "type Query { n: N } type N { b(x: [Int]): Int }"
LIST_AND_OBJECT = "type Query { n: N } type N { a: Int b(x: [Int]): Int o(i: I): Int } input I { %s %s } input J { a: Int = 1 b: Int = 1 c: Int = 1 d: Int = 1 e: Int = 1 }" % (
    " ".join("%s: Int" % it for it in "abcdefg"), " ".join("j%d: J = {}" % i for i in range(25)))
THIRTEEN = "type Query { n: N } type N { a: Int n: N b(%s): Int }" % " ".join("%s: Int" % it for it in "abcdefghijklm")
ONE_LIST = "type Query { o(i: [Int]): Int }"
TWO_LISTS = "type Query { o(i: [Int], j: [Int]): Int }"
FAMILIES = {
    "conditions": (ONE, lambda n: halves(n, key("...F"), lambda i: "...on N{a}")),
    "conditions of no type": (ONE, lambda n: halves(n, key("...F"), lambda i: "...{a}")),
    "calls": (ONE, lambda n: halves(n, key("...F"), lambda i: "b(x:1)")),
    "calls beside a leaf": (ONE, lambda n: halves(n, key("...F"), lambda i: "a b(x:1)b(x:1)")),
    "two types": (TWO, lambda n: halves(n, key("...F"), lambda i: "...on N{a}...on M{a}", "I")),
    "a fragment again": (ONE, lambda n: "{%s}fragment F on N{a}" % filled(n - 30, lambda i: "k%d:n{%s}" % (i, "...F" * 12))),
    "a key beside a fragment": (ONE, lambda n: halves(n, lambda i: "k%d:n{x%d:a...F}" % (i, i), lambda i: "...on N{a}")),
    "a condition beside a fragment": (ONE, lambda n: halves(n, lambda i: "k%d:n{...on N{x%d:a}...F}" % (i, i), lambda i: "b(x:1)")),
    "alike sets": (ONE, lambda n: halves(n, key("...F"), lambda i: "n{a}")),
    "alike deep sets": (ONE, lambda n: halves(n, key("...F"), lambda i: "n{n{n{a}b(x:2)}}")),
    "sets with repeats": (ONE, lambda n: halves(n, key("...F"), lambda i: "n{a%s}" % (" a" * (i % 50)))),
    "sixty types": (many_types(60), lambda n: halves(n, key("...F"), lambda i: "...on T%d{a}" % (i % 60), "I")),
    "directives": (ONE, lambda n: halves(n, key("...F"), lambda i: "a@include(if:true)...on N@skip(if:false){a}")),
    "what is left out": (ONE, lambda n: halves(n, key("...F"), lambda i: "n{a x%d:a@skip(if:true)}" % i)),
    "doubled chain": (ONE, whole_chain),
    "sets in orders": (ONE, lambda n: halves(n, key("...F"), orders)),
    "sets in orders beside a set": (ONE, lambda n: halves(n, lambda i: "k%d:n{n{x%d:a}...F}" % (i, i), orders)),
    "sets in orders of a type": (ONE, lambda n: halves(n, lambda i: "k%d:n{x%d:a ...on N{...F}}" % (i, i), lambda i: "...on N{%s}" % orders(i))),
    "chains of sets in orders": (ONE, own_orders),
    "orders in fragments": (ONE, orders_in_fragments),
    "sets in orders inside of others": (ONE, lambda n: halves(n, key("...F"), lambda i: "n{n%s %s}" % (orders(i)[1:], orders(i // 3)[2:-1]))),
    "chain with keys of its own": (ONE, own_keys),
    "chain of two ways": (ONE, two_ways),
    "possible types": (many_types(4900), lambda n: "{%s}fragment F on I{%s}" % ("".join("k%d:n{...F}" % i for i in range(4)), filled(n - 80, lambda i: "...on T%d{a}" % (i % 4900)))),
    "types without a field": (many_types(4900), lambda n: "{%s}fragment F on I{...on T0{a}}" % filled(n - 40, key("...F"))),
    "calls with defaults": (defaults(901), lambda n: "{%s}" % filled(n - 2, lambda i: "k%d:o(i:[%s])" % (i, "{}" * (20 + i % 2)))),
    "variables by turns": (ONE_LIST, by_turns("o(i:$a)", "o(i:$b)"), great(1, 2)),
    "calls that all differ": (defaults(901), own_calls("i:[{z:%%d}%s]" % ("{}" * 21))),
    "calls with a variable": (defaults(901), own_calls("i:[{z:$v}{z:%%d}%s]" % ("{}" * 20), "query($v:Int)"), lambda room: '{"v":1}'),
    "calls of thirty kinds": (defaults(901), lambda n: "{%s}" % filled(n - 2, lambda i: "k%d:o(i:[{z:%d}%s])" % (i, i % 30, "{}" * 21))),
    "calls in two orders": (defaults(901), lambda n: "{%s}" % filled(n - 2, in_two_orders)),
    "defaults of defaults": (nested_defaults(), own_calls("i:{z:%d}")),
    "many arguments": (many_arguments(5000), own_calls("z:%d")),
    "a great variable": (TWO_LISTS, own_calls("i:$a,j:[%d]", "query($a:[Int])"), great(1)),
    "equal variables": (ONE_LIST, lambda n: "query($a:[Int],$b:[Int]){%s}" % filled(n - 30, lambda i: "k%d:o(i:$a)k%d:o(i:$b)" % (i, i)), great(1, 1)),
    "sets that are kept": (EIGHT, many_kept(60, 60)),
    "equal calls in orders": (SEVEN, equal_calls),
    "conditions on interfaces": (interfaces(4990), by_interfaces),
    "interfaces of types of their own": (interfaces_of_types(2000), lambda n: halves(n, key("...F"), lambda i: "...on J%d{a{b}}" % (i % 2000))),
    "great literals by turns": (LITERALS, great_literals(3)),
    "great calls by turns": (fields_of(70), calls_by_turns(70, ["c%d:o%d(i:$a)"]), great(1)),
    "a long response key": (ONE, long_key),
    "doubled places of a type": (doubled_types(4900), doubled(13, "...on T0{a:n{...F%d}b:n{...F%d}}", "...on T0{a}", "I")),
    "types behind fragments": (doubled_types(4900), behind_fragments),
    "equal calls of a chain": (of_kinds(200), chain_of_calls),
    "variables with defaults": (defaults(901), own_variables("[$v%d]")),
    "variables with defaults of defaults": (nested_defaults(), own_variables("$v%d")),
    "types elsewhere": (many_types_elsewhere(4900), types_elsewhere),
    "types by turns": (two_interfaces(16), types_by_turns),
    "pairs of equal calls": ("type Query { n: N } type N { n: N o(i: I): Int a: Int } input I { z: Int %s }" % " ".join("f%d: Int = 1" % i for i in range(900)), pairs_of_calls),
    "calls that collide": ("type Query { n: N } scalar S type N { n: N b(x: [S]): Int }", colliding, scalars),
    "joined sets of an interface": (joined(16), joined_sets),
    "spreads behind a chain": (ONE, spreads_behind_chain),
    "values of a great enum": (lambda: great_enum(120000), enum_lists(120000)),
    "types with long names": (lambda: long_types(650000), lambda n: "{%s}" % filled(n - 2, lambda i: "k%d:n{o(i:{i:{z:%d}})}" % (i, i))),
    "slicing arguments": (sliced(5000), lambda n: "{%s}" % filled(n - 2, lambda i: "k%d:o(a%d:%d){a}" % (i, 4999 - i % 10, i))),
    "two interfaces apart": (two_apart(2450, 2450), apart),
    "two interfaces apart, of 200 types": (two_apart(100, 100), apart),
    "fragments without a field": (two_apart(2450, 2450), fieldless_chain),
    "sixteen types apart": (two_apart(16, 4880), apart),
    "interfaces nearly alike": (nearly_alike(20, 4900), lambda n: "{%s}" % filled(n - 2, lambda i: "k%d:n%d{...on T0{a}}" % (i, i % 20))),
    "interfaces beside a chain": (below_all(100, 48), kinds_beside_chain(100)),
    "an interface without objects": (lambda: beside_none(4900), lambda n: "{%s}" % filled(n - 2, key("...on E{a}"))),
    "an interface without objects, in a fragment": (lambda: beside_none(4900), lambda n: "{%s}fragment F on I{...on E{a}}" % filled(n - 40, key("...F"))),
    "interfaces nearly alike beside a chain": (lambda: nearly_alike(64, 4800), each_beside_chain(64)),
    "interfaces beside conditions": (beside_another(64, 4000), beside_conditions(64)),
    "a chain at the last type": (last_type(4990), bare_chain),
    "great literals written again": ("type Query { n: N } type N { n: N b(x: [Int]): Int }", written_again(4)),
    "long keys that agree": (ONE, agreeing_keys),
    "interfaces of interfaces": (lambda: interfaces_of_interfaces(1100), nested_interfaces(1100)),
    "types of all interfaces": (lambda: crossed(800, 900), nested_interfaces(800)),
    "types of all interfaces but one": (lambda: crossed_but_one(800, 900), nested_interfaces(800)),
    "a chain beside conditions": (lambda: lacking_pairs(64, 1900), chain_beside_conditions(64)),
    "unions of all types": (lambda: unions(400, 1500), nested_unions(400)),
    "conditions by variables": (ONE, by_variables),
    "type names": (ONE, lambda n: halves(n, key("...F"), lambda i: "__typename ...on N{__typename}")),
    "sets that differ in one place": (ONE, lambda n: halves(n, key("...F"), differ_in_one)),
    "deep sets that differ": (ONE, lambda n: halves(n, key("...F"), lambda i: "n{" * 20 + "a x%d:a" % i + "}" * 20)),
    "deep input objects": (INPUTS, lambda n: "{%s}" % filled(n - 2, lambda i: "k%d:o(i:%s{z:%d}%s)" % (i, "{i:" * 45, i, "}" * 45))),
    "lists of one": (INPUTS, lambda n: "{%s}" % filled(n - 2, lambda i: "k%d:o(i:%s{z:%d}%s)" % (i, "{l:" * 45, i, "}" * 45))),
    "deep lists": ("type Query { o(i: %sInt%s): Int }" % ("[" * 45, "]" * 45), own_calls("i:%d")),
    "variables at many places": (ONE, variables_at_places),
    "variables at doubled places": ("type Query { n: N } type N { b(x: Int): Int n: N }", variables_at_doubled_places),
    "variables at places of fifty types": (of_kinds(50), variables_at_types(8)),
    "equal calls where none is kept": (THIRTY, where_none_is_kept),
    "variables of deep lists": (ONE, deep_variables),
    "a great custom value": (SCALARS, own_calls("x:[$v %d]", "query($v:S)"), great_scalar),
    "variables with long names": (ONE, long_names),
    "a long string": (SCALARS, lambda n: '{%s c:o(x:["%s"])}' % (filled(n // 2, lambda i: "k%d:o(x:[%d])" % (i, i)), "x" * (n // 2 - 40))),
    "a block string": (SCALARS, lambda n: '{o(x:["""%s"""])}' % filled(n - 40, lambda i: " " * (i % 300) + "x\n")),
    "variables that aren't used": (ONE, lambda n: "query(%s$w:Int){n{b(x:$w)}}" % filled(n - 40, lambda i: "$v%d:Int=1" % i)),
    "room for what is kept": (ONE, room_for_kept),
    "objects of a great input type": (lambda: optional_fields(20000), lambda n: "{o(i:[%s])}" % ("{}" * min(19990, (n - 10) // 2))),
    "names of sized fields": (lambda: sized_names(49000), lambda n: "{o{%s}}" % filled(n - 4, lambda i: "k%d:f%d{a}" % (i, 48999 - i % 10))),
    "a call of ten great lists": (lists_of_one_call(10), lists_again(10)),
    "variables at places of their own": (ONE, places_of_their_own("", "k%d:n{x%d:a ...F}")),
    "equal calls at places of their own": (ONE, places_of_their_own("$w%d:Int=1 ", "k%d:n{b(x:$w%d)...F}")),
    "lists by variables at places of their own": (LIST_AND_OBJECT, places_of_their_own("", "k%d:n{x%d:a ...F}", "$v%d:[Int]=[] ", "b(x:$v%d)", "$n:Int=null ")),
    "objects by variables at places of their own": (LIST_AND_OBJECT, places_of_their_own("", "k%d:n{x%d:a ...F}", "$v%d:I={} ", "o(i:$v%d)")),
    "calls in orders at places of their own": (LIST_AND_OBJECT, orders_of_their_own),
    "two interfaces apart, in sets of their own": (two_apart(2450, 2450), lambda n: "{%s}" % filled(n - 2, lambda i: "k%d:n{...on J{...on K{x%d:a}}}" % (i, i))),
    "sets apart at doubled places": (apart_below_queries(2450, 2450), doubled(12, "a:q{...F%d}b:q{...F%d}", "".join("n{...on J{...on K{x%d:a}}}" % i for i in range(15)), "Query", "q")),
    "a long string in calls that differ": ("type Query { o(s: String, x: Int): Int }", own_calls("s:$s x:%d", "query($s:String)"), long_string),
    "a long string in a great list": ("type Query { o(s: [String]): Int }", lambda n: "query($s:String){o(s:[%s])}" % ("$s " * min(19990, (n - 40) // 3)), long_string),
    "a list at thousands of types": (lambda: types_of(4900, defaulted), lists_of_own_lengths(4, "1 ")),
    "objects with defaults at fifty types": (types_of(50, lambda i: "o(i: [J]): Int", input_of(29)), small_lists("{}", 600)),
    "objects with defaults at fifty types, beside what slices": (types_of(50, lambda i: "o(i: [J] first: Int): [Int]" + SLICED, input_of(29)), small_lists("{}", 600)),
    "objects at four hundred types": (types_of(400, lambda i: "o(i: [J]): Int", "input J { a: Int b: Int c: [Int] }"), lists_of_own_lengths(40, "{}")),
    "enum values at four hundred types": (types_of(400, lambda i: "o(i: [E]): Int", "enum E { A B }"), lists_of_own_lengths(40, "A ")),
    "lists of ids at places of their own": ("type Query { n: N } type N { a: Int n: N b(ids: [ID!]): Int }", ids_at_places),
    "lists of ids in a chain": (types_of(50, lambda i: "b(ids: [ID!]): Int"), ids_in_a_chain),
    "variables at thousands of weights": (lambda: types_of(4900, weighed), given_by_a_list),
    "variables at fifty weights": (types_of(50, weighed), given_by_a_list),
    "variables at four hundred weights": (types_of(400, weighed), given_by_a_list),
    "variables in objects at four hundred types": (types_of(400, lambda i: "o(i: [J]): Int", "input J { a: Int b: Int c: [Int] }"), lambda n: "query($v:Int)" + lists_of_own_lengths(40, "{a:$v}")(n - 13)),
    "a great variable at thousands of weights": (lambda: weighed_fields(19000), lambda n: "query($a:[Int]){n{%s}}" % filled(n - 30, lambda i: "k%d:f%d(i:$a)" % (i, i % 19000)), great(1)),
    "a great variable beside what slices": ("type Query { l(first: Int ids: [ID!]): [N]%s } type N { a: Int }" % SLICED, lambda n: "query($a:[ID!]){%s}" % filled(n - 30, lambda i: "k%d:l(first:%d ids:$a){a}" % (i, i)), great(1)),
    "variables of a long default": (lambda: long_default(100000), lambda n: "query(%s){%so(i:$v0)}" % (filled(n - 1600, lambda i: "$v%d:I={} " % i), "".join("p%d:__typename " % i for i in range(100)))),
    "a long enum value by default": (lambda: long_value(30000), lambda n: "{o(i:[%s])}" % ("{}" * min(9990, (n - 12) // 2))),
    "objects of a great input type behind short calls": (lambda: optional_fields(20000), behind_short_calls(17, lambda n: "{o(i:[%s])}" % ("{}" * min(19990, (n - 12) // 2)))),
    "scalar objects at places of their own": ("type Query { n: N } scalar S type N { a: Int n: N b(x: S): Int }", scalar_objects),
    "blank lines of block strings": ("type Query { n: N } type N { a: Int b(x: String): Int }", blank_lines),
    "conditions of variables at places of their own": (ONE, conditions_at_places),
    "a field of thousands of interfaces": (lambda: field_of_interfaces(4900), lambda n: "{%s}" % filled(n - 2, lambda i: "k%d:o{x%d:f(first:1){a}}" % (i, i))),
    "deprecated values of the schema": (lambda: deprecated_values(20000), lambda n: '{__type(name:"E"){%s}}' % filled(n - 22, lambda i: "k%d:enumValues{name}" % i)),
    "a long key at all fields of the schema": (many_fields(200, 20), lambda n: "{__schema{types{fields{%s:name}}}}" % ("x" * (n - 37))),
    "descriptions of the schema": (lambda: many_fields(200, 20, "Lorem ipsum dolor sit amet " * 4), lambda n: "{__schema{types{fields{%s}}}}" % filled(n - 28, lambda i: "k%d:description " % i)),
    "fragments that spread all later ones": (ONE, spreading_all_later),
    "a text written in two ways": ("type Query { n: N } type N { a: Int b(x: String): Int }", written_in_two_ways(lambda room: '"""%sx"""' % lines_of_one(room), lambda room: json.dumps(lines_of_one(room) + "x"))),
    "a custom object written in two ways": ("type Query { n: N } scalar S type N { a: Int b(x: S): Int }", written_in_two_ways(object_that_ends('"ab"'), object_that_ends('"\\u0061b"'))),
    "great defaults of arguments": (lambda: great_defaults(1900), own_calls("x:%d")),
    "equal great variables in lists": ("type Query { o(i: [[Int]]): Int }", lambda n: "query($a:[Int],$b:[Int]){%s}" % filled(n - 30, lambda i: "k%d:o(i:[$a[%d]])k%d:o(i:[$b[%d]])" % (i, i, i, i)), great(1, 1)),
    "sets of two types": (lambda: many_types_below(4900), sets_of_two_types(4900)),
    "asked again behind a million directives": (lambda: directives_again(1000000), lambda n: '{__type(name:"Query"){fields(includeDeprecated:true){%s}}}' % filled(n - 60, lambda i: "k%d:%s " % (i, "deprecationReason" if i % 2 else "isDeprecated"))),
    "a field whose directives are long": (lambda: long_directives(200000), longer_keys(6600, "p(x:%d){b{a}}")),
    "great literals at places of their own": (LITERALS.replace("{ b", "{ a: Int b"), literals_at_places_of_their_own(5)),
    "great lists of objects at places of their own": ("input I { a: Int } type Query { n: N } type N { a: Int b(x: [I]): Int }", literals_at_places_of_their_own(5, "{a:1}", "{a:%d}")),
    "lists of one beside a great variable": ("type Query { o(f: F): Int } input F { i: [Int] s: [String] }", lambda n: "query($a:[Int]){%s}" % filled(n - 30, lambda i: 'k%d:o(f:{i:$a s:"%d"})k%d:o(f:{i:$a s:["%d"]})' % (i, i, i, i)), great(1)),
    "small lists of variables at fifty types": (lambda: types_of(50, lambda i: "o(i: [[Int]]): Int"), small_variables("$v:[Int]=[%s]" % " ".join("1" * 60), "[%d]", 320)),
    "small objects of variables at fifty types": (lambda: types_of(50, lambda i: "o(i: [J]): Int", input_of(58)), small_variables("$v:J={}", "{p0:%d}", 330)),
    "lists of objects of a great input type": (lambda: optional_fields(5000), lists_of_objects),
    "a long name of a field": (long_fields, longest_field),
    "a long name of an input field": (lambda: "type Query { o(i: [I]): Int } input I { %s: Int = 1 }" % ("x" * 20000), lists_of_objects),
    "many arguments beside one that slices": (lambda: among_many(50000), lambda n: "{%s}" % filled(n - 2, lambda i: "k%d:o(a1:%d){a}" % (i, i))),
    "unknown locations of a directive": (lambda: unknown_locations(1000000), lambda n: "{__schema{directives{%s}}}" % filled(n - 30, lambda i: "k%d:locations " % i)),
    "specified behind a million directives": (lambda: specified_behind(1000000), lambda n: '{__type(name:"S"){%s}}' % filled(n - 30, lambda i: "k%d:specifiedByURL " % i)),
    "sets in orders beside a set of each type": (below_types(400), beside_own_sets(400)),
    "sets in orders beside a condition of each type": (doubled_types(400), below_own_conditions(400)),
    "fragments of sets, chosen by each key": (ONE, chosen_fragments),
    "arguments left out in a chain": (THIRTEEN, left_out_in_a_chain),
    "arguments left out at places of their own": (THIRTEEN, left_out_at_places),
    "calls in orders at four hundred types": (types_of(400, lambda i: "o(i: J): Int", "input J { %s }" % " ".join("%s: Int" % it for it in "abcdefg")), orders_at_types),
    "calls with ids at thousands of types": (lambda: types_of(4900, lambda i: "b(ids: [ID!]): Int"), ids_at_types),
    "lists of lists at four hundred types": (types_of(400, lambda i: "o(i: [[Int]]): Int"), lists_of_own_lengths(40, "[1]")),
    "pairs beside great defaults": (lambda: great_defaults(400), beside_great_defaults),
    "sets of eighteen types": (lambda: many_types_below(4900), sets_of_fragments(4900, 9)),
    "pairs that write a great default": (lambda: great_defaults(400).replace("x: Int", "x: Int z: [Int] = [%s]" % ("1 " * 70)), written_defaults),
    "calls with ids below sized fields": (lambda: 'type Query { o: C @listSize(assumedSize: 2, sizedFields: [%s]) } type C { b(ids: [ID!]): Int l: [N] } type N { a: Int }' % ('"l"' * 200000), ids_below_sizes),
    "ways of their own through a chain": (lambda: subsets_of_unions(12), ways_of_their_own),
    "possible types asked from the schema": (lambda: without_types(250, 2400), lambda n: '{__type(name:"E"){%s}}' % filled(n - 30, lambda i: "k%d:possibleTypes{name}" % i)),
    "thousands of arguments written": (lambda: optional_arguments(30000), written_twice),
    "a fragment of sets at every level": (EIGHT, at_every_level),
    "defaults of fields with long names": (lambda: "type Query { o(i: [I]): Int } input I { z: Int %s }" % " ".join("%s%d: Int = 1" % ("f" * 100000, i) for i in range(19)), lambda n: "{%s}" % filled(n - 2, lambda i: "k%d:o(i:[%s])" % (i, "{}" * max(1, 940 - i)))),
    "keys below long keys": (ONE, below_long_keys),
    "spreads in the deepest of a chain": (ONE, spreads_in_the_deepest),
    "filters in orders at fifty places": (NODES, at_fifty_places(lambda i: "p(f:{%s})" % ",".join("%s:1" % it for it in permutation(i, "abcdefg")))),
    "ids in two ways at fifty places": (NODES, at_fifty_places(lambda i: "p(ids:[%s])" % ids(i))),
    "defaults written at fifty places": (NODES, at_fifty_places(lambda i: "p(f:{%s}%s)" % (",".join("%s:1" % it for it in permutation(i // 2, "abcdefg")), " d:7" if i % 2 else ""))),
    "arguments left out at fifty places": (NODES, at_fifty_places(lambda i: "p(f:{%s}%s)" % (",".join("%s:$v" % it for it in permutation(i // 14, "abcdefg")[:1 + i // 2 % 7]), " d:7" if i % 2 else ""), "query($v:Int)")),
    "nulls at fifty places": (NODES, at_fifty_places(lambda i: "p(f:{%s})" % ",".join("%s:%s" % (it, "$n" if i >> at & 1 else "null") for at, it in enumerate(permutation(i, "abcdefg"))), "query($n:Int=null)")),
    "conditions on pairs of twelve interfaces": (pairs_of_interfaces(12, 120), conditions_on_pairs(12)),
    "a default of a megabyte": (lambda: 'type Query { o(s: String = "%s" x: Int): Int }' % ("x" * 1000000), own_calls("x:%d")),
    "a default of a megabyte in objects": (lambda: 'type Query { o(i: [I]): Int } input I { s: String = "%s" x: Int }' % ("x" * 1000000), lambda n: "{%s}" % filled(n - 2, lambda i: "k%d:o(i:{x:%d})" % (i, i))),
    "a default of a megabyte in a list": (lambda: 'type Query { o(i: [I]): Int } input I { s: String = "%s" x: Int }' % ("x" * 1000000), lambda n: "{o(i:[%s])}" % ("{}" * min(9990, (n - 12) // 2))),
    "a list of strings at thousands of types": (lambda: types_of(4900, lambda i: "o(i: [String]): Int"), lists_of_own_lengths(4, '"ab" ')),
    "a filter as a variable and as a literal": ("type Query { n: N } type N { n: N a: Int p(f: F): Int } input F { ids: [ID!] text: String inStock: Boolean = true and: [F!] }", filters),
}


def body_length(document, variables):
    return len(json.dumps({"query": document, "variables": "V"}, separators=(",", ":")).encode()) - 3 + len(variables)


def texts(name, length):
    """The schema of a family, and its document and variables for a body of at most so many bytes, of which the variables take a third at most."""
    schema, build, *more = FAMILIES[name]
    schema = schema if isinstance(schema, str) else schema()
    variables = more[0](length // 3) if more else "{}"
    room = length - body_length("", variables)
    document = build(room)
    while body_length(document, variables) > length:
        room -= body_length(document, variables) - length
        if room <= 0:
            sys.exit("%s can't be as short as %d bytes" % (name, length))
        document = build(room)
    return schema, document, variables


PRICED = ["price", "schema", "document", "--variables", "variables"]


def priced(program, folder, texts, most=None, times=1):
    """What pricing a document takes, as the quickest of so many runs has it. A document that isn't one, or breaks a rule, would say nothing of its family."""
    for name, text in zip(("schema", "document", "variables"), texts):
        with open(os.path.join(folder, name), "w") as file:
            file.write(text)
    ran = min((steps.run(program, PRICED, folder, most) for _ in range(times)), key=lambda it: it.seconds)
    if ran.ended and ran.told and not re.fullmatch(r"(plan 5|local 5|local 4 Plan 5) TooLarge|work 1 TooMuch", ran.told):
        sys.exit("a document is refused for what it isn't made for: " + ran.told)
    return ran


def measured(program, folder, name, length, most=None, times=1):
    """What a body of a family takes beside its schema."""
    schema, document, variables = texts(name, length)
    if times > 1 or (program, name) not in ALONE:
        short = "{__schema{__typename}}" if "{__schema{" in document or "{__type(" in document else "{__typename}"
        ALONE[program, name] = priced(program, folder, (schema, short, "{}"), None, times).seconds
    ran = priced(program, folder, (schema, document, variables), most, times)
    ran.beside = max(0.0, ran.seconds - ALONE[program, name])
    return ran


def shown(ran):
    return "%.2f s %.0f MB%s" % (ran.beside, ran.megabytes, "" if not ran.ended else " refused" if ran.refused else "")


def microseconds(program, folder, ran, most, times):
    """How long a step of the last body took, behind reading; none where all steps took no time that could be measured. What is read is seen where an operation is asked that there isn't."""
    read = min(steps.run(program, PRICED + ["--operation", "none"], folder).seconds for _ in range(times))
    spent = min(ran.seconds - read, ran.beside)
    if spent < SEEN:
        return None
    taken = most if ran.refused else steps.least_steps(program, PRICED, folder, most, 0.2)
    return spent / (taken or most) * 1e6


def within(program, folder, name, most, times=1):
    """Whether a family keeps to what it may take; and its line."""
    told, good = [], True
    for length, (seconds, megabytes) in WITHIN.items():
        ran = measured(program, folder, name, length, most, times)
        each = microseconds(program, folder, ran, most, times) if ran.ended else None
        counted = each is None or each <= MICROSECONDS
        good = good and counted and ran.ended and ran.beside <= seconds and (not megabytes or ran.megabytes <= megabytes)
        told.append("%d kB: %s%s" % (length // 1024, shown(ran), "" if each is None else ", %.2f microseconds a step" % each))
    return good, "%-48s %s" % (name, "   ".join(told))


def growing(program, folder, name):
    """A family's line without a bound."""
    runs = [measured(program, folder, name, max(WITHIN) // part) for part in (8, 4, 2, 1)]
    return "%-48s %s   grows by %.1f" % (name, "  ".join(shown(ran) + ("" if ran.ended else " stopped") for ran in runs), runs[-1].beside / max(runs[-2].beside, 0.001))


def main():
    words = argparse.ArgumentParser(description=__doc__, formatter_class=argparse.RawDescriptionHelpFormatter)
    words.add_argument("--program", default="crates/gateway_cli/out/gateway_cli")
    words.add_argument("--most-work", type=int, default=ADVISED)
    words.add_argument("--without", action="store_true")
    words.add_argument("names", nargs="*")
    given = words.parse_args()
    unknown = [it for it in given.names if it not in FAMILIES]
    if unknown:
        sys.exit("there is no family " + ", ".join(unknown))
    program, late = os.path.abspath(given.program), []
    with tempfile.TemporaryDirectory() as folder:
        for name in given.names or FAMILIES:
            if given.without:
                print(growing(program, folder, name), flush=True)
                continue
            good, line = within(program, folder, name, given.most_work)
            if not good:
                good, line = within(program, folder, name, given.most_work, 3)
            print(line + ("" if good else "   TOO MUCH"), flush=True)
            late += [] if good else [name]
    if late:
        print("%d of %d families take too much: %s" % (len(late), len(given.names or FAMILIES), ", ".join(late)))
    return 1 if late else 0


if __name__ == "__main__":
    sys.exit(main())
