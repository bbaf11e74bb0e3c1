#!/usr/bin/env python3
"""Says how many steps operations take that people write, and that each stays far below a bound on the work of a request.

    python3 checks/everyday_work.py [--program PROGRAM]

The operations are those of examples/, twenty over a schema of 150 types (checks/everyday/operations.graphql; the schema is made here: 23 things behind
an interface, each with a connection, an edge, a filter, an order and a payload of its own), and the query that GraphiQL asks for a schema, of 149 types. The steps of an operation
are what `explain --most-work` tells of it; for GraphiQL's query they are the least number with which `introspect --most-work` answers.

None may take more than 300,000 steps, a tenth of the 3,000,000 that docs/operating.md advises. What `explain` tells must be exact: with as many steps `price` prices the operation, and
with one step fewer it refuses it for its work. `--most-work` takes no number below 1,000, so that is tried of those that take more: six at least. The status is 0 exactly where all is so.
"""
import argparse
import json
import os
import re
import subprocess
import sys
import tempfile

import hostile_introspection
import steps

TOP = os.path.dirname(os.path.dirname(os.path.abspath(__file__)))
MOST = 300000
THINGS = ("Product Variant Order Item Customer Cart Payment Shipment Refund Review Comment Article Vendor Warehouse Stock "
          "Collection Tag Ticket Address Discount Wishlist Invoice Coupon").split()
EXAMPLES = [("catalog.graphql", "search.graphql", "search.json"), ("books.graphql", "titles.graphql", None)]


def plural(name):
    name = name[0].lower() + name[1:]
    return name + ("es" if name.endswith("s") else "s")


def schema():
    """Things that each have a connection, an edge, a filter, an order and a payload, and twelve types for all: 150 types."""
    lists = lambda: " ".join(
        '%s(first: Int = 10, after: String, filter: %sFilter, orderBy: %sOrder): %sConnection! @listSize(slicingArguments: ["first"], sizedFields: ["nodes", "edges"])' % (plural(it), it, it, it) for it in THINGS)
    text = ["interface Node { id: ID! }", "enum State { ACTIVE DRAFT GONE }", "enum Direction { ASC DESC }", "enum OrderField { CREATED_AT NAME }",
            "type Money { value: String! currency: String! }", "type PageInfo { hasNextPage: Boolean! hasPreviousPage: Boolean! startCursor: String endCursor: String }",
            "type UserError { field: String message: String! }", "input Note { text: String! pinned: Boolean = false }",
            "input Change { parent: ID name: String description: String state: State = DRAFT refs: [ID!] notes: [Note!] }",
            "union Found = %s" % " | ".join(THINGS)]
    for it in THINGS:
        text.append("type %s implements Node { id: ID! name: String! email: String description: String state: State! createdAt: String! updatedAt: String! "
                    "amount: Money! owner: Customer product: Product %s }" % (it, lists()))
        text.append("type %sConnection { totalCount: Int! nodes: [%s!]! edges: [%sEdge!]! pageInfo: PageInfo! }" % (it, it, it))
        text.append("type %sEdge { cursor: String! node: %s! }" % (it, it))
        text.append("input %sFilter { text: String state: State states: [State!] since: String and: [%sFilter!] or: [%sFilter!] not: %sFilter }" % (it, it, it, it))
        text.append("input %sOrder { field: OrderField! = NAME direction: Direction! = ASC }" % it)
        text.append("type %sPayload { errors: [UserError!]! @listSize(assumedSize: 2) node: %s }" % (it, it))
    ones = " ".join("%s(id: ID!): %s" % (it[0].lower() + it[1:], it) for it in THINGS)
    text.append("type Query { viewer: Customer node(id: ID!): Node nodes(ids: [ID!]!): [Node]! @listSize(assumedSize: 5) "
                'search(text: String!, first: Int = 10): [Found!]! @listSize(slicingArguments: ["first"]) %s %s }' % (ones, lists()))
    text.append("type Mutation { %s }" % " ".join("create%s(input: Change!): %sPayload! update%s(id: ID!, input: Change!): %sPayload! delete%s(id: ID!): %sPayload!" % ((it,) * 6) for it in THINGS))
    return "\n".join(text) + "\n"


def graphiql():
    """The query that GraphiQL asks for a schema."""
    deep = "kind name"
    for _ in range(9):
        deep = "kind name ofType { %s }" % deep
    value = "name description type { ...TypeRef } defaultValue"
    return ("query IntrospectionQuery { __schema { queryType { name } mutationType { name } subscriptionType { name } types { ...FullType } "
            "directives { name description locations args { ...InputValue } } } } "
            "fragment FullType on __Type { kind name description fields(includeDeprecated: true) { name description args { ...InputValue } type { ...TypeRef } "
            "isDeprecated deprecationReason } inputFields { ...InputValue } interfaces { ...TypeRef } enumValues(includeDeprecated: true) "
            "{ name description isDeprecated deprecationReason } possibleTypes { ...TypeRef } } "
            "fragment InputValue on __InputValue { %s } fragment TypeRef on __Type { %s }" % (value, deep))


def told_steps(program, words, folder):
    """The steps that `explain` tells of an operation."""
    ran = subprocess.run([program, "explain", *words, "--most-work", str(steps.MOST)], cwd=folder, capture_output=True, text=True)
    found = re.search(r"^work (\d+)$", ran.stdout, re.M)
    if ran.returncode or not found:
        sys.exit("explain %s tells no steps: %s" % (" ".join(words), ran.stdout + ran.stderr))
    return int(found[1])


def is_exact(program, words, folder, taken):
    """Whether as many steps do, and one fewer doesn't, where that can be tried."""
    enough = steps.run(program, ["price", *words], folder, max(taken, steps.LEAST))
    return taken > 0 and not enough.told and (taken <= steps.LEAST or steps.run(program, ["price", *words], folder, taken - 1).refused)


def main():
    words = argparse.ArgumentParser(description=__doc__, formatter_class=argparse.RawDescriptionHelpFormatter)
    words.add_argument("--program", default="crates/gateway_cli/out/gateway_cli")
    program, good, tried = os.path.abspath(words.parse_args().program), True, 0
    operations = os.path.join(TOP, "checks", "everyday", "operations.graphql")
    with tempfile.TemporaryDirectory() as folder:
        for name, text in (("schema", schema()), ("variables", json.dumps({"id": "1", "text": "a", "cart": "1", "product": "2", "order": "3"})),
                           ("told", hostile_introspection.many_fields()), ("graphiql", graphiql())):
            with open(os.path.join(folder, name), "w") as file:
                file.write(text)
        asked = []
        for name in re.findall(r"^(?:query|mutation) (\w+)", open(operations).read(), re.M):
            asked.append((name, ["schema", operations, "--operation", name, "--variables", "variables"]))
        for over, document, variables in EXAMPLES:
            at = lambda it: os.path.join(TOP, "examples", it)
            asked.append((document, [at(over), at(document)] + (["--variables", at(variables)] if variables else [])))
        for name, given in asked:
            taken = told_steps(program, given, folder)
            exact = is_exact(program, given, folder, taken)
            good, tried = good and exact and taken <= MOST, tried + (taken > steps.LEAST)
            print("%-20s %7d%s%s" % (name, taken, "" if taken <= MOST else "   TOO MANY", "" if exact else "   NOT EXACT"), flush=True)
        taken = steps.least_steps(program, ["introspect", "told", "graphiql"], folder)
        good = good and tried >= 6 and taken is not None and steps.LEAST < taken <= MOST and not steps.run(program, ["introspect", "told", "graphiql"], folder, taken).told
        print("%-20s %7s%s" % ("GraphiQL's query", taken, "" if taken and taken <= MOST else "   TOO MANY"))
    return 0 if good else 1


if __name__ == "__main__":
    sys.exit(main())
