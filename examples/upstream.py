"""A GraphQL server to try the gateway with: POST /graphql on port 4000 of 127.0.0.1, or the one that is given, with fixed data for books.graphql and catalog.graphql.
It takes documents as the gateway prints them, with fields, aliases, `first` and inline fragments on object types, and checks nothing."""

import json
import re
import sys
from http.server import BaseHTTPRequestHandler, ThreadingHTTPServer

ANN, BO = {"__typename": "Author", "name": "Ann"}, {"__typename": "Author", "name": "Bo"}
TREES = {"__typename": "Book", "id": "1", "title": "Trees", "year": 1999, "pages": 96, "authors": [ANN, BO]}
SAND = {"__typename": "Book", "id": "2", "title": "Sea and Sand", "year": 2004, "pages": 120, "authors": [BO]}
ANN["books"], BO["books"] = [TREES], [TREES, SAND]
CAST = [{"__typename": "Person", "name": name} for name in ("Ada", "Bela", "Cleo")]
FILM = {"__typename": "Film", "title": "The Sea", "year": 2011, "cast": CAST}
SHELF = {"__typename": "Shelf", "label": "A", "books": [TREES, SAND], "notes": None}
DATA = {"__typename": "Query", "opened": True, "shelf": SHELF, "search": [FILM, SAND]}

def selections(words):
    """Takes words up to a closing brace: for each selection its key, name, arguments and selections. The first word stands last."""
    found = []
    while (key := words.pop()) != "}":
        name, given, below = key, {}, []
        if key == "..." or words[-1] == ":":
            _, name = words.pop(), words.pop()
        if words[-1] == "(":
            words.pop()
            while (argument := words.pop()) != ")":
                _, given[argument] = words.pop(), words.pop()
        if words[-1] == "{":
            _, below = words.pop(), selections(words)
        found.append((key, name, given, below))
    return found

def answer(value, wanted):
    """What a value, or each item of it, has of the selections. The name of its type is an entry like others."""
    if isinstance(value, list):
        return [answer(item, wanted) for item in value]
    result = {} if wanted else value
    for key, name, given, below in wanted:
        if key != "...":
            result[key] = answer(value[name][: int(given["first"])] if "first" in given else value[name], below)
        elif name == value["__typename"]:
            result.update(answer(value, below))
    return result

class Server(BaseHTTPRequestHandler):
    def do_POST(self):
        text = json.loads(self.rfile.read(int(self.headers["content-length"])))["query"]
        words = re.findall(r'"(?:[^"\\]|\\.)*"|\S+', text)
        body = json.dumps({"data": answer(DATA, selections(words[words.index("{") + 1 :][::-1]))}).encode()
        self.send_response(200 if self.path == "/graphql" else 404)
        for field in ("Content-Type", "application/json"), ("Content-Length", str(len(body))), ("Connection", "close"):
            self.send_header(*field)
        self.end_headers()
        self.wfile.write(body)

    def log_message(self, *words):
        """Says nothing of a request."""

ThreadingHTTPServer(("127.0.0.1", int(sys.argv[1]) if len(sys.argv) > 1 else 4000), Server).serve_forever()
