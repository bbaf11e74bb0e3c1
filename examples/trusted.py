"""Makes a list of trusted documents of a folder, for `--trusted`.

    python3 examples/trusted.py FOLDER > listed.json

Each `*.graphql` in the folder and below it is a document, letter for letter, with its last line end. It is listed under the SHA-256 of just
these bytes, which is what a client sends in its place. On standard error stands a line for each: the hash, and the file."""

import hashlib
import json
import pathlib
import sys

MOST, LONGEST = 10_000, 262_144


def main():
    if len(sys.argv) != 2:
        sys.exit(__doc__)
    listed = {}
    for file in sorted(pathlib.Path(sys.argv[1]).rglob("*.graphql")):
        read = file.read_bytes()
        if len(read) > LONGEST:
            sys.exit(f"{file} has more than {LONGEST} bytes")
        key = hashlib.sha256(read).hexdigest()
        listed[key] = read.decode("utf-8")
        print(key, file, file=sys.stderr)
    if len(listed) > MOST:
        sys.exit(f"there are more than {MOST} documents")
    json.dump(listed, sys.stdout, ensure_ascii=False, indent=0, sort_keys=True)
    print()


main()
