"""Tries the must-fail edits that stand outside the gate: the prover must refuse each.

    python3 checks/edits.py [--built] [--whole] [NAME..]

`checks/edits/NAME` holds edits of the crate NAME in the form of its `must-fail`; without names those of every crate are tried, over copies of
the crate. The libraries below it are built into `crates/*/out`, if they aren't there; with --built they are taken as a gate left them there, and
no source may have changed since. Edits of functions' bodies are tried by checks of these functions alone, which take the contracts of all others
as they stand: what such a check refuses, a check of the whole crate refuses too. One check tries edits of several functions, and an edit counts as
refused by it only where a goal of its own function is left; the others are tried one by one. What isn't refused so, and with --whole every edit, is
tried by whole checks. Functions must be proved where nothing is edited. No source may change meanwhile. Each edit prints a line; the last line is
`N refused, M not`, and the status is 1 unless M is 0."""

import functools
import importlib.machinery
import importlib.util
import os
import re
import shutil
import subprocess
import sys
import tempfile

HERE = os.path.dirname(os.path.abspath(__file__))
TOP = os.path.dirname(HERE)
ONE_JOB = ["--jobs", "1"]
# How many edits one check tries at most.
TOGETHER = 8
FUNCTION = re.compile(r"(?m)^( *)(?:pub(?:\(\w+\))? )?(?:const )?fn (\w+)")
# The cycle that a function is in, at the end of the text before it.
CYCLE = re.compile(r"#\[cycle\((\w+)\)\]\s*(?:#\[[^\n]*\]\s*)*\Z")
OWNER = re.compile(r"(?m)^(?:pub(?:\(\w+\))? )?(impl|trait)\b(.*?)\{", re.S)
# What the kit says of an edit that the prover refuses, also where it does so by a limit of its own.
REFUSED = (True, "refused", "limit")
# What a check says where a proof names what an edit took away, which says little of a contract.
NAMES_ALONE = re.compile(r"has no field|is not in scope|has no `|was not admitted")


def kit():
    """The kit's rt as a module, which reports a check of some functions as it reports a whole one."""
    page = subprocess.run(["rt", "doc"], capture_output=True, text=True, check=True).stdout.strip()
    sys.dont_write_bytecode = True
    loader = importlib.machinery.SourceFileLoader("rt", os.path.join(os.path.dirname(page), "bin", "rt"))
    rt = importlib.util.module_from_spec(importlib.util.spec_from_loader("rt", loader))
    loader.exec_module(rt)
    whole = rt.checked

    def checked(crate, texts, flags, kept):
        ran = whole(crate, texts, flags, kept)
        some = re.search(r"^only=(\d+) proved=(\d+)\s*\Z", ran.stdout, re.M)
        if ran.returncode == 1 and some and some[1] != some[2]:
            ran.stdout += "logic=not-proved\n"
        return ran

    rt.checked = checked
    # (a crate's sum is otherwise taken once for each way down to it, 50,000 times for the uppermost)
    rt.rtlib.Crate.stamp = functools.lru_cache(None)(rt.rtlib.Crate.stamp)
    return rt


def read(path):
    with open(path, encoding="utf-8") as file:
        return file.read()


def owner_of(text):
    """The name, in a check's lines, of the impl or the trait that is open at the end of this text: that of the type, then that of its trait."""
    kind, head = [*OWNER.finditer(text)][-1].groups()
    while "<" in head:
        head, before = re.sub(r"<[^<>]*>", "", head), head
        if head == before:
            break
    names = [it.split("::")[-1] for it in re.findall(r"[\w:]+", head.split(" where ")[0])]
    if kind == "trait" or "for" not in names:
        return names[0]
    return names[names.index("for") + 1] + names[0]


def function_at(path, text, place):
    """The name of the function that this place of a source file stands in, or the end of it; none outside of functions."""
    before = [it for it in FUNCTION.finditer(text) if it.start() <= place]
    if not before or re.search(rf"(?m)^{before[-1][1]}\}}", text[before[-1].start() : place]):
        return None
    indent, name = before[-1].groups()
    if indent:
        # (a method's name has the module of its type, which may be another than that of the text)
        return f"{owner_of(text[: before[-1].start()])}::{name}"
    modules = [it for it in path.removeprefix("src/").removesuffix(".rt").split("/") if it not in ("lib", "main", "mod")]
    return "::".join([*modules, name])


def pairs_of(edit):
    """The edit's changes: of each the file, the old text and the new one."""
    path, old, found = "", "", []
    for line in read(edit).split("\n"):
        if line.startswith("file: "):
            path = line.removeprefix("file: ").strip()
        elif line.startswith("old: "):
            old = line.removeprefix("old: ")
        elif line.startswith("new:"):
            found.append((path, old, line.removeprefix("new:").removeprefix(" ")))
    return found


def functions_of(edit, folder):
    """The functions that the edit changes; none where it changes anything else."""
    found = set()
    for path, old, _ in pairs_of(edit):
        if not path.endswith(".rt") or not os.path.isfile(f"{folder}/{path}"):
            return []
        text = read(f"{folder}/{path}")
        place = text.find(old) + len(old) - len(old.lstrip())
        found.add(function_at(path, text, place) if text.count(old) == 1 else None)
    return [] if None in found else sorted(found)


def proof_of(edit, name, folder):
    """What one proof is of: the function that the edit changes, or the cycle of calls that it is in."""
    path, old, _ = pairs_of(edit)[0]
    text = read(f"{folder}/{path}")
    start = [it.start() for it in FUNCTION.finditer(text) if it.start() <= text.find(old) + len(old) - len(old.lstrip())][-1]
    cycle = CYCLE.search(text[:start])
    return f"the cycle {cycle[1]} of {path}" if cycle else name


def only(names):
    return [*ONE_JOB, *[it for name in names for it in ("--only", name)]]


def groups_of(edits, folder):
    """Groups of edits, each of one function whose proof is of nothing that another edit of the group changes, with that function."""
    groups = []
    for edit in edits:
        changed = functions_of(edit, folder)
        if len(changed) == 1:
            proof = proof_of(edit, changed[0], folder)
            fits = next((it for it in groups if len(it) < TOGETHER and proof not in it.values()), None)
            if fits is None:
                groups.append(fits := {})
            fits[edit] = proof
    return [{edit: functions_of(edit, folder)[0] for edit in group} for group in groups]


def texts_of(edits, folder):
    """The files that these edits change, as they are with all of them; none where they don't go together."""
    texts = {}
    for path, old, new in [pair for edit in edits for pair in pairs_of(edit)]:
        text = texts.get(path) or read(f"{folder}/{path}")
        if text.count(old) != 1:
            return None
        texts[path] = text.replace(old, new)
    return texts


def goal_left(crate, name, lines):
    """What a check says of a goal of this function itself that is left; none where the function is proved, or isn't for another reason."""
    # (the name of a method lacks the module of its type)
    modules, folders = (r"(?:\w+::)*", r"(?:\w+/)*") if name[0].isupper() else ("", "")
    of_function = re.compile(rf"fn {crate.name}::{modules}{name}: (?:no proof|not proved).* did not prove ")
    of_answer = re.compile(rf"(?:note: )?(?:\./)?proofs/{folders}{'/'.join(name.split('::'))}/\w+\.antt:\d+:\d+: error")
    for line, following in zip(lines, [*lines[1:], ""]):
        # (a long message goes on in the next line)
        if of_function.match(line) or of_answer.match(line) and not NAMES_ALONE.search(f"{line} {following}"):
            return line
    return None


def refused_together(rt, crate, groups, kept):
    """What to say of each edit that the check of its group refuses."""
    found = {}
    for group in groups:
        texts = texts_of(group, crate.folder)
        ran = texts and rt.checked(crate, texts, only(sorted({*group.values()})), kept)
        if not ran or ran.returncode != 1:
            continue
        lines = ran.stdout.split("\n")
        for edit, name in group.items():
            line = goal_left(crate, name, lines)
            if line:
                found[edit] = f"must-fail {crate.name}/{os.path.basename(edit)}: refused, as it must be: {line[:160]}"
    return found


def refused_alone(rt, crate, edits):
    """What to say of each edit that the check of its functions alone refuses."""
    groups = groups_of(edits, crate.folder)
    with tempfile.TemporaryDirectory(prefix="edits-") as kept:
        found = refused_together(rt, crate, [it for it in groups if len(it) > 1], kept)
        names = {name for group in groups for edit, name in group.items() if edit in found}
        for edit in [it for it in edits if it not in found]:
            changed = functions_of(edit, crate.folder)
            kind, told = rt.must_fail(crate, edit, only(changed), kept) if changed else (False, "")
            if kind in REFUSED:
                found[edit] = told
                names.update(changed)
        if names and rt.checked(crate, {}, only(sorted(names)), kept).returncode:
            return {}
    return found


def refused_whole(rt, crate, edits):
    """What whole checks say of each edit, and whether they refuse it, begun with what one of the crate as it stands proved."""
    if not edits:
        return {}
    with tempfile.TemporaryDirectory(prefix="edits-") as room:
        if rt.checked(crate, {}, ONE_JOB, f"{room}/seed").returncode:
            sys.exit(f"{crate.name} isn't proved where nothing is edited")
        found = {}
        for edit in edits:
            shutil.copytree(f"{room}/seed", f"{room}/edit", symlinks=True)
            kind, told = rt.must_fail(crate, edit, ONE_JOB, f"{room}/edit")
            shutil.rmtree(f"{room}/edit")
            found[edit] = kind in REFUSED, told
        return found


def try_all(rt, crate, edits, words):
    """Tries a crate's edits, and gives how many aren't refused."""
    if "--built" not in words and any(it.build_rlib(ONE_JOB, anew=False) for it in crate.below()):
        sys.exit(f"a library below {crate.name} isn't proved")
    alone = {} if "--whole" in words else refused_alone(rt, crate, edits)
    whole = refused_whole(rt, crate, [it for it in edits if it not in alone])
    for edit in edits:
        print(alone[edit] if edit in alone else whole[edit][1], flush=True)
    return sum(not is_refused for is_refused, _ in whole.values())


def edits_of(name):
    folder = os.path.join(HERE, "edits", name)
    found = sorted(os.listdir(folder)) if os.path.isdir(folder) else []
    return [os.path.join(folder, it) for it in found if it.endswith(".edit")]


def main(words):
    names = [it for it in words if not it.startswith("--")] or sorted(os.listdir(os.path.join(HERE, "edits")))
    rt = kit()
    crates = [it for it in rt.rtlib.crates_below(TOP) if it.name in names]
    nameless = {*names} - {it.name for it in crates}
    if nameless:
        sys.exit(f"crates.txt names no crate {', '.join(sorted(nameless))}")
    rt.rtlib.guarded()
    count = sum(len(edits_of(it.name)) for it in crates)
    missed = sum(try_all(rt, it, edits_of(it.name), words) for it in crates)
    print(f"{count - missed} refused, {missed} not")
    return 1 if missed else 0


if __name__ == "__main__":
    sys.exit(main(sys.argv[1:]))
