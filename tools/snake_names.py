#!/usr/bin/env python3
"""Spells this repository's own definitions and lemmas as today's library spells its own.

usage: python3 tools/snake_names.py        at the top of the repository, once, after port.py

Words (functions, lemmas, fields, constructors) go to snake case, types and facts to upper camel case:
placeOf -> place_of, goals-no-goal -> goals_no_goal, Reads-variable -> ReadsVariable.

A name is turned where a file declares it, imports it from a crate of this repository or names it behind such a
module; a field behind its dot, before its '=' or ':', in its own record and where a file opens it. Names that
Rattle makes for proofs (goals, steps, branches) are no names of ours and stay, as do the names of src/, strings,
inputs and outputs. A lemma that would take the name of a definition that stands in one file with it gets _lem, as
the library has it; APART has two names more that would have fallen together with another. Edits are turned in the
scope of the file that they edit; README.md, docs/ (not PORT.md) and examples/README.md between backticks. It stops
before it writes where two definitions would fall together.
"""

import collections
import glob
import os
import re
import sys

WORD = r"[^\s(){}\[\].;,@\"«»:`|]+"
TOKEN = re.compile(r"\"(?:[^\"\\]|\\.)*\"|«[^»]*»|" + WORD)
OPEN = re.compile(r"open \S+ use \{([^}]*)\}")
HEAD = re.compile(r"^(?:(?:abbrev|unfoldable|pub|mutual) )*(record |data )?([^\s:({]+)(?=[\s:({])")
SPECIAL = {"getD": "get_or"}
# Each would have fallen together with another name of its own file.
APART = {"tooLong": "too_long_fault", "byPlace": "fields_by_place"}


def spelled(name):
    if name in APART:
        return APART[name]
    parts = [SPECIAL.get(p, p) for p in name.split("-")]
    if name[0].isupper():
        return "".join(p[:1].upper() + p[1:] for p in parts)
    snake = lambda p: re.sub(r"(?<=[a-z0-9])([A-Z])", lambda m: "_" + m.group(1).lower(), p)
    return "_".join(snake(p) for p in parts)


def is_old(name):
    return bool(re.search(r"[A-Za-z]", name)) and spelled(name) != name


def module(path):
    parts = path.split("/")
    return "Rattle." + parts[1] + "." + ".".join(parts[2:])[: -len(".antt")]


def declared(path, text):
    """The names of a file, also those inside its unnamed modules and mutual blocks, and the fields of its records."""
    names, fields, blocks, kind, opening = set(), set(), [0], None, False
    for line in text.split("\n"):
        bare = line.strip()
        if not bare or bare.startswith("--"):
            continue
        deep = len(line) - len(line.lstrip())
        while deep < blocks[-1]:
            blocks.pop()
        if opening and deep > blocks[-1]:
            # the head of a module goes on over lines
            if bare.endswith("where"):
                blocks.append(blocks[-1] + 2)
                opening = False
            continue
        if deep > blocks[-1]:
            m = re.match(r"(?:pub )?(\S[^:({]*?)\s*:(\s|$)", bare)
            if kind and m and deep == blocks[-1] + 2:
                (fields if kind == "record" else names).update(m.group(1).split())
            continue
        kind = None
        if bare == "mutual" or bare.startswith("module "):
            if bare == "mutual" or bare.endswith("where"):
                blocks.append(deep + 2)
            else:
                opening = True
            continue
        if bare.startswith(("use ", "pub use ", "mod ", "pub mod ", "unfolding ", "open ", "pub open ")):
            continue
        m = HEAD.match(bare)
        if not m:
            continue
        if m.group(1) and re.search(r"(^| )where$", bare):
            kind = m.group(1).strip()
        elif m.group(1):
            kind = m.group(1).strip()
        if m.group(1) or re.search(r"(^|\s):(\s|$)", bare):
            names.add(m.group(2))
    return names - set(re.findall(r"(?m)^\s*(?:(?:abbrev|pub) )*(\S+)\s*:\s+goal\.\S+\s*$", text)), fields


IMPORT = re.compile(r"use (Rattle\.[\w.'+\-]+?)\.\{([^}]*)\}")


def imported(text, own):
    """The names that a file brings in from this repository, each with the module that declares it."""
    found = {}
    for where, names in IMPORT.findall(text):
        if where not in own:
            # constructors are named behind their type
            where = where.rpartition(".")[0]
        if where not in own:
            continue
        for it in names.split(","):
            words = it.split()
            if words and words[0] in own[where]:
                found[words[0]] = where
                if len(words) == 3:
                    found[words[2]] = None
    return found


def aliases(text, own):
    """Modules of this repository that a file names by a short word."""
    named = re.findall(r"(?m)^use (Rattle\.[\w.'+\-]+) as (\w+)$", text)
    named += [(where, where.split(".")[-1]) for where in re.findall(r"(?m)^use (Rattle\.[\w.'+\-]+)$", text)]
    return {short: where for where, short in named if where in own}


def turned(text, scope, fields, short):
    """The text with each name of the scope, a map from old to new, and each field spelled anew."""

    def one(m):
        t = m.group(0)
        if t[0] in "\"«":
            return t
        before = text[m.start() - 1] if m.start() else ""
        if before == ".":
            # a name by its module, or a field
            behind = re.search(WORD + r"$", text[: m.start() - 1])
            if behind and behind.group(0) in short:
                return short[behind.group(0)].get(t, t)
            return spelled(t) if t in fields else t
        after = text[m.end() : m.end() + 3]
        if t in fields and re.match(r" ?[=:]", after):
            return spelled(t)
        return scope.get(t, t)

    return TOKEN.sub(one, text)


def read(path):
    with open(path, encoding="utf-8") as f:
        return f.read()


def main():
    antt = [p for p in sorted(glob.glob("crates/*/specs/**/*.antt", recursive=True) + glob.glob("crates/*/proofs/**/*.antt", recursive=True)) if "/out/" not in p]
    texts = {p: read(p) for p in antt}
    own, fields, of_file = {}, set(), {}
    for p, t in texts.items():
        names, fs = declared(p, t)
        own[module(p)] = names
        of_file[p] = fs
        fields |= fs
    scopes = {p: imported(t, own) | {n: module(p) for n in own[module(p)]} for p, t in texts.items()}
    fields = {n for n in fields if is_old(n)}
    apart = set()
    for p, scope in scopes.items():
        by = collections.defaultdict(set)
        for n, where in scope.items():
            by[spelled(n)].add((where, n))
        for them in by.values():
            if len(them) > 1:
                apart |= {it for it in them if "-" in it[1]}
                rest = [it for it in them if "-" not in it[1]]
                if len(rest) > 1:
                    print(f"{p}: these fall together: {sorted(map(str, them))}")
                    return 1
    new_name = lambda where, n: spelled(n) + ("_lem" if (where, n) in apart else "")
    for p in sorted(glob.glob("crates/*/src/**/*.rt", recursive=True)):
        texts[p] = read(p)
        scopes[p] = imported(texts[p], own)
    for p in sorted(glob.glob("crates/*/must-fail/*.edit")):
        texts[p] = read(p)
        scopes[p] = {}
        for f in re.findall(r"(?m)^file: (\S+)", texts[p]):
            scopes[p] |= scopes.get(os.path.join(os.path.dirname(os.path.dirname(p)), f), {})
    scopes = {p: {n: new_name(where, n) for n, where in scope.items() if is_old(n)} for p, scope in scopes.items()}
    # fields that a file names without their record: those that it opens, and in a record its own
    for p, scope in scopes.items():
        scope.update({n: spelled(n) for n in of_file.get(p, ()) if is_old(n) and n not in scope})
        for names in OPEN.findall(texts[p]):
            scope.update({n.strip(): spelled(n.strip()) for n in names.split(",") if n.strip() in fields})

    everywhere = set().union(*own.values()) | fields
    everywhere = {n for n in everywhere if is_old(n)}
    for p in ["README.md", *sorted(glob.glob("docs/*.md")), "examples/README.md"]:
        if os.path.exists(p) and os.path.basename(p) != "PORT.md":
            t = read(p)
            new = re.sub(r"`[^`\n]*`", lambda m: TOKEN.sub(lambda w: spelled(w.group(0)) if w.group(0) in everywhere else w.group(0), m.group(0)), t)
            if new != t:
                write(p, new)
    n = 0
    for p, t in texts.items():
        short = {s: {n: new_name(where, n) for n in own[where] if is_old(n)} for s, where in aliases(t, own).items()}
        new = turned(t, scopes[p], fields, short)
        if new != t:
            write(p, new)
            n += 1
    print(f"{len(everywhere)} names, {n} files")
    return 0


def write(path, text):
    with open(path, "w", encoding="utf-8") as f:
        f.write(text)


if __name__ == "__main__":
    raise SystemExit(main())
