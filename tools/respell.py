#!/usr/bin/env python3
"""Spells the repository's own definitions and lemmas as today's Rattle does. Run once, right after port.py, at the top: it goes by text.

usage: python3 tools/respell.py

- A crate may not have a library's name: base64 is base64_codec.
- A name such as fileStop is file_stop, in specs/, proofs/, clauses and must-fail edits, and in the code spans of README and docs/.
- In a lemma's name a dash joins two names; before a word that names nothing it becomes an underscore.
What Rattle makes (the labels of a function's proof), functions of src/, strings, inputs and outputs keep their names. A name that would meet
another one stays as it is, and a line 'stays:' says so. The table of what changed is written to tools/respelled.tsv.
"""

import collections
import os
import re
import subprocess

QUOTED = re.compile(r'"(?:[^"\\\n]|\\.)*"')
CAMEL = re.compile(r"(?<![\w'])[a-z][a-z0-9]*(?:[A-Z][A-Za-z0-9]*)+(?!\w)")
TOKEN = re.compile(r"[^\s(){}.;,@\"«»`:/<>&*!?#\[\]]+")
DECLARED = re.compile(r"(?m)^ *(?:(?:pattern|unfoldable|abbrev|pub|record|data|axiom) +)*([^\s(){}.;,@\"«»:]+)(?: *\{[^{}\n]*\}| *\([^()\n]*\))* *:(?= |$)")
FUNCTION = re.compile(r"\bfn (\w+)")
# Lemmas that stand beside a definition whose respelled name they have already.
LEMMAS = ["is_declared", "none_done", "same_parts", "fields_read", "text_in"]


def read(path):
    with open(path, encoding="utf-8") as f:
        return f.read()


def write(path, text):
    with open(path, "w", encoding="utf-8") as f:
        f.write(text)


def snake(name):
    name = re.sub(r"([a-z0-9])([A-Z])", r"\1_\2", name)
    return re.sub(r"([A-Z])([A-Z][a-z])", r"\1_\2", name).lower()


def outside_quotes(turn, text):
    """turn on each stretch of text between strings."""
    made, at = [], 0
    for m in QUOTED.finditer(text):
        made += [turn(text[at : m.start()]), m.group()]
        at = m.end()
    return "".join(made) + turn(text[at:])


def files(*ends):
    for folder, dirs, names in os.walk("crates"):
        dirs[:] = sorted(d for d in dirs if d != "out")
        for name in sorted(names):
            if name.endswith(ends):
                yield os.path.join(folder, name)


def move_base64():
    subprocess.run(["git", "mv", "crates/base64", "crates/base64_codec"], check=True)
    lines = read("crates.txt").splitlines(keepends=True)
    write("crates.txt", "".join(l if l.startswith("#") else re.sub(r"\bbase64\b", "base64_codec", l) for l in lines))
    for path in files(".antt", ".rt", ".edit"):
        text = read(path)
        new = re.sub(r"\bRattle\.base64\b", "Rattle.base64_codec", text)
        new = re.sub(r"\bRattle·base64(?=[·.])", "Rattle·base64_codec", new)
        if path.endswith((".rt", ".edit")):
            new = re.sub(r"\bbase64::", "base64_codec::", new)
        if new != text:
            write(path, new)


def of_function(path):
    """Whether the file is part of a function's proof, in which Rattle's labels stand."""
    return os.path.basename(path) in ("Proof.antt", "Answers.antt", "Invariants.antt")


def table():
    """Old spelling to new, of every name that changes."""
    tokens, lemmas, names, labels, functions = {}, set(), set(), set(), set()
    for path in files(".antt"):
        text = QUOTED.sub('""', read(path))
        tokens[path] = set(TOKEN.findall(text))
        here = set(DECLARED.findall(text))
        if of_function(path):
            labels |= here | set(re.findall(r"\.([^\s(){}.;,@\"«»]*-[^\s(){}.;,@\"«»]*)", text))
        else:
            lemmas |= {n for n in here if "-" in n}
            names |= {n for n in here if "-" not in n}
    for path in files(".rt"):
        functions |= set(FUNCTION.findall(read(path)))
    known = {snake(n) for n in names} | {w for n in names for w in [n]} | functions
    turned = {}
    for path in tokens:
        for token in tokens[path]:
            for word in CAMEL.findall(token):
                turned[word] = snake(word)
    everywhere = set().union(*tokens.values())
    for name in sorted(lemmas - labels):
        parts = name.split("-")
        made = parts[0]
        for part in parts[1:]:
            made += ("-" if snake(part) in known or not re.match(r"[a-z]", part) else "_") + part
        if made == name:
            continue
        if made in everywhere or snake(made) in known or made in turned.values():
            print("stays:", name)
            continue
        turned[name] = made
    return turned


def turn_words(turned, text):
    """Each whole name of the table, and each name of the table that is a part of a longer one."""

    def one(m):
        token = m.group()
        token = turned.get(token, token)
        return CAMEL.sub(lambda c: turned.get(c.group(), c.group()), token)

    return TOKEN.sub(one, text)


def only_camel(turned):
    return {old: new for old, new in turned.items() if "-" not in old}


def main():
    move_base64()
    turned = table()
    for path in files(".antt"):
        text = read(path)
        for name in LEMMAS:
            text = re.sub(rf"(?<![\w.'-]){name}(?![\w'-])", name + "_lem", text)
        write(path, outside_quotes(lambda t: turn_words(turned, t), text))
    for path in files(".rt", ".edit"):
        text = read(path)
        write(path, outside_quotes(lambda t: CAMEL.sub(lambda c: turned.get(c.group(), c.group()), t), text))
    pages = ["README.md"] + sorted("docs/" + n for n in os.listdir("docs") if n.endswith(".md")) + sorted("docs/landings/" + n for n in os.listdir("docs/landings"))
    for path in pages:
        text = read(path)
        write(path, re.sub(r"`[^`\n]+`", lambda m: CAMEL.sub(lambda c: turned.get(c.group(), c.group()), m.group()), text))
    write("tools/respelled.tsv", "".join(f"{old}\t{new}\n" for old, new in sorted(turned.items())))
    print(len(turned), "names turned")


if __name__ == "__main__":
    main()
