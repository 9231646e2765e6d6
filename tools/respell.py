#!/usr/bin/env python3
"""Spells this repository's own definitions and lemmas as today's Rattle does: words in snake case, types and modules in camel case.

usage: tools/respell.py        at the top of the repository, once, right after the kit's port.py

A name is turned wherever it stands in specs/, proofs/, the ghost text of src/, must-fail/ and, between backticks, in the pages of docs/ and the README
(docs/LANDINGS.md aside, which tells what was at the time). A lemma that would fall together with a definition gets `_lem` behind it. Nothing else
changes: functions of src/, fields of Rust structs, strings and numbers keep their names. The letters of the rules (T, C, D, J, Π, Θ, Δ) stay as they are.
"""

import collections
import glob
import re
import sys

TOKEN = re.compile(r'[^\s(){}\[\].;,@"«»]+')
DECLARED = re.compile(
    r"^(\s*)((?:(?:abbrev|pub|opaque|unfoldable|data|record|ruleset)\s+)*)"
    r"([^\s(){}.;,@\"]+)(?: \{[^{}\n]*\})* (?:\([^)]*\) )*:(?= |$)"
)
HEADED = re.compile(r"^\s*(?:pub )?(?:record|ruleset|data) (?:pub )?(\S+)")
ODD = re.compile(r"[a-z0-9₀-₉][A-Z]|-")
# Lemmas that keep apart from what stands in their own file under the new spelling.
APART = {"all-bytes": "all_bytes_lem"}
# The field of a record that has a lemma's name: it meets no definition where it stands.
FIELDS = {"common-period": "common_period"}


def texts():
    return sorted(glob.glob("crates/*/specs/**/*.antt", recursive=True) + glob.glob("crates/*/proofs/**/*.antt", recursive=True))


def walks(path):
    """A proof of one function, step by step: its names are made after the code."""
    return path.endswith("/Proof.antt")


def spelled(name):
    words = re.sub(r"(?<=[a-z0-9₀-₉])[A-Z]", lambda m: "_" + m[0].lower(), name)
    return words.replace("-", "_")


def declared():
    where = collections.defaultdict(set)
    for path in texts():
        for line in open(path, encoding="utf-8"):
            for match, at in ((DECLARED.match(line.rstrip("\n")), 3), (HEADED.match(line), 1)):
                if match:
                    where[match.group(at)].add(path)
    return where


def table():
    where = declared()
    turned, taken = {}, {}
    names = {n for n, paths in where.items() if not all(walks(p) for p in paths)}
    for name in sorted(names):
        if not ODD.search(name) or re.match(r"[A-Z]\w*$", name):
            taken[name] = name
    # definitions first, since a contract may cite them: a lemma gives way
    for name in sorted((n for n in names if n not in taken), key=lambda n: ("-" in n, n)):
        new = FIELDS.get(name) or APART.get(name) or spelled(name)
        if new in taken and name not in FIELDS:
            if taken[new] == new and "-" not in name:
                # the lemma had the snake case already, and the definition comes to it
                turned[new] = new + "_lem"
                taken[new + "_lem"] = new
            elif "-" in name:
                new += "_lem"
            if new in taken and taken[new] != new:
                sys.exit(f"{name} and {taken[new]} fall together as {new}")
        taken[new] = name
        turned[name] = new
    return turned


def fields():
    found = set()
    for path in glob.glob("crates/*/src/**/*.rt", recursive=True):
        found.update(re.findall(r"(?m)^\s*(?:pub(?:\(crate\))? )?(\w+): ", open(path, encoding="utf-8").read()))
        found.update(re.findall(r"\bfn (\w+)", open(path, encoding="utf-8").read()))
    return found


def turn_words(text, words, behind_a_dot=True):
    def one(match):
        if not behind_a_dot and text[match.start() - 1 : match.start()] == ".":
            return match[0]
        return words.get(match[0], match[0])

    return TOKEN.sub(one, text)


def turn_antt(text, words, steps):
    """Code whole; of a comment what stands between backticks, and names that no English word is."""
    out = []
    for line in text.split("\n"):
        at = re.search(r"(?:^|(?<=\s))--(?=\s|$)", line)
        code, said = (line[: at.start()], line[at.start() :]) if at else (line, "")
        out.append(turn_words(code, words, steps) + turn_said(said, words))
    return "\n".join(out)


def turn_said(text, words):
    text = re.sub(r"`[^`\n]+`", lambda m: turn_words(m[0].replace("`", " ` "), words).replace(" ` ", "`"), text)
    return re.sub(r"(?<![\w-])[a-z]+(?:[A-Z][a-z0-9]*)+(?![\w-])", lambda m: words.get(m[0], m[0]), text)


def turn_rust(text, words):
    """The ghost imports and the clauses: from a clause's word to the brace that closes it."""
    out, at = [], 0
    opening = re.compile(r"ghost use [^;]*;|\b(?:requires|ensures)\*? (?:\w+ )?\{|//[^\n]*")
    while True:
        match = opening.search(text, at)
        if not match:
            return "".join(out) + text[at:]
        out.append(text[at : match.start()])
        end = match.end()
        if match[0].startswith("//"):
            out.append(turn_said(match[0], words))
        elif match[0].startswith("ghost use"):
            out.append(turn_words(match[0], words))
        else:
            depth = 1
            while depth:
                depth += {"{": 1, "}": -1}.get(text[end], 0)
                end += 1
            out.append(turn_words(text[match.start() : end], words))
        at = end


def turn_page(text, words):
    """Of a page what stands in a fenced block or between backticks."""
    fenced = False
    for line in text.splitlines(keepends=True):
        if line.lstrip().startswith("```"):
            fenced = not fenced
            yield line
        elif fenced:
            yield turn_words(line, words)
        else:
            yield re.sub(r"`[^`\n]+`", lambda m: turn_words(m[0].replace("`", " ` "), words).replace(" ` ", "`"), line)


def write(path, old, new):
    if new != old:
        with open(path, "w", encoding="utf-8") as f:
            f.write(new)


def main():
    words = table()
    rust = fields()
    # a plain word that a Rust field or function has is only a lemma's where it is imported or declared
    plain = {n for n in words if not ODD.search(n)}
    for path in texts():
        old = open(path, encoding="utf-8").read()
        mine = {n: w for n, w in words.items() if n not in plain or n not in rust or re.search(r"(?m)^\s*(?:(?:abbrev|unfoldable|pub) )*" + n + r" .*:|\{[^}\n]*\b" + n + r"\b[^}\n]*\}$", old)}
        write(path, old, turn_antt(old, mine, not walks(path)))
    camel = {n: w for n, w in words.items() if n not in plain}
    for path in sorted(glob.glob("crates/*/src/**/*.rt", recursive=True)):
        old = open(path, encoding="utf-8").read()
        write(path, old, turn_rust(old, camel))
    for path in sorted(glob.glob("crates/*/must-fail/*.edit")):
        old = open(path, encoding="utf-8").read()
        write(path, old, turn_words(old, camel) if ".antt" in old else turn_rust(old, camel))
    for path in sorted(glob.glob("docs/*.md") + ["README.md"]):
        if path.endswith(("LANDINGS.md", "PORT.md")):
            continue
        old = open(path, encoding="utf-8").read()
        write(path, old, "".join(turn_page(old, camel)))
    for name, new in sorted(words.items()):
        if new.endswith("_lem"):
            print(f"{name} gave way to a definition: {new}")
    print(f"{len(words)} names spelled anew")


if __name__ == "__main__":
    main()
