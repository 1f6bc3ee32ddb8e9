#!/usr/bin/env python3
"""Spells the repository's own definitions, constructors, fields and lemmas in snake case: `storeTaken` and `store-taken` become `store_taken`.

usage: python3 tools/respell.py [--list]     at the top of the repository, once; --list prints the names and changes nothing

A name is the repository's own where a file of specs/, or a lemma file of proofs/, declares it. Types and modules keep their capitals. Rust code, the
names that Rattle makes for a proof and the library's names stay. In pages a name is respelled where it stands between backquotes. In pages, comments and
must-fail edits a name is respelled too whose declaration stands in snake case already.
"""

import os
import re
import sys

PROOFS = ("Proof.antt", "Answers.antt", "Invariants.antt")
# lemmas that stood in snake case beside a definition that comes to have their name: the crates in whose specs/ they do
BESIDE = {"in_use": ("schemas",), "no_store": ("schemas",), "run_sound": ("table",)}
# what parts two names in antt
WORD = re.compile(r"[^\s(){}\[\],;:.◌@`\"|]+")
HEAD = re.compile(r"^(?:(?:unfoldable|abbrev|pub|pattern|ruleset) )*([^\s:{(]+)(?: \{[^}]*\})? :(?= |$)", re.M)
# the same indented, in a module with parameters: the name begins a later line too
INNER = re.compile(r"^( +)(?:(?:unfoldable|abbrev|pub) )*([^\s:{(]+)(?: \{[^}]*\})? :(?= |$)", re.M)
RULESET = re.compile(r"^(?:pub )?ruleset (?:pub )?([^\s:={(]+)", re.M)
# constructors and fields stand indented below `data ..` and `record ..`
DATA = re.compile(r"^(?:(?:unfoldable|pub|pattern) )*(?:data|record) .*\n((?:(?:  .*|\s*)\n)*)", re.M)
MEMBER = re.compile(r"^  (?:pub )?([^\s:{(]+(?: [^\s:{(]+)*) : ", re.M)
USE = re.compile(r"(?:ghost |pub )*use ([^\s{;]+)\.\{([^}]*)\}")


def files(*ends):
    for folder, dirs, names in os.walk("crates"):
        dirs[:] = sorted(d for d in dirs if d != "out")
        for n in sorted(names):
            if n.endswith(ends):
                yield os.path.join(folder, n)


def read(path):
    with open(path, encoding="utf-8") as f:
        return f.read()


def plain(text):
    return re.sub(r"(^|\s)--.*", r"\1", text)


def snake(name):
    s = name.replace("-", "_")
    s = re.sub(r"([a-z0-9])([A-Z]+)(?=[A-Z][a-z]|[^A-Za-z]|$)", lambda m: m[1] + "_" + m[2].lower(), s)
    s = re.sub(r"([a-z0-9])([A-Z])", lambda m: m[1] + "_" + m[2].lower(), s)
    return s


def declared():
    found = set()
    for p in files(".antt"):
        if os.path.basename(p) in PROOFS:
            continue
        t = plain(read(p))
        found |= {m[2] for m in INNER.finditer(t) if re.search(rf"(?m)^{m[1]}{re.escape(m[2])}(?= [^:])", t[m.end() :])}
        found |= {m[1] for m in HEAD.finditer(t)} | {m[1] for m in RULESET.finditer(t)}
        for m in DATA.finditer(t):
            for it in MEMBER.finditer(m[1]):
                found |= set(it[1].split())
        # names that an import gives, and parameters
        found |= {w for w in WORD.findall(t) if re.match(r"[a-z]\w*[a-z0-9][A-Z]", w)}
    return {w for n in found for w in WORD.findall(n)}


def renamed(words):
    new = {w: snake(w) for w in words if w[:1].islower() and snake(w) != w}
    # a lemma that would have a definition's name
    meant = {s for w, s in new.items() if "-" not in w}
    return {w: s + "_lem" if "-" in w and s in meant else s for w, s in new.items()}


def library(text, new):
    """The names that a file takes from outside the repository: those stay."""
    stay = set()
    for m in USE.finditer(text):
        crate = m[1].split(".")[1] if m[1].startswith("Rattle.") else None
        if crate is None or not os.path.isdir(os.path.join("crates", crate)):
            stay |= set(WORD.findall(m[2]))
    return stay & set(new)


def respelled(text, new, stay=()):
    return WORD.sub(lambda m: m[0] if m[0] in stay else new.get(m[0], m[0]), text)


class Told(dict):
    """The new names, and those that a text still tells in the older spelling."""

    def __init__(self, new, words):
        super().__init__(new)
        self.now = {new.get(w, w) for w in words}

    def get(self, word, other):
        if word in self:
            return self[word]
        return snake(word) if word[:1].islower() and snake(word) in self.now else other


def main(argv):
    words = declared()
    new = renamed(words)
    told = Told(new, words)
    seen = {}
    for w, s in sorted(new.items()):
        seen.setdefault(s, []).append(w)
    for s, ws in sorted(seen.items()):
        if len(ws) > 1:
            print("fall together:", s, *ws)
    if argv == ["--list"]:
        for w, s in sorted(new.items()):
            print(w, s)
        return
    for p in files(".antt", ".rt", ".edit"):
        t = read(p)
        stay = library(t, new)
        if stay:
            print("left as the library's:", p, *sorted(stay))
        beside = {w: w + "_lem" for w, where in BESIDE.items() if p.split(os.sep)[1] in where and p.split(os.sep)[2] == "specs"}
        if p.endswith(".edit"):
            r = respelled(t, told)
        else:
            r = respelled(t, new | beside, stay)
            r = re.sub(r"(?m)(?:^|(?<=\s))(?:--|//) .*$", lambda m: respelled(m[0], told, beside), r)
        if r != t:
            with open(p, "w", encoding="utf-8") as f:
                f.write(r)
    pages = ["README.md"] + [os.path.join("docs", n) for n in sorted(os.listdir("docs")) if n.endswith(".md")]
    for p in pages:
        t = read(p)
        r = re.sub(r"`[^`\n]+`", lambda m: respelled(m[0], told), t)
        if r != t:
            with open(p, "w", encoding="utf-8") as f:
                f.write(r)


if __name__ == "__main__":
    main(sys.argv[1:])
