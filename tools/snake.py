#!/usr/bin/env python3
"""Spells this repository's own definitions and lemmas as today's Rattle does: words in snake case, types and facts with a capital.

usage: tools/snake.py [--list]      at the top; once, right after port.py. --list writes nothing and prints the names, and those that would fall together.

Functions of src/, exported names, strings, inputs and outputs keep theirs. A lemma that would get its definition's name has `_lem` after it.
"""
import collections
import glob
import re
import sys

DECLARED = re.compile(r"(?m)^ *(?:(?:abbrev|unfoldable|pub|mutual|ruleset|record|data|infix\w*) +)*([A-Za-z][^\s(){}.;,@\"«»:=|]*)(?: \{[^{}\n]*\}| \([^()\n]*\))* *(?::|=(?! ?\?))(?= |$)")
TOKEN = re.compile(r"--[^\n]*|//[^\n]*|\"(?:[^\"\\]|\\.)*\"|«[^»]*»|[^\s(){}.;,@\"«»\[\]|]+")
OLD = re.compile(r"[a-z][\w₀-₉'-]*")
USE = re.compile(r"\buse +([^\s;{]+)\.\{([^}]*)\}|\buse +([^\s;{]+)(?: as [^\s;]+)?")


def snake(name):
    words = re.sub(r"(?<=[a-z0-9])([A-Z])", lambda m: "_" + m[1].lower(), name)
    return words.replace("-", "_")


def old(name):
    return bool(OLD.fullmatch(name)) and snake(name) != name


def files(kind):
    return sorted(p for p in glob.glob("crates/**/*." + kind, recursive=True) if "/out/" not in p)


def crates():
    return {p.split("/")[1] for p in glob.glob("crates/*/src")}


def main():
    ours = crates()
    texts = {p: open(p, encoding="utf-8").read() for p in files("antt") + files("rt") + files("edit")}
    declared, foreign, aliases = collections.defaultdict(set), collections.defaultdict(set), collections.defaultdict(set)
    for p, t in texts.items():
        if p.endswith(".antt"):
            plain = re.sub(r"--[^\n]*", "", t)
            for m in DECLARED.finditer(plain):
                declared[m[1]].add(p)
            for m in re.finditer(r"(?m)^ *pub (?:open )?([a-z][^\s(){}.;,@\"«»:=]*) :", plain):
                declared[m[1]].add(p)
        for m in USE.finditer(t):
            path = (m[1] or m[3]).split(".")
            own = path[0] == "Rattle" and len(path) > 1 and path[1] in ours
            for it in (m[2] or "").split(","):
                name, _, alias = it.strip().partition(" as ")
                if not own:
                    foreign[p].add(name)
                if alias and old(alias):
                    aliases[alias].add(p)
    everywhere = set().union(*foreign.values())
    for n, ps in aliases.items():
        declared[n] |= ps
    names = {n: snake(n) for n in declared if old(n)}
    # names that fall together: by old spelling, or with a name that is spelled so already
    tokens = {p: set(TOKEN.findall(t)) for p, t in texts.items() if not p.endswith(".edit")}
    taken = collections.defaultdict(set)
    for n in declared:
        taken[snake(n)].add(n)
    for to, spelled in sorted(taken.items()):
        spelled = sorted(spelled, key=lambda n: (not any("/specs/" in p for p in declared[n]), "-" in n, n == to, n))
        met = len(spelled) > 1 and any(len(ts & set(spelled)) > 1 for ts in tokens.values())
        if to in everywhere and to not in declared:
            print("a library's:", to, spelled)
        for n in spelled[1:] if met else []:
            names[n] = to + "_lem"
            if "--list" in sys.argv:
                print("together:", spelled[0], "keeps", to, "and", n, "is", names[n], [sorted(declared[o])[:1] for o in spelled])
    both = collections.defaultdict(set)
    for n in declared:
        both[names.get(n, n)].add(n)
    if "--list" in sys.argv:
        print(len(names), "names")
        for to, froms in both.items():
            if len(froms) > 1:
                print("apart:", to, froms)
        shared = [n for n in names if n in everywhere]
        print("also a library's:", shared)
        return
    for p, t in texts.items():
        if p.endswith(".edit"):
            continue
        rust = p.endswith(".rt")

        def turn(m):
            it = m[0]
            if it.startswith(("--", "//")):
                return re.sub(r"(?<![\w-])[a-z]\w*[A-Z]\w*(?![\w-])", lambda w: names.get(w[0], w[0]), it)
            if it[0] in "\"«":
                return it
            if it in foreign[p] or it not in names:
                return it
            return names[it]

        if rust:
            new = re.sub(r"(?ms)^( *)ghost .*?;$|^ *(?:requires|ensures|decreases|ghost|invariant)\*?[^\n]*\{.*?\}\n", lambda m: TOKEN.sub(turn, m[0]), t)
        else:
            new = TOKEN.sub(turn, t)
        if new != t:
            open(p, "w", encoding="utf-8").write(new)
            print(p)


main()
