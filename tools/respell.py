#!/usr/bin/env python3
"""Brings the repository's own definitions and lemmas to the spelling of today's library, once, after its scripts have run.

usage: tools/respell.py [--print]      in the repository: rewrites crates/ in place; --print only prints each old name and its new one

A word is in snake case and a fact or type in camel case. A dash stays where it joins two words that are names of definitions, as in
`length-append`, and becomes `_` elsewhere. Names of functions, types and variants of src/ stay, as strings do, and words of comments
that are not set off by backticks. Where two names would fall together, the lemma gets `_lem`; the script stops if that is not enough.
"""
import collections
import os
import re
import sys

HEAD = ("abbrev", "unfoldable", "pub", "data", "record")
WORD = re.compile(r"[^\W\d][\w'-]*")
CAMEL = re.compile(r"(?<=[a-z0-9])(?=[A-Z])|(?<=[A-Z])(?=[A-Z][a-z])")
# a local word that the limit `rowWords` would fall together with
CHOSEN = {"row_words": "words_so_far"}
# words of the library that dashes join
LIBRARY = set("append drop take length sets set map cond concat reverse get_or slice_index zero suc".split())


def files(ending):
    for folder, dirs, names in os.walk("crates"):
        dirs[:] = sorted(d for d in dirs if d != "out")
        for n in sorted(names):
            if n.endswith(ending):
                yield os.path.join(folder, n)


def read(path):
    with open(path, encoding="utf-8") as f:
        return f.read()


def declared(text, proof):
    """(name, mark, whether it is inside a record or data, the rest of its line) of each declaration of a file."""
    for line in text.split("\n"):
        at = line.find(" : ")
        if at < 0 or line.lstrip().startswith("--"):
            continue
        words = line[:at].split()
        mark = [w for w in words if w in HEAD and w != "pub"]
        words = [w for w in words if w not in HEAD]
        if not words or not WORD.fullmatch(words[0]) or (len(words) > 1 and words[1][0] not in "({"):
            continue
        inner = line[0] == " "
        if inner and re.search(r"[=λ→]|\blet\b", line[:at]):
            continue
        if proof and (inner or line[at:].startswith(" : tie.")):
            continue
        yield words[0], (mark or [""])[0], inner, line[at + 3:]


def snake(name):
    return "_".join(w if w.isupper() and len(w) > 1 else w[:1].lower() + w[1:] for w in CAMEL.split(name))


def names():
    """Each old name that changes, with its new one."""
    seen, marks, inner, facts, words = collections.OrderedDict(), {}, set(), set(), set()
    for path in files(".antt"):
        text = read(path)
        words.update(WORD.findall(text))
        proof = path.endswith("Proof.antt")
        for name, mark, inside, rest in declared(text, proof):
            seen[name] = True
            if mark and not inside:
                marks[name] = mark
            if inside:
                inner.add(name)
            if mark in ("abbrev", "unfoldable") and re.search(r"(^|→ )Type [01]$", rest.strip()):
                facts.add(name)
    source = set()
    for path in files(".rt"):
        source.update(re.findall(r"\b(?:fn|struct|enum|mod|trait|const) (\w+)", read(path)))
    known = {snake(n) for n in marks} | LIBRARY

    def dashed(name):
        parts = [snake(p) for p in name.split("-")]
        if name in inner or name in marks:
            return "_".join(parts)
        out = parts[0]
        for i in range(1, len(parts)):
            left = any("_".join(parts[j:i]) in known for j in range(i))
            right = any("_".join(parts[i:j]) in known for j in range(i + 1, len(parts) + 1))
            out += ("-" if left and right else "_") + parts[i]
        return out

    new = collections.OrderedDict()
    for name in seen:
        if name in source or (name[0].isupper() and "-" not in name):
            continue
        if name in facts and not name[0].isupper():
            to = "".join(w[:1].upper() + w[1:] for w in re.split("[-_]", name))
        elif name.endswith("-spec"):
            to = name.replace("-", "_")
        elif "-" in name:
            head = name.split("-")[0]
            to = dashed(name) if not head[0].isupper() else head + "-" + dashed(name[len(head) + 1:])
        else:
            to = snake(name)
        if to != name:
            new[name] = to
    new.update(CHOSEN)
    # names that fall together: with one that stays, with a function of src/, or with one another
    stay = (words - set(new)) | source
    taken = collections.Counter(new.values())
    for name in sorted(new, key=lambda n: ("-" in n, n)):
        to = new[name]
        if name in CHOSEN or name.endswith("-spec"):
            continue
        if name in marks and "-" not in name and to not in set(seen) - set(new) or to not in stay and taken[to] == 1:
            continue
        new[name] = to + "_lem"
        taken[to] -= 1
    clash = [n for n, c in collections.Counter(new.values()).items() if c > 1]
    clash += [t for n, t in new.items() if t in words and t not in new and t not in source]
    if clash:
        raise SystemExit("names fall together: " + ", ".join(f"{n} -> {t}" for n, t in new.items() if t in clash))
    return new, inner


def turn(text, new, inner, made):
    """text with its names turned. In a file with made names, what follows a dot is turned only if it is a field."""

    def one(m):
        w = m.group(0)
        if made and m.start() > 0 and m.string[m.start() - 1] == "." and w not in inner:
            return w
        return new.get(w, w)

    return WORD.sub(one, text)


def antt(text, new, inner, made):
    out = []
    for line in text.split("\n"):
        at = 0 if line.lstrip().startswith("--") else (line.find(" -- ") + 1 or len(line))
        code, comment = line[:at], line[at:]
        out.append(turn(code, new, inner, made) + re.sub(r"`[^`]*`", lambda m: turn(m.group(0), new, inner, False), comment))
    return "\n".join(out)


def rt(text, new, inner):
    parts = re.split(r'(//[^\n]*|b?"(?:[^"\\]|\\.)*")', text)
    for i, p in enumerate(parts):
        if i % 2 == 0:
            parts[i] = turn(p, new, inner, False)
        elif p.startswith("//"):
            parts[i] = re.sub(r"`[^`]*`", lambda m: turn(m.group(0), new, inner, False), p)
    return "".join(parts)


def main():
    new, inner = names()
    if "--print" in sys.argv:
        for n, t in new.items():
            print(n, t)
        return
    for path in files(".antt"):
        old = read(path)
        text = antt(old, new, inner, path.endswith("Proof.antt"))
        if text != old:
            with open(path, "w", encoding="utf-8") as f:
                f.write(text)
    for path in files(".rt"):
        old = read(path)
        text = rt(old, new, inner)
        if text != old:
            with open(path, "w", encoding="utf-8") as f:
                f.write(text)


main()
