#!/usr/bin/env python3
"""Respells this repository's own definitions and lemmas: words in snake case, and, where a name is defined in specs/, joined by underscores.

usage: tools/respell.py      at the top of the repository, once, after the kit's port.py

Only names that some file of specs/ or proofs/ defines are turned. Rust's names, exported names, strings, inputs and outputs stay as they are. A turned name
that would be that of a function or a lemma used in the same file gets the ending `_def`. The crate `log` becomes `log_blocks`: the kit has a library named log.
"""
import collections
import glob
import os
import re

IDENT = r"[^\s(){}.,;:\[\]⌜⌝λ@]+"
DEFINED = re.compile(r"^(\s*)((?:(?:abbrev|pub|unfoldable|record|data|ruleset)\s+)*)(" + IDENT + r")\s*(?:\{|\(|:(?!:)|=)")
SEVERAL = re.compile(r"^\s+(?!let )((?:[A-Za-z][\w'·\-]* )+): ")  # constructors of one type
TOKEN = re.compile(r"[A-Za-z_][\w'·\-]*")
APART = {"inUse", "logBlocks"}  # a field, always written with its dot, and a definition that only a path is spelled like


def antt(kind):
    return sorted(glob.glob(f"crates/*/{kind}/**/*.antt", recursive=True))


def rust():
    return sorted(glob.glob("crates/*/src/**/*.rt", recursive=True))


def snake(part):
    if not (re.match(r"[a-z]", part) and re.search(r"[A-Z]", part)):
        return part
    part = re.sub(r"([a-z0-9])([A-Z])", lambda m: m.group(1) + "_" + m.group(2).lower(), part)
    return part.lower()


def defined(files):
    names = set()
    for file in files:
        for line in open(file):
            m = DEFINED.match(line)
            if m and TOKEN.fullmatch(m.group(3)):
                names.add(m.group(3))
            m = SEVERAL.match(line)
            if m:
                names |= set(m.group(1).split())
    return names


def tokens(file):
    return {t for line in open(file) for t in TOKEN.findall(line)}


def the_map():
    in_specs = defined(antt("specs"))
    names = in_specs | defined(antt("proofs"))
    turned = {}
    for name in sorted(names):
        new = "-".join(snake(p) for p in name.split("-"))
        if name in in_specs and re.match(r"[a-z]", name):
            new = new.replace("-", "_")
        if new != name:
            turned[name] = new
    by_new = collections.defaultdict(set)
    for old, new in turned.items():
        by_new[new].add(old)
    fall = {old for olds in by_new.values() if len(olds) > 1 for old in olds if re.search(r"[A-Z]", old)}
    for file in antt("specs") + antt("proofs") + rust():
        here = tokens(file)
        for new in here & by_new.keys():
            fall |= {old for old in by_new[new] & here if re.search(r"[A-Z]", old)}
    for old in fall - APART:
        turned[old] += "_def"
    return turned


def code(text, turned):
    return TOKEN.sub(lambda m: turned.get(m.group(0), m.group(0)), text)


def quoted(text, turned):
    return re.sub(r"`[^`\n]*`", lambda m: code(m.group(0), turned), text)


def line_of(line, mark, turned):
    """Code is turned whole, a comment in its backticks and where a word is in camel case, a string not at all."""
    at = line.find(mark)
    while at > 0 and line[:at].count('"') % 2:
        at = line.find(mark, at + 1)
    head, tail = (line, "") if at < 0 else (line[:at], line[at:])
    parts = re.split(r'("(?:[^"\\]|\\.)*")', head)
    head = "".join(p if p.startswith('"') else code(p, turned) for p in parts)
    camel = {k: v for k, v in turned.items() if re.search(r"[a-z0-9][A-Z]", k)}
    return head + code(quoted(tail, turned), camel)


def rename_log():
    if not os.path.isdir("crates/log"):
        return
    os.rename("crates/log", "crates/log_blocks")
    for file in antt("specs") + antt("proofs") + rust() + ["crates.txt"]:
        text = open(file).read()
        new = re.sub(r"\bRattle([.·])log\b", r"Rattle\1log_blocks", text)
        if file.endswith(".rt"):
            new = re.sub(r"(?<![\w:])log::", "log_blocks::", new)
        if file == "crates.txt":
            new = re.sub(r"(?m)^log:|(?<=[ ])log(?= |$)", lambda m: m.group(0).replace("log", "log_blocks"), new)
        if new != text:
            open(file, "w").write(new)


def main():
    rename_log()
    turned = the_map()
    for file in antt("specs") + antt("proofs") + rust() + sorted(glob.glob("crates/*/must-fail/*.edit")):
        mark = "--" if file.endswith(".antt") else "//"
        text = open(file).read()
        if file.endswith(".edit") and re.search(r"^file: .*\.antt", text, re.M):
            mark = "--"
        new = "".join(line_of(line, mark, turned) for line in text.splitlines(keepends=True))
        if new != text:
            open(file, "w").write(new)
    pages = ["README.md", "CONTRIBUTING.md"] + sorted(glob.glob("docs/*.md")) + sorted(glob.glob("*/README.md"))
    for file in pages:
        text = open(file).read()
        new = quoted(text, turned)
        if new != text:
            open(file, "w").write(new)
    for old in sorted(turned):
        print(old, turned[old])


if __name__ == "__main__":
    main()
