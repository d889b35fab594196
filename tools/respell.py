#!/usr/bin/env python3
"""Respells this repository's own definitions and lemmas as today's Rattle spells names: words in snake case.

usage: tools/respell.py          run once, at the top of the repository, after the kit's port.py
       tools/respell.py --list   prints the pairs and changes nothing

It looks at what is declared in each file of crates/NAME/specs/ and crates/NAME/proofs/ (the folders of functions aside), at the fields of
its records and at the constructors of its data. A name with a capital or a dash inside gets underscores; a type keeps its capitals. Names of
src/, strings and names that Rattle generates stay. A lemma whose name another thing has gets `_lem`.
"""
import glob
import os
import re
import sys

TOP = os.path.dirname(os.path.dirname(os.path.realpath(__file__)))
TOKEN = re.compile(r"(?<![\w₀-₉'’◌-])([A-Za-z][\w₀-₉']*(?:-[\w₀-₉']+)*)(?![\w₀-₉'◌]|-\w)")
HEAD = re.compile(r"^(?:  )*(?:(?:abbrev|unfoldable|pub|mutual) )*((?:data|record|ruleset) )?([A-Za-z][\w₀-₉'-]*)(?= *(?::|\{|\())")
WORDS = {"use", "unfolding", "module", "mod", "infixl", "infixr", "infix", "open"}
# names that the kit's script left beside a definition that comes to the same name here
BESIDE = {"digit_or": "digit_or_lem", "row_from": "row_from_lem", "same_text": "same_text_lem", "written_back": "written_back_lem"}
# a definition and a lemma of crates that do not meet
APART = {"oneMore": "one_more", "onePlace": "one_place"}
# a local name of one proof that would hide a definition
LOCAL = {"crates/blanking/proofs/Lost.antt": {"first_byte": "first_is"}}


def snake(name):
    s = re.sub(r"([a-z0-9])([A-Z])", lambda m: m.group(1) + "_" + m.group(2).lower(), name)
    return s.replace("-", "_")


def antt_files():
    found = []
    for part in ("specs", "proofs"):
        found += glob.glob(os.path.join(TOP, "crates/*", part, "**/*.antt"), recursive=True)
    return sorted(found)


def sources():
    return sorted(glob.glob(os.path.join(TOP, "crates/*/src/**/*.rt"), recursive=True))


def is_function_file(path):
    return os.path.basename(path) == "Proof.antt"


def declared():
    """Each name that is declared, with its files."""
    found = {}
    for path in antt_files():
        if is_function_file(path):
            continue
        for line in open(path, encoding="utf-8"):
            m = HEAD.match(line)
            if m and m.group(2) not in WORDS:
                found.setdefault(m.group(2), []).append(path)
    return found


def pairs():
    names = declared()
    new = dict((n, to) for n, to in BESIDE.items() if n in names and any("-" in n or snake(m) == n for m in names if m != n))
    new.update((n, to) for n, to in APART.items() if n in names)
    held = set(names) - set(new)
    for name in sorted(names, key=lambda n: ("-" in n, n)):
        to = snake(name)
        if name in new or to == name or name[0].isupper():
            continue
        if to in held:
            to += "_lem" if "-" in name else "_of"
        new[name] = to
        held.add(to)
    return new


def respelled(text, new, skip_dotted=False):
    def one(m):
        name = m.group(1)
        if name not in new:
            return name
        if m.start() and text[m.start() - 1] == "." and skip_dotted and "-" in name:
            return name
        return new[name]

    return TOKEN.sub(one, text)


def in_antt(text, new, function_file):
    lines = []
    for line in text.split("\n"):
        code, dash, said = line.partition("--") if re.search(r"(^|\s)--(\s|$)", line) else (line, "", "")
        code = "".join(p if p.startswith('"') else respelled(p, new, function_file) for p in re.split(r'("[^"]*")', code))
        said = re.sub(r"`[^`]*`", lambda m: respelled(m.group(0), new), said)
        said = respelled(said, {n: to for n, to in new.items() if "-" not in n and re.search("[A-Z]", n)})
        lines.append(code + dash + said)
    return "\n".join(lines)


def in_rattle(text, new):
    camel = {n: to for n, to in new.items() if "-" not in n and re.search("[A-Z]", n)}
    lines = []
    for line in text.split("\n"):
        if line.lstrip().startswith("ghost use"):
            line = respelled(line, new)
        else:
            line = "".join(p if p.startswith('"') else respelled(p, camel) for p in re.split(r'("[^"]*")', line))
        lines.append(line)
    return "\n".join(lines)


def in_page(text, spelled):
    """Names between backticks in a page: also those that the kit's script respelled."""

    def part(m):
        return TOKEN.sub(lambda t: spelled.get(t.group(1), snake(t.group(1)) if snake(t.group(1)) in spelled.values() else t.group(1)), m.group(0))

    return re.sub(r"`[^`\n]*`", part, text)


def in_edit(text, new, names):
    """The lines of a must-fail edit: definitions are cited in specs, proofs and clauses alone."""
    lines = []
    for line in text.split("\n"):
        if re.match(r"(old|new): ", line):
            line = TOKEN.sub(lambda t: new.get(t.group(1), snake(t.group(1)) if re.search("[a-z][A-Z]|-", t.group(1)) and snake(t.group(1)) in names else t.group(1)), line)
        lines.append(line)
    return "\n".join(lines)


def main():
    new = pairs()
    if "--list" in sys.argv:
        for name, to in sorted(new.items()):
            print(name, to)
        return
    held = set(new.values()) | set(declared())
    for path in antt_files() + sources():
        text = before = open(path, encoding="utf-8").read()
        for name, to in LOCAL.get(os.path.relpath(path, TOP), {}).items():
            text = respelled(text, {name: to})
        there = set(TOKEN.findall(text))
        for name, to in new.items():
            if name in there and to in there:
                print("look:", os.path.relpath(path, TOP), name, "and", to)
        text = in_rattle(text, new) if path.endswith(".rt") else in_antt(text, new, is_function_file(path))
        if text != before:
            open(path, "w", encoding="utf-8").write(text)
    for path in glob.glob(os.path.join(TOP, "crates/*/must-fail/*.edit")):
        text = open(path, encoding="utf-8").read()
        turned = in_edit(text, new, held)
        if turned != text:
            open(path, "w", encoding="utf-8").write(turned)
    pages = [os.path.join(TOP, "README.md"), os.path.join(TOP, "peer/README.md")] + glob.glob(os.path.join(TOP, "docs/*.md")) + glob.glob(os.path.join(TOP, "docs/landings/*.md"))
    for path in pages:
        text = open(path, encoding="utf-8").read()
        turned = in_page(text, new)
        if turned != text:
            open(path, "w", encoding="utf-8").write(turned)


if __name__ == "__main__":
    main()
