#!/usr/bin/env python3
"""Lists functions whose bodies are the same but for names, numbers, bytes and texts: `python3 tools/twins.py`, at the top of the repository.

A line says how many there are of a body, and each as CRATE/FILE:NAME. A body of at most twelve characters is passed over."""
import collections
import glob
import re

KEPT = {"if", "else", "let", "mut", "while", "for", "in", "return", "match", "true", "false", "as", "N", "T", "C"}


def shape(body):
    """The body with every text, byte, number and name taken out."""
    body = re.sub(r'\*?b"[^"]*"', "T", body)
    body = re.sub(r"b'[^']*'", "C", body)
    body = re.sub(r"\b(0x[0-9a-f_]+|\d[\d_]*)\b", "N", body)
    names = {}
    body = re.sub(r"[A-Za-z_]\w*", lambda m: m.group(0) if m.group(0) in KEPT else names.setdefault(m.group(0), f"n{len(names)}"), body)
    return " ".join(body.split())


found = collections.defaultdict(list)
for file in sorted(glob.glob("crates/*/src/*.rt")):
    text = open(file, encoding="utf-8").read()
    for m in re.finditer(r'(?ms)^( *)(?:pub )?(?:extern "C" )?fn (\w+).*?\{\n(.*?)^\1\}', text):
        if len(m.group(3).strip()) > 12:
            found[shape(m.group(3))].append(f"{file.split('/')[1]}/{file.split('/')[-1]}:{m.group(2)}")
for names in sorted(found.values(), key=lambda n: (-len(n), n)):
    if len(names) > 1:
        print(len(names), " ".join(names))
