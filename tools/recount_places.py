#!/usr/bin/env python3
"""Counts places of docs/DESIGN-PASS.md in another way than tools/count_places.sh: comments and texts are taken out, and functions are compared by their
bodies with all names alike. From the repository's root; prints what it finds."""
import collections
import glob
import re

KEPT = set("if return let mut while for in match as self true false else usize u64 u8 u32 Some None Ok Err".split())


def plain(path):
    source = re.sub(r"//[^\n]*", "", open(path).read())
    return re.sub(r'b?"(\\.|[^"\\])*"', '""', source)


def shape(body):
    names = {}

    def name(match):
        word = match.group(0)
        return word if word in KEPT else names.setdefault(word, "v%d" % len(names))

    return re.sub(r"[A-Za-z_]\w*", name, re.sub(r"\s+", " ", body).strip())


loops, enums, steps = [], [], []
bodies = collections.defaultdict(list)
for path in sorted(glob.glob("crates/*/src/*.rt")):
    text = plain(path)
    loops += [path] * len(re.findall(r"\b(?:while|loop)\b", text))
    for name, inside in re.findall(r"enum (\w+)[^{]*\{(.*?)\n\}", text, flags=re.S):
        variants = [v for v in re.split(r",\s*\n", inside) if v.strip()]
        if len(variants) <= 3 and any("(" in v or "{" in v for v in variants):
            enums.append(path + " " + name)
    for name, body in re.findall(r"fn (\w+)(?:<[^>]*>)?\(.*?\).*?\n\{\n(.*?)\n\}", text, flags=re.S):
        if len(shape(body)) > 30:
            bodies[shape(body)].append(path + " " + name)
    steps += [path + " " + name for name in re.findall(r"\b(\w+) \+= 1;", text)]
twins = [group for group in bodies.values() if len(group) > 1]
print("while and loop:", len(loops))
print("enums of at most three variants, one with a payload:", len(enums), *enums, sep="\n  ")
print("groups of functions whose bodies are alike but for names:", len(twins), *twins, sep="\n  ")
print("lines that add one to a name:", len(steps), *steps, sep="\n  ")
