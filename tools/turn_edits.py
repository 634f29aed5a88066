#!/usr/bin/env python3
"""Brings the must-fail edits over to the spelling of the files that they change.

usage: tools/turn_edits.py LANDED [--write [crates/NAME]]     at the top of the repository

For each pair of an edit as it stood at the commit LANDED: the text as it is, or with its words spelled as the file's words are now
(learnt from the files of that commit beside today's), must stand once in today's file. What does not is told, for a change by hand.
"""
import collections
import difflib
import glob
import os
import re
import subprocess
import sys

TOKEN = re.compile(r"""[^\s(){}.;,@"«»]+|[(){}.;,@"«»]|\s+""")


def git_show(commit, path):
    r = subprocess.run(["git", "show", f"{commit}:{path}"], capture_output=True, text=True)
    return r.stdout if r.returncode == 0 else None


def tokens(text):
    return [t for t in TOKEN.findall(text) if not t.isspace()]


def tight(text):
    prev = None
    while prev != text:
        prev = text
        text = re.sub(r"\(([\w'.]+) \.([\w']+)\)", r"\1.\2", text)
        text = re.sub(r"(?<=[\w')])\s\.(?=[a-z0-9])", ".", text)
        text = re.sub(r"\(([\w']+(?:\.[\w']+)+)\)", r"\1", text)
    return text


def learn(old, new, table):
    a, b = tokens(tight(old)), tokens(new)
    for op, i1, i2, j1, j2 in difflib.SequenceMatcher(None, a, b, autojunk=False).get_opcodes():
        if op == "replace" and i2 - i1 == j2 - j1:
            for x, y in zip(a[i1:i2], b[j1:j2]):
                table[x][y] += 1
        elif op == "equal":
            for x in a[i1:i2]:
                table[x][x] += 1


def spelled(text, table):
    out = []
    for t in TOKEN.findall(tight(text)):
        c = table.get(t)
        out.append(c.most_common(1)[0][0] if c and not t.isspace() else t)
    return "".join(out)


def pairs(text):
    cur, out = None, []
    for l in text.splitlines():
        m = re.match(r"(file|old|new):\s?(.*)$", l)
        if m:
            out.append([m[1], m[2]])
        else:
            out.append(["", l])
    return out


def main():
    landed = sys.argv[1]
    write = "--write" in sys.argv
    paths = subprocess.run(["git", "ls-tree", "-r", "--name-only", landed, *(sys.argv[3:] or ["crates"])], capture_output=True, text=True).stdout.split("\n")
    edits = [p for p in paths if p.endswith(".edit")]
    files = {}
    done = bad = 0
    for e in edits:
        crate = e.split("/")[1]
        text = git_show(landed, e)
        rows = pairs(text)
        file, ok, changed = None, True, False
        out = []
        k = 0
        applied = {}
        while k < len(rows):
            kind, val = rows[k]
            if kind == "file":
                file = val.strip()
                out.append(f"file: {file}")
            elif kind == "old":
                new = rows[k + 1][1] if k + 1 < len(rows) and rows[k + 1][0] == "new" else ""
                path = f"crates/{crate}/{file}"
                if path not in files:
                    was = git_show(landed, path)
                    now = open(path).read() if os.path.exists(path) else ""
                    table = collections.defaultdict(collections.Counter)
                    if was is not None:
                        learn(was, now, table)
                    files[path] = (now, table)
                now, table = files[path]
                now = applied.get(path, now)
                if now.count(val) == 1:
                    o, n = val, new
                    if file.endswith(".antt"):
                        n = spelled(new, table)
                else:
                    o, n = spelled(val, table), spelled(new, table)
                if now.count(o) != 1:
                    ok = False
                    print(f"BAD {e}: {now.count(o)} times: {o}\n    was: {val}\n    new: {new}")
                if (o, n) != (val, new):
                    changed = True
                applied[path] = now.replace(o, n, 1)
                out += [f"old: {o}", f"new: {n}"]
                k += 1
            else:
                out.append(val)
            k += 1
        if ok:
            done += 1
            if changed:
                print(f"turned {e}")
            if write:
                with open(e, "w") as f:
                    f.write("\n".join(out) + "\n")
        else:
            bad += 1
    print(f"edits: {done} stand, {bad} by hand")


main()
