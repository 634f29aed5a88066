#!/usr/bin/env python3
"""Turns this repository's old Proof.antt files to Invariants.antt and Answers.antt.

usage: tools/turn_proofs.py CRATE NAMES OLD     NAMES: a names.json of 'rt check --generated DIR --old-names'; OLD: a folder with the old
                                                CRATE/proofs/F/Proof.antt. Writes CRATE/proofs/F/ in the crates folder at hand.

It goes by text: an answer that only searches is left out, since the check searches itself; what falls is mended by hand.
"""
import json
import os
import re
import sys

LABEL = r"[A-Za-z_][\w'-]*"
SEARCHES = {"search rules", "omega arith", "search(rules)", "tt"}


def norm(label):
    return label.replace("_", "-").lower()


class Function:
    def __init__(self, key, d):
        self.d = d
        self.places = {norm(p[0]): i for i, p in enumerate(d["places"])}
        self.needs = {}
        for (old, new), at in zip(d["needs"], d["asked_at"]):
            self.needs.setdefault(norm(old), (new, at[0]))
        self.settled = {norm(s) for s in d["settled"]}

    def need(self, old):
        key = norm(old)
        for k in (key, re.sub(r"^(overflow|nonzero)-", "", key), key.replace("overflow-", "").replace("nonzero-", "")):
            if k in self.needs:
                return self.needs[k]
        return None

    def chain(self, place):
        """The places from this one up."""
        out = []
        while place is not None and norm(place) in self.places:
            i = self.places[norm(place)]
            out.append(i)
            place = self.d["places"][i][1]
        return out

    def everywhere(self):
        return list(range(len(self.d["places"])))

    def step(self, chain, label, fields):
        """A step's new label and the fields behind it, or None."""
        found = []
        for i in chain:
            arm = self.d["arms"][i] if i < len(self.d["arms"]) else None
            if arm:
                for newfield, oldstep, oldpath in sorted(arm[2], key=lambda it: -len(it[2])):
                    if norm(oldstep) == norm(label) and fields[: len(oldpath)] == oldpath and (oldpath or fields):
                        return [arm[0], newfield] + fields[len(oldpath):]
            old, new = self.d["places"][i][2]
            if norm(old) == norm(label) and old:
                found.append((new, i))
        if found:
            return [found[0][0]] + fields
        return None


FIELD = {"inv": "invariant", "pre": "requires", "post": "ensures"}


class File:
    def __init__(self, fn, text, crate, name):
        self.fn, self.crate, self.name = fn, crate, name
        self.uses, self.decls = [], []
        self.parse(text)
        self.roots = {}
        self.types = {}
        self.said = []

    def parse(self, text):
        lines = text.split("\n")
        comment, cur = [], None
        self.head = []
        for l in lines:
            if l.startswith("use "):
                self.uses.append(l)
                cur = None
            elif l.startswith("--"):
                comment.append(l)
                cur = None
            elif not l.strip():
                if cur is None or cur["name"] is None:
                    pass
                if comment and not self.uses and not self.decls:
                    self.head, comment = self.head + comment, []
                cur = None if comment else cur
            else:
                m = re.match(r"(?:(?:abbrev|unfoldable|pub|mutual) )*([^\s:]+)", l)
                if l[0] in ")]}" and cur is not None:
                    cur["lines"].append(l)
                elif l[0] != " ":
                    word = m[1]
                    if cur is not None and cur["name"] == word or l.startswith("unfolding ") and cur:
                        cur["lines"].append(l)
                    else:
                        cur = {"name": word, "lines": [l], "comment": comment}
                        comment = []
                        self.decls.append(cur)
                elif cur is not None:
                    cur["lines"].append(l)
        if not self.uses and not self.head and self.decls and self.decls[0]["comment"]:
            self.head = self.decls[0]["comment"]
            self.decls[0]["comment"] = []
        # comments before the first use line
        if not self.head:
            pre = []
            for l in lines:
                if l.startswith("--"):
                    pre.append(l)
                else:
                    break
            self.head = pre
            for d in self.decls:
                d["comment"] = [c for c in d["comment"] if c not in pre]

    def place_of(self, typ):
        m = re.search(r"tie\.(" + LABEL + r")", typ)
        if m and norm(m[1]) in self.fn.places:
            return self.fn.d["places"][self.fn.places[norm(m[1])]][0]
        for t, p in self.types.items():
            if re.search(r"\b" + re.escape(t) + r"\b", typ):
                return p
        return None

    def paths(self, text, roots):
        """Each path from a root, spelled as today's."""
        roots = dict(roots)

        def one(m):
            root, rest = m[1], m[2]
            if root not in roots:
                return m[0]
            kind, place = roots[root]
            fields = [f for f in rest.split(".") if f]
            if kind == "place":
                hops = 0
                while fields and fields[0] == "before":
                    fields.pop(0)
                    hops += 1
                if not fields:
                    return root
                if fields[0] in ("args", "requires", "ranges", "pre", "lifetimes"):
                    fields[0] = FIELD.get(fields[0], fields[0])
                else:
                    chain = self.fn.chain(place) if place else self.fn.everywhere()
                    got = self.fn.step(chain, fields[0], fields[1:]) or self.fn.step(self.fn.everywhere(), fields[0], fields[1:])
                    if got:
                        fields = got
                    else:
                        self.said.append(f"no step {fields[0]} at {place}")
            fields = [FIELD.get(f, f) if i or kind == "step" else f for i, f in enumerate(fields)]
            return root + "." + ".".join(fields)

        out, pos = [], 0
        # aliases are learnt in the order of the text
        pattern = re.compile(r"(?<![\w.'-])([A-Za-z_α-ω][\w'₀-₉-]*)((?:\.[\w'?◌+-]+)+)|\blet ([\w'₀-₉-]+) = ([\w'₀-₉-]+)(?=\s+in\b)")
        for m in pattern.finditer(text):
            out.append(text[pos : m.start()])
            if m[3]:
                if m[4] in roots:
                    roots[m[3]] = roots[m[4]]
                out.append(m[0])
                pos = m.end()
                continue
            new = one(m)
            out.append(new)
            pos = m.end()
            before = text[: m.start()]
            a = re.search(r"\blet ([\w'₀-₉-]+) = $", before)
            if a and re.match(r"\s+in\b", text[m.end():]) and m[1] in roots:
                if "." not in new:
                    roots[a[1]] = roots[m[1]]
                else:
                    roots[a[1]] = ("step", None)
        out.append(text[pos:])
        text = "".join(out)
        # a test of 'not x' now says what x is
        said = r"([\w'.-]*if-not-[\w'-]*\.(?:true|false))"
        text = re.sub(r"\(not[-_](?:true|false) \S+ " + said + r"\)", r"\1", text)
        return re.sub(r"(?<![\w-])not[-_](?:true|false) \S+ " + said, r"\1", text)

    def invariant(self, d, which):
        text = "\n".join(d["lines"])
        eq = re.search(r"(?m)^" + re.escape(d["name"]) + r"((?: [^\s=]+)*) =", text)
        if not eq:
            return None
        params = eq[1].split()
        k = 0
        m = re.match(r"(?:invariant|decreases)-loop-?(\d*)$", d["name"])
        if m and m[1]:
            k = int(m[1]) - 1
        loops = self.fn.d["loops"]
        if k >= len(loops):
            return None
        (old, new), names = loops[k]
        changed = self.fn.d["changed"][k]
        order = [("l.initial." if c else "l.") + n for n, c in zip(names, changed)] + ["l." + n for n, c in zip(names, changed) if c]
        if len(order) != len(params):
            self.said.append(f"{d['name']}: {params} against {order}")
            byname = {}
            for p in params:
                byname[p] = ("l.initial." + p.rstrip("₀")) if p.endswith("₀") else "l." + p
            self.said.append("by name")
        else:
            byname = dict(zip(params, order))
        body = text[eq.end():]
        body = re.sub(r"(?<![\w.'₀-₉])([A-Za-z_][\w'₀-₉]*)(?![\w'₀-₉])", lambda w: byname.get(w[1], w[1]), body)
        kind = d["name"].split("-")[0]
        label = f"{kind}-{new}"
        return f"abbrev pub {label} : goal.{label}\n{label} l ={body}"

    def by_place(self, text):
        """A declaration's parameters that stand at a place of the code: each with where its type stands in the text, and its name."""
        found = []
        eq = re.search(r"(?m)^\S+((?: (?:\{[^}]*\}|[^\s=]+))*) =", text[1:])
        for m in re.finditer(r"\(([\w'₀-₉ -]+) : (tie\.[\w-]+(?: (?:invariant|decreases)-loop[\w-]*)*|[A-Z]\w*)\)", text):
            if self.place_of(m[2]) or m[2] in self.types:
                for n in m[1].split():
                    found.append((m.start(2), m.end(2), n, self.place_of(m[2])))
        m = re.search(r"^(?:abbrev |pub )*\S+ : (tie\.[\w-]+(?: (?:invariant|decreases)-loop[\w-]*)*|[A-Z]\w*)\s*→", text)
        if m and (self.place_of(m[1])):
            names = re.search(r"(?m)^" + re.escape(re.match(r"(?:abbrev |pub )*(\S+)", text)[1]) + r" ([\w'₀-₉-]+)", text)
            if names:
                found.insert(0, (m.start(1), m.end(1), names[1], self.place_of(m[1])))
        return found

    def run(self):
        invs, ans = [], []
        base = f"Rattle.{self.crate}.proofs.{self.name}"
        hops, answers, helpers = set(), [], []
        for d in self.decls:
            text = "\n".join(d["lines"])
            m = re.match(r"abbrev (\S+) : Type 0\n\1 = (tie\.[\w-]+(?: (?:invariant|decreases)-loop[\w-]*)*)$", text.strip())
            if m and self.place_of(m[2]):
                self.types[m[1]] = self.place_of(m[2])
                d["name"] = None
                continue
            m = re.match(r"(?:abbrev )?(\S+) : [^\n]*→[^\n]*\n\1 (\S+) = (.*)$", text.strip(), re.S)
            if m and re.fullmatch(r"(?:(?:" + "|".join(map(re.escape, hops)) + r") |\(|\))*" + re.escape(m[2]) + r"(?:\.before|\))*" if hops else re.escape(m[2]) + r"(?:\.before)*", m[3].strip()):
                hops.add(m[1])
                d["name"] = None

        def unhop(text):
            for h in sorted(hops, key=len, reverse=True):
                for _ in range(6):
                    text = re.sub(r"\((?<![\w-])" + re.escape(h) + r" ([\w'₀-₉-]+(?:\.before)*)\)", r"\1", text)
                text = re.sub(r"(?<![\w.-])" + re.escape(h) + r" (?=[\w(])", "", text)
            return text

        for d in self.decls:
            if d["name"] is None:
                continue
            text = unhop("\n".join(d["lines"]))
            if re.match(r"(?:invariant|decreases)-loop", d["name"]):
                got = self.invariant(d, d["name"])
                if got:
                    invs.append("\n".join(d["comment"] + [got]))
                else:
                    self.said.append("invariant " + d["name"])
                continue
            if re.search(r"_spec$|-spec$", d["name"]) and "tie.close" in text:
                continue
            m = re.match(re.escape(d["name"]) + r"\s*:\s*tie\.Need-(" + LABEL + r")", text)
            if m:
                got = self.fn.need(m[1])
                body = text[m.end():]
                eq = re.search(r"(?m)^" + re.escape(d["name"]) + r"((?: [^\s=]+)*) =", body)
                plain = " ".join(body[eq.end():].split()) if eq else ""
                if plain in SEARCHES and not re.search(r"(?m)^unfolding ", body[: eq.start() + 1]):
                    continue
                if not got:
                    if norm(m[1]) not in self.fn.settled:
                        self.said.append(f"no goal for {m[1]}")
                    continue
                new, place = got
                newplace = dict(self.fn.d["asked_at"] and [(n[1], a[1]) for n, a in zip(self.fn.d["needs"], self.fn.d["asked_at"])])[new]
                args = eq[1].split() if eq else ["c"]
                root = "c" if "c" in args or not args else args[0]
                body2 = self.paths(body[eq.end():], {root: ("place", place)})
                unf = "".join(u + "\n" for u in re.findall(r"(?m)^unfolding .*$", body[: eq.start()]))
                args = [a for a in args if a != "κs"]
                answers.append([d, newplace, f"pub {new} : goal.{new}\n{unf}{new} {' '.join(args)} ={body2}", d["name"], new])
                continue
            found = self.by_place(text)
            new = self.paths(text, {n: ("place", p) for _, _, n, p in found})
            helpers.append([d, new, bool(found)])

        # where each helper is called from
        at = {h[0]["name"]: [] for h in helpers}

        def calls(text, name):
            return re.search(r"(?<![\w.'-])" + re.escape(name) + r"(?![\w'-])", text)

        def note(name, place):
            if place not in at[name]:
                at[name].append(place)
                for h in helpers:
                    if h[0]["name"] != name and any(calls(text_of[name], h[0]["name"]) for _ in [0]):
                        note(h[0]["name"], place)

        text_of = {h[0]["name"]: h[1][len(h[0]["name"]):] for h in helpers}
        for a in answers:
            for h in helpers:
                if calls(a[2], h[0]["name"]):
                    note(h[0]["name"], a[1])
        placed = {h[0]["name"]: h[2] for h in helpers}

        def variant(name, place):
            k = at[name].index(place)
            return name if k == 0 or not placed[name] else f"{name}_{k + 1}"

        def respell(text, place, me=None):
            for h in helpers:
                n = h[0]["name"]
                if placed[n] and place in at[n] and variant(n, place) != n:
                    text = re.sub(r"(?<![\w.'-])" + re.escape(n) + r"(?![\w'-])", variant(n, place), text)
            return text

        order = {id(d): i for i, d in enumerate(self.decls)}
        out = []
        for d, text, has in helpers:
            n = d["name"]
            if not at[n]:
                continue
            places = at[n] if has else at[n][:1]
            for k, q in enumerate(places):
                new = text
                if has:
                    for s, e, _, _ in sorted(self.by_place(text), reverse=True):
                        new = new[:s] + "goal." + q + new[e:]
                new = respell(new, q)
                out.append((order[id(d)], "\n".join((d["comment"] if k == 0 else []) + [new])))
        for d, place, text, old, new in answers:
            text = respell(text, place)
            head, body = text.split(" =", 1)
            for _, _, _, o, n in answers:
                if o != n and o != old:
                    body = re.sub(r"(?<![\w.'-])" + re.escape(o) + r" (?=c\b)", n + " ", body)
            text = head + " =" + body
            out.append((order[id(d)], "\n".join(d["comment"] + [text])))
        ans = [x for _, x in sorted(out, key=lambda it: it[0])]
        uses = [u for u in self.uses if not re.search(r"\.Statement\.\{statement\}|\.Tie as tie|\.Reads as reads|\.Lts as lts", u)]
        return invs, ans, uses, base


def main():
    crate, names, old = sys.argv[1:4]
    only = sys.argv[4:]
    data = json.load(open(names))
    root = os.path.join(old, crate, "proofs")
    for folder, dirs, fs in os.walk(root):
        if "Proof.antt" not in fs:
            continue
        name = os.path.relpath(folder, root).replace(os.sep, ".")
        if only and name not in only:
            continue
        text = open(os.path.join(folder, "Proof.antt")).read()
        key = f"Rattle-{crate}-proofs.{name}.Lts"
        if "tie.close" not in text:
            print(f"by hand: {crate} {name}: a walk")
            continue
        if key not in data:
            print(f"by hand: {crate} {name}: no names ({key})")
            continue
        f = File(Function(key, data[key]), text, crate, name)
        try:
            invs, ans, uses, base = f.run()
        except Exception as e:
            print(f"by hand: {crate} {name}: {type(e).__name__} {e}")
            continue
        to = os.path.join("crates", crate, "proofs", *name.split("."))
        os.makedirs(to, exist_ok=True)
        for it in ("Proof.antt", "Answers.antt", "Invariants.antt"):
            p = os.path.join(to, it)
            if os.path.exists(p):
                os.remove(p)
        if invs:
            with open(os.path.join(to, "Invariants.antt"), "w") as o:
                o.write("\n".join(f.head + uses + [f"use {base}.Given as goal", ""] + ["\n\n".join(invs), ""]))
        if ans:
            with open(os.path.join(to, "Answers.antt"), "w") as o:
                o.write("\n".join(f.head + uses + [f"use {base}.Goals as goal", ""] + ["\n\n".join(ans), ""]))
        for s in f.said:
            print(f"look: {crate} {name}: {s}")


main()
