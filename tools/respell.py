#!/usr/bin/env python3
"""Spells this repository's own names as today's Rattle does: words in snake case, types and modules in camel case.

usage: tools/respell.py [--check]     at the top of the repository, once, after /opt/rattle/port/port.py

What port.py leaves in camel or kebab case turns: definitions, fields, constructors, lemmas and variables of specs/ and of lemma files,
the clauses that cite them, the comments that name them, the must-fail edits, and the code spans of the pages. A name of the kit's stays.
A capital that names a rule of the documents (EA, E3) stays a capital. A lemma that would have its function's name gets _lem.
Names of one file that fall together are told.
"""
import collections
import os
import re
import sys

KIT = "/opt/rattle/rattle"
WORD = re.compile(r'[^\s(){}.;,@"«»]+')
DECLARED = re.compile(r"(?m)^ *(?:(?:abbrev|pub|unfoldable|mutual|private) )*((?:[^\s(){}.;,@\"«»:]+ )*[^\s(){}.;,@\"«»:]+)(?: \{[^{}\n]*\})* :")
COMMENT = re.compile(r'(?<![^\s(){}.;,@"«»])--[^\n]*')
USE = re.compile(r"\buse ([^\s;{]+)(?:\{([^;}]*)\})?", re.S)
KEBAB = re.compile(r"[A-Za-zα-ω][\w'?₀-₉]*(?:-[\w'?₀-₉]+)+")
CAMEL = re.compile(r"[a-z][\w'?]*")
# a fact's name is a type's; and two tests that would have a constructor's name
FACTS = {"asks": "Asks", "same_at": "SameAt", "tooMany": "is_too_many", "tooShort": "is_too_short"}
# what port.py had spelled like a function of its file
LOW = """back_below back_is on_chain put_word tests_by same_relation counts_of none_open link_fits same_block row_words write_read last_step
line_after digits_from digits_in digit_value is_read rows_told goes_on row_put from_row""".split()
STAY = {"isP", "isR"}


def snake(word):
    word = re.sub(r"(?<=[a-z0-9])[A-Z]", lambda m: "_" + m[0].lower(), word)
    return word.replace("-", "_")


def files(top, ends):
    for folder, dirs, names in os.walk(top):
        dirs[:] = sorted(d for d in dirs if d not in ("out", "target", ".git"))
        for n in sorted(names):
            if n.endswith(ends):
                yield os.path.join(folder, n)


def read(path):
    with open(path, encoding="utf-8") as f:
        return f.read()


def kit_words():
    found = set()
    for p in files(KIT, (".antt", ".rt")):
        with open(p, encoding="utf-8", errors="replace") as f:
            found.update(WORD.findall(COMMENT.sub("", f.read())))
    return found


def is_proof(path):
    return os.path.basename(path) in ("Proof.antt", "Answers.antt", "Invariants.antt")


def is_camel(word):
    return CAMEL.fullmatch(word) and re.search(r"[a-z0-9][A-Z]", word) and word not in STAY


class Table:
    def __init__(self):
        self.kit = kit_words()
        self.crates = set(os.listdir("crates"))
        self.declared = set()
        self.words = set()
        for p in files("crates", ".antt"):
            code = COMMENT.sub("", read(p))
            self.words.update(WORD.findall(code))
            if not is_proof(p):
                for names in DECLARED.findall(code):
                    self.declared.update(names.split())
        self.lemmas()

    def lemmas(self):
        """A lemma that would have its function's name gets _lem."""
        functions = {snake(w) for w in self.declared if "-" not in w}
        self.lem = {w for w in self.declared if "-" in w and snake(w) in functions}
        self.functions = functions
        self.low = set(LOW)

    def turned(self, word):
        if word in FACTS:
            return FACTS[word]
        if is_camel(word):
            return snake(word)
        if KEBAB.fullmatch(word):
            return snake(word) + "_lem" * (word in self.lem or word not in self.declared and snake(word) in self.functions)
        return word

    def ours(self, code):
        """The words that a file imports from this repository's specs and lemma files."""
        found = set()
        for path, items in USE.findall(code):
            steps = path.strip(".").split(".")
            if steps[0] == "Rattle" and len(steps) > 2 and steps[1] in self.crates and not {"declared", "contracts"} & set(steps):
                found.update(WORD.findall(items or ""))
        return found

    def theirs(self, code):
        """The words that a file imports from the kit."""
        found = set()
        for path, items in USE.findall(code):
            steps = path.strip(".").split(".")
            if steps[0] == "Rattle" and len(steps) > 1 and steps[1] in self.crates:
                continue
            found.update(WORD.findall(items or ""))
        return found

    def heads(self, code):
        """The names by which a file calls a module of the kit."""
        found = set()
        for path, alias in re.findall(r"\buse ([^\s;{]+)(?: as ([^\s;]+))?(?=[;\n]|$)", code):
            steps = path.strip(".").split(".")
            if not (steps[0] == "Rattle" and len(steps) > 1 and steps[1] in self.crates):
                found.add(alias or steps[-1])
        return found

    def antt(self, path, text, proof):
        code = COMMENT.sub("", text)
        theirs = self.theirs(code)
        here = set() if proof else {w for names in DECLARED.findall(code) for w in names.split()}
        fell = {snake(w) for w in WORD.findall(code) if is_camel(w)}
        low = self.low & (here | self.ours(code) | fell)

        heads = self.heads(code)

        def one(m):
            w = m[0]
            behind = text[m.start() - 1 : m.start()] == "."
            if w in theirs or behind and WORD.findall(text[max(0, m.start() - 40) : m.start()])[-1] in heads:
                return w
            if w in low and text[m.end() : m.end() + 1] != "." and not (proof and behind):
                return w + "_lem"
            if is_camel(w) or w in FACTS:
                return self.turned(w)
            if KEBAB.fullmatch(w):
                if w in self.declared and not (proof and behind):
                    return self.turned(w)
                if not proof and w not in self.kit and not w.startswith(("After-", "Need-")):
                    return self.turned(w)
            return w

        out, last = [], 0
        for m in COMMENT.finditer(text):
            out.append(self.part(text, last, m.start(), one))
            out.append(re.sub(r"[A-Za-z][\w'-]*", lambda w: self.comment(w[0]), m[0]))
            last = m.end()
        out.append(self.part(text, last, len(text), one))
        return "".join(out)

    def part(self, text, a, b, one):
        out, last = [], a
        for m in WORD.finditer(text, a, b):
            out.append(text[last : m.start()])
            out.append(one(m))
            last = m.end()
        out.append(text[last:b])
        return "".join(out)

    def comment(self, word):
        return self.turned(word) if is_camel(word) else word

    def rust(self, text):
        text = re.sub(r"(?<![\w'])[a-z]\w*[A-Z][\w']*", lambda m: self.comment(m[0]), text)

        def clause(m):
            return re.sub(r"[^\s(){}.;,@\"«»]+", lambda w: self.kebab(w[0]), m[0])

        text = re.sub(r"(?:requires|ensures)\s*\*?\s*(?:\w+\s*)?\{[^\n]*", clause, text)
        return re.sub(r"ghost use [^;]*;", clause, text)

    def kebab(self, w):
        if w in FACTS or KEBAB.fullmatch(w) and w in self.declared:
            return self.turned(w)
        return w

    def page(self, text):
        def span(m):
            return re.sub(r"[A-Za-z][\w'-]*", lambda w: self.turned(w[0]) if is_camel(w[0]) or w[0] in self.declared and "-" in w[0] else w[0], m[0])

        return re.sub(r"`[^`\n]+`", span, text)


def told(path, old, new):
    """Tells the words of a file that fall together."""
    fell = collections.defaultdict(set)
    for a, b in zip(WORD.findall(old), WORD.findall(new)):
        fell[b].add(a)
    for b, olds in sorted(fell.items()):
        if len(olds) > 1:
            print("together:", path, b, sorted(olds))


def main():
    check = "--check" in sys.argv
    t = Table()
    for w in sorted(t.low):
        print("lemma:", w, w + "_lem")
    for w in sorted(t.lem):
        print("lemma:", w, t.turned(w))
    count = 0
    for p in list(files("crates", (".antt", ".rt", ".edit"))) + list(files(".", ".md")):
        text = read(p)
        if p.endswith(".antt"):
            new = t.antt(p, text, is_proof(p))
        elif p.endswith(".rt"):
            new = t.rust(text)
        elif p.endswith(".edit"):
            new = "".join(
                t.antt(p, l, False) if re.search(r"file: specs/", text) and l.startswith(("old:", "new:")) else t.rust(l)
                for l in text.splitlines(keepends=True)
            )
        elif "/changes/" in p or p.startswith("./crates"):
            continue
        else:
            new = t.page(text)
        if p.endswith(".antt") and not is_proof(p):
            told(p, COMMENT.sub("", text), COMMENT.sub("", new))
        if new != text:
            count += 1
            if not check:
                with open(p, "w", encoding="utf-8") as f:
                    f.write(new)
    print(f"respell: {count} files")


main()
