"""A trial is one file: tables and start rows, transactions as SQL, the workload text that docs/FORMAT.md makes of them, what is expected.

    # what it shows, in a sentence or more
    expect: WORD                  robust          the text is robust, and no interleaving ends as no serial order does
                                  danger          the text is danger
                                  danger shown    the text is danger, and at least one interleaving ends as no serial order does
                                  untrue          the text is robust and not true of the SQL: at least one ends as no serial order does
    tables:                       SQL, run once
    rows:                         SQL, run before every interleaving, after all tables were emptied
    run K:                        a transaction that runs program K of the text; as many as are wanted
    text:                         the workload text; or `text: FILE`, a path from the repository's root

In a transaction each SQL statement ends with a semicolon at the end of its line; behind it may stand, after `--` and parted by commas:

    no row: ROLLBACK              the program rolls back where the statement gave or changed no row
    not 2 rows: ROLLBACK          the same where it gave or changed another number of rows than that
    into :a :b                    the first row's columns, to be used as :a, :b in later statements (NULL where there is none)
    list :a                       the first column of all rows, for a loop

`IF :a THEN`, `ELSE`, `END IF;`, `FOR :x IN :a LOOP`, `END LOOP;` and `ROLLBACK;` stand on lines of their own.
"""
import os
import re

ROOT = os.path.dirname(os.path.dirname(os.path.dirname(os.path.abspath(__file__))))
WORDS = ("robust", "danger", "danger shown", "untrue")


class Wrong(Exception):
    """A trial that is not written as told above."""


class Statement:
    def __init__(self, sql, remark):
        self.sql, self.rows, self.into, self.list = sql, None, None, None
        for part in filter(None, (p.strip() for p in remark.split(","))):
            found = re.fullmatch(r"no row: ROLLBACK|not (\d+) rows?: ROLLBACK|into((?: :\w+)+)|list :(\w+)", part)
            if not found:
                raise Wrong("a remark that is not understood: %s" % part)
            if found[2]:
                self.into = [name[1:] for name in found[2].split()]
            elif found[3]:
                self.list = found[3]
            else:
                self.rows = int(found[1]) if found[1] else "some"

    def misses(self, count):
        """Whether the program rolls back after this many rows."""
        return self.rows is not None and (count == 0 if self.rows == "some" else count != self.rows)


def block(lines, ends):
    """The items up to a line that is one of the ends, and that line: statements, ("if", name, items, items), ("for", name, list, items)."""
    items, sql = [], []
    while lines:
        line = lines.pop(0)
        word = line.strip()
        branch = re.fullmatch(r"IF :(\w+) THEN", word)
        loop = re.fullmatch(r"FOR :(\w+) IN :(\w+) LOOP", word)
        if not sql and word in ends:
            return items, word
        if not sql and branch:
            first, end = block(lines, ("ELSE", "END IF;"))
            second = block(lines, ("END IF;",))[0] if end == "ELSE" else []
            items.append(("if", branch[1], first, second))
        elif not sql and loop:
            items.append(("for", loop[1], loop[2], block(lines, ("END LOOP;",))[0]))
        elif not sql and word == "ROLLBACK;":
            items.append(("rollback",))
        elif word:
            end = re.fullmatch(r"(.*);\s*(?:--(.*))?", line)
            sql.append(end[1] if end else line)
            if end:
                items.append(Statement("\n".join(sql).strip(), end[2] or ""))
                sql = []
    if sql or None not in ends:
        raise Wrong("an SQL statement, IF or LOOP without its end")
    return items, None


class Run:
    """A transaction: the program of the text that it runs, and what it does."""

    def __init__(self, program, lines):
        self.program, self.items = program, block(list(lines), (None,))[0]

    def steps(self):
        """Gives the statements one after the other, with the values read so far; is sent the rows of each."""
        values = {}
        yield from self.walk(self.items, values)

    def walk(self, items, values):
        for item in items:
            if isinstance(item, Statement):
                rows = yield item, values
                if item.into:
                    values.update(zip(item.into, rows[0] if rows else [None] * len(item.into)))
                if item.list:
                    values[item.list] = [row[0] for row in rows or []]
            elif item[0] == "if":
                yield from self.walk(item[2] if values[item[1]] else item[3], values)
            elif item[0] == "for":
                for value in values[item[2]]:
                    values[item[1]] = value
                    yield from self.walk(item[3], values)
            else:
                yield None, values


class Trial:
    def __init__(self, name, source):
        self.name, self.about, self.parts, self.runs = name, [], {}, []
        self.expect = None
        part = None
        for line in source.splitlines():
            head = re.fullmatch(r"(?:(expect): (.+)|(tables|rows|text):|run (\d+):|text: (\S+))", line)
            if head and head[1]:
                self.expect = head[2]
            elif head and head[3]:
                part = self.parts.setdefault(head[3], [])
            elif head and head[5]:
                with open(os.path.join(ROOT, head[5]), encoding="utf-8") as f:
                    self.parts["text"], part = f.read().splitlines(), []
            elif head:
                part = []
                self.runs.append((int(head[4]), part))
            elif part is None and line.startswith("#"):
                self.about.append(line[1:].strip())
            elif part is not None:
                part.append(line)
            elif line:
                raise Wrong("%s: a line before any part: %s" % (name, line))
        self.check()

    def check(self):
        if self.expect not in WORDS or not self.runs or not self.about:
            raise Wrong("%s: without a sentence, a word that is expected or a run" % self.name)
        for part in ("tables", "rows", "text"):
            if part not in self.parts:
                raise Wrong("%s: without %s" % (self.name, part))
        self.text = "".join(line + "\n" for line in self.parts["text"] if line)
        self.tables, self.rows = "\n".join(self.parts["tables"]), "\n".join(self.parts["rows"])
        self.runs = [Run(program, lines) for program, lines in self.runs]
        programs = sum(line.startswith("pr ") for line in self.parts["text"])
        if any(run.program >= programs for run in self.runs):
            raise Wrong("%s: a run of a program that the text has not" % self.name)
