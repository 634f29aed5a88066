"""From the lines of drawn rows to a workload text: the page's lines that hang on the whole workload, numbers for tables and columns, links."""
from rows import TABLES

FLOW = ("lo", "br", "el", "en")
# which sets stand behind the table in a line of a kind, and in which field each goes
SETS = {"ks": "r", "kl": "r", "ps": "rt", "ku": "rw", "pu": "rwt", "pd": "t", "is": "", "kd": ""}
# the columns that a table's UNIQUE and EXCLUDE keep apart, besides its key
UNIQUE = {"p": ("u",), "g": ("k", "span")}


def sets_of(line):
    """The sets of a line as {"r": columns, ...}; inserts and deletes write the whole row."""
    found = {name: set(line[2 + i].split()) for i, name in enumerate(SETS[line[0]])}
    if line[0] in ("is", "kd", "pd"):
        found["w"] = set(TABLES[line[1]].split())
    return found


class World:
    """What the page's rows ask of the whole workload: what programs update, and from which tables they delete."""

    def __init__(self, programs, option):
        self.option, self.updated, self.deleted = option, set(), set()
        for line in (line for lines in programs for line in lines if line[0] in SETS):
            if line[0] in ("ku", "pu"):
                self.updated |= {(line[1], c) for c in sets_of(line)["w"]}
            elif line[0] in ("kd", "pd"):
                self.deleted.add(line[1])
        if "p" in self.deleted and option == "fk-cascade":
            self.deleted.add("c")
        if "p" in self.deleted and option == "fk-set-null":
            self.updated.add(("c", "pid"))

    def writes(self, table, columns):
        return any((table, c) in self.updated for c in columns)

    def program(self, lines):
        """A program's lines with those that the database adds."""
        done, end = [], []
        for line in lines:
            done += self.expanded(line, end)
        return done + end

    def expanded(self, line, end):
        if line[0] == "start":  # rule 4
            return [("ks", line[1], line[2])] if self.writes(line[1], line[2].split()) else []
        if line[0] == "unique":
            return [line[4] if self.writes(line[1], [line[2]]) else line[3]]
        if line[0] == "again":
            return [("ps", line[1], "", "id")] if line[1] in self.deleted else []
        if line[0] == "own":
            return [line[1:]]
        if line in FLOW or line[0] in ("link", "link2"):
            return [line]
        checks = self.apart(line)
        (end if self.option == "fk-deferred" else checks).extend(self.key_of_c(line))
        return checks + self.key_of_e(line) + [line] + self.action(line)

    def apart(self, line):
        """UNIQUE and EXCLUDE: only where a value can become free."""
        table = line[1]
        free = [c for c in UNIQUE.get(table, ()) if table in self.deleted or self.writes(table, [c])]
        touched = [c for c in free if line[0] == "is" or line[0] in ("ku", "pu") and c in sets_of(line)["w"]]
        return [("ps", table, "", " ".join(touched))] if touched else []

    def key_of_c(self, line):
        """c.pid points to p.id."""
        if line[:2] == ("is", "c") or line[0] == "ku" and line[1] == "c" and "pid" in line[3].split():
            return [("ks", "p", "id")]
        return [("ps", "c", "", "pid")] if line == ("kd", "p") and self.option in ("fk-insert", "fk-deferred") else []

    def key_of_e(self, line):
        """e.pu points to p.u, which is UNIQUE and may be updated."""
        if line == ("is", "e"):
            return [("ps", "p", "", "u") if self.writes("p", "u") else ("ks", "p", "u")]
        return [("ps", "e", "", "pu")] if line == ("kd", "p") or line[:2] == ("ku", "p") and line[3] == "u" else []

    def action(self, line):
        if line == ("kd", "p") and self.option == "fk-cascade":
            return [("pd", "c", "pid")]
        return [("pu", "c", "", "pid", "pid")] if line == ("kd", "p") and self.option == "fk-set-null" else []


def touched(lines):
    """What a program reads, tests or writes, and what it writes, as pairs of table and column; existence counts as a column of its own."""
    all_of, written = set(), set()
    for line in (line for line in lines if line[0] in SETS):
        sets = sets_of(line)
        all_of |= {(line[1], c) for s in sets.values() for c in s}
        written |= {(line[1], c) for c in sets.get("w", ())}
        if line[0] in ("is", "kd", "pd"):
            written.add((line[1], "exists"))
        if "t" in sets:
            all_of.add((line[1], "exists"))
    return all_of | written, written


def clash(programs):
    """Whether two programs each write what the other reads or writes."""
    known = [touched(lines) for lines in programs]
    return any(known[i][1] & known[j][0] and known[j][1] & known[i][0] for i in range(len(known)) for j in range(i))


def word(table, columns):
    names = TABLES[table].split()
    return "%x" % sum(1 << names.index(c) for c in columns)


def text_of(programs, keyed):
    """The text; keyed says that key 0 leads from c to p, so that links may be told."""
    tables = [t for t in TABLES if any(line[0] in SETS and line[1] == t for lines in programs for line in lines)]
    linked = keyed and "c" in tables and "p" in tables
    out = ["kind id rel to reads writes tests"]
    out += ["rl %d - - %s - -" % (i, word(t, TABLES[t].split())) for i, t in enumerate(tables)]
    if linked:
        out.append("fk 0 %d %d - - -" % (tables.index("c"), tables.index("p")))
    for number, lines in enumerate(programs):
        out.append("pr %d - - - - -" % number)
        out += statements(lines, tables, linked)
    return "\n".join(out) + "\n"


def statements(lines, tables, linked):
    out, links, count = [], [], 0
    for line in lines:
        if line in FLOW:
            out.append("%s - - - - - -" % line)
        elif line[0] in ("link", "link2"):
            # the child is the statement before, its parent one or two before that
            links.append("li 0 %d %d - - -" % (count - 1, count - (2 if line[0] == "link" else 3)))
        else:
            sets = sets_of(line)
            fields = [word(line[1], sets[f]) if f in sets else "-" for f in "rwt"]
            out.append("%s %d %d - %s" % (line[0], count, tables.index(line[1]), " ".join(fields)))
            count += 1
    return out + (links if linked else [])
