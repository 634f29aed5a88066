"""The rows of docs/FORMAT.md, "From SQL to lines", as SQL with its lines, for workloads drawn at random.

Each row is a function of the same name as its first trial. It is given a Draw and gives the SQL of one run, in the form of a trial, and the lines that
the page makes of it. A line is a tuple of the kind, the table and its sets (reads, writes, tests as the kind has them; a set is columns parted by
spaces), or a flow word alone. `d.shape` draws what the program is (the same in every run of it), `d.value` what one run is given.

Lines that hang on the whole workload are put in by lines.py: the checks of constraints, rule 4 (`start`), what is by key only if it never changes
(`unique`).
"""
import re

ROW = "  -- no row: ROLLBACK"

TABLES = {
    "a": "id s x y", "b": "id s x y", "n": "id n", "p": "id u v", "c": "id pid w", "e": "id pu w",
    "g": "id k span m", "f": "id lo hi total", "h": "id m", "q": "id w",
}

# each table with its start rows, and what else it needs; c_key is the foreign key of c
SCHEMA = {
    "a": ("", "CREATE TABLE a (id int PRIMARY KEY, s int, x int, y int); CREATE VIEW va AS SELECT * FROM a WHERE s = 1;",
          "(1, 1, 10, 11), (2, 0, 20, 21)"),
    "b": ("", """CREATE TABLE b (id int PRIMARY KEY, s int, x int, y int);
CREATE FUNCTION x_of_b(k int) RETURNS int LANGUAGE plpgsql VOLATILE AS $$ BEGIN RETURN (SELECT x FROM b WHERE id = k); END $$;""",
          "(1, 1, 30, 31), (2, 0, 40, 41)"),
    "n": ("", "CREATE TABLE n (id int PRIMARY KEY, n int);", "(1, 0), (2, 0)"),
    "p": ("", "CREATE TABLE p (id int PRIMARY KEY, u int UNIQUE, v int);", "(1, 10, 50), (2, 20, 60), (3, 30, 65)"),
    "c": ("p", "CREATE TABLE c (id int PRIMARY KEY, pid int{c_key}, w int);", "(1, 1, 70), (2, 2, 80)"),
    "e": ("p", "CREATE TABLE e (id int PRIMARY KEY, pu int REFERENCES p (u), w int);", "(1, 10, 90)"),
    "g": ("", "CREATE TABLE g (id int PRIMARY KEY, k int UNIQUE, span int4range, m int, EXCLUDE USING gist (span WITH &&));",
          "(1, 1, '[0,5)', 1), (2, 2, '[10,15)', 2)"),
    "f": ("", "CREATE TABLE f (id int PRIMARY KEY, lo int, hi int, total int GENERATED ALWAYS AS (lo + hi) STORED, CHECK (lo <= hi));",
          "(1, 5, 50), (2, 6, 60)"),
    "h": ("b n", """CREATE TABLE h (id int PRIMARY KEY, m int);
CREATE FUNCTION counted() RETURNS trigger LANGUAGE plpgsql AS $$ BEGIN
  NEW.m := NEW.m + (SELECT y FROM b WHERE id = 1); UPDATE n SET n = n + 1 WHERE id = 1; RETURN NEW; END $$;
CREATE TRIGGER counted BEFORE UPDATE ON h FOR EACH ROW EXECUTE FUNCTION counted();""", "(1, 100), (2, 200)"),
    "q": ("", "CREATE TABLE q (id int GENERATED ALWAYS AS IDENTITY PRIMARY KEY, w int);", ""),
}


class Draw:
    """What is drawn keeps to few tables, columns and rows, so that programs meet."""

    def __init__(self, shape, value, mark, focus, targets):
        self.shape, self.value, self.mark, self.focus, self.targets, self.turn = shape, value, mark, focus, targets, 0

    def table(self):
        return self.two()[0]

    def two(self):
        other = "ab".replace(self.focus, "")
        return (self.focus, other) if self.shape.random() < 0.8 else (other, self.focus)

    def column(self):
        return self.shape.choice("ssxxy")

    def plain(self):
        return self.shape.choice("xxy")

    def key(self, most=2):
        return 1 if self.value.random() < 0.4 else self.value.randint(1, most)

    def parent(self):
        """The key of a row of p; 3 has no child at the start, 4 is not there."""
        return self.value.choice((1, 3, 3, 4, 4))

    def new(self):
        """A value, or a key, that nothing else has."""
        self.mark += 1
        return self.mark

    def to(self, column, key):
        """What a column is set to: the condition's column s to what it is not at the start."""
        return key - 1 if column == "s" else self.new()

    def sets(self, table, column):
        """An UPDATE by key of one column."""
        key = self.key()
        return f"UPDATE {table} SET {column} = {self.to(column, key)} WHERE id = {key}"


ROWS = {}


def row(f):
    ROWS[f.__name__.replace("_", "-")] = f
    return f


# ---- selects


@row
def select_key(d):
    t, c = d.table(), d.column()
    return [f"SELECT {c} FROM {t} WHERE id = {d.key()};{ROW}"], [("ks", t, c)]


@row
def select_no_row(d):
    t = d.table()
    return [f"SELECT x FROM {t} WHERE id = {d.key(3)};"], [("ps", t, "x", "id")]


@row
def select_condition(d):
    t, c = d.table(), d.plain()
    return [f"SELECT id, {c} FROM {t} WHERE s = 1;"], [("ps", t, f"id {c}", "s")]


@row
def select_key_and_condition(d):
    t = d.table()
    return [f"SELECT x FROM {t} WHERE id = {d.key()} AND s = 1;{ROW}"], [("ks", t, "x s")]


@row
def select_key_or_none(d):
    t = d.table()
    return [f"SELECT x FROM {t} WHERE id = {d.key()} AND s = 1;"], [("ps", t, "x", "id s")]


@row
def select_unique_column(d):
    return [f"SELECT v FROM p WHERE u = {10 * d.parent()};{ROW}"], [("unique", "p", "u", ("ks", "p", "v"), ("ps", "p", "v", "u"))]


@row
def select_in_list(d):
    t = d.table()
    return [f"SELECT id, x FROM {t} WHERE id IN (1, 2);  -- not 2 rows: ROLLBACK"], ["lo", ("ks", t, "id x"), "en"]


@row
def select_all(d):
    t = d.table()
    return [f"SELECT * FROM {t};"], [("ps", t, "id s x y", "")]


@row
def select_aggregate(d):
    t = d.table()
    return [f"SELECT count(*), sum(y) FROM {t} WHERE s = 1;"], [("ps", t, "y", "s")]


@row
def select_first(d):
    t = d.table()
    return [f"SELECT id FROM {t} ORDER BY x, id LIMIT 1;"], [("ps", t, "id", "id x")]


@row
def select_join(d):
    return ["SELECT a.x, b.y FROM a JOIN b ON b.s = a.s;"], [("ps", "a", "x", "s"), ("ps", "b", "y", "s")]


@row
def select_subselect(d):
    t, o = d.two()
    return [f"SELECT id, x FROM {t} WHERE id IN (SELECT id FROM {o} WHERE s = 1);"], [("ps", o, "id", "s"), ("ps", t, "id x", "id")]


@row
def select_view(d):
    return ["SELECT id, y FROM va;"], [("ps", "a", "id y", "s")]


# ---- locks


@row
def for_update_key(d):
    t, c = d.table(), d.column()
    return [f"SELECT {c} FROM {t} WHERE id = {d.key()} FOR {d.shape.choice(('UPDATE', 'NO KEY UPDATE'))};{ROW}"], [("kl", t, c)]


@row
def for_share_key(d):
    t, c = d.table(), d.column()
    return [f"SELECT {c} FROM {t} WHERE id = {d.key()} FOR {d.shape.choice(('SHARE', 'KEY SHARE'))};{ROW}"], [("ks", t, c)]


@row
def for_update_condition(d):
    t, lock = d.table(), d.shape.choice(("UPDATE", "NO KEY UPDATE"))
    return [f"SELECT id, x FROM {t} WHERE s = 1 FOR {lock};"], [("ps", t, "", "s"), "lo", ("kl", t, "id x s"), "en"]


@row
def for_share_condition(d):
    t, lock = d.table(), d.shape.choice(("SHARE", "KEY SHARE"))
    return [f"SELECT id, x FROM {t} WHERE s = 1 FOR {lock};"], [("ps", t, "", "s"), "lo", ("ks", t, "id x s"), "en"]


@row
def for_update_key_and_condition(d):
    t = d.table()
    return [f"SELECT y FROM {t} WHERE id = {d.key()} AND s = 1 FOR UPDATE;{ROW}"], [("kl", t, "y s")]


@row
def for_update_first(d):
    t = d.table()
    return [f"SELECT id, y FROM {t} ORDER BY x, id LIMIT 1 FOR UPDATE;"], [("ps", t, "", "id x"), "lo", ("kl", t, "id x y"), "en"]


@row
def for_update_of(d):
    t, o = d.two()
    join = d.shape.choice(("JOIN", "LEFT JOIN"))
    sql = f"SELECT {t}.x, {t}.s, {o}.y FROM {t} {join} {o} ON {o}.s = {t}.s WHERE {t}.id = {d.key()} FOR UPDATE OF {t};{ROW}"
    return [sql], [("start", t, "s"), ("ps", o, "y", "s"), ("kl", t, "x s")]


@row
def for_update_join(d):
    sql = "SELECT a.id, b.id, a.x, b.x FROM a JOIN b ON b.s = a.s FOR UPDATE;"
    return [sql], [("ps", "a", "", "s"), ("ps", "b", "", "s"), "lo", ("kl", "a", "id x s"), ("kl", "b", "id x s"), "en"]


@row
def for_update_view(d):
    return ["SELECT id, x FROM va FOR UPDATE;"], [("ps", "a", "", "s"), "lo", ("kl", "a", "id x s"), "en"]


@row
def for_update_nowait(d):
    t, c = d.table(), d.column()
    return [f"SELECT {c} FROM {t} WHERE id = {d.key()} FOR UPDATE NOWAIT;{ROW}"], [("kl", t, c)]


@row
def advisory_lock(d):
    return ["SELECT pg_advisory_xact_lock(7);"], []


# ---- updates, deletes and inserts


@row
def update_key(d):
    t, c = d.table(), d.column()
    return [f"{d.sets(t, c)};{ROW}"], [("ku", t, "", c)]


@row
def update_no_row(d):
    t, c, key = d.table(), d.column(), d.key(3)
    return [f"UPDATE {t} SET {c} = {d.to(c, key)} WHERE id = {key};"], [("pu", t, "", c, "id")]


@row
def update_condition(d):
    t, c = d.table(), d.plain()
    return [f"UPDATE {t} SET {c} = {c} + {d.new()} WHERE s = 1;"], [("pu", t, c, c, "s")]


@row
def update_key_and_condition(d):
    t, c = d.table(), d.plain()
    return [f"UPDATE {t} SET {c} = {d.new()} WHERE id = {d.key()} AND s = 1;{ROW}"], [("ku", t, "s", c)]


@row
def update_in_list(d):
    t, c = d.table(), d.plain()
    return [f"UPDATE {t} SET {c} = {c} + {d.new()} WHERE id IN (1, 2);  -- not 2 rows: ROLLBACK"], ["lo", ("ku", t, c, c), "en"]


@row
def update_all(d):
    t, c = d.table(), d.plain()
    return [f"UPDATE {t} SET {c} = {d.new()};"], [("pu", t, "", c, "")]


@row
def update_two_columns(d):
    t, (c, o) = d.table(), d.shape.choice(("xy", "yx"))
    return [f"UPDATE {t} SET {c} = {o} + {d.new()} WHERE id = {d.key()};{ROW}"], [("ku", t, o, c)]


@row
def update_from_select(d):
    t, o = d.two()
    return [f"SELECT x FROM {o} WHERE id = {d.key()};{ROW}, into :x", f"UPDATE {t} SET y = :x WHERE id = {d.key()};{ROW}"], \
        [("ks", o, "x"), ("ku", t, "", "y")]


@row
def update_returning(d):
    t, (c, o) = d.table(), d.shape.choice(("xy", "yx"))
    return [f"UPDATE {t} SET {c} = {d.new()} WHERE id = {d.key()} RETURNING {o};{ROW}"], [("ku", t, o, c)]


@row
def update_from(d):
    t, o = d.two()
    form = d.shape.randint(0, 2)
    if form == 0:
        return [f"UPDATE {t} SET x = {o}.x FROM {o} WHERE {t}.id = {d.key()} AND {o}.id = {d.key()};{ROW}"], [("ks", o, "x"), ("ku", t, "", "x")]
    if form == 1:
        sql = f"UPDATE {t} SET x = (SELECT max(x) FROM {o} WHERE {o}.s = {t}.s) WHERE id = {d.key()};{ROW}"
        return [sql], [("start", t, "s"), ("ps", o, "x", "s"), ("ku", t, "s", "x")]
    sql = f"UPDATE {t} SET x = {d.new()} WHERE id = {d.key()} AND NOT EXISTS (SELECT 1 FROM {o} WHERE {o}.y = {t}.y) RETURNING y;{ROW}"
    return [sql], [("start", t, "y"), ("ps", o, "", "y"), ("ku", t, "y", "x")]


@row
def delete_key(d):
    t = d.table()
    return [f"DELETE FROM {t} WHERE id = {d.key()};{ROW}"], [("kd", t)]


@row
def delete_key_and_condition(d):
    t = d.table()
    return [f"DELETE FROM {t} WHERE id = {d.key()} AND s = 1;{ROW}"], [("kl", t, "s"), ("kd", t)]


@row
def delete_returning(d):
    t = d.table()
    return [f"DELETE FROM {t} WHERE id = {d.key()} RETURNING x;{ROW}"], [("kl", t, "x"), ("kd", t)]


@row
def delete_condition(d):
    t = d.table()
    return [f"DELETE FROM {t} WHERE s = 1;"], [("pd", t, "s")]


@row
def insert(d):
    t = d.table()
    return [f"INSERT INTO {t} VALUES ({d.new()}, {d.value.randint(0, 1)}, {d.new()}, 5);"], [("is", t)]


@row
def insert_several(d):
    t = d.table()
    return [f"INSERT INTO {t} VALUES ({d.new()}, 1, 6, 6), ({d.new()}, 0, 7, 7);"], ["lo", ("is", t), "en"]


@row
def insert_select(d):
    t, o = d.two()
    lock = d.shape.choice(("", " FOR UPDATE"))
    sql = f"INSERT INTO {t} SELECT id + {1000 * d.new()}, s, x, y FROM {o} WHERE s = 1{lock};"
    if lock:
        return [sql], [("ps", o, "", "s"), "lo", ("kl", o, "id s x y"), "en", "lo", ("is", t), "en"]
    return [sql], [("ps", o, "id s x y", "s"), "lo", ("is", t), "en"]


@row
def on_conflict_update(d):
    t = d.table()
    if d.shape.random() < 0.5:
        sql = f"INSERT INTO {t} VALUES ({d.key(3)}, 1, {d.new()}, 5) ON CONFLICT (id) DO UPDATE SET x = {d.new()};"
    else:
        sql = f"MERGE INTO {t} USING (VALUES ({d.key(3)})) AS o(k) ON {t}.id = o.k WHEN MATCHED THEN UPDATE SET x = {d.new()} " \
              f"WHEN NOT MATCHED THEN INSERT VALUES (o.k, 1, {d.new()}, 5);"
    return [sql], [("ps", t, "", "id"), "br", ("ku", t, "", "x"), "el", ("is", t), "en"]


@row
def on_conflict_nothing(d):
    t = d.table()
    return [f"INSERT INTO {t} VALUES ({d.key(3)}, 1, {d.new()}, 5) ON CONFLICT DO NOTHING;"], [("ps", t, "", "id"), "br", ("is", t), "el", "en"]


@row
def merge_update(d):
    t, o = d.two()
    sql = f"MERGE INTO {t} USING {o} ON {t}.id = {d.key()} AND {o}.id = {d.key()} WHEN MATCHED THEN UPDATE SET y = {o}.y;{ROW}"
    return [sql], [("ks", o, "y"), ("ku", t, "", "y")]


@row
def insert_again(d):
    t = d.table()
    return [f"INSERT INTO {t} VALUES ({d.key(3)}, 1, {d.new()}, 5);"], [("again", t), ("is", t)]


@row
def with_writing(d):
    t, o = d.two()
    sql = f"WITH w AS (UPDATE {t} SET x = {d.new()} WHERE id = {d.key()} RETURNING y) SELECT w.y, {o}.x FROM w, {o} WHERE {o}.id = {d.key()};{ROW}"
    return [sql], [("ks", o, "x"), ("ku", t, "y", "x")]


@row
def counter(d):
    return [f"UPDATE n SET n = n + 1 WHERE id = {d.key()} RETURNING n;{ROW}"], [("ku", "n", "n", "n")]


# ---- what the database checks and does by itself


@row
def fk_insert(d):
    return [f"INSERT INTO c VALUES ({d.new()}, {d.parent()}, 5);"], [("is", "c")]


@row
def fk_insert_own_parent(d):
    k, lock = d.parent(), d.shape.random() < 0.5
    first = f"SELECT v FROM p WHERE id = {k} FOR UPDATE;{ROW}" if lock else f"UPDATE p SET v = {d.new()} WHERE id = {k};{ROW}"
    return [first, f"INSERT INTO c VALUES ({d.new()}, {k}, 5);"], [("kl", "p", "v") if lock else ("ku", "p", "", "v"), ("own", "is", "c")]


@row
def fk_update(d):
    return [f"UPDATE c SET pid = {d.parent()} WHERE id = {d.key()};{ROW}"], [("ku", "c", "", "pid")]


@row
def fk_unique_column(d):
    if d.shape.random() < 0.5:
        return [f"INSERT INTO e VALUES ({d.new()}, {10 * d.parent()}, 5);"], [("is", "e")]
    return [f"UPDATE p SET u = {d.new()} WHERE id = {d.parent()};{ROW}"], [("ku", "p", "", "u")]


@row
def fk_delete(d):
    return [f"DELETE FROM p WHERE id = {d.parent()};{ROW}"], [("kd", "p")]


@row
def unique_no_line(d):
    form = d.shape.randint(0, 3)
    if form == 0:
        return [f"INSERT INTO g VALUES ({d.new()}, {d.key(3)}, NULL, {d.new()});"], [("is", "g")]
    if form == 1:
        return [f"UPDATE g SET k = {d.key(4)} WHERE id = {d.key()};{ROW}"], [("ku", "g", "", "k")]
    if form == 2:
        return [f"DELETE FROM g WHERE id = {d.key()};{ROW}"], [("kd", "g")]
    low = d.value.choice((0, 4, 20))
    return [f"INSERT INTO g VALUES ({d.new()}, NULL, '[{low},{low + 3})', {d.new()});"], [("is", "g")]


@row
def check_columns(d):
    c, o, v = d.shape.choice((("lo", "hi", 30), ("hi", "lo", 20)))
    return [f"UPDATE f SET {c} = {v + d.value.randint(0, 5)} WHERE id = {d.key()};{ROW}"], [("ku", "f", o, f"{c} total")]


@row
def generated_column(d):
    if d.shape.random() < 0.5:
        return [f"SELECT total FROM f WHERE id = {d.key()};{ROW}"], [("ks", "f", "total")]
    return [f"UPDATE f SET hi = {100 + d.new()} WHERE id = {d.key()} RETURNING total;{ROW}"], [("ku", "f", "lo total", "hi total")]


@row
def function_reads(d):
    return [f"UPDATE a SET x = x_of_b({d.key()}) WHERE id = {d.key()};{ROW}"], [("ps", "b", "x", "id"), ("ku", "a", "", "x")]


@row
def trigger_reads(d):
    return [f"UPDATE h SET m = {d.new()} WHERE id = {d.key()};{ROW}"], [("ps", "b", "y", "id"), ("ku", "h", "", "m"), ("pu", "n", "n", "n", "id")]


@row
def sequence(d):
    return [f"INSERT INTO q (w) VALUES ({d.new()});"], [("is", "q")]


# ---- loops, branches and the rest


@row
def cursor_loop(d):
    t, o = d.two()
    return [f"SELECT id FROM {t} WHERE s = 1;  -- list :found", "FOR :i IN :found LOOP", f"UPDATE {o} SET y = {d.new()} WHERE id = :i;{ROW}",
            "END LOOP;"], [("ps", t, "id", "s"), "lo", ("ku", o, "", "y"), "en"]


@row
def if_exists(d):
    t, o = d.two()
    return [f"SELECT EXISTS (SELECT 1 FROM {t} WHERE s = 0);  -- into :found", "IF :found THEN",
            f"UPDATE {o} SET y = {d.new()} WHERE id = {d.key()};{ROW}", "END IF;"], \
        [("ps", t, "", "s"), "br", ("ku", o, "", "y"), "el", "en"]


@row
def while_loop(d):
    k = d.key()
    look = f"SELECT n < 1 FROM n WHERE id = {k};{ROW}, into :more"
    turn = [f"UPDATE n SET n = n + 1 WHERE id = {k};{ROW}", look]
    return [look, "IF :more THEN"] + turn + ["END IF;"], [("ks", "n", "n"), "lo", ("ku", "n", "n", "n"), ("ks", "n", "n"), "en"]


@row
def rollback(d):
    t, c = d.two()[0], d.plain()
    return [f"SELECT {c} > 1000000 FROM {t} WHERE id = {d.key()};{ROW}, into :much", "IF :much THEN", "ROLLBACK;", "END IF;"], [("ks", t, c)]


# what else is touched by a statement that names a table: by constraints, cascades and triggers
BESIDE = {"c": "p.exists p.exists", "p": "c.exists c.pid e.pu", "e": "p.u p.exists", "h": "b.y n.n", "f": "f.lo f.hi f.total", "g": "g.exists g.k"}


def touched_by(sql):
    """What SQL touches, seen from its words alone and not from its lines, so that a line that is missing is met all the same."""
    words = set(re.findall(r"[a-z_]+", sql))
    tables = (words & set(TABLES)) | {t for t, word in (("a", "va"), ("b", "x_of_b")) if word in words}
    columns = [(t, c) for t in sorted(tables) for c in TABLES[t].split() if c in words and c != "id"]
    return 2 * columns + [(t, "exists") for t in sorted(tables)] + [tuple(pair.split(".")) for t in sorted(tables) for pair in BESIDE.get(t, "").split()]


def met(d):
    """A write by key, a delete or an insert of what the first program of the workload touches. Drawn often for the others, so that they meet it."""
    t, c = d.shape.choice(d.targets[d.turn % len(d.targets)])
    d.turn += 1
    if t in "fgh" or (t, c) in (("p", "u"), ("c", "pid"), ("e", "pu")):
        return {"f": check_columns, "g": unique_no_line, "h": trigger_reads, "p": fk_unique_column, "c": fk_update, "e": fk_unique_column}[t](d)
    if c not in ("id", "exists"):
        return [f"{d.sets(t, c)};{ROW}"], [("ku", t, "", c)]
    new = d.shape.random() < 0.5
    if new and t in "ab":
        return [f"INSERT INTO {t} VALUES ({d.new()}, 1, {d.new()}, 5);"], [("is", t)]
    if new and t == "p":
        return ["INSERT INTO p VALUES (4, 40, 66);"], [("again", "p"), ("is", "p")]
    if new and t in "ce":
        return (fk_insert if t == "c" else fk_unique_column)(d)
    return [f"DELETE FROM {t} WHERE id = {d.parent() if t == 'p' else d.key()};{ROW}"], [("kd", t)]


@row
def linked(d):
    """Not a row of the tables: a child and its parent, with the link that says so (the page's part "Links")."""
    k = d.key()
    first, parent = d.shape.choice((
        (f"SELECT v FROM p WHERE id = {k} FOR UPDATE;{ROW}", ("kl", "p", "v")), (f"SELECT v FROM p WHERE id = {k} FOR SHARE;{ROW}", ("ks", "p", "v")),
        (f"UPDATE p SET v = v + 1 WHERE id = {k};{ROW}", ("ku", "p", "v", "v"))))
    child, line = d.shape.choice((
        (f"SELECT w FROM c WHERE id = {k};{ROW}", ("ks", "c", "w")), (f"UPDATE c SET w = {d.new()} WHERE id = {k};{ROW}", ("ku", "c", "", "w"))))
    more = d.shape.random() < 0.3
    return [first, child] + [child] * more, [parent, line, ("link",)] + [line, ("link2",)] * more
