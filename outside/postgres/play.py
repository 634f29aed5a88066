"""Plays transactions on real connections: every interleaving, statement by statement, and every serial order; and holds the one to the other."""
import itertools
import re
import select

import psycopg2
from psycopg2.extensions import POLL_OK


class NotRepeatable(Exception):
    """The same choices did not lead to the same choices again."""


class Session:
    """A connection that plays one transaction at a time. It is idle, or a statement of it is on its way (and may be waiting)."""

    def __init__(self, cluster):
        self.conn = cluster.connect(waits=False)
        self.pid = self.conn.get_backend_pid()
        self.cursor = self.conn.cursor()
        self.busy = False

    def send(self, sql, values=None):
        if values:
            sql = re.sub(r"(?<![:\w]):([A-Za-z_]\w*)", r"%(\1)s", sql.replace("%", "%%"))
            self.cursor.execute(sql, values)
        else:
            self.cursor.execute(sql)
        self.busy = True

    def ready(self):
        """Whether the answer is there; an error of the server is raised."""
        try:
            if self.conn.poll() != POLL_OK:
                return False
        except psycopg2.Error:
            self.busy = False
            raise
        self.busy = False
        return True

    def whole(self, sql):
        """A statement that cannot wait."""
        self.send(sql)
        while not self.ready():
            select.select([self.conn], [], [])


class Transaction:
    """One run, as far as it has come: what it was shown so far, and how it ended."""

    def __init__(self, run, session):
        self.session, self.steps = session, run.steps()
        self.shown, self.ended, self.waited, self.statement = [], None, False, None
        self.session.whole("BEGIN ISOLATION LEVEL READ COMMITTED")
        self.answer = None

    def go_on(self):
        """Sends the next statement, or the commit."""
        try:
            self.statement, values = self.steps.send(self.answer)
        except StopIteration:
            self.statement = "COMMIT"
            self.session.send("COMMIT")
            return
        if self.statement is None:
            self.roll_back()
        else:
            self.session.send(self.statement.sql, values)

    def arrived(self, error):
        """The answer to what was sent is there."""
        if error is not None:
            self.shown.append(error)
            self.roll_back()
        elif self.statement == "COMMIT":
            # a commit that cannot be kept (a deferred constraint) raises an error, which is above
            self.ended = "committed"
        else:
            cursor = self.session.cursor
            self.answer = cursor.fetchall() if cursor.description else []
            self.shown.append((cursor.rowcount, sorted(map(repr, self.answer))))
            if self.statement.misses(cursor.rowcount):
                self.roll_back()

    def roll_back(self):
        self.session.whole("ROLLBACK")
        self.ended = "rolled back"


class Outcome:
    """How one interleaving, or one serial run, ended."""

    def __init__(self, transactions, path, tables, circle):
        self.path, self.tables, self.circle = path, tables, circle
        self.shown = [t.shown for t in transactions]
        self.committed = tuple(i for i, t in enumerate(transactions) if t.ended == "committed")
        self.waited = any(t.waited for t in transactions)
        self.rolled_back = len(self.committed) < len(transactions)

    def same(self, other):
        """What those that committed were shown, and what is left, are the same."""
        return self.tables == other.tables and all(self.shown[i] == other.shown[i] for i in self.committed)


class Player:
    def __init__(self, cluster, most=3):
        self.control = cluster.connect()
        self.sessions = [Session(cluster) for _ in range(most)]
        self.ask = self.control.cursor()

    def prepare(self, tables):
        """Empties the database and makes these tables."""
        self.ask.execute("DROP SCHEMA public CASCADE; CREATE SCHEMA public; SET search_path TO public")
        self.ask.execute(tables)
        self.ask.execute("SELECT quote_ident(relname) FROM pg_class WHERE relnamespace = 'public'::regnamespace AND relkind = 'r' ORDER BY relname")
        self.names = [row[0] for row in self.ask.fetchall()]
        self.ask.execute("""SELECT quote_ident(table_name), string_agg(quote_ident(column_name), ', ' ORDER BY ordinal_position)
            FROM information_schema.columns WHERE table_schema = 'public' AND is_identity = 'NO' AND column_default NOT LIKE 'nextval%%' IS NOT FALSE
            GROUP BY table_name""")
        self.columns = dict(self.ask.fetchall())
        self.served = {}

    def reset(self, rows):
        self.ask.execute("TRUNCATE %s RESTART IDENTITY CASCADE;\n%s" % (", ".join(self.names), rows))

    def left(self):
        """The tables' rows. A number from a sequence only names its row: such columns are not compared."""
        found = []
        for name in self.names:
            self.ask.execute("SELECT %s FROM %s" % (self.columns.get(name, "1"), name))
            found.append((name, sorted(map(repr, self.ask.fetchall()))))
        return found

    def blockers(self, busy):
        self.ask.execute("SELECT p, pg_blocking_pids(p) FROM unnest(%s) AS p", ([t.session.pid for t in busy],))
        return dict(self.ask.fetchall())

    def settle(self, transactions):
        """Goes on until nothing moves any more without another statement: each one's answer is there, or it waits for one that stands still.
        Two looks that find the same are enough: who was seen waiting for one that stands still cannot have moved before the second."""
        before = None
        while True:
            busy = [t for t in transactions if t.session.busy]
            if not busy:
                return {}
            arrived = False
            for s in select.select([t.session.conn for t in busy], [], [], 0.0004)[0]:
                t = next(t for t in busy if t.session.conn is s)
                error = None
                try:
                    if not t.session.ready():
                        continue
                except psycopg2.Error as e:
                    error = "error %s" % e.pgcode
                t.arrived(error)
                arrived = True
            if arrived:
                before = None
                continue
            now = self.blockers(busy)
            if all(now.values()) and now == before:
                for t in busy:
                    t.waited = True
                return now
            before = now

    @staticmethod
    def in_circle(waiting):
        """Whether some of these wait for each other."""
        for start in waiting:
            seen, todo = set(), list(waiting[start])
            while todo:
                pid = todo.pop()
                if pid == start:
                    return True
                if pid not in seen:
                    seen.add(pid)
                    todo.extend(waiting.get(pid, []))
        return False

    def play(self, runs, rows, choose):
        """Plays the runs from the start rows; choose(path, free) says whose next statement is sent."""
        self.reset(rows)
        transactions = [Transaction(run, session) for run, session in zip(runs, self.sessions)]
        path, circle, waiting = [], False, {}
        while not circle:
            free = [i for i, t in enumerate(transactions) if not t.ended and not t.session.busy]
            if not free:
                break
            chosen = choose(path, free)
            path.append((chosen, tuple(free)))
            transactions[chosen].go_on()
            waiting = self.settle(transactions)
            circle = self.in_circle(waiting)
        if circle:
            self.stop(transactions)
        return Outcome(transactions, path, None if circle else self.left(), circle)

    def stop(self, transactions):
        """Ends an interleaving in which some wait for each other."""
        for t in transactions:
            if t.session.busy:
                self.ask.execute("SELECT pg_cancel_backend(%s)", (t.session.pid,))
        for t in transactions:
            while t.session.busy:
                select.select([t.session.conn], [], [])
                try:
                    t.session.ready()
                except psycopg2.Error:
                    pass
        for t in transactions:
            if not t.ended:
                t.session.whole("ROLLBACK")

    def interleavings(self, runs, rows):
        """Every interleaving, each played from the start: after one, the last choice that could still be a later one becomes that."""
        prefix = []
        while prefix is not None:

            def choose(path, free, prefix=prefix):
                if len(path) >= len(prefix):
                    return free[0]
                chosen, then = prefix[len(path)]
                if then != tuple(free):
                    raise NotRepeatable()
                return chosen

            outcome = self.play(runs, rows, choose)
            yield outcome
            prefix = self.next_prefix(outcome.path)

    @staticmethod
    def next_prefix(path):
        for k in range(len(path) - 1, -1, -1):
            chosen, free = path[k]
            later = [i for i in free if i > chosen]
            if later:
                return path[:k] + [(later[0], free)]
        return None

    def serial(self, runs, rows, order):
        """The runs of this order, one after the other; those that are not in it do nothing."""
        if order not in self.served:
            only = [runs[i] for i in order]
            done = self.play(only, rows, lambda path, free: free[0])
            place = {i: k for k, i in enumerate(order)}
            done.shown = [done.shown[place[i]] if i in place else None for i in range(len(runs))]
            done.all_commit = len(done.committed) == len(order)
            self.served[order] = done
        return self.served[order]

    def serial_order(self, runs, rows, outcome):
        """An order of those that committed in which all of them commit and everything is the same, or None."""
        for order in itertools.permutations(outcome.committed):
            done = self.serial(runs, rows, order)
            if done.all_commit and outcome.same(done):
                return order
        return None
