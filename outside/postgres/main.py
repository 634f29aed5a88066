"""The command: runs trials, or workloads drawn at random, and prints a table. See run.sh and README.md."""
import os
import subprocess
import sys

import cluster
import play
import trial

HERE = os.path.dirname(os.path.abspath(__file__))
ROOT = trial.ROOT
COLUMNS = ("run", "waits", "dropped", "rolled back", "no order")


def fail(message, status=2):
    print("run.sh: %s" % message, file=sys.stderr)
    sys.exit(status)


class Verdict:
    """The program that gives the word."""

    def __init__(self, command):
        self.command = command.split() if command else [os.path.join(ROOT, "judge"), "/dev/stdin"]

    def report(self, text):
        """The report's second line."""
        try:
            done = subprocess.run(self.command, input=text.encode(), stdout=subprocess.PIPE, check=False)
        except OSError as e:
            fail("%s cannot be run: %s" % (self.command[0], e.strerror))
        lines = done.stdout.decode(errors="replace").splitlines()
        if done.returncode != 0 or len(lines) < 2:
            fail("%s gives no report" % " ".join(self.command), 1)
        return lines[1] if lines[0].startswith("verdict") else "refused %s" % lines[1]


def counted(player, runs, rows):
    """Plays every interleaving; how many there are of each column, and those that end as no serial order does."""
    counts, without = dict.fromkeys(COLUMNS, 0), []
    player.served = {}
    for outcome in player.interleavings(runs, rows):
        counts["run"] += 1
        counts["waits"] += outcome.waited
        counts["dropped"] += outcome.circle
        if outcome.circle:
            continue
        counts["rolled back"] += outcome.rolled_back
        if player.serial_order(runs, rows, outcome) is None:
            without.append(outcome)
    counts["no order"] = len(without)
    return counts, without


def fault(expect, word, counts):
    """What is not as expected, or None."""
    robust = word == "robust"
    if robust != (expect in ("robust", "untrue")) or word not in ("robust", "danger"):
        return "the text is %s, and %s is expected" % (word, expect)
    if expect == "robust" and counts["no order"]:
        return "FALSE ROBUST: the text is not true of the SQL"
    if expect in ("danger shown", "untrue") and not counts["no order"]:
        return "no interleaving shows it"
    return None


def tell(outcome):
    """An interleaving in words."""
    order = " ".join(str(chosen) for chosen, _ in outcome.path)
    shown = "; ".join("%d%s %s" % (i, "" if i in outcome.committed else " (rolled back)", what) for i, what in enumerate(outcome.shown))
    return "    %s | %s | %s" % (order, shown, outcome.tables)


def line(name, word, counts, last):
    print("%-34s %-7s %5d %6d %8d %12d %9d  %s" % ((name, word) + tuple(counts[c] for c in COLUMNS) + (last,)), flush=True)


def head(last):
    print("%-34s %-7s %5s %6s %8s %12s %9s  %s" % (("trial", "word") + COLUMNS + (last,)))


def run_trials(player, verdict, trials, show):
    head("expected")
    failed = 0
    for t in trials:
        report = verdict.report(t.text)
        word = report.split()[0]
        player.prepare(t.tables)
        try:
            counts, without = counted(player, t.runs, t.rows)
            wrong = fault(t.expect, word, counts)
        except play.NotRepeatable:
            counts, without, wrong = dict.fromkeys(COLUMNS, 0), [], "the same choices did not lead to the same again"
        line(t.name, word, counts, t.expect + (": " + wrong if wrong else ""))
        failed += wrong is not None
        if wrong:
            print("    report: %s" % report)
        for outcome in without if show else without[:1] if wrong else []:
            print(tell(outcome))
    print("%d trials, %s" % (len(trials), "all as expected" if not failed else "%d NOT as expected" % failed))
    return failed


def read_trials(names):
    folder = os.path.join(HERE, "trials")
    paths = names or sorted(os.path.join(folder, name) for name in os.listdir(folder) if name.endswith(".trial"))
    found = []
    for path in paths:
        try:
            with open(path, encoding="utf-8") as f:
                found.append(trial.Trial(os.path.basename(path).removesuffix(".trial"), f.read()))
        except OSError as e:
            fail("%s: %s" % (path, e.strerror))
        except trial.Wrong as e:
            fail(str(e))
    return found


def main(arguments):
    command = None
    if arguments[:1] == ["--verdict"] and len(arguments) > 1:
        command, arguments = arguments[1], arguments[2:]
    verdict = Verdict(command)
    if arguments[:1] == ["--random"]:
        if len(arguments) < 3 or not all(a.isdigit() for a in arguments[1:3]):
            fail("usage: run.sh [--verdict PROGRAM] --random SEED COUNT [ROW ...]")
        import draw
        with cluster.Cluster() as own:
            return draw.run(play.Player(own), verdict, int(arguments[1]), int(arguments[2]), arguments[3:])
    show = arguments[:1] == ["--show"]
    trials = read_trials(arguments[1:] if show else arguments)
    with cluster.Cluster() as own:
        return run_trials(play.Player(own), verdict, trials, show)


if __name__ == "__main__":
    sys.exit(1 if main(sys.argv[1:]) else 0)
