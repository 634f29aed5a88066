#!/bin/sh
# run.sh [--verdict PROGRAM] [TRIAL ...]            the trials (all of trials/ where none is named) on an own PostgreSQL
# run.sh [--verdict PROGRAM] --random SEED COUNT    COUNT workloads drawn by the rows of docs/FORMAT.md, on the same; ROW ... behind it: each with
#                                                   one of these rows, named by its first trial
# run.sh --show TRIAL                               one trial, every interleaving without a serial order shown in full
#
# Starts a cluster of its own in a temporary folder, on a local socket alone, and stops it. PROGRAM reads a workload text on standard input and
# prints its report; where none is named it is the repository's judge, which may prove for some minutes first. README.md tells what is printed.
#
# Ends with status 0 where all is as expected, 1 where something is not, 2 where a package is missing or it was called in another way.
here=$(CDPATH='' cd -- "$(dirname -- "$0")" && pwd -P)
missing() { echo "run.sh: Debian's package $1 is missing (apt-get install $1)" >&2; exit 2; }
[ -x /usr/bin/python3 ] || missing python3
[ -x /usr/lib/postgresql/15/bin/initdb ] && [ -x /usr/lib/postgresql/15/bin/postgres ] || missing postgresql-15
/usr/bin/python3 -I -c 'import psycopg2' 2>/dev/null || missing python3-psycopg2
exec env PYTHONDONTWRITEBYTECODE=1 /usr/bin/python3 "$here/main.py" "$@"
