"""A PostgreSQL of our own: in a temporary folder, reached by a local socket alone, gone when the run ends."""
import os
import pwd
import shutil
import subprocess
import tempfile

import psycopg2
import psycopg2.extras

BIN = "/usr/lib/postgresql/15/bin"

# Nothing that happens by the clock: no deadlock victim (the driver sees circles itself), no vacuum. What is written need not outlive the run.
SETTINGS = {
    "listen_addresses": "''",
    "deadlock_timeout": "1h",
    "autovacuum": "off",
    "fsync": "off",
    "synchronous_commit": "off",
    "full_page_writes": "off",
    "wal_level": "minimal",
    "max_wal_senders": "0",
    "max_connections": "20",
    "shared_buffers": "16MB",
    "default_transaction_isolation": "'read committed'",
    "timezone": "UTC",
    "jit": "off",
}


def server_user():
    """initdb refuses to run as root: then it runs as the user of Debian's package, or as nobody."""
    if os.geteuid() != 0:
        return pwd.getpwuid(os.geteuid())
    for name in ("postgres", "nobody"):
        try:
            return pwd.getpwnam(name)
        except KeyError:
            pass
    raise SystemExit("run.sh: there is neither a user postgres nor nobody to run the server as")


def fast_folder():
    """A folder in memory where there is one with room: tables are emptied thousands of times."""
    if "TMPDIR" not in os.environ and os.access("/dev/shm", os.W_OK) and shutil.disk_usage("/dev/shm").free > 500_000_000:
        return "/dev/shm"
    return None


class Cluster:
    def __enter__(self):
        self.user = server_user()
        self.folder = tempfile.mkdtemp(prefix="gunthoey-", dir=fast_folder())
        os.chmod(self.folder, 0o700)
        if os.geteuid() == 0:
            os.chown(self.folder, self.user.pw_uid, self.user.pw_gid)
        self.data = os.path.join(self.folder, "data")
        try:
            self.run("initdb", "-D", self.data, "-U", "driver", "-A", "trust", "-E", "UTF8", "--locale=C", "--no-sync")
            settings = dict(SETTINGS, unix_socket_directories="'%s'" % self.folder)
            with open(os.path.join(self.data, "postgresql.auto.conf"), "a", encoding="utf-8") as conf:
                conf.writelines("%s = %s\n" % pair for pair in settings.items())
            self.run("pg_ctl", "-D", self.data, "-w", "-l", os.path.join(self.folder, "log"), "start")
        except BaseException:
            self.__exit__()
            raise
        return self

    def __exit__(self, *_):
        if os.path.exists(os.path.join(self.data, "postmaster.pid")):
            self.run("pg_ctl", "-D", self.data, "-m", "immediate", "-w", "stop")
        shutil.rmtree(self.folder, ignore_errors=True)

    def run(self, program, *arguments):
        as_user = {} if os.geteuid() != 0 else {"user": self.user.pw_uid, "group": self.user.pw_gid, "extra_groups": []}
        done = subprocess.run([os.path.join(BIN, program), *arguments], cwd=self.folder, stdin=subprocess.DEVNULL, stdout=subprocess.PIPE,
                              stderr=subprocess.STDOUT, env={"PATH": BIN + ":/usr/bin:/bin", "LC_ALL": "C"}, check=False, **as_user)
        if done.returncode != 0:
            raise SystemExit("run.sh: %s failed\n%s" % (program, done.stdout.decode(errors="replace")))

    def connect(self, waits=True):
        """A connection whose statements are waited for, or one that is asked again and again (waits=False)."""
        conn = psycopg2.connect(host=self.folder, user="driver", dbname="postgres", async_=0 if waits else 1)
        if waits:
            conn.autocommit = True
        else:
            psycopg2.extras.wait_select(conn)
        return conn
