"""A PostgreSQL server of a test's own, with the extension ipset. A module of tests/postgres and bench/sql.

The server runs in a folder of its own, on a socket, without TCP, and not as root. PostgreSQL looks for extensions in
its own folders only. So the server starts in a mount namespace, in which copies of these folders with the files of
`make install DESTDIR=` lie over them. Nothing of it is seen outside, or left after the end.
"""
import ctypes
import os
import shutil
import signal
import subprocess
import sys
import tempfile

TOP = os.path.dirname(os.path.dirname(os.path.abspath(__file__)))
SOURCES = os.path.join(TOP, "bindings", "postgresql")
# Debian's packages, and a file of each
PACKAGES = {
    "postgresql": "/usr/lib/postgresql/15/bin/postgres",
    "postgresql-server-dev-15": "/usr/lib/postgresql/15/lib/pgxs/src/makefiles/pgxs.mk",
}
SETTINGS = """
listen_addresses = ''
unix_socket_directories = '{}'
fsync = off
full_page_writes = off
jit = off
"""


def missing_packages(packages):
    """The packages of which no file is there."""
    return [name for name, path in packages.items() if not os.path.exists(path)]


def namespace():
    """The command that runs another one in a mount namespace of its own."""
    return ["unshare", "-m"] if os.geteuid() == 0 else ["unshare", "--map-current-user", "--keep-caps", "-m"]


def can_mount():
    """Whether a process may have a mount namespace here."""
    return bool(shutil.which("unshare")) and subprocess.run(
        namespace() + ["true"], stdout=subprocess.DEVNULL, stderr=subprocess.DEVNULL, check=False).returncode == 0


def run(command, **options):
    """Runs the command, and returns what it prints; ends the script with that if it fails."""
    ran = subprocess.run(command, stdout=subprocess.PIPE, stderr=subprocess.STDOUT, text=True, check=False, **options)
    if ran.returncode != 0:
        raise RuntimeError("{}: status {}\n{}".format(" ".join(command), ran.returncode, ran.stdout))
    return ran.stdout


def config(word):
    return run(["pg_config", "--" + word]).strip()


class Server:
    """The server: `with Server(settings) as server`. The words are arguments of make. If it is careful, the C library
    overwrites memory that is freed, so that a later use of it shows."""

    def __init__(self, settings="", words=(), is_careful=False):
        # the path of a socket has at most 107 bytes
        self.room = tempfile.mkdtemp(prefix="ipset-", dir="/tmp")
        self.build = os.path.join(self.room, "build")
        self.installed = os.path.join(self.room, "installed")
        self.settings, self.words, self.is_careful = settings, list(words), is_careful
        self.programs = config("bindir")
        self.environment = dict(os.environ, PGHOST=self.room, PGUSER="tester", PGDATABASE="postgres", LC_ALL="C.UTF-8")

    def __enter__(self):
        # a script that is stopped from outside stops its server too
        signal.signal(signal.SIGTERM, lambda *_: sys.exit(1))
        try:
            self.make()
            self.initialize()
            self.start()
        except BaseException:
            self.__exit__()
            raise
        return self

    def __exit__(self, *_):
        if os.path.exists(os.path.join(self.room, "data", "postmaster.pid")):
            subprocess.run(self.as_owner(["pg_ctl", "-D", self.data(), "-m", "immediate", "stop"]), check=False,
                           stdout=subprocess.DEVNULL, stderr=subprocess.DEVNULL, cwd="/")
        shutil.rmtree(self.room, ignore_errors=True)

    def data(self):
        return os.path.join(self.room, "data")

    def make(self):
        """Builds the extension and installs it below `installed`, beside the files of the server."""
        os.mkdir(self.build)
        make = ["make", "-s", "-f", os.path.join(SOURCES, "Makefile")] + self.words
        run(make, cwd=self.build)
        run(make + ["install", "DESTDIR=" + self.installed], cwd=self.build)
        for folder in self.folders():
            run(["cp", "-an", folder + "/.", self.installed + folder])

    @staticmethod
    def folders():
        """The folders of the server in which it finds extensions."""
        return [config("pkglibdir"), os.path.join(config("sharedir"), "extension")]

    def as_owner(self, command):
        """The command of the server as its owner runs it: as nobody instead of root."""
        path = [os.path.join(self.programs, command[0])] + command[1:]
        if os.geteuid() != 0:
            return path
        return ["setpriv", "--reuid=nobody", "--regid=nogroup", "--clear-groups"] + path

    def initialize(self):
        os.chmod(self.room, 0o755)
        os.mkdir(self.data(), 0o700)
        if os.geteuid() == 0:
            run(["chown", "-R", "nobody:nogroup", self.room])
        run(self.as_owner(["initdb", "-D", self.data(), "-U", "tester", "--auth=trust", "--no-sync", "-E", "UTF8",
                           "--locale=C"]), cwd="/")
        with open(os.path.join(self.data(), "postgresql.conf"), "a", encoding="utf-8") as file:
            file.write(SETTINGS.format(self.room) + self.settings)

    def start(self):
        """Starts the server in a mount namespace, with the installed folders over the server's own."""
        mounts = " && ".join("mount --bind {0}{1} {1}".format(self.installed, folder) for folder in self.folders())
        start = self.as_owner(["pg_ctl", "-D", self.data(), "-l", os.path.join(self.room, "log"), "-w", "start"])
        run(namespace() + ["sh", "-c", mounts + ' && exec "$@"', "sh"] + start, cwd="/",
            env=dict(os.environ, MALLOC_PERTURB_="165" if self.is_careful else "0",
                     REFUSE_FILE=os.path.join(self.room, "refuse")))

    def stop(self):
        run(self.as_owner(["pg_ctl", "-D", self.data(), "-m", "fast", "-w", "stop"]), cwd="/")

    def program(self, *words, **options):
        """What a client program of the server prints; ends the script if it fails."""
        return run([os.path.join(self.programs, words[0])] + list(words[1:]), env=self.environment, **options)

    def try_sql(self, text, database="postgres"):
        """What psql prints for the statements, without alignment and headers; an error goes into the output too."""
        ran = subprocess.run([os.path.join(self.programs, "psql"), "-XAtq", "-d", database, "-f", "-"], input=text,
                             env=self.environment, stdout=subprocess.PIPE, stderr=subprocess.STDOUT, text=True,
                             check=False)
        return ran.stdout

    def sql(self, text, database="postgres"):
        """The same, for statements that have to succeed."""
        found = self.try_sql("\\set ON_ERROR_STOP 1\n" + text, database)
        if "ERROR:" in found:
            raise RuntimeError(found)
        return found


def build_library(arguments):
    """Builds the C library, unless the arguments of the script have `--built`."""
    if "--built" not in arguments:
        run([os.path.join(TOP, "bindings", "build")])


def image_of_list(text):
    """The image of a set that the shared C library makes of a list."""
    library = ctypes.CDLL(os.path.join(TOP, "bindings", "out", "libipnet.so"))
    data, buffer, count = text.encode(), ctypes.create_string_buffer(4096), ctypes.c_size_t()
    status = library.ipnet_set_from_list(data, ctypes.c_size_t(len(data)), buffer, ctypes.c_size_t(len(buffer)),
                                         ctypes.byref(count))
    if status != 0:
        raise RuntimeError("status {} of the list {!r}".format(status, text))
    return buffer.raw[:count.value]


def skip(missing):
    """Ends the script with a status other than 0, because packages or other means are missing."""
    print("skipped: this machine lacks " + ", ".join(missing))
    print("0 passed, 0 failed, %d skipped" % len(missing))
    sys.exit(1)
