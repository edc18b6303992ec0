"""What the cases of the scripts share: the scripts and the program that a case runs, in a folder of
its own, with a store, a spool and a server."""

import contextlib
import glob
import os
import re
import resource
import shutil
import signal
import subprocess

from cases import Case, compile_preload
from clients import Server, Wrong, wait_for, wants

# After how many seconds a script that hangs is ended.
LIMIT = 300
# The form of a moment in a file's name.
TIME = r"\d{4}-\d\d-\d\dT\d\d-\d\d-\d\dZ"
TEXTS = [b"Subject: a chair\r\n\r\nA chair.\r\n", b"Subject: a desk\r\n\r\nA desk.\r\n"]


def fits(found, form):
    """Fails unless a text is of a form."""
    if not re.fullmatch(form, found):
        raise Wrong(f"{found!r}, where {form!r} is wanted")


def read(path):
    """The octets of a file."""
    with open(path, "rb") as file:
        return file.read()


def read_text(path):
    return read(path).decode()


def write(path, text):
    """Gives a file this text, or these octets, and gives its path."""
    with open(path, "wb") as file:
        file.write(text if isinstance(text, bytes) else text.encode())
    return path


def run(*words, said="", **how):
    """What a command gives: its status, and what it writes to standard output and error."""
    how = {"capture_output": True, "text": True, "timeout": LIMIT, "check": False, **how}
    ran = subprocess.run(words, input=said, **how)
    return ran.returncode, ran.stdout, ran.stderr


def limit_files():
    """Lets no file of this process have more than 8,192 octets, as on a full disk."""
    signal.signal(signal.SIGXFSZ, signal.SIG_IGN)
    resource.setrlimit(resource.RLIMIT_FSIZE, (8192, 8192))


class ScriptCase(Case):
    """A case whose store is `store`; commands of its own lie in the folder `bin`."""

    def setUp(self):
        super().setUp()
        self.packaging = os.path.abspath(self.packaging)
        self.store, self.spool = f"{self.folder}/mail.db", f"{self.folder}/spool"
        for it in ("bin", "spool"):
            os.mkdir(f"{self.folder}/{it}")

    def needs_root(self):
        if os.geteuid():
            self.skipTest("not root")

    @contextlib.contextmanager
    def begin(self, name, *words, env=None, **how):
        """A script that runs. At the end it is ended, with all that it began."""
        path = {"PATH": f"{self.folder}/bin:{os.environ['PATH']}"}
        pipes = dict.fromkeys(("stdin", "stdout", "stderr"), subprocess.PIPE)
        how = {**pipes, "env": {**os.environ, **path, **(env or {})}, **how}
        words = [os.path.join(self.packaging, name), *words]
        with subprocess.Popen(words, start_new_session=True, **how) as run:
            try:
                yield run
            finally:
                with contextlib.suppress(ProcessLookupError):
                    os.killpg(run.pid, signal.SIGKILL)

    def script(self, name, *words, said=b"", **how):
        """A script's status, and what it writes to standard output and to standard error."""
        with self.begin(name, *words, **how) as run:
            out, err = run.communicate(said, timeout=LIMIT)
            return run.returncode, out.decode(), err.decode()

    def popbox(self, *words, **how):
        """The same of the program."""
        return run(self.program, *words, **how)

    def command(self, name, text):
        """A command of the case's own, and its path."""
        path = write(f"{self.folder}/{name}", f"#!/bin/sh\n{text}\n")
        os.chmod(path, 0o755)
        return path

    def stand_in(self, name, text):
        """Has the scripts run this in the place of a command; `REAL` is the command."""
        self.command(f"bin/{name}", text.replace("REAL", shutil.which(name) or name))

    def speaks(self):
        """A program that says on standard error which build it is, as ./popbox does."""
        return self.command("speaks", f'echo "popbox: a build" >&2\nexec {self.program} "$@"')

    def note_calls(self):
        """The environment in which a script's calls are noted, by tools/preload/disk.c."""
        return {
            "LD_PRELOAD": compile_preload("disk", self.folder),
            "CALLS": f"{self.folder}/calls",
        }

    def calls(self):
        """The calls that were noted."""
        return read_text(f"{self.folder}/calls").splitlines()

    def make_store(self, texts):
        """Makes a store that no server has open, with these messages in the maildrop `orders`."""
        script = "maildrop add orders\n"
        for number, text in enumerate(texts):
            text = text.removesuffix(b"\r\n").replace(b"\r\n", rb"\r\n").decode()
            script += f"deposit orders note d{number} {text}\n"
        wants(self.popbox("replay", "--store", self.store, said=script)[0], 0)

    def office(self, texts=(), words=()):
        """A server with the maildrops `orders`, which has these messages, and `sales`. It ends with
        the case, or with a `with`."""
        server = Server(self.program, self.folder, "--admin-site", "localhost", *words)
        self.addCleanup(server.end)
        server.fill(("orders", "sales"), ())
        for number, text in enumerate(texts):
            server.deposit(f"orders.note.d{number}.eml", text)
        return server


def is_halted(server):
    """Whether a server is halted, with each of its threads."""
    paths = glob.glob(f"/proc/{server.run.pid}/task/*/status")
    return {re.search(r"State:\t(.)", read_text(path))[1] for path in paths} == {"T"}


def serves(server):
    """Fails unless a server goes on, and answers."""
    wait_for(lambda: not is_halted(server), "the server stays halted")
    wants(server.administer("GET", "/maildrops").split()[:2], ["orders", str(len(TEXTS))])
