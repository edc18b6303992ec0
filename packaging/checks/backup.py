"""popbox-backup: its copies of a store, and what `check` and `export` say of a copy."""

import fcntl
import glob
import os
import re
import shutil
import signal
import tempfile
import time

from cases import needs
from clients import Mail, wait_for, wants
from harness import (
    LIMIT, TEXTS, TIME, ScriptCase, fits, is_halted, limit_files, read, read_text, run, serves,
    write,
)

# What popbox-backup says of a copy of a server with TEXTS, and of that of a store with TEXTS.
BUSY = ("2 maildrops, 2 messages", r"clients waited \d+ ms")
ALONE = ("1 maildrops, 2 messages", "no server had it open")
# A cp that waits until the file `copying` is gone.
WAITS = "touch {0}/copying\nwhile [ -e {0}/copying ]; do sleep 0.1; done\nexec REAL \"$@\""


def now():
    return time.strftime("%Y-%m-%dT%H-%M-%SZ", time.gmtime())


class BackupCase(ScriptCase):
    """A case whose copies lie in the folder `copies`."""

    def setUp(self):
        super().setUp()
        self.copies = f"{self.folder}/copies"
        self.where = ["--store", self.store, "--into", self.copies, "--program", self.program]

    def names(self):
        return sorted(os.listdir(self.copies))

    def back_up(self, *words, **how):
        """What popbox-backup gives of the store."""
        return self.script("popbox-backup", *self.where, *words, **how)

    def makes(self, held, waited, *words, **how):
        """The copy that popbox-backup makes, and nothing beside; it says what is in it."""
        status, said, why = self.back_up(*words, **how)
        wants((status, why), (0, ""))
        fits(said, rf"good: {self.copies}/{TIME}(-\d+)?: {held}; {waited}\n")
        wants(glob.glob(f"{self.copies}/.work.*"), [])
        return said.split(": ")[1]

    def make_old(self, names):
        """Copies that were good."""
        for name in names:
            os.makedirs(f"{self.copies}/{name}")
            write(f"{self.copies}/{name}/mail.db", name)

    def makes_none(self, why, *words, **how):
        """Fails unless popbox-backup makes no copy, says why, and leaves the older ones."""
        old = [f"2001-01-0{day}T00-00-00Z" for day in range(1, 4)]
        if not os.path.exists(self.copies):
            self.make_old(old)
        status, said, told = self.back_up("--keep", "1", *words, **how)
        wants((status, said), (1, ""))
        fits(told.splitlines()[-1], f"popbox-backup: not good: {why}")
        wants(self.names(), old)


class Backup(BackupCase):
    def test_backup_of_a_busy_server(self):
        """The server is halted while its store is copied, and goes on; the copy's name is the
        moment, only its owner can read it, and it opens with each maildrop and message."""
        with self.office(TEXTS) as server:
            note = f"cat /proc/{server.run.pid}/task/*/status >>{self.folder}/states"
            self.stand_in("cp", f"{note}\nexec REAL \"$@\"")
            before = now()
            path = self.makes(*BUSY, env={"TZ": "EST5"})
            wants(before <= os.path.basename(path) <= now(), True)
            serves(server)
        # The first cp copies the store.
        wants(re.search(r"State:\t(.)", read_text(f"{self.folder}/states"))[1], "T")
        wants(sorted(os.listdir(path)), ["mail.db", "mail.db-wal"])
        wants([os.stat(it).st_mode & 0o777 for it in (self.copies, path)], [0o700] * 2)
        status, told, _ = self.popbox("check", "--store", f"{path}/mail.db")
        told = [it for it in told.splitlines() if it.startswith("maildrop ")]
        held = [f"maildrop orders 2 {sum(map(len, TEXTS))}", "maildrop sales 0 0"]
        wants((status, told), (0, held))

    def test_backup_of_a_store_that_a_link_leads_to(self):
        """A store may be named by a symbolic link."""
        with self.office(TEXTS):
            os.mkdir(f"{self.folder}/elsewhere")
            os.symlink(self.store, f"{self.folder}/elsewhere/link.db")
            self.makes(*BUSY, "--store", f"{self.folder}/elsewhere/link.db")

    def test_backup_keeps_the_newest_copies(self):
        """The newest N copies stay, seven unless --keep says otherwise, and what is no copy stays
        too; of one second the later copy is the newer one."""
        self.make_store(TEXTS)
        old = [f"2001-01-{day:02}T00-00-00Z" for day in range(1, 10)]
        others = ["2001-01-01", "notes", "2002-01-01T00-00-00"]
        self.make_old([*old, *others])
        os.utime(self.store, (1_000_000_000, 1_000_000_000))
        path = self.makes(*ALONE)
        wants(os.stat(f"{path}/mail.db").st_mtime, 1_000_000_000)
        new = os.path.basename(path)
        wants(self.names(), sorted([*others, *old[-6:], new]))
        self.stand_in("date", "echo 2001-01-08T00-00-00Z")
        for number in (1, 2):
            path = self.makes(*ALONE, "--keep", "5")
            wants(os.path.basename(path), f"{old[7]}-{number}")
        wants(self.names(), sorted([*others, new, old[8], f"{old[7]}-2", f"{old[7]}-1", old[7]]))
        wants(read_text(f"{self.copies}/{old[7]}/mail.db"), old[7])
        # A number of two digits is larger than one of one digit.
        self.make_old([f"{old[7]}-9"])
        for number in (10, 11):
            path = self.makes(*ALONE, "--keep", "4")
            wants(os.path.basename(path), f"{old[7]}-{number}")
        wants(self.names(), sorted([*others, new, old[8], f"{old[7]}-11", f"{old[7]}-10"]))
        self.makes(*ALONE, "--keep", "1", "--program", self.speaks())
        wants(self.names(), sorted([*others, new]))

    def test_backup_reads_its_command_line(self):
        """A wrong option is refused with status 2 and its name, and --help shows the usage."""
        self.make_store(TEXTS)
        for words, told in (
            (["--nothing", "1"], "no option --nothing"), (["--keep"], "--keep wants a value"),
            (["--keep", "0"], "--keep and --longest are numbers from 1 on"),
            (["--longest", "1s"], "--keep and --longest are numbers from 1 on"),
        ):
            wants(self.back_up(*words), (2, "", f"popbox-backup: {told}\n"))
        wants(os.path.exists(self.copies), False)
        for name in ("popbox-backup", "popbox-set-policy"):
            status, said, why = self.script(name, "--help")
            wants((status, said.startswith(f"{name} ["), why), (0, True, ""))


class BackupFaults(BackupCase):
    def test_backup_brings_its_copy_to_the_disk(self):
        """The copy's files are on the disk before it gets its name, and the name after that."""
        env = self.note_calls()
        with self.office(TEXTS):
            path = self.makes(*BUSY, env=env)
        calls = [re.sub(r"/\.work\.[^/]*", "/work", it) for it in self.calls()]
        # What the opening of the copy's copy writes is the program's own.
        calls = [it for it in calls if it.startswith(("sync", "rename")) and "/opened" not in it]
        files = [f"sync {self.copies}/work/copy/mail.db{end}" for end in ("", "-wal")]
        moved = f"rename {self.copies}/work/copy"
        at = calls.index(moved) if moved in calls else 0
        wants(sorted(calls[:at]), files)
        wants(sorted(calls[at + 1 :]), [f"sync {it}" for it in (self.copies, path)])

    def test_backup_fails_where_the_disk_does(self):
        """A copy that can't be brought to the disk isn't good."""
        self.make_store(TEXTS)
        env = self.note_calls()
        env["FAILS"] = "sync *.db"
        self.makes_none("the copy couldn't be brought to the disk", env=env)
        env["FAILS"] = "rename *"
        self.makes_none(f"{self.copies}/{TIME} can't be brought to the disk", env=env)

    def test_a_damaged_copy_is_not_good(self):
        """A copy that doesn't open, or whose maildrops can't be listed, isn't good."""
        write(self.store, b"This is no store.\n" * 1000)
        self.makes_none("the copy can't be opened: popbox: NotOurs .*")
        os.remove(self.store)
        self.make_store(TEXTS)
        # All but the first page of SQLite's.
        octets = read(self.store)
        write(self.store, octets[:4096] + b"\xff" * (len(octets) - 4096))
        self.makes_none("the copy can't be opened: popbox: .*")
        os.remove(self.store)
        self.make_store(TEXTS)
        fails = self.command("fails", "echo answer\necho failed")
        self.makes_none("the copy doesn't tell its maildrops", "--program", fails)

    def test_backup_without_what_it_needs(self):
        """Without its store, program or folder, on a full disk, beside another backup, or if a
        process opens the store meanwhile, there is no copy."""
        self.makes_none(f"no file {self.store}")
        self.make_store([b"x" * 100_000 + b"\r\n"])
        self.makes_none(f"no program {self.folder}/none", "--program", f"{self.folder}/none")
        self.makes_none(f"no folder {self.store}/in", "--into", f"{self.store}/in")
        self.makes_none("/proc can't be written to", "--into", "/proc")
        self.makes_none("the store couldn't be copied", preexec_fn=limit_files)
        self.stand_in("cp", f"sleep 999 3<{self.store} >/dev/null 2>&1 &\nexec REAL \"$@\"")
        self.makes_none("a server began meanwhile")
        folder = os.open(self.copies, os.O_RDONLY)
        try:
            fcntl.flock(folder, fcntl.LOCK_EX)
            self.makes_none(f"another backup is at work in {self.copies}")
            # What that one works on stays.
            os.mkdir(f"{self.copies}/.work.other")
            wants(self.back_up()[0], 1)
            os.rmdir(f"{self.copies}/.work.other")
        finally:
            os.close(folder)

    def test_backup_needs_to_see_who_has_the_store(self):
        """A user who can't see whether the server has the store open gets no copy."""
        self.needs_root()
        with self.office(TEXTS):
            os.chmod(self.folder, 0o755)
            for path in glob.glob(f"{self.store}*"):
                os.chmod(path, 0o644)
            into = f"{self.folder}/of-nobody"
            os.mkdir(into)
            os.chown(into, 65534, 65534)
            why = f"{self.store} is open in a process that .* can't see: run this as root"
            words = ["--into", into, "--program", "true"]
            self.makes_none(why, *words, user=65534, group=65534, extra_groups=[])
            wants(os.listdir(into), [])

    def test_the_server_goes_on_where_backup_is_ended(self):
        """A signal ends a backup without a copy, and the server goes on, after SIGKILL too; the
        next backup removes what a killed one left."""
        old = "2001-01-01T00-00-00Z"
        self.make_old([old])
        with self.office(TEXTS) as server:
            self.stand_in("cp", WAITS.format(self.folder))
            is_copying = lambda: os.path.exists(f"{self.folder}/copying")
            for number, status in ((signal.SIGTERM, 1), (signal.SIGHUP, 1), (signal.SIGKILL, -9)):
                with self.begin("popbox-backup", *self.where, "--keep", "1") as run:
                    wait_for(is_copying, "nothing is copied", LIMIT)
                    wants(is_halted(server), True)
                    run.send_signal(number)
                    wants(run.wait(LIMIT), status)
                    serves(server)
                    os.remove(f"{self.folder}/copying")
                    if status == 1:
                        wants(run.stderr.read(), b"popbox-backup: not good: it was ended\n")
                wants([it for it in self.names() if not it.startswith(".work.")], [old])
            os.remove(f"{self.folder}/bin/cp")
            self.makes(*BUSY)

    def test_backup_says_that_it_was_ended_while_its_copy_is_opened(self):
        """The line `it was ended` comes also while the program's standard error is a file."""
        self.make_store(TEXTS)
        opening = f"{self.folder}/opening"
        waits = self.command("waits", f"touch {opening}\nexec sleep {LIMIT}")
        with self.begin("popbox-backup", *self.where, "--program", waits) as run:
            wait_for(lambda: os.path.exists(opening), "no copy is opened", LIMIT)
            run.send_signal(signal.SIGTERM)
            wants(run.wait(LIMIT), 1)
            wants(run.stderr.read(), b"popbox-backup: not good: it was ended\n")
        wants(self.names(), [])

    def test_a_copy_of_a_server_that_goes_on_is_not_good(self):
        """A server halts no longer than --longest says; if it goes on or ends before its copy is
        whole, that isn't good. A server that was halted before is copied too."""
        why = "the server went on or ended meanwhile: more than {} seconds.?"
        with self.office(TEXTS) as server:
            state = f"/proc/{server.run.pid}/status"
            is_halted_yet = f"while grep -q '^State:.T' {state}; do sleep 0.1; done"
            self.stand_in("cp", f"{is_halted_yet}\nexec REAL \"$@\"")
            self.makes_none(why.format(5), "--longest", "5")
            serves(server)
            os.remove(f"{self.folder}/bin/cp")
            os.kill(server.run.pid, signal.SIGSTOP)
            self.makes(*BUSY)
            serves(server)
            shutil.rmtree(self.copies)
            self.stand_in("cp", f"kill -9 {server.run.pid}\nexec REAL \"$@\"")
            self.makes_none(why.format(60))


class Copies(ScriptCase):
    """`check` and `export` over a copy."""

    def setUp(self):
        super().setUp()
        self.check = ["check", "--store", self.store]
        self.note = f"note: {self.store}-wal is missing, and so may be the last changes"
        self.note += " to the store\n"

    def read_only(self, *words):
        """What the program gives if it can only read the case's folder: status, output, error."""
        self.needs_root()
        begun = f"mount --bind {self.folder} {self.folder} && cd {self.folder} && cd ."
        only = f"mount -o remount,bind,ro {self.folder} && cd {self.folder}"
        shell = ["unshare", "--mount", "sh", "-c", f'{begun} && {only} && exec "$@"', "sh"]
        if run(*shell, "true")[0]:
            self.skipTest("nothing can be mounted here")
        return run(*shell, self.program, *words)

    def exports(self, runs, texts, note=""):
        """Fails unless these texts are exported."""
        with tempfile.TemporaryDirectory() as out:
            found = runs("export", "--store", self.store, "--maildrop", "orders", out)
            wants(found, (0, f"ok, {len(texts)} messages\n", note))
            wants([read(f"{out}/note.{k}.eml") for k in range(1, len(texts) + 1)], texts)

    def test_a_copy_that_can_only_be_read_is_checked_and_exported(self):
        """A copy in a folder that can't be written, with its log or without, is checked and
        exported, isn't changed, and a changed octet of a text is found."""
        self.make_store(TEXTS)
        before = {it: read(f"{self.folder}/{it}") for it in ("mail.db", "mail.db-wal")}
        held = f"maildrop orders 2 {sum(map(len, TEXTS))}"
        status, said, why = self.read_only(*self.check)
        found = (status, held in said.splitlines(), said.splitlines()[-1][:3], why)
        wants(found, (0, True, "ok,", ""))
        self.exports(self.read_only, TEXTS)
        wants({it: read(f"{self.folder}/{it}") for it in before}, before)
        # Without its log, which isn't made.
        os.remove(f"{self.store}-wal")
        for checks in (self.read_only, self.popbox):
            status, said, why = checks(*self.check)
            wants((status, held in said.splitlines(), why), (0, True, self.note))
            wants(os.path.exists(f"{self.store}-wal"), False)
        octets = read(self.store)
        wants(TEXTS[0] in octets, True)
        write(self.store, octets.replace(TEXTS[0], b"s" + TEXTS[0][1:]))
        status, said, why = self.read_only(*self.check)
        wants((status, said.splitlines()[-1]), (1, "differs orders note.1"))
        wants(why.splitlines()[-1], "popbox: texts differ from their digests")

    def test_a_copy_without_its_log_is_read_whole(self):
        """A copy without its log is checked and exported whole, with a note of the log."""
        # In more pieces than one, each of 65,536 octets.
        texts = [*TEXTS, b"x" * 200_000 + b"\r\n"]
        self.make_store(texts)
        os.remove(f"{self.store}-wal")
        status, said, why = self.popbox(*self.check)
        wants((status, why), (0, self.note))
        wants(f"maildrop orders 3 {sum(map(len, texts))}" in said.splitlines(), True)
        self.exports(self.popbox, texts, self.note)

    def test_a_copy_whose_log_cannot_be_read_is_not_checked_without_it(self):
        """A log that is there and can't be read is an error, not a missing log."""
        self.make_store(TEXTS)
        os.remove(f"{self.store}-wal")
        os.mkdir(f"{self.store}-wal")
        wants(self.read_only(*self.check), (1, "", "popbox: cannot read file\n"))

    def test_a_store_that_may_not_be_written_is_not_read_as_a_copy(self):
        """A store whose files may not be written, in a folder that may, isn't taken for a copy."""
        self.make_store(TEXTS)
        for it in ("mail.db", "mail.db-wal"):
            os.chmod(f"{self.folder}/{it}", 0o400)
        # Whoever may write every file gives that up first.
        drop = ["setpriv", "--bounding-set=-dac_override", "--inh-caps=-dac_override"]
        words = [*(drop if os.geteuid() == 0 else []), self.program, *self.check]
        wants(run(*words), (1, "", "popbox: Store\n"))

    def test_removed_mail_is_erased_as_the_recipe_says(self):
        """What a clerk removed stays in the store's files; after the line of recipes/backup.md it
        doesn't, and the store opens with all else."""
        needs("sqlite3")
        form, recipe = r"^    (sqlite3 .* VACUUM.*)$", f"{self.packaging}/recipes/backup.md"
        line = re.search(form, read_text(recipe), re.M)[1]
        stays = lambda: any(b"A chair." in read(it) for it in glob.glob(f"{self.store}*"))
        with self.office(TEXTS[:1]) as server:
            server.administer("PUT", "/clerks/ann", "pass x")
            wants(Mail(server).say("USER ann/orders", "PASS x", "DELE 1", "QUIT")[3][:3], "+OK")
            for number in range(3):
                server.deposit(f"orders.note.n{number}.eml", TEXTS[1])
        wants(stays(), True)
        ran = run("sh", "-c", line.replace("/var/lib/popbox/mail.db", self.store))
        wants((ran, stays()), ((0, "0|0|0\nok\n", ""), False))
        wants(self.popbox("check", "--store", self.store)[0], 0)
        wants(self.office().administer("GET", "/maildrops").split()[:2], ["orders", "3"])
