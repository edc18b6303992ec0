"""The spool's folder and the store's files: what is left, lost, replaced, looked at, synced."""

import contextlib
import os
import re
import shutil
import signal
import subprocess
import tempfile
import time

from clients import OK, POLICY, REPLY, Case, log_in, put, read, retrieved, stopped, wait_for

LARGEST = 26_214_400


class Spool(Case):
    """Files of the spool."""

    def holds(self, server, *texts):
        """Fails unless `orders` holds these texts."""
        with server.connect() as client:
            log_in(client, *texts)

    def test_left_files_come_in_once_their_maildrop_is_there(self):
        """Of 1, 2 and 150 files that were left the first and the last come in, new mail at once."""
        for count in (1, 2, 150):
            self.renew()
            it = self.office(env=self.still())
            log_in(client := self.client(it))
            # The turn of the first line has looked at the spool once the second one is answered.
            turn = lambda: [client.asks(b"NOOP\r\n", OK) for _ in range(2)]
            left = [f"m{k:03}.note.d1.eml" for k in range(count)]
            for name in [*left, "orders.note.d1.eml"]:
                it.drop(name, b"one\n")
                turn()
            self.assertEqual(sorted(os.listdir(it.spool)), left)
            for name in {left[0], left[-1]}:
                it.administer("PUT", f"/maildrops/{name[:4]}")
            # One of them is tried in a second.
            for second in range(1, count + 1):
                self.set_on(second)
                turn()
            self.assertEqual(sorted(os.listdir(it.spool)), left[1:-1])

    def test_a_pipe_in_the_spool_is_left(self):
        """A pipe in the spool is never opened: that would wait for who writes to it."""
        it = self.office()
        os.mkfifo(f"{it.spool}/orders.note.a1.eml")
        it.drop("orders.note.d1.eml", b"one\n")
        is_taken = lambda: os.listdir(it.spool) == ["orders.note.a1.eml"]
        wait_for(is_taken, "the file after the pipe stays")
        self.holds(it, b"one\r\n")

    def comes_unseen(self, server, client, name, at, seconds):
        """Has a file come so many seconds from now, if the folder was changed last at a moment,
        also as the file comes. Whether it came in time: before a server that looks last may rely on
        that."""
        end = time.time() + seconds
        os.utime(server.spool, (at, at))
        while time.time() < end:
            # A line has a turn, in which the server looks.
            client.asks(b"NOOP\r\n", OK)
            time.sleep(0.05)
        with stopped(server):
            is_in_time = time.time() < at + 1.95
            if is_in_time:
                server.drop(name, b"one\n")
                os.utime(server.spool, (at, at))
        return is_in_time

    def test_a_file_that_comes_within_a_tick_is_taken(self):
        """A file is taken if its coming leaves the folder's time as it was."""
        it = self.office()
        log_in(client := self.client(it))
        # The moment of the last change lies ahead; or less than two seconds ago, which is as
        # coarse as a file system may give it.
        for name, ahead, seconds in (("d1", 3600, 2.5), ("d2", 0, 1.5)):
            file = f"orders.note.{name}.eml"
            comes = lambda: self.comes_unseen(it, client, file, time.time() + ahead, seconds)
            # On a machine with much other work not each try is in time.
            wait_for(comes, "no file comes in time")
            it.wait_for_spool()

    def test_a_crowded_spool_is_seen_whole(self):
        """Eight files are taken among 3,000 that stand aside."""
        it = self.office()
        # In whatever order the system lists them, not all of the eight are among the first 1,000.
        with stopped(it):
            for k in range(3000):
                if k % 375 == 100:
                    it.drop(f"orders.note.d{k}.eml", b"one\n")
                put(f"{it.spool}/orders.note.a{k}.eml.bad", "")
        it.wait_for_spool()
        self.holds(it, *[b"one\r\n"] * 8)

    def test_files_that_can_be_no_message_stand_aside(self):
        """A file without text, too long, or of a known name stands aside as it was."""
        it = self.office()
        it.deposit("orders.note.d1.eml", b"one\n")
        bad = {"orders.note.d1": b"two\n", "orders.note.d2": b"", "orders.note.d3": b"x" * LARGEST}
        # As many octets as a message may have, which end a line, and more.
        bad["orders.note.d4"] = b"x" * (LARGEST - 2) + b"\r\ny\n"
        for name, octets in bad.items():
            it.drop(f"{name}.eml", octets)
        it.wait_for_spool()
        for name, octets in bad.items():
            self.assertTrue(read(f"{it.spool}/{name}.eml.bad") == octets, name)
        self.assertEqual(len(os.listdir(it.spool)), len(bad))
        self.holds(it, b"one\r\n")

    def test_a_file_of_any_length_takes_no_more_memory_than_a_message(self):
        """A file of 1.3 GB stands aside without being read whole."""
        it = self.office()
        with open(f"{it.spool}/new.tmp", "wb") as file:
            # A file of holes, which takes no room on the disk.
            file.truncate(50 * LARGEST)
        os.rename(file.name, f"{it.spool}/orders.note.d1.eml")
        it.wait_for_spool()
        self.assertEqual(os.listdir(it.spool), ["orders.note.d1.eml.bad"])
        most = int(re.search(rb"VmHWM:\s*(\d+)", read(f"/proc/{it.run.pid}/status"))[1])
        self.assertLessEqual(most * 1000, 20 * LARGEST)

    def test_a_large_file_that_is_changed_as_it_comes_is_taken_anew(self):
        """A large file that gets another text of its length, as it comes, is taken with that."""
        it, count = self.office(), 30_000 if self.short else 300_000
        texts = [count * (letter * 77 + b"\n") for letter in (b"x", b"y")]
        it.drop("orders.note.d1.eml", texts[0])
        path = f"{it.spool}/orders.note.d1.eml"
        wait_for(lambda: stays_open(it.run.pid, path), "the file isn't opened")
        with stopped(it), open(path, "r+b") as file:
            file.write(texts[1])
        it.wait_for_spool()
        text = texts[1].replace(b"\n", b"\r\n")
        log_in(client := self.client(it), text)
        client.asks(b"RETR 1\r\n", retrieved(text))

    def test_no_link_that_takes_a_files_place_is_followed(self):
        """A symbolic link that takes a file's place, just before it is opened, isn't followed."""
        # No clause refuses a spool that compares what it opened with what the link leads to.
        put(secret := f"{self.folder}/secret", "not for the clerks\n")
        it = self.office(env=self.preload("calls", SWAP=secret))
        it.drop("orders.note.d1.eml", b"one\n")
        place = f"{it.spool}/orders.note.d1.eml"
        wait_for(lambda: os.path.islink(place), "no file is opened")
        # The turn that opened it is over once another client is served.
        for _ in range(3):
            self.holds(it)
        self.assertEqual(os.listdir(it.spool), [os.path.basename(place)])
        self.assertEqual(os.readlink(place), secret)


def restore(store):
    """Replaces a store by its copy, as docs/ADMINISTRATION.md restores a stopped server's."""
    copies = {it: f"{it}.copy" for it in (store, f"{store}-wal")}
    for file, copy in copies.items():
        shutil.copy(file, copy)
    for file in copies:
        os.remove(file)
    for file, copy in copies.items():
        shutil.copy(copy, file)


def replace_log(store):
    shutil.copy(store, f"{store}-new")
    os.rename(f"{store}-new", f"{store}-wal")


def move_folder(store):
    os.rename(os.path.dirname(store), f"{os.path.dirname(store)}.old")


# What may be done to a store under its server, and what is said of it.
LOSSES = (
    ("its file was moved or removed", lambda store: os.rename(store, f"{store}.old")),
    ("its file was moved or removed", os.remove),
    ("its log was moved or removed", lambda store: os.remove(f"{store}-wal")),
    ("its file was replaced", restore),
    ("its log was replaced", replace_log),
    ("its file was moved or removed", move_folder),
)


def stays_open(process, path):
    """Whether a process has a file open for longer than a look takes."""
    for _ in range(4):
        is_open = False
        with contextlib.suppress(OSError):
            files = [f"/proc/{process}/fd/{it}" for it in os.listdir(f"/proc/{process}/fd")]
            is_open = any(os.path.samefile(it, path) for it in files if os.path.exists(it))
        if not is_open:
            return False
        time.sleep(0.01)
    return True


class Losses(Case):
    """A store whose files are moved, removed or replaced while a server has it open."""

    def ends(self, server, client, store, told):
        """Fails unless a server whose store is lost ends, and serves nobody before."""
        time.sleep(0.2)
        client.send(b"STAT\r\n")
        client.ends()
        self.assertEqual(server.run.wait(REPLY), 1)
        why = f"why: {store}: {told} while the server had it open\n"
        said = self.errors().partition("popbox: ")[2]
        self.assertEqual(said, f"Store\n{why}")

    def test_a_lost_store_ends_its_server(self):
        """A server whose store is lost says so and ends; no client is answered, no file taken."""
        for told, lose in LOSSES:
            self.renew()
            store = f"{self.inner('store')}/mail.db"
            it = self.office("--verbose", "--store", store)
            log_in(client := self.client(it))
            lose(store)
            it.drop("orders.note.d1.eml", b"one\n")
            self.ends(it, client, store, told)
            self.assertEqual(os.listdir(it.spool), ["orders.note.d1.eml"])

    def test_a_lost_store_of_a_link_ends_its_server(self):
        """The log of a store that a link names lies beside the file, and is missed if it's lost."""
        store = f"{self.inner('store')}/mail.db"
        self.prints("replay", store=store)
        os.symlink(store, f"{self.folder}/mail.db")
        it = self.office("--verbose")
        log_in(client := self.client(it))
        os.remove(f"{store}-wal")
        self.ends(it, client, it.store, "its log was moved or removed")

    def test_a_lost_store_leaves_the_spool(self):
        """After a clock that was set back, a server misses its store as a file comes."""
        it = self.office(env=self.preload("clock"))
        for seconds in (1000, 0):
            self.set_on(seconds)
            time.sleep(1.5)
        os.remove(it.store)
        it.drop("orders.note.d1.eml", b"one\n")
        self.assertEqual(it.run.wait(REPLY), 1)
        self.assertEqual(os.listdir(it.spool), ["orders.note.d1.eml"])

    def test_a_look_at_the_store_that_fails_is_no_loss(self):
        """If the system refuses a look at the store, the server goes on."""
        it = self.office(env=self.preload("disk", FAILS="look *mail.db*"))
        log_in(client := self.client(it))
        put(f"{self.folder}/gate", "")
        # It looks each tenth of a second at most, and before each file.
        it.drop("orders.note.d1.eml", b"one\n")
        wait_for(lambda: it.run.poll() is not None or not os.listdir(it.spool), "the file stays")
        self.assertIsNone(it.run.poll())
        self.assertIn(f"refused {it.store}\n".encode(), read(f"{self.folder}/calls"))
        client.asks(b"STAT\r\n", b"+OK 0 0\r\n")

    def test_a_store_that_is_replaced_while_it_is_opened_ends_its_server(self):
        """A store that is replaced between the first look and the end of its opening is lost."""
        store, spool = f"{self.folder}/mail.db", self.inner("spool")
        body = b"x" * (1_000_000 // self.shorter)
        script = [b"deposit orders note d%d %s\n" % (k, body) for k in range(30)]
        self.prints("replay", given=b"maildrop add orders\n" + b"".join(script))
        shutil.copy(store, f"{store}.copy")
        words = [self.program, "serve", "--store", store, "--spool", spool, "--log", "--verbose"]
        words += ["--pop-port", "0", "--admin-port", "0"]
        run = subprocess.Popen(words, stdout=subprocess.DEVNULL, stderr=subprocess.PIPE)
        self.addCleanup(run.communicate)
        self.addCleanup(run.kill)
        # It has a first look at the file, and then its opening reads 30 MB.
        wait_for(lambda: stays_open(run.pid, store), "the store isn't opened")
        run.send_signal(signal.SIGSTOP)
        os.rename(f"{store}.copy", store)
        run.send_signal(signal.SIGCONT)
        said = run.communicate(timeout=REPLY)[1].decode()
        self.assertEqual(run.returncode, 1)
        why = f"why: {store}: its file was replaced while the server had it open\n"
        self.assertIn(f"popbox: Store\n{why}", said)


class Stores(Case):
    """A store's file and its log."""

    def test_a_long_log_of_the_store_is_copied_while_nobody_waits(self):
        """A long log is copied into the store's file without another write."""
        # SQLite copies a log of 1,000 pages of 4,096 octets before the next write: here is none.
        text = (b"z" * 78 + b"\r\n") * 52_500
        it = self.office()
        it.deposit("orders.note.d1.eml", text)
        wait_for(lambda: os.stat(it.store).st_size > len(text), "the log isn't copied")

    def leave_log(self):
        """A store with a log, as a killed server leaves it."""
        with self.office() as it:
            it.deposit("orders.note.d1.eml", b"one\n")

    def test_who_looks_at_a_store_changes_no_octet_of_it(self):
        """`check`, `export` and `review-policy` leave the store's files as they are."""
        self.leave_log()
        files = {name: read(f"{self.folder}/{name}") for name in ("mail.db", "mail.db-wal")}
        self.assertNotEqual(files["mail.db-wal"], b"")
        self.inner("out")
        put(f"{self.folder}/new.toml", POLICY)
        export = ["export", "--maildrop", "orders", "out"]
        for words in (["check"], export, ["review-policy", "new.toml"]):
            said = self.prints(*words)
            if words == ["check"]:
                size = b"size %d" % sum(map(len, files.values()))
                self.assertEqual(said.splitlines()[1], size)
            for name, octets in files.items():
                self.assertTrue(read(f"{self.folder}/{name}") == octets, (words, name))

    def test_a_store_of_a_link_is_read_with_its_log(self):
        """The log of a store that a link names lies beside the file, and is read with it."""
        self.leave_log()
        os.symlink(f"{self.folder}/mail.db", f"{self.folder}/link.db")
        said = [self.run_program("check", "--store", name) for name in ("mail.db", "link.db")]
        said = [(ran.returncode, ran.stdout, ran.stderr) for ran in said]
        self.assertEqual(said[1], said[0])

    def replay_more(self, env):
        """Does two deposits over a copy of the store; gives the copy's folder, how many deposits
        were answered, the exit status, what standard error has, and the calls that preload/disk.c
        noted."""
        inner = tempfile.mkdtemp(dir=self.folder)
        shutil.copy(f"{self.folder}/mail.db", inner)
        script = b"deposit orders note n1 one\ndeposit orders note n2 two\n"
        how = {"input": script, "env": {**env, "CALLS": f"{inner}/calls"}}
        ran = self.run_program("replay", "--store", f"{inner}/mail.db", **how)
        told = read(f"{inner}/calls").decode().splitlines()
        return inner, ran.stdout.count(b"answer new note."), ran.returncode, ran.stderr, told

    def test_a_store_has_what_was_answered_if_a_sync_fails(self):
        """Whichever sync fails, a deposit that was answered is in the store."""
        self.prints("replay", given=b"maildrop add orders\n")
        env = self.preload("disk")
        _, *said, told = self.replay_more(env)
        self.assertEqual(said, [2, 0, b""])
        answers = [k for k, it in enumerate(told) if it.startswith("write pipe:")]
        syncs = [k for k, it in enumerate(told) if it.startswith("sync ")]
        self.assertGreater(syncs[-1], answers[-1])
        # Those of the second deposit, and those of closing: that this fails is printed, and loses
        # nothing.
        for number, place in enumerate(syncs):
            if place < answers[0]:
                continue
            with self.subTest(sync=number):
                how = {"FAILS": "sync *", "AFTER": str(number)}
                inner, *said, _ = self.replay_more({**env, **how})
                answered = 1 + (place > answers[-1])
                self.assertEqual(said, [answered, 0, b"popbox: cannot close store\n"])
                found = re.search(rb"maildrop orders (\d+) ", self.checked(f"{inner}/mail.db"))
                self.assertGreaterEqual(int(found[1]), answered)

    def checked(self, store):
        """What `check` prints of a store, whose faults it may name."""
        ran = self.run_program("check", "--store", store)
        self.assertEqual(ran.stderr, b"")
        return ran.stdout
