"""popbox-deliver: a message that comes in. sorting.py has the class that it is given."""

import glob
import os
import re
import signal

from clients import wait_for, wants
from harness import LIMIT, ScriptCase, limit_files, read, write

# How many octets a message may have in its kept form.
LARGEST = 26_214_400
# The file for a message of the maildrop `orders` with the id n-1.
NOTE = "orders.note.n-1.eml"


class Deliver(ScriptCase):
    def setUp(self):
        super().setUp()
        self.words, rules = [self.spool, "orders", "n-1"], '[otherwise]\nclass = "note"\n'
        self.env = {"POPBOX_SORTING": write(f"{self.folder}/sorting.toml", rules)}

    def deliver(self, *words, said=b"Subject: a chair\n\nA chair.\n", env=None, **how):
        """What popbox-deliver gives, and what then lies in the spool."""
        env = {**self.env, **(env or {})}
        status, out, why = self.script("popbox-deliver", *words, said=said, env=env, **how)
        wants(out, "")
        # Each failure has its line, and nothing else has one.
        wants((status == 0, "popbox-deliver: " in why), (not why, status != 0))
        return status, sorted(os.listdir(self.spool))

    def begin_to_deliver(self, run, text):
        """Gives a script a part of a message, and waits until that lies in the spool."""
        run.stdin.write(text)
        run.stdin.flush()

        def is_there():
            wants(run.poll(), None)
            return [os.stat(it).st_size for it in glob.glob(f"{self.spool}/*")] == [len(text)]

        wait_for(is_there, "a part of the message isn't in the spool", LIMIT)

    def test_deliver_tells_each_failure(self):
        """Each failure has the status by which the mail system keeps or returns the message, and
        leaves nothing in the spool."""
        one, spool = b"x\n", self.spool
        for status, words, said in (
            (64, [spool, "orders"], one), (64, [spool, "orders", "n-1", "more"], one),
            (64, [spool, "orders", "n-1", "orders@office.test", "more"], one),
            (67, [spool, "Orders", "n-1"], one), (67, [spool, "", "n-1"], one),
            (67, [spool, "o" * 33, "n-1"], one), (67, [spool, "../orders", "n-1"], one),
            (65, [spool, "orders", ""], one), (65, [spool, "orders", "n.1"], one),
            (65, [spool, "orders", "n" * 65], one), (65, [spool, "orders", "n-1"], b""),
            (75, [f"{self.folder}/none", "orders", "n-1"], one),
        ):
            with self.subTest(words=words):
                wants(self.deliver(*words, said=said), (status, []))
        wants(self.deliver(*self.words, said=b"x" * 9000, preexec_fn=limit_files), (75, []))
        maildrop, name = "o9-z" * 8, "aZ-_" * 16
        wants(self.deliver(spool, maildrop, name), (0, [f"{maildrop}.note.{name}.eml"]))

    def test_deliver_takes_what_popbox_takes(self):
        """A message of more octets than popbox keeps is refused: each line of the kept form ends
        with CRLF, the last one too, and a CR within a line ends nothing."""
        for text, status in (
            (b"\r\n" + b"x" * (LARGEST - 4) + b"\r\n", 0), (b"\r\n" + b"x" * (LARGEST - 4), 0),
            (b"\r\n" + b"x" * (LARGEST - 3), 65), (b"\n" * (LARGEST // 2), 0),
            (b"\n" * (LARGEST // 2 + 1), 65), (b"x\rx\n" * (LARGEST // 5), 0),
            (b"x\rx\n" * (LARGEST // 5 + 1), 65),
        ):
            with self.subTest(octets=len(text), end=text[-3:]):
                there = [] if status else [NOTE]
                wants(self.deliver(*self.words, said=text), (status, there))
                for name in there:
                    os.remove(f"{self.spool}/{name}")

    def test_a_message_has_its_name_once_it_is_whole(self):
        """The file has its name only when it is whole. A message that waits already is left as it
        is: the same is taken, and another one isn't."""
        text = b"Subject: a chair\n" + b"x" * 200_000
        with self.begin("popbox-deliver", *self.words, env=self.env) as run:
            self.begin_to_deliver(run, text)
            wants([it for it in os.listdir(self.spool) if it.endswith(".eml")], [])
            wants(run.communicate(b"the end\n", timeout=LIMIT), (b"", b""))
            wants(run.returncode, 0)
        wants(os.listdir(self.spool), [NOTE])
        file = f"{self.spool}/{NOTE}"
        wants(read(file) == text + b"the end\n", True)
        wants(os.stat(file).st_mode & 0o777, 0o640)
        wants(self.deliver(*self.words, said=text + b"the end\n"), (0, [NOTE]))
        wants(self.deliver(*self.words, said=b"another\n"), (75, [NOTE]))
        wants(os.stat(file).st_size, len(text) + 8)

    def test_deliver_leaves_nothing_where_it_is_ended(self):
        """If a signal ends it, the mail system keeps the message, and the spool has nothing."""
        for number in (signal.SIGTERM, signal.SIGHUP, signal.SIGINT):
            with self.begin("popbox-deliver", *self.words, env=self.env) as run:
                self.begin_to_deliver(run, b"Subject: a chair\n")
                run.send_signal(number)
                run.communicate(timeout=LIMIT)
                wants((run.returncode, os.listdir(self.spool)), (75, []))

    def test_what_is_delivered_is_on_the_disk(self):
        """The text is on the disk before it gets its name, and the name before the end."""
        env, text = self.note_calls(), b"Subject: a chair\n" + b"x" * 300_000
        wants(self.deliver(*self.words, said=text, env=env), (0, [NOTE]))
        calls = [it.replace(f"{self.spool}/tmp.", "tmp.") for it in self.calls()]
        calls = [it for it in calls if " tmp." in it or self.spool in it]
        calls = [re.sub(r"tmp\.\w+", "tmp", it) for it in calls]
        wants(len(calls) > 3 and {*calls[:-3]}, {"write tmp"})
        wants(calls[-3:], ["sync tmp", "rename tmp", f"sync {self.spool}"])

    def test_deliver_takes_nothing_that_the_disk_refuses(self):
        """If the disk refuses a sync or the name, the mail system keeps the message."""
        env = self.note_calls()
        for fails, left in (("sync */tmp.*", []), ("rename */tmp.*", []), ("sync */spool", [NOTE])):
            env["FAILS"] = fails
            wants((fails, self.deliver(*self.words, env=env)), (fails, (75, left)))
        del env["FAILS"]
        wants(self.deliver(*self.words, env=env), (0, [NOTE]))
