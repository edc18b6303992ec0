"""from-maildir, from-mbox, put-in and import-maildir: old mail that comes in."""

import os
import re

from clients import wants
from harness import ScriptCase, read, read_text, write

# The moment of the first of a Maildir's messages.
AT = 1_700_000_000
# What `list` and the administration print of them, in their order.
BY_AGE = ["note.1 60", "note.2 61", "invoice.1 62", "note.3 63", "invoice.2 64", "note.4 65"]
BY_AGE += ["invoice.3 66"]
ENDED = "import-maildir: popbox replay ended with status 1: run this once more\n"


def write_message(path, class_, octets):
    """A message of a class that has so many octets when each line ends with CRLF."""
    os.makedirs(os.path.dirname(path), exist_ok=True)
    text = f"Subject: {class_}\n\n"
    write(path, text + "x" * (octets - len(text) - 4) + "\n")


def make_maildir(box):
    """A Maildir of seven messages, each an octet longer than the one that is older."""
    names = [
        ("cur", f"{AT - 1_000_000_000}.1.h:2,S", "note"), ("new", f"{AT}.M9P7.h", "note"),
        ("cur", f"{AT}.M10P7.h:2,RS", "invoice"), ("new", f"{AT}.M10P7Q9.h", "note"),
        ("cur", f"{AT}.M10P7Q10.h:2,", "invoice"), ("cur", "a name without a second", "note"),
        ("new", f"{AT + 2}.M1P7.h,S=60", "invoice"),
    ]
    for number, (folder, name, class_) in enumerate(names):
        write_message(f"{box}/{folder}/{name}", class_, 60 + number)
    os.utime(f"{box}/cur/{names[5][1]}", (AT + 1, AT + 1))
    # None of these is a message.
    write_message(f"{box}/tmp/{AT}.M2P7.h", "note", 60)
    write_message(f"{box}/cur/.hidden", "note", 60)
    os.symlink("/etc/passwd", f"{box}/new/{AT}.M3P7.h")


SORTING = """[[sort]]
class = "invoice"
subject = "re:^invoice"

[otherwise]
class = "note"
"""


class MovingCase(ScriptCase):
    """A case with copies of the scripts, of which put-in calls the popbox-deliver beside it."""

    def setUp(self):
        super().setUp()
        self.box, self.scripts = f"{self.folder}/Maildir", f"{self.folder}/scripts"
        os.mkdir(self.scripts)
        names = ["from-maildir", "from-mbox", "put-in", "import-maildir", "popbox-deliver"]
        for name in (*names, "sorting.py"):
            text = read_text(f"{self.packaging}/{name}")
            script = write(f"{self.scripts}/{name}", text.replace("/usr/lib/popbox", self.scripts))
            os.chmod(script, 0o755)
        self.env = {"POPBOX_SORTING": write(f"{self.folder}/sorting.toml", SORTING)}

    def put(self, server, name, *words):
        """What a script gives, the lines of `orders` then, and what lies in the spool."""
        env = {**self.env, "POPBOX_ADMIN_PORT": str(server.admin)}
        ran = self.script(f"{self.scripts}/{name}", *words, self.spool, env=env)
        lines = server.administer("GET", "/maildrops/orders").splitlines()
        return ran, lines, os.listdir(self.spool)

    def take_in(self, *words, program=None):
        """What import-maildir gives."""
        where = ["--store", self.store, "--program", program or self.program]
        return self.script(f"{self.scripts}/import-maildir", *where, *words, env=self.env)

    def listed(self, maildrop):
        """Each message of a maildrop of a store that no server has open."""
        _, told, _ = self.popbox("replay", "--store", self.store, said=f"list {maildrop}\n")
        return [it.removeprefix("answer ") for it in told.splitlines() if it != "answer"]


class OneByOne(MovingCase):
    """The scripts that hand messages to a server that runs."""

    def test_a_maildir_comes_in_by_age(self):
        """from-maildir puts in the oldest first, each once, if its flags change too; and
        import-maildir knows what it put in."""
        make_maildir(self.box)
        with self.office() as server:
            words = ["from-maildir", self.box, "orders"]
            wants(self.put(server, *words), ((0, "", ""), BY_AGE, []))
            os.rename(f"{self.box}/new/{AT}.M9P7.h", f"{self.box}/cur/{AT}.M9P7.h:2,S")
            wants(self.put(server, *words), ((0, "", ""), BY_AGE, []))
            write_message(f"{self.box}/new/{AT + 3}.M1P7.h", "note", 67)
            wanted = [*BY_AGE, "note.5 67"]
            wants(self.put(server, *words), ((0, "", ""), wanted, []))
        write_message(f"{self.box}/new/{AT + 4}.M1P7.h", "note", 68)
        wants(self.take_in("orders", self.box), (0, "orders: 1 new, 8 known, 0 left\n", ""))
        wants(self.listed("orders"), [*wanted, "note.6 68"])

    def test_what_is_no_maildir_or_mbox_is_refused(self):
        """A folder that is no Maildir and a file that can't be read are named."""
        box, usage = f"{self.folder}/box", "usage: {} {} MAILDROP [SPOOL]"
        os.makedirs(f"{box}/new")
        for name, words, status, told in (
            ("from-maildir", ["/no", "orders"], 1, "/no is no Maildir: it has no folder new"),
            ("from-maildir", [box, "orders"], 1, f"{box} is no Maildir: it has no folder cur"),
            ("from-maildir", [box], 64, usage.format("from-maildir", "MAILDIR")),
            ("from-mbox", ["/nosuch", "orders"], 1, "/nosuch can't be read"),
            ("from-mbox", [box, "orders"], 1, f"{box} can't be read"),
            ("from-mbox", [], 64, usage.format("from-mbox", "MBOX")),
        ):
            with self.subTest(name=name, words=words):
                found = self.script(f"{self.scripts}/{name}", *words)
                wants(found, (status, "", f"{name}: {told}\n"))

    def test_an_mbox_comes_in_in_its_order(self):
        """from-mbox puts in each message once, in the file's order, without the `>` before From;
        a file whose lines end with CRLF is cut at the same places."""
        first = "Subject: a chair\n\n>From here.\nFrom there, and:\n>>From afar.\n"
        second, third = "Subject: invoice\n\nOne.\n\nTwo.\n", "Subject: a desk\n\nA desk.\n"
        front = "From ann Thu Nov 26 09:15:02 2026\n"
        box = "".join(f"{front}{text}\n" for text in (first, second, third, third))
        texts = [first.replace("\n>", "\n"), second, third, third]
        octets = [len(it.replace("\n", "\r\n")) for it in texts]
        names = ("note.1", "invoice.1", "note.2", "note.3")
        wanted = [f"{name} {count}" for name, count in zip(names, octets)]
        with self.office() as server:
            words = ["from-mbox", write(f"{self.folder}/box", box), "orders"]
            for _ in range(2):
                wants(self.put(server, *words), ((0, "", ""), wanted, []))
            # Its texts are other ones then.
            write(words[1], box.replace("\n", "\r\n"))
            names = ("note.4", "invoice.2", "note.5", "note.6")
            wanted += [f"{name} {count}" for name, count in zip(names, octets)]
            wants(self.put(server, *words), ((0, "", ""), wanted, []))
            told = "from-mbox: it has no line `From ` at its front\n"
            words[1] = f"{self.scripts}/put-in"
            wants(self.put(server, *words), ((1, "", told), wanted, []))
            wants(self.put(server, "from-mbox", f"{self.folder}/box", "Orders")[0][0], 67)

    def test_put_in_tells_what_became_of_a_message(self):
        """put-in ends when the server has taken its message, and says if that was put aside, or
        isn't taken within a minute."""
        file, aside = f"{self.folder}/message", "orders.note.n-1.eml.bad"
        words = ["put-in", file, "orders", "n-1"]
        with self.office() as server:
            write_message(file, "note", 60)
            for _ in range(2):
                wants(self.put(server, *words), ((0, "", ""), ["note.1 60"], []))
            write_message(file, "note", 61)
            told = f"put-in: popbox put {self.spool}/{aside}{{}} aside\n"
            wants(self.put(server, *words), ((1, "", told.format("")), ["note.1 60"], [aside]))
            ran, _, spool = self.put(server, *words)
            wants((ran, sorted(spool)), ((1, "", told.format(".2")), [aside, f"{aside}.2"]))
            wants(self.put(server, "put-in", file, "Orders", "n-1")[0][0], 67)
            # A minute without the maildrop, none of which is slept.
            for name in ("sleep", "curl"):
                self.stand_in(name, "exit 0")
            left = f"{self.spool}/nowhere.note.n-1.eml"
            ran, _, spool = self.put(server, "put-in", file, "nowhere", "n-1")
            wants(ran, (75, "", f"put-in: popbox doesn't take {left}\n"))
            wants(os.path.basename(left) in spool, True)


class Import(MovingCase):
    """import-maildir, which writes into a store that no server has open."""

    def stops(self, count=3):
        """A program that does only so many events of a script of more than one, and fails."""
        script = f"{self.folder}/script"
        return self.command("stops", f"""cat >{script}
head -n {count} {script} | {self.program} "$@"
[ "$(wc -l <{script})" = 1 ]""")

    def test_maildirs_come_in_at_once(self):
        """Several Maildirs come in by one call, in batches; with --add their maildrops are made,
        and without it nothing is put in if one doesn't exist; what is there already is known."""
        self.make_store([])
        make_maildir(self.box)
        other, runs = f"{self.folder}/other", f"{self.folder}/runs"
        counts = self.command("counts", f'printf x >>{runs}\nexec {self.program} "$@"')
        for folder in ("new", "cur"):
            os.makedirs(f"{other}/{folder}")
        write_message(f"{other}/cur/{AT}.M9P7.h:2,S", "note", 70)
        words = ["orders", self.box, "sales", other]
        held = lambda: (self.listed("orders"), self.listed("sales"))
        status, _, why = self.take_in(*words)
        wants((status, "import-maildir: the store has no maildrop sales" in why), (1, True))
        wants(self.listed("orders"), [])
        # Of 100 octets no batch has two messages; of 400 one has two; by default all are one.
        # Before them the maildrops are asked for.
        told = "orders: 7 new, 0 known, 0 left\nsales: 1 new, 0 known, 0 left\n"
        for batch, most in (("100", {9}), ("400", {*range(3, 9)}), (None, {2})):
            with self.subTest(batch=batch):
                os.remove(self.store)
                self.make_store([])
                more = ["--batch", batch] if batch else []
                wants(self.take_in("--add", *more, *words, program=counts), (0, told, ""))
                wants(len(read(runs)) in most, True)
                os.remove(runs)
                wants(held(), (BY_AGE, ["note.1 70"]))
        told = "orders: 0 new, 7 known, 0 left\nsales: 0 new, 1 known, 0 left\n"
        wants(self.take_in("--add", *words), (0, told, ""))
        wants(held(), (BY_AGE, ["note.1 70"]))
        wants(self.take_in("--class", "old", "--add", "more", other)[0], 0)
        wants(self.listed("more"), ["old.1 70"])

    def test_an_import_keeps_each_octet(self):
        """What comes in is exported with the same octets; a line end of LF, or none at the end, is
        kept as CRLF."""
        self.make_store([])
        texts = [
            b"Subject: a\r\n\r\n\\n \\r \\\\ \\x41 and bare\rCR\r\n",
            b"Subject: b\r\n\r\n" + bytes(range(1, 10)) + bytes(range(14, 256)) + b"\0 NUL \0\r\n",
            b"\r\n .\r\n..\r\n\t\r\n",
            b"x" * 100_000 + b"\r\n",
            b"its end is a bare CR\r\r\n",
        ]
        for folder in ("new", "cur", "../out"):
            os.makedirs(f"{self.box}/{folder}")
        files = [texts[0], texts[1].replace(b"\r\n", b"\n"), texts[2], texts[3][:-2], texts[4][:-2]]
        for number, text in enumerate(files):
            write(f"{self.box}/new/{AT + number}.M1P7.h", text)
        wants(self.take_in("orders", self.box), (0, "orders: 5 new, 0 known, 0 left\n", ""))
        out = f"{self.folder}/out"
        self.popbox("export", "--store", self.store, "--maildrop", "orders", out)
        wants([read(f"{out}/note.{number}.eml") for number in range(1, 6)], texts)

    def test_an_import_says_what_is_left(self):
        """An import that ends early goes on with the next call. What popbox doesn't take is named,
        and left; so is a file whose id another text has."""
        self.make_store([])
        make_maildir(self.box)
        first, empty = f"{AT}.M9P7.h", write(f"{self.box}/cur/{AT + 5}.M1P7.h:2,S", "")
        # A popbox that is ended once it has put in the first three, and the run that goes on.
        found = self.take_in("orders", self.box, program=self.stops())
        wants(found, (1, "orders: 3 new, 0 known, 0 left\n", ENDED))
        wants(self.listed("orders"), BY_AGE[:3])
        told = f"import-maildir: {empty}: empty text\n"
        for new, known in ((4, 3), (0, 7)):
            found = self.take_in("orders", self.box)
            wants(found, (1, f"orders: {new} new, {known} known, 1 left\n", told))
        os.remove(empty)
        # The same name with another text.
        write_message(f"{self.box}/new/{first}", "note", 99)
        told = f"import-maildir: {self.box}/new/{first}: conflict: another text, "
        told += "or of a class of which nothing is here\n"
        left = "orders: 0 new, 6 known, 1 left\n"
        wants(self.take_in("orders", self.box), (1, left, told))
        # A popbox that fails once it has answered each of them.
        found = self.take_in("orders", self.box, program=self.stops(99))
        wants(found, (1, left, told + ENDED))
        wants(self.listed("orders"), BY_AGE)
        # A name with a line feed; and a message that the sorting keeps back.
        os.remove(f"{self.box}/new/{first}")
        name = f"{self.box}/new/{AT}\n.M9P7.h"
        write_message(name, "no\0te", 60)
        write(f"{self.folder}/sorting.toml", SORTING + "strict = true\n")
        why = f"{self.folder}/sorting.toml: otherwise is strict, and its header has a NUL"
        told = f"import-maildir: {self.box}/new/{AT}\\n.M9P7.h: {why}\n"
        wants(self.take_in("orders", self.box), (1, left, told))
        wants(self.listed("orders"), BY_AGE)
        write(f"{self.folder}/sorting.toml", SORTING)
        left = "orders: 1 new, 6 known, 0 left\n"
        wants(self.take_in("orders", self.box), (0, left, ""))
        wants(self.listed("orders"), [*BY_AGE, "note.5 60"])

    def test_an_import_says_which_class_a_message_has_by_now(self):
        """If the same messages come once more under another class, each is left, and the import
        says what it is in the store; the store stays as it is."""
        self.make_store([])
        make_maildir(self.box)
        wants(self.take_in("orders", self.box)[0], 0)
        status, said, why = self.take_in("--class", "invoice", "orders", self.box)
        wants((status, said), (1, "orders: 0 new, 3 known, 4 left\n"))
        form = r": conflict: it is (\S+), and would be of the class invoice\n"
        wants(re.findall(form, why), ["note.1", "note.2", "note.3", "note.4"])
        wants(self.listed("orders"), BY_AGE)

    def test_an_import_refuses(self):
        """No store is made; one that a server has open, what is no Maildir, and a wrong command
        line change nothing."""
        make_maildir(self.box)
        told = f"import-maildir: no store {self.store}\n"
        wants(self.take_in("orders", self.box)[::2], (1, told))
        wants(os.path.exists(self.store), False)
        with self.office():
            status, said, why = self.take_in("orders", self.box)
            wants((status, said), (1, "orders: 0 new, 0 known, 0 left\n"))
            wants("another process has it open" in why, True)
        told = "import-maildir: /nosuch is no Maildir: new: No such file or directory\n"
        wants(self.take_in("orders", self.box, "sales", "/nosuch")[::2], (1, told))
        wants(self.listed("orders"), [])
        for words in ([], ["orders"], ["Orders", self.box], ["--class", "x.y", "orders", self.box]):
            status, said, _ = self.take_in(*words)
            wants((words, status, said), (words, 2, ""))
        wants(self.script(f"{self.scripts}/import-maildir", "--help")[::2], (0, ""))
        told = f"{write(f'{self.folder}/sorting.toml', '')}: it has no [otherwise]\n"
        wants(self.take_in("orders", self.box), (1, "", f"import-maildir: {told}"))
