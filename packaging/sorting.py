"""Which class a message gets, by the sorting that popbox-deliver(8) describes.

A header is cut into its fields here: Python's parser ends it at the first line that is no field,
and mail programs show the fields after that line. What a field says is read by Python's `email`.
"""

import contextlib
import functools
import os
import re
import signal
import tomllib
import unicodedata
from collections import namedtuple

# How many octets of a header and of one field are read.
MOST_HEADER, MOST_FIELD = 1_000_000, 100_000
# How many seconds of a processor a message may take.
SECONDS = 2
# Control characters but tab and line feed, Unicode's Default_Ignorable_Code_Point, and the marks of
# annotations.
INVISIBLE = re.compile(
    "[\0-\x08\x0b-\x1f\x7f-\x9f\xad\u034f\u061c\u115f\u1160\u17b4\u17b5\u180b-\u180f\u200b-\u200f"
    "\u202a-\u202e\u2060-\u206f\u3164\ufe00-\ufe0f\ufeff\uffa0\ufff0-\ufffb\U0001bca0-\U0001bca3"
    "\U0001d173-\U0001d17a\U000e0000-\U000e0fff]+"
)
ENCODED_WORD = re.compile(r"=\?[^?]*\?[bq]\?.*?\?=", re.I)
CHARSET = re.compile(r"=\?[^?]*(?=\?[bq]\?)", re.I)
# What programs show as a blank, as a mark, or not at all; and what is shown from its end.
AT_TIMES_SEEN = re.compile("[\t\n\u2028\u2029\ufffd]+")
BACKWARDS = re.compile("\u202e([^\u202c]*)")
# One address in angle brackets, with any name before it.
ONE_ADDRESS = re.compile(r'(?:"(?:[^"\\]|\\.)*"|[^"<>()\\])*(<[^<>"()\s,]+>)\s*')
ATTACHED = re.compile(
    rb"^content-(?:disposition|type)[ \t]*:(?:[^\n]|\n[ \t])*?(?:attachment|name[0-9*]*[ \t]*=)",
    re.I | re.M,
)

Rule = namedtuple("Rule", "name class_ conditions")


class Fault(Exception):
    """Why a message gets no class."""


class TooLong(BaseException):
    """The message took its time. No library's `except Exception` catches it."""


def is_name(text):
    return isinstance(text, str) and re.fullmatch("[a-z0-9-]{1,32}", text) is not None


def fold(text):
    """A text as texts are compared: by NFKC, without case and invisible characters, and with one
    space for blanks."""
    for _ in range(2):
        text = unicodedata.normalize("NFKC", INVISIBLE.sub("", text)).casefold()
    return " ".join(text.split())


# What messages have.


@functools.cache
def library():
    from email import errors, headerregistry  # Only a message with a header needs them.

    return headerregistry.HeaderRegistry(), errors.ObsoleteHeaderDefect


def decode_word(word):
    try:
        return str(library()[0]("subject", word))
    except Exception:
        return word


def decode(value):
    """A field's text, with what its encoded words say. The library fails on a text for one word
    that it can't read: then that word stays as it is."""
    if "=?" not in value:
        return value
    try:
        return str(library()[0]("subject", value))
    except Exception:
        value = re.sub(r"(?<=\?=)\s+(?==\?)", "", value)
        return ENCODED_WORD.sub(lambda word: decode_word(word[0]), value)


def read_addresses(value):
    """The addresses of a field. ValueError, unless it is as RFC 5322 has it, or one address in
    angle brackets stands after a name that isn't."""
    read, obsolete = library()
    alone = ONE_ADDRESS.fullmatch(value)
    for text in (value, alone[1]) if alone else (value,):
        field = read("from", text)
        if all(isinstance(it, obsolete) for it in field.defects):
            return [f"{it.username}@{it.domain}" for it in field.addresses if it.domain]
    raise ValueError


class Message:
    """What rules look at. `faults` says what of the header can't be read, as far as it was asked
    for; such a part fits no rule, and the others count."""

    def __init__(self, octets, recipient=""):
        self.octets, self.recipient, self.faults = octets, recipient, {}

    def fault(self, text, shown=""):
        self.faults.setdefault(text, f"{text}: {shown[:60]!r}" if shown else text)

    @functools.cached_property
    def fields(self):
        """By their names the fields, each the lines that it is folded into."""
        header = self.octets[: MOST_HEADER + 1]
        end = re.search(rb"(?:\A|\n)\r*\n", header)
        header = header[: end.start()] if end else header
        if len(header) > MOST_HEADER:
            self.fault(f"its header has more than {MOST_HEADER} octets")
        if b"\0" in header:
            self.fault("its header has a NUL")
        lines = [it.rstrip(b"\r") for it in header.split(b"\n")]
        if any(b"\r" in it for it in lines):
            # Some programs end a line there, and some don't: what either of them shows counts.
            self.fault("its header has a CR inside a line")
            lines += re.split(rb"[\r\n]+", header)
        return self.cut(lines)

    def cut(self, lines):
        fields, parts = {}, None
        for line in filter(None, lines):
            if line[:1] in b" \t" and parts:
                parts.append(line)
                continue
            name, colon, value = line.partition(b":")
            if not colon or not re.fullmatch(rb"[!-~]+[ \t]*", name):
                self.fault("its header has a line that is no field", line)
            parts = [value]
            if colon:
                name = re.sub(rb"[^!-~]+", b"", name).lower().decode()
                fields.setdefault(name, []).append(parts)
        return fields

    def values(self, name):
        """The fields of a name, unfolded; if octets aren't UTF-8, in each way that programs read
        them."""
        for parts in self.fields.get(name.lower(), []):
            value = b"".join(parts).strip()
            if len(value) > MOST_FIELD:
                self.fault(f"a field {name} has more than {MOST_FIELD} octets")
                value = value[:MOST_FIELD]
            try:
                yield value.decode()
            except UnicodeDecodeError:
                yield value.decode(errors="replace")
                yield value.decode("cp1252", "replace")

    def shown(self, name):
        """What programs may show of the fields of a name."""
        for value in self.values(name):
            text = decode(value)
            yield text
            if "=?" in value and "\ufffd" in text:
                self.fault(f"a field {name} has octets that aren't of its charset", value)
                yield decode(CHARSET.sub("=?windows-1252", value))
            yield AT_TIMES_SEEN.sub("", text)
            yield BACKWARDS.sub(lambda it: it[1][::-1], text)

    def texts(self, name):
        return list(dict.fromkeys(map(fold, self.shown(name))))

    def list_ids(self):
        return [it.rpartition("<")[2].removesuffix(">") for it in self.texts("list-id")]

    def addresses(self, *names):
        found = []
        for name in names:
            for value in self.values(name):
                try:
                    found += map(fold, read_addresses(value))
                except Exception:
                    self.fault(f"a field {name} can't be read", value)
        return found

    def has_attachment(self):
        return ATTACHED.search(self.octets) is not None


# What rules ask for.


class Condition:
    """A key of a rule: whether a message has a value that fits one of its texts."""

    def __init__(self, key, texts, header=None):
        self.key, self.header = key, header
        self.name = f"{key}.{header}" if header else key
        if key == "has-attachment":
            if not isinstance(texts, bool):
                raise Fault(f"{self.name} is neither true nor false")
            self.tests = [lambda value: value == texts]
            return
        texts = texts if isinstance(texts, list) else [texts]
        if not texts:
            raise Fault(f"{self.name} has no text")
        self.tests = [self.test_of(it) for it in texts]

    def test_of(self, text):
        """What says whether a value fits a text."""
        if not isinstance(text, str) or not fold(text):
            raise Fault(f"{self.name} has a text that is none or empty: {text!r}")
        if text.startswith("re:"):
            try:
                return re.compile(text[3:], re.I).search
            except (re.error, OverflowError, RecursionError) as error:
                raise Fault(f"{self.name}: {text!r} is no regular expression: {error}") from error
        text = fold(text)
        if self.key in ("subject", "header"):
            return lambda value: text in value
        if self.key == "to" and re.fullmatch(r"\+[^@]+", text):
            return lambda value: value.rpartition("@")[0].partition("+")[2] == text[1:]
        if self.key == "list-id":
            return lambda value: value == text.removeprefix("<").removesuffix(">")
        if not re.fullmatch(r"[^@]*@[^@]+", text):
            raise Fault(f"{self.name}: {text!r} is no address, and no domain after an @")
        if text.startswith("@"):
            return lambda value: value[value.rindex("@") :] == text
        return lambda value: value == text

    def values(self, message):
        """What a message has to fit the texts."""
        if self.key == "from":
            return message.addresses("from")
        if self.key == "to":
            envelope = [fold(message.recipient)] if "@" in message.recipient else []
            return envelope + message.addresses("to", "cc")
        if self.key == "list-id":
            return message.list_ids()
        if self.key == "has-attachment":
            return [message.has_attachment()]
        return message.texts(self.header or self.key)

    def holds(self, message):
        return any(test(it) for it in self.values(message) for test in self.tests)


def read_conditions(table):
    """The conditions of a rule."""
    for key, texts in table.items():
        if key in ("from", "to", "subject", "list-id", "has-attachment"):
            yield Condition(key, texts)
        elif key == "header" and isinstance(texts, dict):
            for name, wanted in texts.items():
                if not re.fullmatch("[!-9;-~]+", name):
                    raise Fault(f"header: {name!r} is no field's name")
                yield Condition(key, wanted, name)
        elif key != "class":
            raise Fault(f"unknown key {key}, or one of another kind")


def read_rule(name, table, is_last=False):
    """A rule of the file; the last one is [otherwise]."""
    try:
        if not isinstance(table, dict):
            raise Fault("is no table")
        class_ = table.get("class")
        if not is_name(class_):
            raise Fault("it has no class of 1 to 32 of a-z, 0-9 and -")
        if is_last:
            unknown = {*table} - {"class", "strict"}
            if unknown or not isinstance(table.get("strict", False), bool):
                raise Fault("it has other keys than class, and strict, which is true or false")
            return Rule(name, class_, [])
        conditions = list(read_conditions(table))
        if not conditions:
            raise Fault("it has no condition")
        return Rule(f"{name} ({class_})", class_, conditions)
    except Fault as fault:
        raise Fault(f"{name}: {fault}") from fault


@contextlib.contextmanager
def time_limit():
    """Raises TooLong after SECONDS of a processor, also in the midst of a regular expression."""

    def stop(*_):
        raise TooLong

    signal.signal(signal.SIGVTALRM, stop)
    signal.setitimer(signal.ITIMER_VIRTUAL, SECONDS)
    try:
        yield
    finally:
        signal.setitimer(signal.ITIMER_VIRTUAL, 0)


class Sorting:
    """The rules of a file, /etc/popbox/sorting.toml or $POPBOX_SORTING."""

    def __init__(self):
        self.path = os.environ.get("POPBOX_SORTING", "/etc/popbox/sorting.toml")
        try:
            with open(self.path, "rb") as file:
                self.read(tomllib.load(file))
        except OSError as error:
            raise Fault(f"{self.path}: {error.strerror}") from error
        except (Fault, ValueError, RecursionError) as error:
            raise Fault(f"{self.path}: {error}") from error

    def read(self, tables):
        unknown = {*tables} - {"sort", "otherwise"}
        if unknown:
            raise Fault(f"unknown: {', '.join(sorted(unknown))}")
        if "otherwise" not in tables:
            raise Fault("it has no [otherwise]")
        rules = tables.get("sort", [])
        if not isinstance(rules, list):
            raise Fault("sort is written [[sort]]")
        self.rules = [read_rule(f"rule {at}", it) for at, it in enumerate(rules, 1)]
        self.rules.append(read_rule("otherwise", tables["otherwise"], is_last=True))
        self.is_strict = tables["otherwise"].get("strict", False)

    def classes(self):
        """The classes that it can give, each once."""
        return list(dict.fromkeys(it.class_ for it in self.rules))

    def sort(self, message):
        """The rule that decides, and of each before it the first condition that doesn't hold."""
        passed, rule = [], self.rules[0]
        try:
            with time_limit():
                message.fields  # Its faults count even if no rule looks at a field.
                for rule in self.rules:
                    failing = next((it for it in rule.conditions if not it.holds(message)), None)
                    if failing is None:
                        break
                    passed.append((rule, failing))
        except TooLong:
            why = f"{rule.name}: the message takes more than {SECONDS} seconds"
            raise Fault(f"{self.path}: {why}") from None
        if self.is_strict and message.faults:
            why = next(iter(message.faults.values()))
            raise Fault(f"{self.path}: otherwise is strict, and {why}")
        return rule, passed
