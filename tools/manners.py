"""What the tools share: how they are asked, read a file, refuse and end.

A tool ends with 0 and its result on the output, with 2 and a plain sentence on the error stream (file, line, what is wrong) and nothing on the
output, or with 1 as its own first lines say. None ends in a traceback.
"""
import itertools
import os
import re
import signal
import sys

MOST = 64 * 1024 * 1024     # bytes: what keeps the limits of document 01 takes a tenth of this
MANY = 10 ** 11             # stands for every number of 12 digits or more


class Usage(Exception):
    """A tool was asked in a way that it does not know."""


class Refused(Exception):
    """Why an input is refused, with its file and line; the status that says so."""

    def __init__(self, path, line, why, status=2):
        super().__init__(f"{named(path)}{f', line {line}' if line else ''}: {why}")
        self.status = status


def named(path):
    return "standard input" if path == "-" else path or "''"


def shown(text, most=40):
    """A word as a message shows it: no longer than a glance, and nothing in it that a terminal would act on."""
    plain = "".join(c if c.isprintable() else "?" for c in text[:most])
    return plain + ".." * (len(text) > most)


def count(n, what):
    return f"{n:,} {what}{'s' * (n != 1)}"


def there_are(n, what):
    return f"there {'is' if n == 1 else 'are'} {count(n, what)}"


def number(text):
    """The whole number that a text is, or None; a number of many digits is only known to be large."""
    if not (text.isascii() and text.isdigit()):
        return None
    digits = text.lstrip("0")
    return int(digits or "0") if len(digits) < 12 else MANY


def seconds_of_midnight(text):
    """The value of the option --midnight."""
    value = number(text)
    if value is None or value > 1_000_000:
        raise Usage(f"--midnight: {shown(text)} is no number of seconds from 0 to 1,000,000")
    return value


def arguments(words, readers):
    """What a tool is asked: its options by their names, and its files. `readers` has, for each option, what reads its value."""
    given, files, rest = {}, [], iter(words)
    for word in rest:
        name, equals, value = word.partition("=")
        if word == "--":
            files += rest
        elif name in readers:
            value = value if equals else next(rest, None)
            if value is None:
                raise Usage(f"{name}: its value is not given")
            if name in given:
                raise Usage(f"{name} is given twice, and may be given once")
            given[name] = readers[name](value)
        elif word.startswith("-") and word != "-":
            raise Usage(f"{shown(word)} is no option")
        else:
            files.append(word)
    if len(files) != 1:
        raise Usage(f"one file is asked for, and {len(files) or 'none'} {'are' if len(files) > 1 else 'is'} given")
    return given, files[0]


def lines(path):
    """The lines of a text file, `-` for standard input."""
    try:
        with open(0 if path == "-" else path, "rb", closefd=path != "-") as file:
            data = file.read(MOST + 1)
    except IsADirectoryError:
        raise Refused(path, None, "is a directory, not a file")
    except OSError as why:
        raise Refused(path, None, f"cannot be read: {why.strerror}")
    if len(data) > MOST:
        raise Refused(path, None, f"is longer than {MOST:,} bytes, which nothing within the limits is")
    try:
        text = data.decode("utf-8")
    except UnicodeDecodeError as why:
        before = why.object[:why.start].replace(b"\r\n", b"\n").replace(b"\r", b"\n")
        raise Refused(path, before.count(b"\n") + 1, "a byte that belongs to no text in UTF-8")
    return re.split("\r\n|\r|\n", text)


def outcome(about, tool, words):
    """The status of a run, what it puts on the output and what on the error stream. `about` is the tool's own text; its second part says how it
    is called. A tool gives a status and the text of its output."""
    usage = "usage:\n" + about.split("\n\n")[1].rstrip() + "\n"
    if not words:
        return 2, "", usage
    if any(word in ("-h", "--help") for word in itertools.takewhile(lambda word: word != "--", words)):
        return 0, about.strip() + "\n", ""
    try:
        return *tool(words), ""
    except Usage as why:
        return 2, "", f"{why}\n{usage}"
    except Refused as why:
        return why.status, "", f"{why}\n"


def put(stream, text):
    left = text.encode("utf-8", "surrogateescape")
    while left:
        left = left[os.write(stream, left):]


def run(about, tool):
    """Runs a tool as a command."""
    signal.signal(signal.SIGINT, signal.SIG_DFL)
    signal.signal(signal.SIGPIPE, signal.SIG_DFL)       # who closes a pipe wants no more: the tool ends without a word
    status, out, err = outcome(about, tool, sys.argv[1:])
    try:
        put(1, out)
    except OSError as why:
        status, err = 2, f"the output cannot be written: {why.strerror}\n"
    try:
        put(2, err)
    except OSError:
        pass                                            # nobody is there to be told
    os._exit(status)
