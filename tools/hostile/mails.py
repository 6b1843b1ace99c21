"""What colfind-mail does with mails of someone who means it ill: costly ones, and mails that are changed at random.

    python3 mails.py [--seed N] [--mails N] [--kilobytes N] [costly|changed]

Each mail is read in a process of its own, forked from one that has the script, with a limit of processor time and of memory. A costly mail
is read in a quarter of its size too: four times as much may take eight times as long, and a hundred times its bytes of memory. Of each
mail it is looked at what is printed: lines without a control, one for each match, with that match marked in it; of its ids each once; what
is complained of is lines without a control and no traceback; the status is 0, 1 or 2. A line that begins with `wrong` is an answer that
is not such a one."""

import argparse
import collections
import os
import random
import re
import resource
import sys
import tempfile
import unicodedata

HERE = os.path.dirname(os.path.abspath(__file__))
sys.path.insert(0, os.path.join(HERE, "..", "..", "integrations"))
import mail_forms
from script_tests import LETTERS, as_module, installed

MEGABYTE = 1 << 20
MOST_SECONDS, MOST_RATIO, MOST_MEMORY = 60, 8, 100  # of a megabyte; beside a quarter; bytes for each of a mail, and
OWN_MEMORY = 24 * MEGABYTE  # besides
LAST_SECONDS = 0.2  # of which no ratio is taken
HIDING = set(range(0x2066, 0x2070)) | set(range(0x202A, 0x202F)) | set(range(0xE0000, 0xE0080)) | {
    0x061C, 0x200E, 0x200F, 0xFEFF, 0xFFF9, 0xFFFA, 0xFFFB}
Answer = collections.namedtuple("Answer", "status printed complained matches seconds memory")


class Reader:
    """Reads mails with the script, which searches by the table of the documents."""

    def __init__(self, folder, script):
        self.folder, self.script = folder, as_module(script)
        self.script.show.NAME = "colfind-mail"
        os.environ["COLFIND_TABLE"] = LETTERS
        os.environ.pop("COLFIND_TAILOR", None)
        for name in "cur", "new", "tmp":
            os.makedirs(os.path.join(folder, "dir", name))
        self.script.Mail.matches = counted(self.script.Mail.matches)

    def read(self, name, mail, words, seconds):
        """What comes of a mail, which is the only one of a Maildir, or an mbox."""
        path = os.path.join(self.folder, "box" if name == "mbox" else "dir/cur/1")
        with open(path, "wb") as out:
            out.write(b"From a\n" + mail if name == "mbox" else mail)
        streams = [os.path.join(self.folder, stream) for stream in ("printed", "complained", "matches")]
        own = pages()[1]  # which the forked process has too
        child = os.fork()
        if not child:
            self.run([*words, os.path.join(self.folder, "box" if name == "mbox" else "dir")], streams, seconds, len(mail))
        _, status, usage = os.wait4(child, 0)
        contents = []
        for stream in streams:
            with open(stream, "rb") as file:
                contents.append(file.read())
        used = usage.ru_utime + usage.ru_stime
        return Answer(os.waitstatus_to_exitcode(status), *contents[:2], len(contents[2]), used, usage.ru_maxrss * 1024 - own)

    def run(self, words, streams, seconds, size):
        """The command, in the forked process."""
        status = 99
        try:
            for number, stream in enumerate(streams, 1):
                os.dup2(os.open(stream, os.O_WRONLY | os.O_CREAT | os.O_TRUNC), number if number < 3 else 9)
            memory = pages()[0] + OWN_MEMORY + 2 * MOST_MEMORY * size
            resource.setrlimit(resource.RLIMIT_CPU, (seconds, seconds))
            resource.setrlimit(resource.RLIMIT_AS, (memory, memory))
            sys.argv = ["colfind-mail", *words]
            self.script.show.run(self.script.main)
        finally:
            os._exit(status)


def pages():
    """The bytes of this process that are mapped, and those that are resident."""
    with open("/proc/self/statm", encoding="ascii") as sizes:
        return [int(size) * resource.getpagesize() for size in sizes.read().split()[:2]]


def counted(own):
    """The matches of a mail, for each of which a byte is written to a file."""
    def matches(mail):
        count = 0
        try:
            for match in own(mail):
                count += 1
                yield match
        finally:
            os.write(9, b"." * count)
    return matches


def is_plain(character):
    return character in "\t\n" or unicodedata.category(character) not in ("Cc", "Zl", "Zp", "Cs") and ord(character) not in HIDING


def faults(answer, words, is_match):
    """What is wrong with an answer."""
    if answer.status not in (0, 1, 2):
        yield f"status {answer.status}"
    if b"Traceback" in answer.complained:
        yield "a traceback"
    for stream in answer.printed, answer.complained:
        try:
            if not all(map(is_plain, set(stream.decode()))):
                yield "a control"
        except UnicodeDecodeError:
            yield "no UTF-8"
    if not all(line.startswith(b"colfind-mail: ") for line in answer.complained.splitlines()):
        yield "a complaint that is no line"
    lines = answer.printed.decode(errors="replace").split("\n")[:-1]
    if "-l" in words:
        if len(lines) > 1 or "\t" in answer.printed.decode(errors="replace"):
            yield "an id that is no line"
    elif "--mutt" in words:
        if len(lines) != 1:
            yield "commands that are no line"
    elif len(lines) != answer.matches:
        yield f"{len(lines)} lines of {answer.matches} matches"
    elif not all(line.count("\t") == 4 and is_match(line.split("\t")[3]) for line in lines):
        yield "a line without its match"


class Tries:
    """Mails that are read, and what is wrong of them."""

    def __init__(self, reader):
        self.reader, self.wrong, self.most = reader, 0, [0, 0]
        script = reader.script
        with open(LETTERS, "rb") as table:
            self.pattern = script.colfind.Pattern(script.colfind.Table(table.read()), "e", 1)

    def is_match(self, text):
        """A marked part is a match, or its front, of which the end is left out."""
        return any(self.pattern.index(part.encode()) for part in re.findall(r"\[(.*?)\]", text))

    def complain(self, name, mail, words):
        self.wrong += 1
        print(f"wrong: {name}: {words}: {mail[:3000]!r}", flush=True)

    def look(self, name, mail, answer, words):
        for fault in faults(answer, words, self.is_match):
            self.complain(name, mail, f"{fault}, {answer.printed[-200:]}, {answer.complained[-200:]}")
        self.most = [*map(max, self.most, (answer.seconds, answer.memory))]

    def costly(self, size, forms):
        """Each form of a mail in two sizes: the greatest number of bytes of memory for each of a mail."""
        highest = 0
        for name, form in forms.items():
            answers = []
            for mail in form(size // 4), form(size):
                answers.append(self.reader.read("dir", mail, ["e"], 1 + MOST_SECONDS * size // MEGABYTE))
                self.look(name, mail, answers[-1], ["e"])
            few, many = (answer.seconds for answer in answers)
            if many > max(LAST_SECONDS, MOST_RATIO * few):
                self.complain(name, b"", f"{few:.2f} and {many:.2f} seconds")
            if answers[1].memory > OWN_MEMORY + MOST_MEMORY * len(mail):
                self.complain(name, b"", f"{answers[1].memory / len(mail):.0f} times its bytes of memory")
            highest = max(highest, (answers[1].memory - OWN_MEMORY) / len(mail))
        return highest

    def changed(self, seed, count):
        """Mails that are changed at random, read with other words in turn."""
        choice, statuses = random.Random(seed), collections.Counter()
        mails = originals()
        for number in range(count):
            mail = changed(choice, mails)
            words = choice.choice((["e"], ["e"], ["e"], ["-l", "e"], ["--mutt", "e"], ["--strength", "3", "e"]))
            answer = self.reader.read(choice.choice(("mbox", "dir")), mail, words, 10)
            statuses[answer.status] += 1
            self.look(f"mail {number} of seed {seed}", mail, answer, words)
        return statuses


# ---- mails that are changed

TOKENS = [token.encode("utf-8", "surrogatepass") for token in (
    "\x1b", "\x1b]0;e\x07", "\x1bc", "\t", "\n", "\r", "\r\n", "\n\n", "\n ", "\n\t", "\0", "\v", "\f", "\x7f", "\x85", "\x9b", "\u2028",
    "\u2029", "\u202e", "\u2066", "\u061c", "\ufeff", "\ufff9", "\U000e0041", "\ud800", "e", "\u00e9", "e\u0301", "]", "[",
    "=?", "?=", "=?utf-8?q?", "=?utf-8?q?=1B=09=0A?=", "=?utf-7?q?+2AA-+ABs-?=", "=?latin1?b?m4U=?=", "=?punycode?q?e-?=", "=1B", "=0A",
    "=C2=9B", "=\n", "%1B", "%0A", "*=utf-8''%1B%0A%E2%80%AE", "*0*=", "*1=", ";", "\"", "\\", "=", "--", "--b", "--b--", "--c\n",
    "boundary=b", "boundary=c", "; charset=", "utf-7", "utf-16", "iso-2022-jp", "hz-gb-2312", "gb18030", "punycode", "unicode_escape",
    "zip", "base64", "quoted-printable", "x-uuencode", "multipart/mixed", "multipart/alternative", "multipart/digest", "message/rfc822",
    "message/delivery-status", "text/html", "image/png", "attachment; filename=", "Subject: ", "Message-ID: <", "Content-Type: ",
    "Content-Disposition: ", "Content-Transfer-Encoding: ", "Date: ", "From ", ">From ", "begin 644 e\n", "&#27;", "&#x9b;", "&#8238;",
    "&#", "&#99999999999;", "<", ">", "<a b='", "<!--", "-->", "<script>", "</script>", "<![")]


def originals():
    """Mails that have all that the script reads."""
    coded = "=?utf-8?q?r=C3=A9sum=C3=A9?="
    head = (f"From: {coded} <e@x>\nTo: e@x\nSubject: {coded}\n =?iso-8859-1?q?=E9?= e\nDate: Sun, 29 Nov 2026 12:00:00 +0100\n"
            "Message-ID: <1@x>\nMIME-Version: 1.0\n")
    plain = "Content-Type: text/plain; charset=\"utf-8\"\nContent-Transfer-Encoding: quoted-printable\n\na r=C3=A9sum=C3=A9 =\ne\n"
    page = "Content-Type: text/html; charset=iso-8859-1\n\n<p title='e'>a <b>r&eacute;s</b>um&#233; <!-- e --><script>e</script><br>e\n"
    coded64 = "Content-Type: text/plain; charset=utf-16\nContent-Transfer-Encoding: base64\n\n//5lACAA6QA=\n"
    uuencoded = "Content-Type: text/plain\nContent-Transfer-Encoding: x-uuencode\n\nbegin 644 e\n#965E\n`\nend\n"
    named = "Content-Type: image/png; name*0*=utf-8''%C3%A9; name*1=e\nContent-Disposition: attachment; filename=\"e\"\n\nAA\n"
    report = "Content-Type: message/delivery-status\n\nA: e\n\nB: e\n"
    within = f"Content-Type: message/rfc822\n\n{head}{plain}"
    mixed = "Content-Type: multipart/{}; boundary={}\n\n".format
    several = [plain, page, coded64, uuencoded, named, report, within]
    whole = mixed("mixed", "b") + "".join(f"--b\n{part}" for part in several) + "--b--\n"
    either = mixed("alternative", '"c"') + f"--c\n{plain}--c\n{page}--c--\n"
    digest = mixed("digest", "c") + f"--c\n\n{head}\n\ne\n--c--\n"
    nested = mixed("mixed", "b") + f"--b\n{either}--b\n{within}--b--\n"
    return [(head + body).encode() for body in (*several, whole, either, digest, nested)]


def changed(choice, mails):
    mail = bytearray(choice.choice(mails))
    for _ in range(choice.choice((1, 1, 2, 3, 5, 9, 20))):
        place = choice.randrange(len(mail) + 1)
        end = min(len(mail), place + choice.choice((0, 0, 0, 1, 2, 5, 20, 100)))
        kind = choice.randrange(8)
        if kind < 4:
            mail[place:end] = choice.choice(TOKENS)
        elif kind == 4:
            mail[place:end] = choice.randbytes(choice.randint(0, 4))
        elif kind == 5:
            mail[place:place] = mail[place:end] * choice.choice((1, 2, 10, 300))
        elif kind == 6:
            mail[place:place] = choice.choice(TOKENS) * choice.choice((2, 10, 300, 5000))
        else:
            other = choice.choice(mails)
            start = choice.randrange(len(other))
            mail[place:end] = other[start : start + choice.choice((10, 100, 1000))]
    return bytes(mail)


def main():
    parser = argparse.ArgumentParser(description=__doc__, formatter_class=argparse.RawDescriptionHelpFormatter)
    parser.add_argument("part", nargs="?", choices=("costly", "changed"))
    parser.add_argument("--seed", type=int, default=1)
    parser.add_argument("--mails", type=int, default=10_000)
    parser.add_argument("--kilobytes", type=int, default=1024)
    given = parser.parse_args()
    with tempfile.TemporaryDirectory() as folder:
        tries = Tries(Reader(folder, installed("colfind-mail")))
        if given.part != "changed":
            highest = tries.costly(given.kilobytes * 1024, mail_forms.FORMS)
            print(f"colfind-mail: {len(mail_forms.FORMS)} costly mails of {given.kilobytes:,} KB and of a quarter: at most "
                  f"{tries.most[0]:.1f} seconds, {highest:.0f} times as much memory, {tries.wrong} wrong answers", flush=True)
        if given.part != "costly":
            tries.most = [0, 0]
            statuses = tries.changed(given.seed, given.mails)
            numbers = ", ".join(f"{count:,} times status {status}" for status, count in sorted(statuses.items()))
            print(f"colfind-mail: {given.mails:,} mails changed at random, seed {given.seed}: {numbers}; at most "
                  f"{tries.most[0]:.1f} seconds, {tries.most[1] / MEGABYTE:.0f} MB, {tries.wrong} wrong answers")
    sys.exit(1 if tries.wrong else 0)


if __name__ == "__main__":
    main()
