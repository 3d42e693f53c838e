"""Compares the replies of a built `gorefd run` to sessions of broken bytes with the model's.

    python3 -m checks.attack.fuzz PROGRAM [SEED [COMMANDS [PROCESSES]]]

It makes sessions until they have COMMANDS commands (20,000): each from the numbers SEED (1) and its own. The sessions are

- `bytes`: stored sessions with bytes changed, put in, left out, doubled and moved, and parts of several of them;
- `lines`: commands of stored sessions, sent for the current state, with words changed for words of others and for numbers at the limits;
- `texts`: files of stored sessions with bytes and tokens changed, put for the current state, with questions, renames and moves;
- `signs`: Go with names, strings and comments of signs of all planes, in UTF-8 and almost in UTF-8, and lines of them.

Each reply has to be the model's, and the program has to end with status 0. It names each session that goes otherwise, writes it to
`fuzz-SEED-NUMBER.in`, and ends with status 1. Work is done by PROCESSES processes (one), in parts, so that none lives long.
"""

import collections
import functools
import itertools
import multiprocessing
import os
import random
import re
import subprocess
import sys
import traceback
import unicodedata

from checks.attack.memory import commands_of
from checks.gate.replay import stored
from checks.generate import changes, programs
from checks.model import lexer
from checks.model.history import VERBS, History, replies, reply, size_of

SECONDS = 60
PART = 20
# Behind so many commands it tells how far it is.
TOLD = 100_000
NUMBERS = "0 00 01 1 2 7 99 100 101 255 256 1023 1024 65535 65536 1048576 1048577 4294967295 4294967296 -1 +1 1e3 0x1 1_0 ٣".split()
NUMBERS += ["18446744073709551615", "18446744073709551616", "9" * 40, "１"]
WORDS = "a b a/a.go a/b.go /a a/ a//b . .. a/. a/../b é/a.go a.go a/b/c/d.go x y _ len int func main init k/p A ~/+ c-d".split()
PIECES = [b"\n", b" ", b"  ", b"\r\n", b"\0", b"\t", b":#", b"#", b"/", b".", b"end\n", b"put", b"0", b"\xff", b"\xc3", b"\xe2\x80", b"\xed\xa0\x80"]
PIECES += [b"\xf4\x90\x80\x80", b"\xc0\x80", b"\xef\xbb\xbf", b"\xe2\x80\xa8", b"(" * 210, b"{" * 210, b"*" * 210, b"x" * 1030, b"[]" * 110]
TOKENS = [word.encode() for word in [*lexer.KEYWORDS, *lexer.OPERATORS, *programs.WORDS, *programs.ODD, *programs.STRINGS, *programs.INTEGERS]]


@functools.cache
def known():
    """The stored sessions: what is sent, but for the few large ones."""
    return [sent for sent, _ in stored().values() if 0 < len(sent) < 2500]


@functools.cache
def signs():
    """Some signs of each category of the model's tables."""
    found = collections.defaultdict(list)
    for number in range(sys.maxunicode + 1):
        kind = unicodedata.category(chr(number))
        if kind not in ("Cs", "Cn"):
            found[kind].append(chr(number))
    return found


def a_sign(generator):
    kind = generator.choice(["Lu", "Ll", "Lt", "Lm", "Lo", "Nd", "Nl", "No", "Mn", "Mc", "Pc", "Zs", "Cf", "So", "Cc", "Co", "Sm"])
    return generator.choice(signs()[kind])


def a_word(generator):
    """A word of signs, mostly an identifier."""
    length = generator.choice([1, 1, 2, 3, 4, 8, 40, 90])
    letters = [generator.choice(signs()[generator.choice(["Lu", "Ll", "Lt", "Lm", "Lo"])])]
    letters += [generator.choice(signs()[generator.choice(["Lu", "Ll", "Lo", "Nd"])]) for _ in range(length - 1)]
    if generator.random() < 0.15:
        letters.insert(generator.randrange(length + 1), a_sign(generator))
    return "".join(letters)


def some_bytes(generator):
    way = generator.random()
    if way < 0.5:
        return generator.choice(PIECES)
    if way < 0.7:
        return a_sign(generator).encode()
    if way < 0.85:
        return generator.randbytes(generator.choice([1, 1, 2, 3, 10]))
    return generator.choice(NUMBERS).encode()


def broken(generator, text, among):
    """The text with one to five changes of its bytes."""
    for _ in range(generator.choice([1, 1, 1, 2, 3, 5])):
        begin = generator.randrange(len(text) + 1)
        end = min(len(text), begin + generator.choice([0, 0, 1, 1, 2, 4, 16, 64]))
        way = generator.randrange(8)
        if way < 2:
            new = some_bytes(generator)
        elif way == 2:
            new = b""
        elif way == 3:
            new = text[begin:end] * 2
        elif way == 4:
            new = bytes([generator.randrange(256)]) if begin < end else b""
        elif way == 5:
            other = generator.choice(among)
            start = generator.randrange(len(other) + 1)
            new = other[start : start + generator.choice([1, 8, 60, 300])]
        elif way == 6:
            new, end = generator.choice(NUMBERS).encode(), number_end(text, begin)
        else:
            new, end = b"", len(text) if generator.random() < 0.3 else end
        text = text[:begin] + new + text[end:]
    return text


def number_end(text, begin):
    return re.compile(rb"[0-9]*").match(text, begin).end()


def of_bytes(generator):
    text = generator.choice(known())
    if generator.random() < 0.4:
        text += generator.choice(known())
    sent = broken(generator, text, known())
    return sent, replies(sent)


class Told:
    """A session that is sent for the current state, as the model has it. Its replies are known too, unless a body is read as lines."""

    def __init__(self, generator):
        self.generator, self.history, self.sent, self.told = generator, History(), [], []
        self.is_told = True

    def number(self):
        return self.history.current.number + (self.generator.random() < 0.02)

    def send(self, line, body=b""):
        if b"\n" in line or line == b"end":
            return
        self.sent.append(line + b"\n" + body)
        self.told.append(reply(self.history, line, body))
        self.is_told &= size_of(line) == len(body)

    def session(self):
        """What is sent, and what the model answers."""
        sent = b"".join(self.sent)
        return sent, b"".join(self.told) if self.is_told else replies(sent)

    def put(self, path, text):
        self.send(b"put %d %s %d" % (self.number(), path, len(text)), text)

    def a_path(self):
        texts = self.history.current.texts
        if texts and self.generator.random() < 0.9:
            return self.generator.choice(sorted(texts)).encode()
        return self.generator.choice(WORDS).encode()

    def a_place(self):
        """A place in some file, mostly where a word is."""
        path = self.a_path()
        text = self.history.current.texts.get(path.decode(), b"")
        words = [found.start() for found in re.finditer(rb"[\w\x80-\xff]+|\"", text)]
        at = self.generator.choice(words) if words and self.generator.random() < 0.9 else self.generator.randrange(len(text) + 3)
        return b"%s:#%d" % (path, at + (self.generator.random() < 0.1))

    def a_name(self):
        way = self.generator.random()
        if way < 0.4:
            return self.generator.choice("x y z q X Y T len int nil init main func _ 1x".split()).encode()
        return a_word(self.generator).encode() if way < 0.8 else self.generator.choice(WORDS).encode()

    def ask(self):
        """A question or a change of any kind."""
        way = self.generator.randrange(14)
        if way < 3:
            self.send(b"faults")
        elif way < 5:
            self.send(b"uses " + self.a_place())
        elif way < 8:
            self.send(b"rename %d %s %s" % (self.number(), self.a_place(), self.a_name()))
        elif way == 8:
            folders = [self.a_path().rpartition(b"/")[0] or b"a" for _ in range(2)]
            self.send(b"move %d %s %s" % (self.number(), folders[0], self.generator.choice([folders[1], b"k/q", b"z", self.a_name()])))
        elif way == 9:
            self.send(b"%s %d" % (self.generator.choice([b"undo", b"undo", b"redo"]), self.number()))
        elif way == 10:
            self.send(self.generator.choice([b"cat " + self.a_path(), b"list", b"look", b"status"]))
        elif way == 11:
            self.send(b"work")
            self.send(b"object " + (self.a_path().rpartition(b"/")[0] or b"a"))
        elif way == 12:
            self.send(self.generator.choice([b"log %d", b"objects %d"]) % self.generator.randrange(30))
        else:
            self.send(broken(self.generator, b"uses " + self.a_place(), known()).replace(b"\n", b"?"))


def of_lines(generator):
    told = Told(generator)
    for command in commands_of(generator.choice(known()))[0] + commands_of(generator.choice(known()))[0]:
        line, _, body = command.partition(b"\n")
        words = line.split(b" ")
        if len(words) > 1 and words[0] in (b"put", b"del", b"rename", b"move", b"undo", b"redo"):
            words[1] = b"%d" % told.number()
        if generator.random() < 0.25:
            other = generator.choice([*NUMBERS, *WORDS, *VERBS, a_word(generator), "a/a.go:#%s" % generator.choice(NUMBERS)]).encode()
            words[generator.randrange(len(words))] = other
        if generator.random() < 0.05:
            words.insert(generator.randrange(len(words) + 1), generator.choice([b"", b"x", b"0"]))
        if words[0] == b"put" and words[-1] != b"%d" % len(body):
            # what a changed size makes of it is no matter of one line
            continue
        told.send(b" ".join(words), body)
        if generator.random() < 0.2:
            told.ask()
    return told.session()


def with_tokens(generator, text):
    """The text with a token put in, left out or in another one's place."""
    for _ in range(generator.choice([1, 1, 2, 3])):
        found = list(changes.TOKEN.finditer(text.decode("latin-1")))
        if not found:
            return text
        begin, end = generator.choice(found).span()
        way = generator.randrange(3)
        token = generator.choice(TOKENS) if generator.random() < 0.8 else a_word(generator).encode()
        text = text[:begin] + (b"" if way == 0 else token + b" " * (way == 1)) + text[begin if way == 1 else end :]
    return text


def of_texts(generator):
    told = Told(generator)
    among = [text for texts in generator.sample(workspaces(), 4) for text in texts.values()]
    for path, text in generator.choice(workspaces()).items():
        told.put(path.encode(), text)
    for _ in range(generator.randrange(3, 12)):
        path = told.a_path()
        text = told.history.current.texts.get(path.decode(), generator.choice(among))
        told.put(path, broken(generator, text, among) if generator.random() < 0.4 else with_tokens(generator, text))
        for _ in range(generator.randrange(4)):
            told.ask()
        if generator.random() < 0.6:
            told.send(b"undo %d" % told.number())
        for _ in range(generator.randrange(2)):
            told.ask()
    return told.session()


@functools.cache
def workspaces():
    return [texts for texts in changes.workspaces() if all(len(text) < 2500 for text in texts.values())]


def of_signs(generator):
    told = Told(generator)
    for _ in range(generator.randrange(2, 8)):
        names = [a_word(generator) for _ in range(4)]
        string = "".join(a_sign(generator) for _ in range(generator.randrange(6))).replace('"', "").replace("\\", "").replace("\n", "")
        comment = "".join(a_sign(generator) for _ in range(generator.randrange(6))).replace("\n", "").replace("*", "")
        text = 'package %s\n\nvar %s string = "%s" // %s\n\nfunc %s(%s int) int { /*%s*/\n\treturn %s + len(%s)\n}\n'
        text = (text % ("a", names[0], string, comment, names[1], names[2], comment, names[2], names[0])).encode()
        if generator.random() < 0.4:
            text = broken(generator, text, [text])
        told.put(b"a/%s.go" % generator.choice([b"a", b"b"]), text)
        for _ in range(generator.randrange(2, 6)):
            told.ask()
        if generator.random() < 0.3:
            told.send(b"".join(a_sign(generator).encode() for _ in range(generator.randrange(30))))
    return told.session()


KINDS = {"bytes": of_bytes, "lines": of_lines, "texts": of_texts, "signs": of_signs}


def made(seed, number):
    """The session of a number: its kind, what it sends, and what the model answers."""
    generator = random.Random(f"{seed}/{number}")
    kind = generator.choice(list(KINDS))
    return kind, *KINDS[kind](generator)


def heads_of(text):
    """The first words of the replies in what a session writes."""
    heads = []
    while text:
        head, _, text = text.partition(b"\n")
        heads.append(head[:2])
        text = text[int(head.split()[2]) :]
    return heads


def is_known(sent):
    """Whether the model's tables, which are Python's, have all signs of a session. The program's may be of a later Unicode."""
    return all(unicodedata.category(sign) != "Cn" for sign in sent.decode("utf-8", "ignore"))


def compared(program, seed, number):
    """Runs one session. Its kind, how many commands it has and how many were refused, by the model, and what is wrong with it."""
    kind, sent, wanted = "made", b"", b""
    try:
        kind, sent, wanted = made(seed, number)
        ran = subprocess.run([program, "run"], input=sent, stdout=subprocess.PIPE, stderr=subprocess.PIPE, timeout=SECONDS)
        # (broken bytes may make a sign that Python does not know)
        is_right = (ran.returncode, ran.stderr) == (0, b"") and (ran.stdout == wanted or not is_known(sent))
        wrong = None if is_right else f"status {ran.returncode}, {ran.stderr[:200]!r}, {len(ran.stdout)} bytes for {len(wanted)}"
    except Exception:
        # of the model, or of what makes sessions
        wrong = traceback.format_exc().strip().rpartition("\n")[2]
    heads = heads_of(wanted)
    if wrong:
        with open(f"fuzz-{seed}-{number}.in", "wb") as file:
            file.write(sent)
    return kind, len(heads), heads.count(b"no"), f"session {number} ({kind}): {wrong}" if wrong else None


def part(work):
    program, seed, first = work
    return [compared(program, seed, number) for number in range(first, first + PART)]


def main():
    if len(sys.argv) < 2:
        raise SystemExit(__doc__)
    program = os.path.abspath(sys.argv[1])
    seed, commands, processes = [int(word) for word in sys.argv[2:]] + [1, 20_000, 1][len(sys.argv) - 2 :]
    print(f"seed {seed}", flush=True)
    counts, refused, sessions, wrong = collections.Counter(), 0, 0, 0
    # (each process begins with these)
    known(), signs(), workspaces()
    with multiprocessing.get_context("fork").Pool(processes, maxtasksperchild=50) as pool:
        works = ((program, seed, first) for first in range(0, 10**9, PART))
        while sum(counts.values()) < commands:
            before = sum(counts.values())
            for told in pool.imap(part, list(itertools.islice(works, processes * 8))):
                for kind, number, no, line in told:
                    counts[kind] += number
                    refused += no
                    sessions += 1
                    if line:
                        wrong += 1
                        print(line, flush=True)
            if sum(counts.values()) // TOLD > before // TOLD:
                print(f"{sum(counts.values())} commands, {refused} refused, {wrong} sessions go otherwise", flush=True)
    kinds = ", ".join(f"{count} of {kind}" for kind, count in sorted(counts.items()))
    print(f"seed {seed}: {sessions} sessions, {sum(counts.values())} commands ({kinds}), {refused} refused, {wrong} sessions go otherwise")
    raise SystemExit(1 if wrong else 0)


if __name__ == "__main__":
    main()
