"""The workspaces of the stored sessions, and small changes of them, most of which leave files with trees."""

import re

from checks import TOP
from checks.model import lexer
from checks.model.history import VERBS, Refusal, size_of, words_of

DATA = TOP / "crates" / "gorefd" / "sessions"
TOKEN = re.compile(r'[^\W\d]\w*|"[^"\n]*"|`[^`]*`|\d\w*|:=|==|!=|<=|>=|&&|\|\||\+=|-=|\*=|/=|%=|\+\+|--|.', re.S)
KEYWORDS = set("break continue else for func if import package return struct type var".split())
NAMES = "_ int string bool true false nil len append panic print init a b c p n s t x y T F".split()
LITERALS = ["0", "1", '"s"', "nil", "true", "0x10", "`r`"]
ALIKE = [
    ["+", "-", "*", "/", "%"],
    ["==", "!="],
    ["<", "<=", ">", ">="],
    ["&&", "||"],
    ["++", "--"],
    ["+=", "-=", "*=", "/=", "%="],
    ["break", "continue"],
]
BEHIND = [".x", ".X", "()", "(1)", "[0]", "{}", ".m()", "++", " + 1", "{x: 1}"]
BEFORE = ["*", "[]", "&", "-", "!", "b."]


def puts(sent):
    """The texts that a session puts, the last of each path."""
    texts = {}
    while sent:
        line, _, sent = sent.partition(b"\n")
        size = size_of(line)
        body, sent = sent[:size], sent[size:]
        try:
            words = words_of(line, VERBS)
        except Refusal:
            continue
        if words[0] == "put":
            texts[words[2]] = body
    return texts


def is_whole(texts):
    """Whether each file is text, one of them is a Go file, and no path is refused."""
    try:
        for text in texts.values():
            text.decode()
            lexer.tokens_of(text)
    except (UnicodeDecodeError, lexer.Fault):
        return False
    return any(path.endswith(".go") for path in texts) and all(re.fullmatch(r"[\w.-]+(/[\w.-]+)+", path) for path in texts)


def workspaces():
    """The workspaces of the stored sessions, by the sessions' names."""
    found = [puts(path.read_bytes()) for path in sorted(DATA.glob("*.in"))]
    return [texts for texts in found if is_whole(texts)]


def another_name(generator, token, names):
    way = generator.random()
    if way < 0.6:
        return generator.choice(names)
    if way < 0.8:
        return generator.choice(NAMES)
    if way < 0.87:
        return generator.choice(LITERALS)
    if way < 0.93:
        return generator.choice(BEFORE) + token
    return token + generator.choice(BEHIND)


def another_token(generator, token, names):
    """A token that may stand in the place of one."""
    alike = [tokens for tokens in ALIKE if token in tokens]
    if alike:
        return generator.choice(alike[0])
    if token in KEYWORDS:
        return token
    if re.match(r"[^\W\d]", token):
        return another_name(generator, token, names)
    if token[0] in '"`' or token[0].isdigit():
        return generator.choice(LITERALS)
    return generator.choice(["", token, token + token, ",", "\n"]) if generator.random() < 0.1 else token


def with_line_moved(generator, text):
    lines = text.split("\n")
    line = generator.choice(lines)
    if generator.random() < 0.5:
        lines.remove(line)
    lines.insert(generator.randrange(len(lines) + 1), line)
    return "\n".join(lines)


def changed(generator, texts):
    """The files with one to four changes."""
    texts = {path: text.decode() for path, text in texts.items()}
    names = [t for text in texts.values() for t in TOKEN.findall(text) if re.match(r"[^\W\d]", t) and t not in KEYWORDS]
    for _ in range(generator.choice([0, 1, 1, 1, 2, 3, 4])):
        path = generator.choice(sorted(texts))
        if generator.random() < 0.1:
            texts[path] = with_line_moved(generator, texts[path])
            continue
        tokens = TOKEN.findall(texts[path])
        places = [number for number, token in enumerate(tokens) if token.strip()]
        if places:
            number = generator.choice(places)
            tokens[number] = another_token(generator, tokens[number], names)
            texts[path] = "".join(tokens)
    return {path: text.encode() for path, text in texts.items()}
