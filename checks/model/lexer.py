"""Tokens of a Go source text, and the first fault of a text that has no tokens."""

import re
import unicodedata

KEYWORDS = (
    "break case chan const continue default defer else fallthrough for func go goto if import interface map "
    "package range return select struct switch type var"
).split()
OPERATORS = sorted(
    (
        "+ & += &= && == != ( ) - | -= |= || < <= [ ] * ^ *= ^= <- > >= { } / << /= <<= ++ = := , ; "
        "% >> %= >>= -- ! ... . : &^ &^= ~"
    ).split(),
    key=lambda operator: -len(operator),
)
OPERATOR = re.compile("|".join(re.escape(operator) for operator in OPERATORS))
INTEGER = re.compile(
    r"0[xX](_?[0-9a-fA-F])+|0[bB](_?[01])+|0[oO](_?[0-7])+|0(_?[0-7])+|0|[1-9](_?[0-9])*"
)
ESCAPE = re.compile(
    r'\\(?:[abfnrtv\\"]|[0-3][0-7]{2}|x[0-9a-fA-F]{2}|u[0-9a-fA-F]{4}|U[0-9a-fA-F]{8})'
)
LARGEST = 2**63 - 1


class Fault(Exception):
    def __init__(self, offset, kind):
        super().__init__(f"#{offset} {kind}")
        self.offset = offset
        self.kind = kind


class Token:
    """Kind: 'name', '_', 'int', 'string', a keyword or an operator."""

    __slots__ = ("kind", "text", "offset")

    def __init__(self, kind, text, offset):
        self.kind = kind
        self.text = text
        self.offset = offset


def is_letter(character):
    return character == "_" or unicodedata.category(character) in ("Lu", "Ll", "Lt", "Lm", "Lo")


def is_digit(character):
    return unicodedata.category(character) == "Nd"


def decoded(source):
    zero = source.find(b"\0")
    try:
        text = source.decode("utf-8")
    except UnicodeDecodeError as error:
        raise Fault(error.start if zero < 0 else min(zero, error.start), "encoding") from None
    if zero >= 0:
        raise Fault(zero, "encoding")
    return text


def integer_value(text):
    digits = text.replace("_", "")
    for prefix, base in (("0x", 16), ("0b", 2), ("0o", 8)):
        if digits[:2].lower() == prefix:
            return int(digits[2:], base)
    return int(digits, 8) if len(digits) > 1 and digits[0] == "0" else int(digits)


def escape_value(escape):
    """The code point that an escape of a whole string stands for, or None where it breaks a rule."""
    if escape[1] in "uU":
        value = int(escape[2:], 16)
        return None if value > 0x10FFFF or 0xD800 <= value <= 0xDFFF else value
    return 0


def string_value(text):
    """The bytes that a string literal stands for."""
    if text[0] == "`":
        return text[1:-1].replace("\r", "").encode()
    plain = {"a": 7, "b": 8, "f": 12, "n": 10, "r": 13, "t": 9, "v": 11, "\\": 92, '"': 34}
    value = b""
    at = 1
    while at < len(text) - 1:
        if text[at] != "\\":
            value += text[at].encode()
            at += 1
            continue
        escape = ESCAPE.match(text, at).group()
        letter = escape[1]
        if letter in plain:
            value += bytes([plain[letter]])
        elif letter == "x":
            value += bytes([int(escape[2:], 16)])
        elif letter in "uU":
            value += chr(int(escape[2:], 16)).encode()
        else:
            value += bytes([int(escape[1:], 8)])
        at += len(escape)
    return value


class Lexer:
    def __init__(self, source):
        self.text = decoded(source)
        self.offsets = [0]
        for character in self.text:
            self.offsets.append(self.offsets[-1] + len(character.encode()))
        self.at = 0
        self.due = None
        self.tokens = []

    def semicolon(self):
        if self.due is not None:
            self.tokens.append(Token(";", "", self.due))
            self.due = None

    def add(self, kind, start, ends_line):
        self.tokens.append(Token(kind, self.text[start : self.at], self.offsets[start]))
        self.due = self.offsets[self.at] if ends_line else None

    def run(self):
        while self.at < len(self.text):
            if not self.trivia():
                self.token()
        self.semicolon()
        return self.tokens

    def trivia(self):
        text, at = self.text, self.at
        if (at == 0 and text[0] == "\ufeff") or text[at] in " \t\r":
            self.at += 1
        elif text[at] == "\n":
            self.semicolon()
            self.at += 1
        elif text.startswith("//", at):
            end = text.find("\n", at)
            self.at = len(text) if end < 0 else end
        elif text.startswith("/*", at):
            end = text.find("*/", at + 2)
            if end < 0:
                raise Fault(self.offsets[at], "comment")
            if "\n" in text[at:end]:
                self.semicolon()
            self.at = end + 2
        else:
            return False
        return True

    def token(self):
        text, start = self.text, self.at
        first = text[start]
        if is_letter(first):
            self.word(start)
        elif first in "0123456789":
            self.integer(start)
        elif first == "." and text[start + 1 : start + 2] in tuple("0123456789"):
            raise Fault(self.offsets[start], "number")
        elif first == '"':
            self.string(start)
        elif first == "`":
            end = text.find("`", start + 1)
            if end < 0:
                raise Fault(self.offsets[start], "string")
            self.at = end + 1
            self.add("string", start, True)
        else:
            self.operator(start)

    def word(self, start):
        text = self.text
        while self.at < len(text) and (is_letter(text[self.at]) or is_digit(text[self.at])):
            self.at += 1
        word = text[start : self.at]
        if word in KEYWORDS:
            self.add(word, start, word in ("break", "continue", "fallthrough", "return"))
        else:
            self.add("_" if word == "_" else "name", start, True)

    def integer(self, start):
        text = self.text
        self.at = INTEGER.match(text, start).end()
        behind = text[self.at : self.at + 1]
        if behind and (is_letter(behind) or is_digit(behind) or behind == "."):
            raise Fault(self.offsets[start], "number")
        if integer_value(text[start : self.at]) > LARGEST:
            raise Fault(self.offsets[start], "number")
        self.add("int", start, True)

    def string(self, start):
        text, at = self.text, start + 1
        while at < len(text) and text[at] not in '\n"':
            if text[at] == "\\":
                escape = ESCAPE.match(text, at)
                if escape is None or escape_value(escape.group()) is None:
                    raise Fault(self.offsets[at], "string")
                at = escape.end()
            else:
                at += 1
        if at == len(text) or text[at] == "\n":
            raise Fault(self.offsets[start], "string")
        self.at = at + 1
        self.add("string", start, True)

    def operator(self, start):
        longest = OPERATOR.match(self.text, start)
        if longest is None:
            raise Fault(self.offsets[start], "character")
        self.at = longest.end()
        self.add(longest.group(), start, longest.group() in ("++", "--", ")", "]", "}"))


def tokens_of(source):
    """The tokens of a text; raises its Fault."""
    return Lexer(source).run()
