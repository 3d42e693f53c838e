"""Positions of the language server protocol, as its specification says: lines that `\\n`, `\\r\\n` and `\\r` end, and columns in code units.

Texts are str here. An offset counts characters of Python, so no code unit of any encoding stands for it by chance.
"""

import re

LINE_END = re.compile("\r\n|\n|\r")


def units(text, encoding):
    """How many code units a text has."""
    return len(text.encode("utf-8")) if encoding == "utf-8" else len(text.encode("utf-16-le")) // 2


def line_starts(text):
    return [0, *(match.end() for match in LINE_END.finditer(text))]


def line_of(text, number):
    """The start of a line, and its characters without what ends it."""
    start = line_starts(text)[number]
    end = LINE_END.search(text, start)
    return start, text[start : end.start() if end else len(text)]


def position(text, offset, encoding="utf-16"):
    starts = [start for start in line_starts(text) if start <= offset]
    return {"line": len(starts) - 1, "character": units(text[starts[-1] : offset], encoding)}


def offset_of(text, asked, encoding="utf-16"):
    """A column past the end of its line is the end of the line; a line past the last one is the end of the text. A column in a character is
    the start of the character."""
    if asked["line"] >= len(line_starts(text)):
        return len(text)
    start, line = line_of(text, asked["line"])
    fitting = [n for n in range(len(line) + 1) if units(line[:n], encoding) <= asked["character"]]
    return start + fitting[-1]


def span(text, start, end, encoding="utf-16"):
    return {"start": position(text, start, encoding), "end": position(text, end, encoding)}


def changed(text, change, encoding="utf-16"):
    """The text after one content change."""
    if "range" not in change:
        return change["text"]
    start = offset_of(text, change["range"]["start"], encoding)
    end = offset_of(text, change["range"]["end"], encoding)
    return text[:start] + change["text"] + text[end:]


def edited(text, edits, encoding="utf-16"):
    """The text after edits, which all speak of the text before them and must not overlap. Insertions at one place are put in their order."""
    spans = [
        (offset_of(text, edit["range"]["start"], encoding), offset_of(text, edit["range"]["end"], encoding), number, edit["newText"])
        for number, edit in enumerate(edits)
    ]
    parts, at = [], 0
    for start, end, _, new in sorted(spans):
        if start < at:
            raise AssertionError(f"edits overlap: {edits}")
        parts += [text[at:start], new]
        at = end
    return "".join([*parts, text[at:]])
