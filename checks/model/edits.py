"""Edit sets: spans of files with new bytes, and paths that are mapped; the files behind them, and where places move to.

A place is a path and an offset. It moves by the length changes of the edits that end at or before it, and with its path.
"""


class EditSet:
    def __init__(self, spans, paths=None):
        """Spans: for a path a list of (start, end, bytes), disjoint. Paths: those that change, with their new ones."""
        self.spans = {path: sorted(found) for path, found in spans.items()}
        self.paths = paths or {}

    def edited(self, texts):
        """The files behind the edits."""
        return {self.paths.get(path, path): self.edited_text(path, text) for path, text in texts.items()}

    def edited_text(self, path, text):
        parts = []
        at = 0
        for start, end, new in self.spans.get(path, ()):
            assert at <= start <= end <= len(text), "spans overlap"
            parts += [text[at:start], new]
            at = end
        return b"".join([*parts, text[at:]])

    def bytes_put(self):
        """How many bytes are put into files."""
        return sum(len(new) for found in self.spans.values() for _, _, new in found)

    def moved(self, place):
        path, offset = place
        by = sum(len(new) - (end - start) for start, end, new in self.spans.get(path, ()) if end <= offset)
        return self.paths.get(path, path), offset + by
