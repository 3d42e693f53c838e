"""Editors, without a screen, rename in a small module by the language server, and take renames back. The files that they write are the model's.

    python3 -m checks.editors.editing PROGRAM

Done are the editors that are installed, of Neovim, Emacs and Vim with ALE; it tells which.
"""

import functools
import os
import pathlib
import shutil
import subprocess
import tempfile

from checks.editors import files as f
from checks.editors.files import FILES
from checks.server.server import PROGRAM, check_program, same

HERE = pathlib.Path(__file__).parent
EDITORS = {
    "nvim": ["nvim", "--headless", "-u", "NONE", "-i", "NONE", "-c", f"luafile {HERE / 'neovim.lua'}"],
    "emacs": ["emacs", "--batch", "-l", str(HERE / "eglot.el")],
    "vim": ["vim", "-N", "-u", "NONE", "-i", "NONE", "-es", "-S", str(HERE / "ale.vim")],
}
ALE = pathlib.Path("/usr/share/vim-ale")


def step(files, path, text, name):
    """The step that renames what stands at a text: with the line and the column in bytes, from 1."""
    before = files[path][: files[path].index(text)]
    line, column = before.count("\n") + 1, len(before) - before.rfind("\n")
    return f"{path}:{line}:{column}:{name}"


def written(editor, files, *steps):
    """The files after an editor made these steps in a new folder."""
    with tempfile.TemporaryDirectory() as top:
        for path, text in files.items():
            (pathlib.Path(top) / path).parent.mkdir(parents=True, exist_ok=True)
            (pathlib.Path(top) / path).write_text(text)
        words = {"LSP_CHECK": "\n".join([*PROGRAM, "lsp"]), "LSP_STEPS": "\n".join(steps)}
        run = subprocess.run(EDITORS[editor], cwd=top, env=os.environ | words, stdin=subprocess.DEVNULL, capture_output=True, timeout=300)
        if run.returncode:
            raise AssertionError(f"{editor} ended with {run.returncode}: {run.stderr.decode('utf-8', 'replace')}")
        return {path: (pathlib.Path(top) / path).read_text() for path in files}


def is_installed(editor):
    return shutil.which(editor) and (editor != "vim" or ALE.exists())


def with_each(check, without=()):
    """The check with each editor that is installed, but for some."""

    def checked():
        found = [editor for editor in EDITORS if editor not in without and is_installed(editor)]
        if not found:
            raise AssertionError("no editor is installed")
        for editor in found:
            check(editor)
        return " ".join(found)

    checked.__name__ = check.__name__
    return checked


@with_each
def renames(editor):
    """A rename writes the texts of the model, in the file that is open and in others."""
    wanted = FILES | f.renamed(FILES, "tax/tax.go", FILES["tax/tax.go"].index("Rate int"), "Share")
    same(written(editor, FILES, step(FILES, "tax/tax.go", "Rate int", "Share")), wanted)


@with_each
def renames_twice(editor):
    """A second rename follows the texts that the first one left in buffers."""
    at = FILES["tax/tax.go"].index("Rate int")
    once = FILES | f.renamed(FILES, "tax/tax.go", at, "Share")
    twice = once | f.renamed(once, "shop.go", once["shop.go"].index("Total"), "Sum")
    same(written(editor, FILES, step(FILES, "tax/tax.go", "Rate int", "Share"), step(once, "shop.go", "Total", "Sum")), twice)


@functools.partial(with_each, without=("vim",))
def takes_back(editor):
    """Undo takes the rename back in all files, and redo does it again. ALE executes no command."""
    at = FILES["tax/tax.go"].index("Rate int")
    once = FILES | f.renamed(FILES, "tax/tax.go", at, "Share")
    first = step(FILES, "tax/tax.go", "Rate int", "Share")
    same(written(editor, FILES, first, "gorefd.undo"), FILES)
    same(written(editor, FILES, first, "gorefd.undo", "gorefd.redo"), once)


CHECKS = (renames, renames_twice, takes_back)


if __name__ == "__main__":
    check_program(CHECKS, __doc__)
