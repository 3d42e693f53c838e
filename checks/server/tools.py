"""Checks the commands of a built `gorefd` over folders: `rename`, `move`, `faults` and `uses`.

    python3 -m checks.server.tools [WORD..] PROGRAM

Each check writes a small module of Go files to a new folder. What is wanted is written down here: files as Go wants them after the change,
diffs as `diff -u` prints and `patch -p1` takes them, and places as Go's compilers print them, by line and column from 1, in bytes. A run is
killed or stopped where its journal is seen, so each check of a run that was cut off tells what such a run left.
"""

import os
import pathlib
import re
import resource
import shlex
import shutil
import signal
import subprocess
import tempfile
import time

from checks import TOP
from checks.server.server import PROGRAM, check_program, run, same

NOBODY = 65534

GO_MOD = "// the shop\nmodule example.com/shop // v1\n\ngo 1.19\n"
TAX = "package tax\n\n// Rate is used below.\nvar Rate int = 2\n\nfunc Net(price int) int {\n\treturn price + Rate\n}\n"
SHOP = 'package shop\n\nimport "example.com/shop/tax"\n\nfunc Total(n int) int {\n\treturn tax.Net(n) * tax.Rate\n}\n'
FILES = {"go.mod": GO_MOD, "tax/tax.go": TAX, "shop.go": SHOP}
RENAMED = {
    "go.mod": GO_MOD,
    "tax/tax.go": TAX.replace("var Rate", "var Share").replace("+ Rate", "+ Share"),
    "shop.go": SHOP.replace("tax.Rate", "tax.Share"),
}
DIFF = """--- a/shop.go
+++ b/shop.go
@@ -3,5 +3,5 @@
 import "example.com/shop/tax"
 
 func Total(n int) int {
-\treturn tax.Net(n) * tax.Rate
+\treturn tax.Net(n) * tax.Share
 }
--- a/tax/tax.go
+++ b/tax/tax.go
@@ -1,8 +1,8 @@
 package tax
 
 // Rate is used below.
-var Rate int = 2
+var Share int = 2
 
 func Net(price int) int {
-\treturn price + Rate
+\treturn price + Share
 }
"""


class Folder:
    """A new folder with these files, which is removed at the end."""

    def __init__(self, files):
        self.top = pathlib.Path(tempfile.mkdtemp())
        os.chmod(self.top, 0o777)
        for path, text in files.items():
            (self.top / path).parent.mkdir(parents=True, exist_ok=True)
            (self.top / path).write_bytes(text.encode() if isinstance(text, str) else text)

    def __enter__(self):
        return self

    def __exit__(self, *_):
        shutil.rmtree(self.top)

    def told(self, *words):
        """What the program tells that is started in the folder."""
        status, out, err = run([*words], cwd=self.top)
        return status, out.decode(), err.decode()

    def texts(self):
        """All files, hidden ones too."""
        files = [path for path in self.top.rglob("*") if path.is_file()]
        return {str(path.relative_to(self.top)): path.read_text() for path in sorted(files)}

    def begin(self, *words):
        """The program, started in the folder."""
        streams = dict(stdin=subprocess.DEVNULL, stdout=subprocess.PIPE, stderr=subprocess.PIPE)
        return subprocess.Popen([*PROGRAM, *words], cwd=self.top, **streams)

    def cut(self, name, stop, *words):
        """Starts the program and sends it a signal as soon as a file of this name is seen. It tells whether the file was seen."""
        process, path = self.begin(*words), self.top / name
        while not path.exists() and process.poll() is None:
            pass
        seen = path.exists()
        process.send_signal(stop)
        return process, seen


def renames():
    """A rename writes each file with its new text, and tells the paths of the files that changed."""
    for place in ("tax/tax.go:#41", "tax/tax.go:4:5", "tax/tax.go:4:8", "./tax/tax.go:7:17", "shop.go:6:27"):
        with Folder(FILES) as folder:
            same(folder.told("rename", place, "Share"), (0, "shop.go\ntax/tax.go\n", ""))
            same(folder.texts(), dict(sorted(RENAMED.items())))
            same(folder.told("faults"), (0, "", ""))
    with Folder(FILES) as folder:
        status, out, err = run(["rename", "--root", str(folder.top), "tax/tax.go:4:5", "Share"])
        same((status, out, err), (0, b"shop.go\ntax/tax.go\n", b""))
        same(folder.texts(), dict(sorted(RENAMED.items())))


def dry_runs():
    """A dry run prints a unified diff, which makes the new files by `patch`, and changes no file."""
    with Folder(FILES) as folder:
        same(folder.told("rename", "--dry-run", "tax/tax.go:4:5", "Share"), (0, DIFF, ""))
        same(folder.texts(), dict(sorted(FILES.items())))
        if shutil.which("patch"):
            subprocess.run(["patch", "-s", "-p1"], input=DIFF.encode(), cwd=folder.top, check=True)
            same(folder.texts(), dict(sorted(RENAMED.items())))


def hunks_of(old, new):
    """What `diff -u` prints of two texts, without the paths."""
    with Folder({"old": old, "new": new}) as folder:
        ran = subprocess.run(["diff", "-u", "old", "new"], cwd=folder.top, stdout=subprocess.PIPE)
        return ran.stdout.decode().split("\n", 2)[2]


def diffs():
    """A dry run prints what `diff -u` prints: three lines round each change, near changes in one hunk, and a note where the last line does
    not end."""
    if not shutil.which("diff"):
        return "no diff"
    for gap in range(10):
        lines = "".join(f"\nvar y{n} int = {n}\n" for n in range(gap))
        more = lines.replace("var y", "var z")
        old = f"package a\n\nvar x int = 1\n{lines}\nfunc f() int {{\n\treturn x\n}}\n{more}\nfunc g() int {{\n\treturn x\n}}"
        new = old.replace("var x", "var w").replace("return x", "return w")
        with Folder({"a/a.go": old}) as folder:
            text = "--- a/a/a.go\n+++ b/a/a.go\n" + hunks_of(old, new)
            same(folder.told("rename", "--dry-run", "a/a.go:3:5", "w"), (0, text, ""))
            same(folder.texts(), {"a/a.go": old})
            same(folder.told("rename", "a/a.go:3:5", "w"), (0, "a/a.go\n", ""))
            same(folder.texts(), {"a/a.go": new})


def refusals():
    """A refusal is a sentence with the place, the source line and a caret, and changes no file."""
    captured = (
        "shop.go:6:9: this identifier would be captured by shop.go:5:12\n"
        "\treturn tax.Net(n) * tax.Rate\n"
        "\t       ^\n"
    )
    rows = [
        (("shop.go:5:12", "tax"), captured),
        (("tax/tax.go:4:5", "rate"), "shop.go:6:26: this identifier would be lost\n\treturn tax.Net(n) * tax.Rate\n\t                        ^\n"),
        (("tax/tax.go:4:5", "Net"), "shop.go:6:13: this identifier would be captured by tax/tax.go:4:5\n\treturn tax.Net(n) * tax.Rate\n\t           ^\n"),
        (("tax/tax.go:4:5", "Rate"), "tax/tax.go:4:5: this is so already\nvar Rate int = 2\n    ^\n"),
        (("tax/tax.go:4:5", "func"), "tax/tax.go:4:5: the new name is not legal here\nvar Rate int = 2\n    ^\n"),
        (("tax/tax.go:4:1", "x"), "tax/tax.go:4:1: no identifier stands here\nvar Rate int = 2\n^\n"),
        (("tax/tax.go:4:10", "x"), "tax/tax.go:4:10: what stands here cannot be renamed\nvar Rate int = 2\n         ^\n"),
        (("tax/none.go:4:5", "x"), "tax/none.go:4:5: there is no such Go file\n"),
    ]
    with Folder(FILES) as folder:
        for words, text in rows:
            same(folder.told("rename", *words), (1, "", text))
        same(folder.told("rename", "tax/tax.go:99:1", "x"), (1, "", "tax/tax.go:99:1: the file has no such line and column\n"))
        same(folder.told("rename", "tax/tax.go", "x"), (1, "", "tax/tax.go: a place is PATH:#OFFSET or PATH:LINE:COLUMN\n"))
        same(folder.texts(), dict(sorted(FILES.items())))


def faults():
    """Faults are told by place, in words and by kind, and refuse each change."""
    broken = FILES | {"tax/more.go": 'package tax\n\nimport "fmt"\n\nvar far int = 1.5\n'}
    imported = "shop.go:3:8: the package that is imported has faults (import)\n"
    number = "tax/more.go:5:15: this number is wrong, or numbers like it are not supported (number)\n"
    with Folder(broken) as folder:
        same(folder.told("faults"), (1, imported + number, ""))
        line = imported + 'import "example.com/shop/tax"\n       ^\n'
        same(folder.told("rename", "shop.go:5:6", "Sum"), (1, "", line))
        same(folder.told("uses", "shop.go:5:6"), (1, "", line))
        same(folder.texts(), dict(sorted(broken.items())))


def faults_elsewhere():
    """Faults of packages that a rename or a move does not affect are no matter. Those of affected ones refuse."""
    wrong = 'package user\n\nimport "example.com/shop/tax"\nimport "fmt"\n\nfunc F() int {\n\treturn tax.Rate\n}\n'
    missing = "the folder has no such package, and packages of other modules and of the standard library are not supported (missing)"
    apart = FILES | {"apart/a.go": 'package apart\n\nimport "fmt"\n\nvar x int = "s"\n'}
    with Folder(apart) as folder:
        same(folder.told("faults")[0], 1)
        same(folder.told("rename", "tax/tax.go:4:5", "Share"), (0, "shop.go\ntax/tax.go\n", ""))
        same(folder.texts(), dict(sorted((apart | RENAMED).items())))
        same(folder.told("move", "tax", "vat"), (0, "shop.go\nvat/tax.go\n", ""))
        told = f"apart/a.go:3:8: {missing}\nimport \"fmt\"\n       ^\n"
        same(folder.told("rename", "apart/a.go:5:5", "y"), (1, "", told))
        same(folder.told("uses", "shop.go:5:6"), (1, "", told))
    with Folder(FILES | {"user/u.go": wrong}) as folder:
        told = f"user/u.go:4:8: {missing}\nimport \"fmt\"\n       ^\n"
        same(folder.told("rename", "tax/tax.go:4:5", "Share"), (1, "", told))
        same(folder.told("move", "tax", "vat"), (1, "", told))
        same(folder.told("rename", "shop.go:5:6", "Sum"), (0, "shop.go\n", ""))
        same(folder.texts(), dict(sorted((FILES | {"user/u.go": wrong, "shop.go": SHOP.replace("Total", "Sum")}).items())))


def unsupported():
    """What Go takes and is not supported is told by file, line and column, and in words."""
    missing = "the folder has no such package, and packages of other modules and of the standard library are not supported (missing)"
    rows = [
        ("const c = 1", "3:1: `const` is not supported (syntax)"),
        ("func f(n int) {\n\tswitch n {\n\t}\n}", "4:2: `switch` is not supported (syntax)"),
        ("func f(s []int) {\n\tfor i := range s {\n\t\tprint(i)\n\t}\n}", "4:11: `range` is not supported (syntax)"),
        ("type T chan int", "3:8: `chan` is not supported (syntax)"),
        ("var m map[string]int", "3:7: `map` is not supported (syntax)"),
        ("func f() {\n\tdefer f()\n}", "4:2: `defer` is not supported (syntax)"),
        ("func f() {\n\tgo f()\n}", "4:2: `go` is not supported (syntax)"),
        ("var x = 1", "3:7: `=` is wrong here, or not supported (syntax)"),
        ("func f() int {\n\treturn 1 << 2\n}", "4:11: `<<` is wrong here, or not supported (syntax)"),
        ("func f(s []int) []int {\n\treturn s[1:2]\n}", "4:12: `:` is wrong here, or not supported (syntax)"),
        ("func f() error {\n\treturn nil\n}", "3:10: `error` is not supported (undeclared)"),
        ("func f(b byte) {\n}", "3:10: `byte` is not supported (undeclared)"),
        ("func f() int {\n\treturn y\n}", "4:9: `y` is not declared (undeclared)"),
        ("func f() {\n\tx := 'a'\n\tprint(x)\n}", "4:7: runes are not supported (character)"),
        ('import "fmt"\n\nfunc f() {\n\tfmt.Println()\n}', f"3:8: {missing}"),
        ("func f() {", "4:1: the file ends too early (syntax)"),
        ("func f(n int)", "3:14: the line ends too early, or such a line is not supported (syntax)"),
    ]
    for text, told in rows:
        with Folder({"go.mod": GO_MOD, "a/a.go": f"package a\n\n{text}\n"}) as folder:
            same(folder.told("faults"), (1, f"a/a.go:{told}\n", ""))
            status, out, err = folder.told("rename", "a/a.go:1:1", "b")
            same((status, out, err.split("\n")[0]), (1, "", f"a/a.go:{told}"))


def uses():
    """Uses are told by place."""
    with Folder(FILES) as folder:
        same(folder.told("uses", "shop.go:6:26"), (0, "shop.go:6:26\ntax/tax.go:4:5\ntax/tax.go:7:17\n", ""))


def left_out():
    """Go's rules say which files and folders are left out; those with build constraints are told."""
    others = {
        "tax/tax_linux.go": "package tax\n\nvar Rate = 3.5\n",
        "tax/tax_windows_amd64.go": "package tax\n",
        "tax/tax_arm64_test.go": "package tax\n",
        "tax/make.go": "// Makes tables.\n\n//go:build ignore\n\npackage main\n",
        "tax/table.go": "// +build  ignore\n\npackage main\n",
        "tax/tab.go": "\t//go:build\tignore\n\npackage main\n",
        "tax/wide.go": "//   +build ignore\n\npackage main\n",
        "tax/none.go": "//go:builds\n// +builds x\n// of +build\n\npackage tax\n\n//go:build ignore\n",
        "tax/_old.go": "package old\n",
        "tax/.go.go": "package hidden\n",
        "tax/linux.go": "package tax\n",
        "tax/notes.txt": "Rate\n",
        "vendor/x/x.go": "package y z\n",
        "tax/testdata/x.go": "package y z\n",
        "_a/x.go": "package y z\n",
        ".b/x.go": "package y z\n",
        "other/go.mod": "module example.com/other\n",
        "other/o.go": "package y z\n",
    }
    notes = [
        "other/: left out: it has a go.mod of its own",
        "tax/make.go: left out: it has a build constraint",
        "tax/tab.go: left out: it has a build constraint",
        "tax/table.go: left out: it has a build constraint",
        "tax/tax_arm64_test.go: left out: its name has a build constraint",
        "tax/tax_linux.go: left out: its name has a build constraint",
        "tax/tax_windows_amd64.go: left out: its name has a build constraint",
        "tax/wide.go: left out: it has a build constraint",
    ]
    with Folder(FILES | others) as folder:
        status, out, err = folder.told("faults")
        same((status, out, sorted(err.splitlines())), (0, "", notes))
        status, out, err = folder.told("rename", "tax/tax.go:4:5", "Share")
        same((status, out, sorted(err.splitlines())), (0, "shop.go\ntax/tax.go\n", notes))
        same(folder.texts(), dict(sorted((RENAMED | others).items())))


def build_constraints():
    """A build constraint stands before the package clause and outside block comments. A comment `+build` has an empty line behind it too."""
    left = (
        "/*\npackage x\n*/\n\n//go:build ignore\n\npackage main\n",
        "/* x */\n//go:build ignore\npackage main\n",
        "//go:build ignore\npackage main\n",
        "/* a */ /* b\n*/ /*/ c */\n//go:build ignore\npackage main\n",
        "/**/\n//go:build ignore\npackage main\n",
        "// /*\n//go:build ignore\npackage main\n",
        "/* a */ // /* x\n//go:build ignore\npackage main\n",
        "//go:build ignore\r\n\r\npackage main\r\n",
        "// +build ignore\n\npackage main\n",
        "//+build ignore\n\npackage main\n",
        "// +build ignore\n// more\n\n// doc\npackage main\n",
        "\n\n// a\n\n// +build ignore\n\n// b\n\npackage main\n",
        "\ufeff//go:build ignore\n\npackage main\n",
        "\ufeff// +build ignore\n\npackage main\n",
    )
    kept = (
        "/* //go:build ignore */\npackage tax\n",
        "/*\n//go:build ignore\n*/\npackage tax\n",
        "/* x */ //go:build ignore\n\npackage tax\n",
        "/* x\n*/ package tax\n//go:build ignore\n",
        "/* a\n*/ //go:build ignore\npackage tax\n",
        "/*/\n//go:build ignore\n*/\npackage tax\n",
        "/* a */ package tax //go:build ignore\n",
        "//go:buildx ignore\npackage tax\n",
        "// +build ignore\npackage tax\n",
        "// +build ignore\n/* x */\n\npackage tax\n",
        "/* x */\n// +build ignore\n\npackage tax\n",
        "\ufeff/* x */ //go:build ignore\n\npackage tax\n",
    )
    files = {f"tax/left{n:02}.go": text for n, text in enumerate(left)} | {f"tax/kept{n:02}.go": text for n, text in enumerate(kept)}
    notes = "".join(f"tax/left{n:02}.go: left out: it has a build constraint\n" for n in range(len(left)))
    with Folder(FILES | files) as folder:
        same(folder.told("faults"), (0, "", notes))
    if shutil.which("go"):
        words = ["go", "list", "-f", '{{join .IgnoredGoFiles " "}}', "./tax"]
        with Folder(FILES | files) as folder:
            ran = subprocess.run(words, cwd=folder.top, env=dict(os.environ, GO111MODULE="on", GOFLAGS="", HOME=str(folder.top)), stdout=subprocess.PIPE)
            same(ran.stdout.decode().split(), [f"left{n:02}.go" for n in range(len(left))])


def no_module():
    """Without a go.mod the path of a package is that of its folder from the root."""
    user = 'package c\n\nimport "a"\n\nfunc F() int {\n\treturn a.X\n}\n'
    files = {"a/a.go": "package a\n\nvar X int\n", "b/c/c.go": user, "top.go": "package top\n"}
    note = "top.go: left out: without a go.mod this folder has no path of a package\n"
    with Folder(files) as folder:
        same(folder.told("rename", "b/c/c.go:6:11", "Z"), (0, "a/a.go\nb/c/c.go\n", note))
        after = {"a/a.go": "package a\n\nvar Z int\n", "b/c/c.go": user.replace("a.X", "a.Z"), "top.go": "package top\n"}
        same(folder.texts(), after)


def module_above():
    """In a folder of a module, whose go.mod stands above it, it is told that the module's other packages are not seen."""
    with Folder(FILES | {"tax/deep/d.go": "package deep\n\nvar X int\n"}) as folder:
        real = os.path.realpath(folder.top)
        note = f"{real}/go.mod: left out: this folder lies in its module, whose other packages are not seen\n"
        left = "tax.go: left out: without a go.mod this folder has no path of a package\n"
        status, out, err = run(["faults", "--root", str(folder.top / "tax")])
        same((status, out, err.decode()), (0, b"", note + left))
        same(folder.told("faults"), (0, "", ""))


def kept_modes():
    """Permissions and symbolic links stay."""
    with Folder(FILES | {"real/text": TAX}) as folder:
        os.chmod(folder.top / "shop.go", 0o640)
        os.remove(folder.top / "tax/tax.go")
        os.symlink("../real/text", folder.top / "tax/tax.go")
        os.chmod(folder.top / "real/text", 0o600)
        for path in ("shop.go", "real/text"):
            os.chown(folder.top / path, os.getuid(), os.getgid())
        same(folder.told("rename", "tax/tax.go:4:5", "Share"), (0, "shop.go\ntax/tax.go\n", ""))
        same(os.readlink(folder.top / "tax/tax.go"), "../real/text")
        same((folder.top / "real/text").read_text(), RENAMED["tax/tax.go"])
        same([(folder.top / path).stat().st_mode & 0o777 for path in ("shop.go", "real/text")], [0o640, 0o600])


def kept_owners():
    """A new text has the owner and the group of its file, and where it cannot be given them no file changes."""
    if os.getuid() != 0:
        return "not root"
    with Folder(FILES) as folder, tempfile.TemporaryDirectory() as room:
        os.chown(folder.top / "shop.go", 1234, 4321)
        os.chmod(folder.top / "shop.go", 0o4664)
        same(folder.told("rename", "tax/tax.go:4:5", "Share"), (0, "shop.go\ntax/tax.go\n", ""))
        data = (folder.top / "shop.go").stat()
        same((data.st_uid, data.st_gid, data.st_mode & 0o7777), (1234, 4321, 0o4664))
        os.chmod(room, 0o755)
        program = [shutil.copy(PROGRAM[0], room), *PROGRAM[1:]]
        os.chmod(folder.top / "tax", 0o777)
        ran = subprocess.run(
            [*program, "rename", "tax/tax.go:4:5", "Rate"],
            cwd=folder.top, stdin=subprocess.DEVNULL, stdout=subprocess.PIPE, stderr=subprocess.PIPE, user=NOBODY, group=NOBODY,
            extra_groups=[],
        )
        same((ran.returncode, ran.stdout), (1, b""))
        if b"Operation not permitted" not in ran.stderr:
            raise AssertionError(f"told {ran.stderr!r}")
        same(folder.texts(), dict(sorted(RENAMED.items())))


def moves():
    """A move gives the folder its new path, with all that lies in it, and changes imports."""
    files = FILES | {"tax/notes.txt": "of taxes\n", "tax/deep/d.go": "package deep\n"}
    after = {
        "go.mod": GO_MOD,
        "shop.go": SHOP.replace("shop/tax", "shop/money/vat").replace("tax.", "vat."),
        "money/vat/tax.go": TAX.replace("package tax", "package vat"),
        "money/vat/notes.txt": "of taxes\n",
        "money/vat/deep/d.go": "package deep\n",
    }
    with Folder(files) as folder:
        same(folder.told("move", "tax", "money/vat"), (0, "shop.go\nmoney/vat/tax.go\n", ""))
        same(folder.texts(), dict(sorted(after.items())))
        same(folder.told("faults"), (0, "", ""))
        same(folder.told("move", "tax", "x"), (1, "", "tax: there is no such package\n"))
        same(folder.told("move", "money/vat", "money/vat/deep/x"), (1, "", "money/vat/deep/x: this lies in the folder that moves\n"))
        same(folder.told("move", ".", "x"), (1, "", ".: this is no path of the files\n"))
        same(folder.told("move", "money/vat", "../x"), (1, "", "../x: this is no path of the files\n"))
        same(folder.told("move", "money/vat", "./money/vat/"), (1, "", "./money/vat/: this is so already\n"))
        same(folder.texts(), dict(sorted(after.items())))


def moves_to_left_out():
    """A package does not move to where its files would be left out, and a dry run does not show that either."""
    with Folder(FILES | {"other/go.mod": "module example.com/other\n"}) as folder:
        before = folder.texts()
        for to in ("vendor/tax", "testdata", "_tax", "money/.tax/x", "other/tax", "other/deep/tax"):
            told = (1, "", f"gorefd: {to}: Go files are left out there\n")
            note = "other/: left out: it has a go.mod of its own\n"
            same(folder.told("move", "tax", to), told)
            same(folder.told("move", "--dry-run", "tax", to), told)
            same(folder.texts(), before)
            same(folder.told("faults"), (0, "", note))


def moves_to_dangling_links():
    """A folder does not move to where a symbolic link stands, wherever that leads."""
    for to in ("nowhere", "tax"):
        with Folder(FILES) as folder:
            os.symlink(to, folder.top / "vat")
            same(folder.told("move", "tax", "vat"), (1, "", "gorefd: vat: something stands there already\n"))
            same(folder.texts() if to == "nowhere" else None, dict(sorted(FILES.items())) if to == "nowhere" else None)
            same(folder.told("faults"), (0, "", ""))


def long_names():
    """A name that leaves no room for that of the new text is told; no file changes, and other runs go on."""
    long = f"tax/{'n' * 230}.go"
    with Folder(FILES | {long: "package tax\n\nvar more int\n"}) as folder:
        before = folder.texts()
        status, out, err = folder.told("rename", f"{long}:3:5", "less")
        same((status, out, "File name too long" in err), (1, "", True))
        same(folder.texts(), before)
        same(folder.told("rename", "tax/tax.go:4:5", "Share"), (0, "shop.go\ntax/tax.go\n", ""))


def gone_after_cut_off():
    """A file that is gone since a run was cut off: a run that is taken back is taken back, and one that is finished leaves it away."""
    paths = ["none/gone.go", "shop.go", "tax/gone.go", "tax/tax.go"]
    new = {beside(path): RENAMED.get(path, "package x\n") for path in paths if path != "none/gone.go"}
    journal = "".join(path + "\n" for path in paths) + f"\n\n{MARK}\n"
    with Folder(FILES | {".gorefd-prepare": journal} | new) as folder:
        notes = "".join(f"{path}: old: a run that was cut off is taken back\n" for path in paths)
        same(folder.told("rename", "tax/tax.go:4:5", "Share"), (0, "shop.go\ntax/tax.go\n", notes))
        same(folder.texts(), dict(sorted(RENAMED.items())))
    with Folder(FILES | {".gorefd-commit": journal} | new) as folder:
        why = "the file whose new text this is has changed since: remove this, and that file stays"
        status, out, err = folder.told("faults")
        same((status, out), (1, ""))
        status, out, err = folder.told("rename", "tax/tax.go:4:5", "Part")
        same((status, out, err.endswith(f"{beside('tax/gone.go')}: {why}\n")), (1, "", True))
        os.remove(folder.top / beside("tax/gone.go"))
        notes = "".join(f"{path}: new: a run that was cut off is finished\n" for path in paths)
        same(folder.told("rename", "tax/tax.go:4:5", "Rate"), (0, "shop.go\ntax/tax.go\n", notes))
        same(folder.texts(), dict(sorted(FILES.items())))


def moved_links():
    """A folder in which a Go file is a symbolic link is not moved."""
    with Folder(FILES | {"real/text": TAX}) as folder:
        os.remove(folder.top / "tax/tax.go")
        os.symlink("../real/text", folder.top / "tax/tax.go")
        told = "gorefd: tax/tax.go: it is a symbolic link in the folder that moves\n"
        same(folder.told("move", "tax", "money/vat"), (1, "", told))
        same(folder.texts(), dict(sorted((FILES | {"real/text": TAX}).items())))


def moves_shown():
    """A dry run of a move prints a diff that `patch -p1` takes, and changes no file."""
    with Folder(FILES) as folder:
        status, out, err = folder.told("move", "--dry-run", "tax", "money/vat")
        same((status, err, folder.texts()), (0, "", dict(sorted(FILES.items()))))
        if shutil.which("patch"):
            subprocess.run(["patch", "-s", "-p1"], input=out.encode(), cwd=folder.top, check=True)
            shown = folder.texts()
            with Folder(FILES) as other:
                same(other.told("move", "tax", "money/vat")[0], 0)
                same(shown, other.texts())


MARK = "64768-1234-1795000000-5"


def beside(path, mark=MARK):
    """The path of the new text that the run with this mark writes beside a file."""
    folder, _, name = path.rpartition("/")
    return f"{folder}/.{name}.{mark}.gorefd".lstrip("/")


def taken_back():
    """A run that was cut off while it wrote beside the files is taken back by the next. Commands that write nothing only tell of it."""
    told = ".gorefd-prepare: a run was cut off here, or is at work: `gorefd rename` and `gorefd move` finish it or take it back\n"
    old = ": old: a run that was cut off is taken back\n"
    journal = f"shop.go\ntax/tax.go\n\n\n{MARK}\n"
    told_old = f"shop.go{old}tax/tax.go{old}"
    rows = [
        *(({".gorefd-prepare": journal[:end]}, "") for end in range(len(journal))),
        ({".gorefd-prepare": journal}, told_old),
        ({".gorefd-prepare": journal, beside("shop.go"): "pack"}, told_old),
        ({".gorefd-prepare": journal, beside("shop.go"): "x", beside("tax/tax.go"): "y"}, told_old),
    ]
    for left, notes in rows:
        with Folder(FILES | left) as folder:
            for words in (("faults",), ("uses", "shop.go:5:6"), ("rename", "--dry-run", "tax/tax.go:4:5", "Share")):
                same(folder.told(*words), (1, "", "gorefd: " + told))
            same(folder.texts(), dict(sorted((FILES | left).items())))
            same(folder.told("rename", "tax/tax.go:4:5", "Share"), (0, "shop.go\ntax/tax.go\n", notes))
            same(folder.texts(), dict(sorted(RENAMED.items())))


def finished():
    """A run that was cut off while it put files in place is finished by the next."""
    new = ": new: a run that was cut off is finished\n"
    notes = f"shop.go{new}tax/tax.go{new}"
    so = "tax/tax.go:4:5: this is so already\nvar Share int = 2\n    ^\n"
    journal = {".gorefd-commit": f"shop.go\ntax/tax.go\n\n\n{MARK}\n"}
    rows = [
        FILES | {beside(path): RENAMED[path] for path in ("shop.go", "tax/tax.go")},
        FILES | {"shop.go": RENAMED["shop.go"], beside("tax/tax.go"): RENAMED["tax/tax.go"]},
        RENAMED,
    ]
    for left in rows:
        with Folder(left | journal) as folder:
            same(folder.told("faults")[0], 1)
            same(folder.texts(), dict(sorted((left | journal).items())))
            same(folder.told("rename", "tax/tax.go:4:5", "Share"), (1, "", notes + so))
            same(folder.texts(), dict(sorted(RENAMED.items())))


def moves_finished():
    """A move that was cut off is finished by the next run, before and after its folder was renamed."""
    journal = {".gorefd-commit": f"shop.go\ntax/tax.go\ntax\nmoney/vat\n{MARK}\n"}
    new = ": new: a run that was cut off is finished\n"
    notes = f"shop.go{new}tax/tax.go{new}"
    shop = SHOP.replace("shop/tax", "shop/money/vat").replace("tax.", "vat.")
    vat = TAX.replace("package tax", "package vat")
    after = {"go.mod": GO_MOD, "shop.go": shop, "money/vat/tax.go": vat}
    rows = [
        FILES | {beside("shop.go"): shop, beside("tax/tax.go"): vat},
        FILES | {"shop.go": shop, "tax/tax.go": vat},
        after,
    ]
    for left in rows:
        with Folder(left | journal) as folder:
            status, out, err = folder.told("rename", "shop.go:5:6", "Total")
            same((status, out, err.split("shop.go:5:6")[0]), (1, "", notes))
            same(folder.texts(), dict(sorted(after.items())))


def changed_after_cut_off():
    """A file that was changed after a run was cut off stays as it is. The next run names the new text that has to be removed first."""
    new_texts = {beside(path): RENAMED[path] for path in ("shop.go", "tax/tax.go")}
    left = FILES | new_texts | {".gorefd-commit": f"shop.go\ntax/tax.go\n\n\n{MARK}\n"}
    mine = TAX + "\n// mine\n"
    with Folder(left) as folder:
        time.sleep(0.05)
        (folder.top / "tax/tax.go").write_text(mine)
        name = os.path.realpath(folder.top / beside("tax/tax.go"))
        why = "the file whose new text this is has changed since: remove this, and that file stays"
        for _ in range(2):
            same(folder.told("rename", "tax/tax.go:6:6", "Gross"), (1, "", f"gorefd: {name}: {why}\n"))
            same((folder.top / "tax/tax.go").read_text(), mine)
        os.remove(name)
        new = ": new: a run that was cut off is finished\n"
        status, out, err = folder.told("rename", "tax/tax.go:6:6", "Gross")
        same((status, out, err.split("shop.go:6")[0]), (1, "", f"shop.go{new}tax/tax.go{new}"))
        same(folder.texts(), dict(sorted((RENAMED | {"tax/tax.go": mine}).items())))


def strange_journals():
    """A journal that no run has written is told, and nothing is done that it asks for."""
    whole = ("", "x", "/etc\nx\n", f"../x\n\n\n{MARK}\n", f"/tmp/x\n\n\n{MARK}\n", f"a\n\n{MARK}\n", f"x\n\n\n{MARK}", "x\n\n\n")
    for text in (*whole, "x\n\n\n\n", "x\n\n\n../1\n", "x\n\n\n1/2\n", f"x\n\n../y\n{MARK}\n"):
        with Folder(FILES | {".gorefd-commit": text}) as folder:
            told = "gorefd: .gorefd-commit: this is no journal of a run: remove it\n"
            same(folder.told("rename", "tax/tax.go:4:5", "Share"), (1, "", told))
            same(folder.texts(), dict(sorted((FILES | {".gorefd-commit": text}).items())))


def links_in_journals():
    """A journal that names a path behind a symbolic link to a folder is told, and nothing is moved from there or to there. Nor is a folder moved
    to such a path, nor to one at which something stands."""
    with Folder(FILES | {".gorefd-commit": f"shop.go\ntax/tax.go\n{MARK}\n"}) as folder:
        same(folder.told("rename", "tax/tax.go:4:5", "Share"), (1, "", "gorefd: tax/tax.go: something stands there already\n"))
        (folder.top / ".gorefd-commit").unlink()
        same(folder.texts(), dict(sorted(FILES.items())))
    journals = ("link/kept\nmine\n", "tax\nlink/tax\n", "link/kept/file\n\n\n")
    strange = ".gorefd-commit: this is no journal of a run: remove it"
    for journal in (*journals, None):
        with Folder(FILES) as folder, Folder({"kept/file": "mine"}) as elsewhere:
            (folder.top / "link").symlink_to(elsewhere.top)
            if journal:
                (folder.top / ".gorefd-commit").write_text(f"{journal}{MARK}\n")
                same(folder.told("rename", "tax/tax.go:4:5", "Share"), (1, "", f"gorefd: {strange}\n"))
                (folder.top / ".gorefd-commit").unlink()
            else:
                same(folder.told("move", "tax", "link/tax"), (1, "", "gorefd: link/tax: a folder above it is a symbolic link\n"))
            same(elsewhere.texts(), {"kept/file": "mine"})
            (folder.top / "link").unlink()
            same(folder.texts(), dict(sorted(FILES.items())))


def no_regular_files():
    """A pipe, a folder or a device in the place of `go.mod` or of a journal is told and not read, and no file changes."""
    for name in ("go.mod", ".gorefd-commit", ".gorefd-prepare"):
        left = {path: text for path, text in FILES.items() if path != name}
        told = f"gorefd: {name}: it is no regular file\n"
        for make in (os.mkfifo, os.mkdir, lambda place: os.symlink("/dev/zero", place)):
            with Folder(left) as folder:
                make(folder.top / name)
                same(folder.told("rename", "tax/tax.go:4:5", "Share"), (1, "", told))
                same(folder.told("faults"), (1, "", told))
                same(folder.texts(), dict(sorted(left.items())))


LOW = "package a\n\nvar Rate int = 2\n\nfunc Net(n int) int {\n\treturn n + Rate\n}\n"
LOW_NET = LOW.replace("Net", "Gross")
ABOVE = {"low/a/a.go": LOW, beside("low/a/a.go"): LOW.replace("Rate", "Share")}
ABOVE_JOURNAL = f"low/a/a.go\n\n\n{MARK}\n"


def cut_off_above():
    """A run in a folder below leaves what a run that was cut off above has left, also where it fails. Then the run above is taken back, or it
    is told which new text is to be removed."""
    words = ("rename", "--root", "low", "a/a.go:5:6", "Gross")
    again = ("rename", "low/a/a.go:3:5", "Part")
    for name in (".gorefd-prepare", ".gorefd-commit"):
        left = ABOVE | {name: ABOVE_JOURNAL}
        with Folder(left) as folder:
            low = [*words[:2], str(folder.top / "low"), *words[3:]]
            status, out, err = run(low, limits=[(resource.RLIMIT_FSIZE, 40)])
            same((status, out, folder.texts()), (1, b"", dict(sorted(left.items()))))
            same(folder.told(*words), (0, "a/a.go\n", ""))
            same(folder.texts(), dict(sorted((left | {"low/a/a.go": LOW_NET}).items())))
            if name == ".gorefd-prepare":
                notes = "low/a/a.go: old: a run that was cut off is taken back\n"
                same(folder.told(*again), (0, "low/a/a.go\n", notes))
                same(folder.texts(), {"low/a/a.go": LOW_NET.replace("Rate", "Part")})
                continue
            place = os.path.realpath(folder.top / beside("low/a/a.go"))
            why = "the file whose new text this is has changed since: remove this, and that file stays"
            same(folder.told(*again), (1, "", f"gorefd: {place}: {why}\n"))
            same(folder.texts(), dict(sorted((left | {"low/a/a.go": LOW_NET}).items())))


MANY = 120
USERS = {f"u{n:03}/u.go": f'package u\n\nimport "tax"\n\nfunc F() int {{\n\treturn tax.Rate\n}}\n' for n in range(MANY)}
MANY_OLD = USERS | {"tax/tax.go": TAX}
MANY_NEW = {path: text.replace("tax.Rate", "tax.Share") for path, text in USERS.items()} | {"tax/tax.go": RENAMED["tax/tax.go"]}


def bare(texts):
    """The files without journals and new texts that lie beside others."""
    return {path: text for path, text in texts.items() if "gorefd" not in path}


def killed():
    """A run that is killed leaves each file old or new. The same words again make all of them new."""
    for name in (".gorefd-prepare", ".gorefd-commit"):
        with Folder(MANY_OLD) as folder:
            process, _ = folder.cut(name, signal.SIGKILL, "rename", "tax/tax.go:4:5", "Share")
            process.communicate()
            for path, text in bare(folder.texts()).items():
                if text not in (MANY_OLD[path], MANY_NEW[path]):
                    raise AssertionError(f"{path} is neither old nor new: {text!r}")
            folder.told("rename", "tax/tax.go:4:5", "Share")
            same(folder.texts(), dict(sorted(MANY_NEW.items())))


def changed_meanwhile():
    """Where a file has changed since it was read, no file is written."""
    last = f"u{MANY - 1:03}/u.go"
    for _ in range(20):
        with Folder(MANY_OLD) as folder:
            process, seen = folder.cut(".gorefd-prepare", signal.SIGSTOP, "rename", "tax/tax.go:4:5", "Share")
            in_time = seen and not [*(folder.top / last).parent.glob(".u.go.*.gorefd")]
            (folder.top / last).write_text(MANY_OLD[last] + "\n// mine\n")
            process.send_signal(signal.SIGCONT)
            out, err = process.communicate()
            if in_time:
                same((process.returncode, out), (1, b""))
                same(err.decode(), f"gorefd: {last}: it changed since it was read, so no file is written\n")
                same(folder.texts(), dict(sorted((MANY_OLD | {last: MANY_OLD[last] + "\n// mine\n"}).items())))
                return
    raise AssertionError("no run was stopped in time")


def held():
    """While a run that writes is at work, another one there is refused, and what only reads is too once there is a journal."""
    for _ in range(20):
        with Folder(MANY_OLD) as folder:
            process, seen = folder.cut(".gorefd-prepare", signal.SIGSTOP, "rename", "tax/tax.go:4:5", "Share")
            in_time = seen and (folder.top / ".gorefd-prepare").exists()
            if in_time:
                same(folder.told("rename", "tax/tax.go:4:5", "Part"), (1, "", "gorefd: .: another run is at work here\n"))
                same(folder.told("move", "tax", "vat"), (1, "", "gorefd: .: another run is at work here\n"))
                same(folder.told("faults")[:2], (1, ""))
                same((folder.top / ".gorefd-prepare").exists(), True)
            process.send_signal(signal.SIGCONT)
            out, err = process.communicate()
            if in_time:
                same((process.returncode, err), (0, b""))
                same(folder.texts(), dict(sorted(MANY_NEW.items())))
                same(folder.told("rename", "tax/tax.go:4:5", "Rate")[0], 0)
                return
    raise AssertionError("no run was stopped in time")


def full_disk():
    """Where a new text cannot be written whole, no file changes, and nothing is left beside one."""
    long = "package tax\n\nvar Rate int = 2\n" + "\n// more\n" * 200
    with Folder({"tax/tax.go": long}) as folder:
        words = ["rename", "--root", str(folder.top), "tax/tax.go:3:5", "Share"]
        status, out, err = run(words, limits=[(resource.RLIMIT_FSIZE, 1000)])
        same((status, out, folder.texts()), (1, b"", {"tax/tax.go": long}))
        if not err.startswith(b"gorefd: ") or b"File too large" not in err:
            raise AssertionError(f"told {err!r}")


def read_only():
    """In a folder that cannot be written no file changes, and the fault is told. What reads works there."""
    with Folder(FILES) as folder, tempfile.TemporaryDirectory() as room:
        os.chmod(room, 0o755)
        program = [shutil.copy(PROGRAM[0], room), *PROGRAM[1:]]
        for path in (folder.top, folder.top / "tax"):
            os.chmod(path, 0o555)
        who = dict(user=NOBODY) if os.getuid() == 0 else {}

        def told(*words):
            ran = subprocess.run([*program, *words], cwd=folder.top, stdout=subprocess.PIPE, stderr=subprocess.PIPE, timeout=60, **who)
            return ran.returncode, ran.stdout.decode(), ran.stderr.decode()

        same(told("rename", "tax/tax.go:4:5", "Share"), (1, "", "gorefd: .gorefd-prepare: Permission denied (os error 13)\n"))
        same(told("rename", "--dry-run", "tax/tax.go:4:5", "Share"), (0, DIFF, ""))
        same(told("faults"), (0, "", ""))
        same(folder.texts(), dict(sorted(FILES.items())))
        for path in (folder.top, folder.top / "tax"):
            os.chmod(path, 0o755)


def unreadable():
    """What cannot be read or held is told, and nothing changes."""
    with Folder(FILES) as folder:
        status, out, err = folder.told("faults", "--root", "none")
        same((status, out), (1, ""))
        if not err.startswith("gorefd: none"):
            raise AssertionError(f"told {err!r}")
    with Folder(FILES | {"tax/a b.go": "package tax\n"}) as folder:
        same(folder.told("faults")[:2], (1, ""))
    with Folder(FILES | {"go.mod": "go 1.19\n"}) as folder:
        same(folder.told("faults"), (1, "", "gorefd: go.mod: it names no module\n"))


def readme():
    """The first lines that README shows do what it says."""
    shown = re.search(r"^```sh\n(.*?)^```\n\n```\n(.*?)^```$", (TOP / "README.md").read_text(), re.M | re.S)
    script, wanted = shown[1].replace("crates/gorefd/out/gorefd", shlex.join(PROGRAM)), shown[2]
    same(script.count("\n"), 3)
    with Folder({}) as folder:
        streams = dict(stdin=subprocess.DEVNULL, stdout=subprocess.PIPE, stderr=subprocess.STDOUT)
        ran = subprocess.run(["sh", "-c", script], cwd=folder.top, **streams)
        same((ran.returncode, ran.stdout.decode()), (1, wanted))
        same(folder.texts(), {"mine/shop/shop.go": "package shop\n\nvar vat int = 2\n\nfunc Total(n int) int {\n\treturn n + vat\n}\n"})


CHECKS = (
    readme,
    renames,
    dry_runs,
    diffs,
    refusals,
    faults,
    faults_elsewhere,
    unsupported,
    uses,
    left_out,
    build_constraints,
    no_module,
    module_above,
    kept_modes,
    kept_owners,
    moves,
    moves_to_left_out,
    moves_to_dangling_links,
    long_names,
    gone_after_cut_off,
    moved_links,
    moves_shown,
    taken_back,
    finished,
    moves_finished,
    changed_after_cut_off,
    strange_journals,
    links_in_journals,
    no_regular_files,
    cut_off_above,
    killed,
    changed_meanwhile,
    held,
    full_disk,
    read_only,
    unreadable,
)


def main():
    check_program(CHECKS, __doc__)


if __name__ == "__main__":
    main()
