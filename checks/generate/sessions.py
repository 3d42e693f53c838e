"""Random sessions with the replies that the model expects."""

from checks.generate import changes, interfaces, programs, shadows
from checks.model import lexer
from checks.model.history import History, fault_lines, reply, uses_of
from checks.model.workspace import SourceFile, Workspace


def first_fault(text):
    """The first fault of one file as (offset, kind), or None."""
    return SourceFile("a/a.go", text).fault


class Session:
    """What is sent, and what is to be answered."""

    def __init__(self):
        self.sent = b""
        self.answered = b""
        self.number = 0

    def put(self, path, text):
        self.sent += f"put {self.number} {path} {len(text)}\n".encode() + text
        self.number += 1
        self.answered += f"ok {self.number} 0\n".encode()

    def delete(self, path):
        self.sent += f"del {self.number} {path}\n".encode()
        self.number += 1
        self.answered += f"ok {self.number} 0\n".encode()

    def tell(self, line, refusal, body):
        """A question that may be refused."""
        if refusal is None:
            self.ask(line, body)
        else:
            self.sent += line.encode() + b"\n"
            self.answered += f"no {refusal} {len(body)}\n".encode() + body.encode()

    def ask(self, line, body):
        self.sent += line.encode() + b"\n"
        self.answered += f"ok {self.number} {len(body)}\n".encode() + body.encode()


def faults_of_files(generator, count):
    """Files put one after another, each with its first fault of scanning and parsing."""
    session = Session()
    before = None
    while count > 0:
        text = programs.any_text(generator) if generator.random() < 0.9 else programs.deep_text(generator)
        fault = first_fault(text)
        if text == before or fault is None:
            # what later stages say of it is no part of this comparison
            continue
        before = text
        count -= 1
        session.put("a/a.go", text)
        session.ask("faults", "a/a.go:#%d %s\n" % fault)
    return session


PATHS = ["a/a.go", "a/b.go", "a/B.go", "a/b/a.go", "a-/x.go", "b/z.go", "b/a.txt", "é/a.go", "a.go", "a/c.go", "/a.go"]


def a_place(generator, texts):
    """A path and an offset: mostly those of a byte of an identifier or of a literal."""
    if generator.random() < 0.05 or not texts:
        return generator.choice(PATHS), generator.randrange(60)
    path = generator.choice(sorted(texts))
    if generator.random() < 0.1 or not path.endswith(".go"):
        return path, generator.choice([0, len(texts[path]), generator.randrange(len(texts[path]) + 5), 2**32 - 1])
    try:
        tokens = lexer.tokens_of(texts[path])
    except lexer.Fault:
        return path, 0
    tokens = [t for t in tokens if t.kind in ("name", "_", "string")]
    if not tokens:
        return path, 0
    token = generator.choice(tokens)
    return path, token.offset + generator.randrange(len(token.text.encode()) + (generator.random() < 0.1))


def uses_in_files(generator, count):
    """A few files, with questions about what stands in them, while one after another is put again. Most have faults of types."""
    session = Session()
    texts = {}
    while count > 0:
        path = generator.choice([path for path in PATHS if path.isascii() and path[0] != "/" and "/" in path])
        text = programs.scoped_text(generator) if generator.random() < 0.98 else programs.any_text(generator)
        fault = first_fault(text) if path.endswith(".go") else None
        if texts.get(path) == text or (fault is not None and generator.random() < 0.8):
            continue
        count -= 1
        session.put(path, text)
        texts[path] = text
        workspace = Workspace(texts)
        for _ in range(generator.randrange(12)):
            place = a_place(generator, texts)
            session.tell("uses %s:#%d" % place, *uses_of(workspace, texts, *place))
        if fault is not None:
            session.delete(path)
            del texts[path]
    return session


class Packages:
    """Packages that import some of those before them, put one after another."""

    NAMES = ["a", "b", "c", "d"]

    def __init__(self, generator, slips):
        self.generator = generator
        self.slips = slips
        self.texts = {}
        self.declared = {}

    def typed(self):
        """What each package declares, as it stands."""
        return {path[0]: self.declared[path, text] for path, text in self.texts.items()}

    def text(self):
        """A new text of one package: its path, its bytes, and what it declares."""
        generator = self.generator
        typed = self.typed()
        number = generator.randrange(len(self.NAMES))
        name = self.NAMES[number]
        among = self.NAMES if generator.random() < self.slips else self.NAMES[:number]
        among = [other for other in among if other in typed]
        imports = {other: typed[other] for other in generator.sample(among, min(len(among), generator.randrange(3)))}
        return (f"{name}/{name}.go", *programs.typed_text(generator, name, imports, self.slips))

    def chosen(self):
        """A path with a new text for it, mostly one without faults; or None."""
        for _ in range(12):
            path, text, typed = self.text()
            if self.texts.get(path) == text or first_fault(text) is not None:
                continue
            workspace = Workspace({**self.texts, path: text})
            if not workspace.faults() or self.generator.random() < self.slips * 10:
                break
        if self.texts.get(path) == text or first_fault(text) is not None:
            return None
        self.declared[path, text] = typed
        return path, text


def checked_packages(generator, count):
    """Faults of all stages, and uses where there are none, or the refusal that names the first."""
    packages = Packages(generator, generator.choice([0.0, 0.005, 0.05]))
    session = Session()
    for _ in range(count):
        chosen = packages.chosen()
        if chosen is not None:
            session.put(*chosen)
            packages.texts[chosen[0]] = chosen[1]
        workspace = Workspace(packages.texts)
        session.ask("faults", fault_lines(workspace.faults()))
        for _ in range(generator.randrange(8)):
            place = a_place(generator, packages.texts)
            session.tell("uses %s:#%d" % place, *uses_of(workspace, packages.texts, *place))
    return session


class Talk:
    """A session whose replies are those of the model's history."""

    def __init__(self):
        self.session = Session()
        self.history = History()

    def send(self, line, body=b""):
        self.session.sent += line.encode() + b"\n" + body
        self.session.answered += reply(self.history, line.encode(), body)

    def change_to(self, texts):
        """Deletes and puts files until the workspace has these texts."""
        for path in sorted(set(self.history.current.texts) - set(texts)):
            self.send(f"del {self.history.current.number} {path}")
        for path, text in texts.items():
            if self.history.current.texts.get(path) != text:
                self.send(f"put {self.history.current.number} {path} {len(text)}", text)


def build_and_show(talk):
    """Builds the packages of the current state, and asks for their objects. Returns their paths."""
    packages = talk.history.current.workspace.order
    for _ in packages:
        talk.send("work")
    for path in packages:
        talk.send(f"object {path}")
    return packages


def changed_workspaces(generator, count):
    """What a workspace of a stored session is answered after small changes: its faults, some uses, and its objects."""
    talk = Talk()
    stored = changes.workspaces()
    for _ in range(count):
        texts = changes.changed(generator, generator.choice(stored))
        talk.change_to(texts)
        talk.send("faults")
        for _ in range(generator.randrange(4)):
            talk.send("uses %s:#%d" % a_place(generator, texts))
        if generator.random() < 0.5:
            build_and_show(talk)
    return talk.session


def ask_the_journal(generator, talk):
    """What the journal shows of some entry, or of none past its end."""
    talk.send(f"log {generator.randrange(len(talk.history.entries) + 3)}")


def ask_how_objects_compare(generator, talk):
    """How all objects compare with those of some state, or of a number that no state has."""
    talk.send(f"objects {generator.randrange(talk.history.numbers + 1)}")


def objects_of_packages(generator, count):
    """Packages that are put, deleted, built, undone and redone, and their objects."""
    packages = Packages(generator, generator.choice([0.0, 0.005]))
    talk = Talk()
    for _ in range(count):
        packages.texts = talk.history.current.texts
        number = talk.history.current.number
        way = generator.random()
        chosen = packages.chosen()
        if way < 0.6 and chosen is not None:
            talk.send(f"put {number} {chosen[0]} {len(chosen[1])}", chosen[1])
        elif way < 0.66 and packages.texts:
            talk.send(f"del {number} {generator.choice(sorted(packages.texts))}")
        elif way < 0.84:
            talk.send(f"undo {number}")
        else:
            talk.send(f"redo {number}")
        for _ in range(generator.randrange(3)):
            talk.send("work")
        for name in generator.sample(packages.NAMES + ["q"], 3):
            talk.send(f"object {name}")
        if generator.random() < 0.5:
            ask_how_objects_compare(generator, talk)
        for _ in range(generator.randrange(3)):
            ask_the_journal(generator, talk)
    return talk.session


def types_that_implement(generator, count):
    """Workspaces with interfaces, each with its faults, some uses, and its objects."""
    talk = Talk()
    for _ in range(count):
        talk.change_to(interfaces.any_implementing(generator, generator.choice([0.0, 0.0, 0.01, 0.05])))
        talk.send("faults")
        texts = talk.history.current.texts
        for _ in range(generator.randrange(4)):
            talk.send("uses %s:#%d" % a_place(generator, texts))
        build_and_show(talk)
    return talk.session


NEW_NAMES = "x y z q X Y T len int nil append k b init main func _ 1x a.b é Ж x٣".split()
FOLDERS = "a b c p q k/p k/q k/len x/init x/main x/a-b x/_ x/func p/x q/T z/X c-d a/ /b x/../y p/../q é".split()


def a_workspace(generator, stored):
    """Texts, mostly without faults, in which there is much to rename and to move."""
    way = generator.random()
    if way < 0.5:
        texts = shadows.shadowed(generator)
    elif way < 0.75:
        texts = interfaces.implementing(generator)
    else:
        texts = changes.changed(generator, generator.choice(stored))
    return with_fault(generator, texts) if generator.random() < 0.4 else texts


def with_fault(generator, texts):
    """The texts and a package with a fault, which may import one of theirs or a path of a move; or one of their files is cut."""
    way = generator.random()
    files = sorted(path for path in texts if path.endswith(".go"))
    if way < 0.4 and files:
        path = generator.choice(files)
        return {**texts, path: texts[path][: generator.randrange(len(texts[path]) + 1)]}
    imported = a_folder(generator, texts) if way < 0.8 else generator.choice(FOLDERS)
    text = generator.choice(
        [
            'package w\n\nvar s string = "ab',
            f'package w\n\nimport "{imported}"\n',
            f'package w\n\nimport "{imported}"\nimport "nowhere"\n',
            f'package w\n\nimport _ "{imported}"\nvar x int = "a"\n',
            "package w\n\nfunc f() int { return }\n",
        ]
    )
    return {**texts, f"{generator.choice(['w', 'a/w', 'k/w'])}/w.go": text.encode()}


def a_new_name(generator, texts):
    words = [word for text in texts.values() for word in changes.TOKEN.findall(text.decode())]
    names = [word for word in words if word.isidentifier() and word not in changes.KEYWORDS]
    return generator.choice(names) if names and generator.random() < 0.75 else generator.choice(NEW_NAMES)


def a_folder(generator, texts):
    folders = sorted({path.rsplit("/", 1)[0] for path in texts} | {path.split("/")[0] for path in texts})
    return generator.choice(folders) if folders and generator.random() < 0.9 else generator.choice(FOLDERS)


def a_target(generator, texts):
    way = generator.random()
    if way < 0.2:
        return a_folder(generator, texts)
    if way < 0.5:
        return generator.choice(FOLDERS)
    return generator.choice(["", "k/", "p/", "a/b/"]) + a_new_name(generator, texts)


def question(generator, talk):
    """A command that changes no text."""
    texts = talk.history.current.texts
    way = generator.randrange(9)
    if way == 0:
        talk.send("faults")
    elif way == 1 and texts:
        talk.send("cat " + generator.choice(sorted(texts)))
    elif way == 2:
        talk.send("uses %s:#%d" % a_place(generator, texts))
    elif way == 3:
        talk.send(generator.choice(["list", "look", "status"]))
    elif way == 4:
        talk.send("object " + a_folder(generator, texts))
    elif way == 5:
        ask_the_journal(generator, talk)
    elif way == 6:
        ask_how_objects_compare(generator, talk)
    else:
        talk.send("work")


def rename_or_move(generator, talk, moves):
    texts = talk.history.current.texts
    number = talk.history.current.number + (generator.random() < 0.02)
    if generator.random() < moves:
        talk.send(f"move {number} {a_folder(generator, texts)} {a_target(generator, texts)}")
    else:
        place = "%s:#%d" % a_place(generator, texts)
        talk.send(f"rename {number} {place} {a_new_name(generator, texts)}")


def edited_workspaces(generator, count, moves):
    """Renames, or in that part moves, each followed by questions or by undo and redo."""
    talk = Talk()
    stored = changes.workspaces()
    talk.change_to(a_workspace(generator, stored))
    for _ in range(count):
        way = generator.random()
        if way < 0.06:
            talk.change_to(a_workspace(generator, stored))
        elif way < 0.8:
            rename_or_move(generator, talk, moves)
        else:
            talk.send(f"{generator.choice(['undo', 'redo'])} {talk.history.current.number}")
        for _ in range(generator.randrange(3)):
            question(generator, talk)
    return talk.session


def renames_in_workspaces(generator, count):
    return edited_workspaces(generator, count, 0.03)


def moves_in_workspaces(generator, count):
    return edited_workspaces(generator, count, 0.75)


KINDS = {
    "faults": (faults_of_files, 40),
    "uses": (uses_in_files, 12),
    "checked": (checked_packages, 12),
    "objects": (objects_of_packages, 30),
    "changed": (changed_workspaces, 30),
    "interfaces": (types_that_implement, 12),
    "renames": (renames_in_workspaces, 60),
    "moves": (moves_in_workspaces, 60),
}
