"""Reads the files of definitions, crates/*/specs/**/*.antt, for .ci/words and .ci/definitions."""
import os
import re

# a name, as the logic's language reads one: all but blanks, brackets and the marks that stand between names
NAME = r"[^\s(){}\[\],;.:λ→×⊎=≡][^\s(){}\[\],;.:]*"
HEAD = re.compile(rf"((?:(?:abbrev|unfoldable|pub|record|data) )*)({NAME})(?: |$)")
USE = re.compile(r"\s*(?:pub )?(?:ghost )?use (Rattle\.[^\s{};]*?)(?:\.\{([^}]*)\}|(?: as ([^\s;]+))?);?\s*$", re.M)
LINES_OF_NAMES = re.compile(rf"{NAME}(?:\.{NAME})*")


class Definition:
    """One definition or law of a file: its word, what it is, the comment above it and its lines."""

    def __init__(self, source, word, kind, is_public, comment, line):
        self.source, self.word, self.kind, self.is_public = source, word, kind, is_public
        self.comment, self.line, self.lines = comment, line, []

    @property
    def crate(self):
        return self.source.crate

    @property
    def module(self):
        return self.source.module

    @property
    def is_law(self):
        return self.kind == "law"

    def path(self):
        return f"{self.crate}.{self.module}.{self.word}"


class Source:
    """One file of definitions."""

    def __init__(self, top, file):
        self.file = file
        parts = file.split("/")
        self.crate, self.module = parts[1], ".".join(parts[3:])[: -len(".antt")]
        with open(f"{top}/{file}", encoding="utf-8") as it:
            self.text = it.read()
        self.head, self.definitions, self.parts = "", [], []
        self.uses, self.modules = uses_of(self.text)
        self.read()

    def read(self):
        comment, depths, kind_within, open_one = [], [0], {}, None
        for number, line in enumerate(self.text.split("\n"), 1):
            depth = len(line) - len(line.lstrip(" "))
            told = line.strip()
            if told.startswith("--"):
                if depth <= depths[-1]:
                    open_one = None
                    comment.append(told[2:].strip())
                elif open_one:
                    open_one.lines.append(line)
                continue
            if not told:
                # what stands alone at the top says what the file is for
                if number and not self.definitions and not self.head:
                    self.head = " ".join(comment)
                comment = []
                continue
            while depth < depths[-1]:
                depths.pop()
            if depth > depths[-1]:
                if open_one:
                    open_one.lines.append(line)
                continue
            if told.startswith("use ") or told.startswith(("infix", "pub mod ")):
                if told.startswith("use ") and not self.definitions and not self.head:
                    self.head = " ".join(comment)
                if not told.startswith("infix"):
                    comment = []
                continue
            if re.match(r"(abbrev |unfoldable )*(pub )?mutual\b|module _", told):
                inner = depth + 2
                depths.append(inner)
                kind_within[inner] = "function" if told.startswith(("abbrev", "unfoldable")) else "law"
                self.parts.append((number, told))
                comment, open_one = [], None
                continue
            head = HEAD.match(told)
            if head and self.begins(head, told):
                words = head[1].split()
                kind = next((it for it in ("record", "data") if it in words), None)
                if kind is None:
                    kind = "function" if {"abbrev", "unfoldable"} & {*words} else kind_within.get(depth, "law")
                open_one = Definition(self, head[2], kind, "pub" in words, " ".join(comment), number)
                self.definitions.append(open_one)
                comment = []
            if open_one:
                open_one.lines.append(line)
            comment = []

    def begins(self, head, told):
        """Whether a line begins a definition, and is no clause of one."""
        rest = told[head.end(2) :]
        if "record" in head[1].split() or "data" in head[1].split():
            return True
        return bool(re.match(r"\s*:(\s|$)|\s*(\{[^}]*\}\s*)?:(\s|$)", rest))


def uses_of(text):
    """The names that a file takes from modules, each with its module and its word there, and the modules that it names."""
    names, modules = {}, {}
    for at, inside, alias in USE.findall(text):
        path = at[len("Rattle.") :].rstrip(".")
        if inside:
            for it in filter(None, (it.strip() for it in inside.replace("\n", " ").split(","))):
                word, _, called = it.partition(" as ")
                names[(called or word).strip()] = path, word.strip()
        else:
            modules[alias or path.rpartition(".")[2]] = path
    return names, modules


def crates_of(top):
    """The crates of crates.txt, in its order."""
    with open(f"{top}/crates.txt", encoding="utf-8") as it:
        return [line.partition(":")[0].strip() for line in it if ":" in line and not line.startswith("#")]


def files_below(top, folder, ending):
    """The files of a folder, in order, but for what the toolchain made."""
    found = []
    for at, folders, files in os.walk(f"{top}/{folder}"):
        folders[:] = sorted(it for it in folders if it != "out")
        found += [os.path.relpath(f"{at}/{name}", top) for name in sorted(files) if name.endswith(ending)]
    return found


def sources_of(top):
    """The files of definitions of all crates, in the order of the crates and of the modules in their Lib."""
    found = []
    for crate in crates_of(top):
        files = [it for it in files_below(top, f"crates/{crate}/specs", ".antt") if not it.endswith("/Lib.antt")]
        order = []
        if os.path.isfile(f"{top}/crates/{crate}/specs/Lib.antt"):
            with open(f"{top}/crates/{crate}/specs/Lib.antt", encoding="utf-8") as it:
                order = re.findall(r"^(?:pub )?mod (\S+)", it.read(), re.M)
        read = [Source(top, it) for it in files]
        found += sorted(read, key=lambda it: (order.index(it.module) if it.module in order else len(order), it.module))
    return found
