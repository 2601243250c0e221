"""The definitions of specs/ and the clauses of the sources, read by name.

A file of specs/ is a list of paragraphs, each a definition under its comment. A word of a paragraph
or of a clause means what the `use` lines of its file say. Names of the standard library and of the
toolchain's crates are left out.
"""

import glob
import os
import re

WORD = re.compile(r"[^\s(){}\[\],;=λ∷|⟨⟩]+")
HEAD_WORDS = ("abbrev", "pub", "unfoldable", "record", "data")


def module_of(path, root):
    """The module of a file of specs/, as `use` lines name it."""
    parts = os.path.relpath(path, os.path.join(root, "crates")).split("/")
    return "Rattle.%s.specs.%s" % (parts[0], ".".join(p.removesuffix(".antt") for p in parts[2:]))


def without_comment(line):
    return re.split(r"(?:^|\s)--(?:\s|$)", line)[0]


class Imports:
    """What the names of a file mean."""

    def __init__(self):
        self.names, self.modules = {}, {}

    def read(self, text):
        text = text.strip().rstrip(";").strip()
        listed = re.match(r"(\S+)\.\{(.*)\}$", text, re.S)
        if listed:
            for name in listed.group(2).split(","):
                words = name.split()
                if words:
                    self.names[words[-1]] = (listed.group(1), words[0])
            return
        whole = re.match(r"(\S+) as (\S+)$", text)
        if whole:
            self.modules[whole.group(2)] = whole.group(1)


class Definition:
    """A definition, with its comment and the names that it gives (constructors too)."""

    def __init__(self, module, path, line, lines):
        self.module, self.path, self.line, self.lines = module, path, line, lines
        self.code = [text for text in lines if not text.startswith("--")]
        words = self.code[0].split()
        kind = None
        while words[0] in HEAD_WORDS:
            kind = words[0] if words[0] in ("record", "data") else kind
            words = words[1:]
        self.name = re.split(r"[({:]", words[0])[0]
        self.names = [self.name]
        if kind == "data":
            for text in self.code[1:]:
                constructor = re.match(r"\s+(?:pub\s+)?([^\s:|]+)\s*(?::|\()", text)
                if constructor:
                    self.names.append(constructor.group(1))

    def __repr__(self):
        return "%s.%s" % (self.module.removeprefix("Rattle."), self.name)


def one_line_each(paragraph):
    """The lines of a paragraph, where imports that go over several lines are one line each."""
    joined = []
    for line in paragraph:
        if joined and joined[-1].startswith(("use ", "pub use ")) and line.startswith((" ", "}")):
            joined[-1] += line
        else:
            joined.append(line)
    return joined


class File:
    """A file of specs/."""

    def __init__(self, path, root):
        self.path, self.module = path, module_of(path, root)
        self.imports, self.passed_on, self.definitions = Imports(), Imports(), []
        with open(path) as opened:
            lines = opened.read().split("\n")
        paragraph, first = [], 0
        for number, line in enumerate(lines + [""]):
            following = next((t for t in lines[number + 1:] if t.strip()), "")
            if line.strip() or (following and following[0].isspace()):
                first = first if paragraph else number
                paragraph.append(line)
                continue
            self.take(paragraph, first)
            paragraph = []

    def take(self, paragraph, first):
        """One paragraph: imports, or a definition."""
        rest = []
        for line in one_line_each(paragraph):
            if line.startswith(("use ", "pub use ")):
                self.imports.read(line.removeprefix("pub ")[4:])
                if line.startswith("pub "):
                    self.passed_on.read(line[8:])
                rest = []
            elif not line.startswith(("pub mod ", "mod ")):
                rest.append(line)
        if any(not line.startswith("--") for line in rest):
            self.definitions.append(
                Definition(self.module, self.path, first + 1 + len(paragraph) - len(rest), rest))


class Repository:
    """All definitions of the repository."""

    def __init__(self, root):
        self.root = root
        self.files = {}
        self.named = {}
        for path in sorted(glob.glob(root + "/crates/*/specs/**/*.antt", recursive=True)):
            if os.path.basename(path) == "Lib.antt":
                continue
            read = File(path, root)
            self.files[read.module] = read
            for definition in read.definitions:
                for name in definition.names:
                    self.named[(read.module, name)] = definition

    def defined(self, name):
        """The definition of a module's name, also where the module passes it on by `pub use`."""
        while name and name not in self.named and name[0] in self.files:
            name = self.files[name[0]].passed_on.names.get(name[1])
        return self.named.get(name)

    def meaning(self, module, imports, word):
        """The definition that a word stands for, if it is one of ours."""
        for name in (word, word.rstrip("."), word.split(".")[0], word.rsplit(".", 1)[0]):
            found = self.named.get((module, name)) or self.defined(imports.names.get(name))
            if found:
                return found
        front, _, back = word.partition(".")
        if front in imports.modules:
            for name in (back, back.split(".")[0]):
                found = self.named.get((imports.modules[front], name))
                if found:
                    return found
        whole = re.match(r"(Rattle\.\w+\.specs\.[\w.]+)\.([^.]+)$", word)
        return self.named.get((whole.group(1), whole.group(2))) if whole else None

    def cited_in(self, module, imports, lines):
        """The definitions that some text cites."""
        found = []
        for line in lines:
            for word in WORD.findall(without_comment(line)):
                definition = self.meaning(module, imports, word)
                if definition:
                    found.append(definition)
        return found

    def of_contracts(self, read):
        """The definitions that the public contracts of these sources are made of."""
        return self.closure([one for source in read for text in source.public + source.models
                             for one in self.cited_in(None, source.imports, text.splitlines())])

    def closure(self, start):
        """The definitions that these are made of, themselves too, each with one that cites it."""
        because, todo = {}, [(definition, None) for definition in start]
        while todo:
            definition, citing = todo.pop()
            if definition in because:
                continue
            because[definition] = citing
            imports = self.files[definition.module].imports
            for cited in self.cited_in(definition.module, imports, definition.code):
                if cited is not definition:
                    todo.append((cited, definition))
        return because


def closing(text, place):
    """The place after the brace that closes the one at `place`."""
    depth = 0
    for i in range(place, len(text)):
        depth += {"{": 1, "}": -1}.get(text[i], 0)
        if depth == 0:
            return i + 1
    return len(text)


ITEM = re.compile(
    r"\b(?:(pub(?:\([^)]*\))?)\s+)?(?:unsafe\s+|const\s+|extern\s+\"C\"\s+)*"
    r"(fn|impl|trait|mod|ghost|struct|enum)\b")
CLAUSE = re.compile(r"(?:ensures\*?|requires\*?)\b[^{;]*\{")
GHOST = re.compile(r"ghost\s+(\w+)\s*(?:<[^>]*>)?\s*=\s*\{")
INNER = re.compile(r"\s+\w+\s*([{;])")


class Source:
    """A file of src/: the texts of its clauses, those of public calls, Models and the rest
    apart."""

    def __init__(self, path, public_types):
        with open(path) as opened:
            self.text = re.sub(r"//[^\n]*", "", opened.read())
        self.path, self.public_types = path, public_types
        self.imports = Imports()
        for use in re.finditer(r"ghost use ([^;]+);", self.text):
            self.imports.read(use.group(1))
        self.public, self.models, self.private = [], [], []
        self.scan(0, len(self.text), "module", True)

    def scan(self, place, end, where, is_public):
        while True:
            item = ITEM.search(self.text, place, end)
            if not item:
                return
            is_pub, word = item.group(1) == "pub", item.group(2)
            if word == "ghost":
                place = self.ghost(item, where, is_public)
            elif word in ("struct", "enum"):
                place = item.end()
            elif word == "mod":
                place = self.inner_module(item, is_public and is_pub)
            elif word in ("impl", "trait"):
                place = self.block(item, is_pub)
            else:
                is_stated = is_public and (is_pub or where in ("trait", "trait impl"))
                place = self.function(item, end, is_stated)

    def ghost(self, item, where, is_public):
        """A ghost item: a clause of its type or trait, but for a Model's coding, view and
        invariant."""
        ghost = GHOST.match(self.text, item.start(2))
        if not ghost:
            return self.text.find(";", item.end()) + 1 or len(self.text)
        end = closing(self.text, ghost.end() - 1)
        of_model = where == "model" and ghost.group(1) != "Value"
        into = self.models if of_model else self.public if is_public else self.private
        into.append(self.text[ghost.end():end])
        return end

    def inner_module(self, item, is_public):
        inner = INNER.match(self.text, item.end())
        if not inner or inner.group(1) == ";":
            return item.end()
        end = closing(self.text, inner.end() - 1)
        self.scan(inner.end(), end - 1, "module", is_public)
        return end

    def block(self, item, is_pub):
        brace = self.text.find("{", item.end())
        end = closing(self.text, brace)
        head = self.text[item.end():brace]
        if item.group(2) == "trait":
            self.scan(brace + 1, end - 1, "trait", is_pub)
            return end
        of = implementing_type(head)
        where = "impl"
        if " for " in head:
            where = "model" if re.search(r"\bModel for\b", head) else "trait impl"
        self.scan(brace + 1, end - 1, where, of is None or of in self.public_types)
        return end

    def function(self, item, end, is_stated):
        """The clauses between a signature and its body."""
        place, depth = item.end(), 0
        while place < end:
            letter = self.text[place]
            if depth == 0 and letter in ";{":
                break
            depth += {"(": 1, "[": 1, ")": -1, "]": -1}.get(letter, 0)
            is_start = depth == 0 and self.text[place - 1].isspace()
            clause = CLAUSE.match(self.text, place) if is_start else None
            if clause:
                after = closing(self.text, clause.end() - 1)
                (self.public if is_stated else self.private).append(self.text[clause.end():after])
                place = after
            else:
                place += 1
        return closing(self.text, place) if place < end and self.text[place] == "{" else place + 1


def implementing_type(head):
    """The type that an impl is of, or None where it is a type parameter."""
    head = head.strip()
    if head.startswith("<"):
        depth = 0
        for i, letter in enumerate(head):
            depth += (letter == "<") - (letter == ">" and head[i - 1] != "-")
            if depth == 0:
                head = head[i + 1:].strip()
                break
    name = re.match(r"&?(?:'\w+\s+)?(?:mut\s+)?(?:\w+::)*(\w+)", head.split(" for ")[-1].strip())
    return name.group(1) if name and len(name.group(1)) > 1 and name.group(1)[0].isupper() else None


def sources(root, crate):
    """The files of a crate's src/, without its tests."""
    paths = sorted(glob.glob("%s/crates/%s/src/**/*.rt" % (root, crate), recursive=True))
    public_types = {"Vec", "String", "SocketAddr", "Duration"}
    for path in paths:
        with open(path) as opened:
            public_types |= set(re.findall(r"\bpub\s+(?:struct|enum|trait|type)\s+(\w+)", opened.read()))
    return [Source(path, public_types) for path in paths if "/tests" not in path]
