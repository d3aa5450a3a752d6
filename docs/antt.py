"""Reads definitions for docs/meaning: those in specs, the Rust types that they are about, and what their names mean."""
import re
from functools import cache, cached_property
from pathlib import Path

CRATES = Path(__file__).resolve().parent.parent / "crates"
# Each crate of crates.txt with the libraries that it uses.
LIBRARIES = {name: {"std", *rest.split()} for name, rest in re.findall(
    r"^(\w+)\b[^:\n]*:(.*)$", (CRATES.parent / "crates.txt").read_text(), re.M)}
IMPORT = re.compile(r"^(?:ghost )?(pub )?use Rattle\.([\w.]+?)(?:\.\{([^}]*)\}| as (\w+));?$", re.M)
HEAD = re.compile(r"(?:abbrev |unfoldable )*pub (record |data )?([^\s:({]+)(?= )")
# The words of the language itself. `do` isn't one of them: what it stands for isn't looked up, so it has to fail.
WORDS = set("abbrev unfoldable pub record data where Type : = λ let in elim | ↦ → × ¬ ⊥ Unit".split())
TOKEN = re.compile(r'"[^"]*"|\[\]|[][(){},;]|[^\s\[\](){},;"]+')
NAME = re.compile(r"[^\W\d]\w*")
LABEL = re.compile(r"([{;]\s*)(\w+) = ")
BINDERS = [re.compile(it) for it in (r"λ ([^.()]+)\.\s", r"\blet (\w+) = ", r"[({]([\w ]+) : ")]
BRANCH = re.compile(r"[\[|] ([^|↦]*?) ↦")
# The constructors that begin with a small letter: any other such word in a pattern is a variable.
CONSTRUCTORS = {"true", "false", "zero", "suc", "pos", "negsuc"}
# The types of std that Rust declarations name.
STD_TYPES = {"Option", "Vec"}


class Outside:
    """A name of std or of another library of the toolchain."""

    def __init__(self, name):
        self.name = name


class File:
    """A file of specs or of src, with what it imports and, in specs, what it defines."""

    def __init__(self, crate, path):
        self.crate, self.path, self.text = crate, path, path.read_text()
        self.place = path.relative_to(CRATES)
        self.imports, self.aliases, self.passed_on, self.defined = {}, {}, set(), {}
        for is_shown, module, group, alias in IMPORT.findall(self.text):
            names = [it.strip() for it in group.split(",") if it.strip()]
            self.imports.update({it: module for it in names})
            self.passed_on.update(names if is_shown else ())
            self.aliases.update({alias: module} if alias else {})
        for block in re.split(r"\n\s*\n", self.text) if path.suffix == ".antt" else ():
            self.define(block.strip("\n").splitlines())

    def define(self, lines):
        """Notes the definition that some lines are, unless they are none."""
        at = next((at for at, it in enumerate(lines) if HEAD.match(it) and not IMPORT.match(it)), None)
        if at is not None:
            made = Definition(self, "\n".join(lines), "\n".join(lines[at:]))
            self.defined.update({it: made for it in (made.name, *made.constructors)})

    def definitions(self):
        """The definitions in their order."""
        return list(dict.fromkeys(self.defined.values()))

    def about(self):
        """The comment with which it begins."""
        lines = re.match(r"(?:--.*\n)*", self.text)[0].splitlines()
        return " ".join(it.removeprefix("--").strip() for it in lines)

    def meaning(self, word):
        """What a word means here: a definition, a Rust type, a name of a library, or nothing."""
        first, _, rest = word.partition(".")
        if first in self.aliases and rest:
            return look_up(self.crate, self.aliases[first], rest.partition(".")[0])
        names = [*self.defined, *self.imports]
        name = next((it for it in names if first == it or "◌" in it and word in it.split("◌")), None)
        return self.defined.get(name) or name and look_up(self.crate, self.imports[name], name)

    def shows(self, name):
        """What a name means to a file that imports it from here."""
        return self.meaning(name) if name in self.defined or name in self.passed_on else None


class Clause:
    """Some code with variables of its own: the names in it that aren't variables, and the fields that it names."""

    def __init__(self, file, code, patterns="", bound=()):
        self.bound = {*bound, *variables(file, f"{patterns} {' '.join(BRANCH.findall(code))}")}
        self.bound.update(it for one in BINDERS for names in one.findall(code) for it in names.split())
        self.names, self.fields = [], {it for _, it in LABEL.findall(code) if not it.isdigit()}
        unlabelled = LABEL.sub(r"\1", code)
        for token in TOKEN.findall(f"{patterns} {unlabelled}"):
            self.take(token.removesuffix(".") if len(token) > 1 else token)

    def take(self, token):
        """Notes the name or the fields of a token."""
        first, *fields = token.split(".") if re.match(r"\.?\w", token) else [token]
        if first in self.bound or not first:
            self.fields.update(it for it in fields if not it.isdigit())
        elif not re.match(r'["\d(){}\[\],;]', first) or first == "[]":
            self.names.append(token)


def variables(file, patterns):
    """The variables of some patterns. A word with a capital letter is one if it isn't known and is given nothing."""
    known = {*file.imports, *file.defined, *re.findall(r"\((\w+) (?=[\w(])", patterns)}
    words = {it for it in TOKEN.findall(patterns) if NAME.fullmatch(it)} - CONSTRUCTORS
    return {it for it in words if not it[0].isupper() or it not in known}


class Entry:
    """A definition or a Rust type: what it is called, its text, its constructors, and the fields of its values."""

    def __init__(self, file, name, text):
        self.file, self.place, self.name, self.text = file, file.place, name, text

    def __str__(self):
        return f"{self.place}: {self.name}"

    @cached_property
    def uses(self):
        """The names in it, each with what it means."""
        words = dict.fromkeys(name for it in self.clauses for name in it.names if name not in WORDS)
        return {it: self.file.meaning(it) for it in words}


class Definition(Entry):
    """A definition of specs."""

    def __init__(self, file, text, code):
        kind, name = HEAD.match(code).groups()
        super().__init__(file, name, text)
        self.code, self.kind = re.sub(r"\n +--.*", "", code), kind
        self.constructors = re.findall(r"^ +(\w+) :", code, re.M) if kind == "data " else []
        self.has = set(re.findall(r"^ +pub (\w+) :", code, re.M))

    @cached_property
    def clauses(self):
        """Of a record or a data type the whole, otherwise the type and each equation."""
        if self.kind:
            return [Clause(self.file, self.code, bound=self.has)]
        first, *equations = re.split(r"\n(?=[^\s)}\]])", self.code)
        sides = [it.partition(" =") for it in equations]
        return [Clause(self.file, first), *(Clause(self.file, right, self.patterns(left)) for left, _, right in sides)]

    def patterns(self, left):
        """What the left side of an equation has beside the name."""
        own = {self.name, *self.name.split("◌")}
        return " ".join(it for it in TOKEN.findall(left) if it not in own)

    def doubtful(self):
        """The variables that have the name of a definition: elsewhere in their clause that may be meant."""
        found = {it for one in self.clauses for it in one.bound}
        return sorted(it for it in found if isinstance(self.file.meaning(it), Definition))


class RustType(Entry):
    """A Rust type: its declaration, and how contracts see it if it has a `Model`."""

    def __init__(self, file, name, declared):
        model = re.search(rf"^impl Model for {name} \{{\n[\s\S]*?^\}}", file.text, re.M)
        self.model = model[0] if model else ""
        code = re.sub(r"^ *#\[.*\n", "", declared, flags=re.M)
        super().__init__(file, name, f"{code}\n\n{self.model}".strip("\n"))
        bare = re.sub(r"^ *///.*\n", "", code, flags=re.M)
        self.constructors = re.findall(r"^    (\w+)", bare, re.M) if re.search(r"\benum ", bare) else []
        self.has = set(re.findall(r"(\w+): ", bare))
        self.types = {*re.findall(r"\b[A-Z]\w*", bare)} - {name, *self.constructors} - STD_TYPES

    @cached_property
    def clauses(self):
        return [Clause(self.file, it) for it in re.findall(r"ghost \w+ = \{ (.*) \};", self.model)]

    @cached_property
    def uses(self):
        """The names in its model and the types in its declaration, each with what it means."""
        types = {it: declared_in(self.file.crate, self.file.path, it) or imported(self.file, it) for it in self.types}
        return {**super().uses, **types}


def imported(file, word):
    """The type of a crate that a source imports, wherever that crate declares it."""
    found = re.search(rf"^use (\w+)(?:::\w+)*::(?:\{{[^}}]*\b{word}\b[^}}]*\}}|{word});", file.text, re.M)
    crate = found and (file.crate if found[1] == "crate" else found[1])
    paths = sorted((CRATES / crate / "src").rglob("*.rt")) if crate in LIBRARIES else []
    return next((made for it in paths if (made := declared_in(crate, it, word))), None)


@cache
def read(crate, path):
    """A file of a crate, if there is one."""
    return File(crate, path) if path.exists() else None


@cache
def declared_in(crate, path, name):
    """A type that a source declares."""
    file = read(crate, path)
    form = rf"^((?:///.*\n|#\[.*\n)*(?:pub(?:\(crate\))? )?(?:struct|enum) {name}\b(?:.*;$|[\s\S]*?^\}}))"
    found = file and re.search(form, file.text, re.M)
    return RustType(file, name, found[1]) if found else None


def specs(crate, module):
    """The definitions of a module, if there is one."""
    return read(crate, CRATES / crate / "specs" / f"{module.replace('.', '/')}.antt")


def look_up(crate, module, name):
    """What a crate means by a name that it imports from a module."""
    library, _, path = module.partition(".specs.")
    if library not in LIBRARIES:
        return Outside(name) if library in LIBRARIES[crate] else None
    if path.startswith("declared."):
        return declared(library, path.split(".")[1:], name)
    file = specs(library, path)
    return file and file.shows(name)


def declared(crate, path, name):
    """The Rust type that a name under `declared` means, also if the name is one of its variants."""
    is_variant = path[-1] == "TheVariants"
    *place, owner = path[:-1] if is_variant else path
    made = declared_in(crate, (CRATES / crate / "src").joinpath(*place or ["lib"]).with_suffix(".rt"), owner)
    return made if made and (name in made.constructors if is_variant else name == owner) else None
