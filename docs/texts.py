"""The texts of errors, verdicts and messages in the sources, and what holds each of them as it is.

A text is what `#[error("..")]` or an `impl Display` has for a variant, or what `Messages::print` or `eprint!` prints. It is
held by a clause `ghost output` of its `impl`, by a test that compares it, by a case of tests/cases that leaves a line
with it, or by a script that expects it. A test, a case or a script counts only if what it expects is the text as the
source has it now, with the texts inside of it.
"""
import re
from itertools import product
from pathlib import Path

ROOT = Path(__file__).resolve().parent.parent
# Types that are printed, and are neither errors nor verdicts: an element's code, a query's canonical text, and
# words for people, which a contract and a test of their crate hold.
OTHERS = {"Element", "Query", "Explanation", "Found", "WrongWord", "MoreWords", "Shown", "ShownText"}
# What a command prints besides messages: types, or variants of them.
PRINTED = {
    "rank": ("Fault",), "describe": ("Fault",), "merge": ("MergingFault",),
    "check": ("Fault", "Judgement::Whole"), "check --part": ("Fault", "Judgement::Part"), "table": ("TablingFault",),
}
LITERAL = re.compile(r"""//[^\n]*|'(?:[^'\\]|\\.)'|"((?:[^"\\]|\\.)*)\"""", re.S)
ATTRIBUTE = re.compile(r'#\[error\((?:(transparent)|"((?:[^"\\]|\\.)*)"[^\n]*)\)\]'
                       r"\s*(?:(?://|#\[)[^\n]*\n\s*)*(?:pub )?(?:(struct) )?(\w+)")
DISPLAY = re.compile(r"^impl(?:<[^{]*?>)? (?:\w+::)*Display for (\w+)[^{]*\{$(.*?)^\}$", re.S | re.M)
# What is printed as it is here, and what is shown in place of the command line parser's own texts.
MESSAGE = re.compile(r'\b(?:messages\.print\((?:format_args!\()?|eprint!\(\w+;\s*)"((?:[^"\\]|\\.)*)"|"(error: [^"\n]*)')
ITEM = re.compile(r"^(?=#\[test\]|(?:pub(?:\(crate\))? )?"
                  r"(?:const|static|fn|struct|enum|impl|type|trait|use|mod)\b)", re.M)


class Text:
    """A text: its crate, its type and variant, the template, the types of what it has in braces, and its clause."""

    def __init__(self, crate, owner, variant, template, inside, clause=None):
        self.crate, self.owner, self.variant, self.clause = crate, owner, variant, clause
        self.template, self.inside, self.holders = template, inside, []
        self.name = "::".join(it for it in (owner, variant) if it) or "a message"


def is_test(path):
    """Whether a file of a crate has tests."""
    return bool(re.search(r"tests|growth", str(path.relative_to(ROOT / "crates"))))


def unescaped(text):
    """What a literal of the sources is."""
    text = re.sub(r"\\\n\s*", "", text)
    return re.sub(r"\\(.)", lambda it: {"n": "\n", "t": "\t"}.get(it[1], it[1]), text)


def literals(text):
    """All literals of a piece of source."""
    return [unescaped(it[1]) for it in LITERAL.finditer(text) if it[1] is not None]


def fields(text, owner):
    """Of each variant of an enum, or of a struct under no name, the types of its fields by name or place."""
    found = re.search(rf"\b(enum|struct) {owner}\b[^{{;(]*(\{{.*?\n\}}|\([^)]*\))", text, re.S)
    if not found:
        return {}
    body, types = re.sub(r"//[^\n]*|#\[[^\n]*?\]", "", found[2]), {}
    variants = re.findall(r"(\w+)\s*(\([^)]*\)|\{[^}]*\})?\s*(?:,|\n\})", body)
    for name, rest in variants if found[1] == "enum" else [("", body)]:
        types[name] = dict(re.findall(r"(\w+): *([\w:]+)", rest) if rest.startswith("{") else
                           ((str(at), it.strip()) for at, it in enumerate(rest.strip("()").split(","))))
    return types


def derived(crate, text, whole):
    """The texts of a file that `#[error(..)]` has."""
    for found in ATTRIBUTE.finditer(text):
        alone, template, struct, name = found.groups()
        owner = name if struct else re.findall(r"\benum (\w+)", text[:found.start()])[-1]
        variant, template = "" if struct else name, "{0}" if alone else unescaped(template)
        yield Text(crate, owner, variant, template, fields(whole, owner).get(variant, {}))


def bound(names, types):
    """The types of the names that an arm binds, from those of the variant's fields."""
    pairs = [it.strip().partition(": ") for it in (names or "").strip("(){} ").split(",")]
    if (names or "").startswith("("):
        return {name: types.get(str(at), "") for at, (name, _, _) in enumerate(pairs)}
    return {other or name: types.get(name, "") for name, _, other in pairs}


def template_of(arm):
    """What an arm writes: its literals, else the name that it prints, else nothing."""
    printed = re.search(r"\b(\w+)\.fmt\(f\)", arm)
    return "".join(literals(arm)) or (f"{{{printed[1]}}}" if printed else "")


def written(crate, text, whole):
    """The texts of a file that an `impl Display` writes, variant by variant."""
    for owner, body in DISPLAY.findall(text):
        clause = re.search(r"ghost output = \{.*?Some \(?(\w+).*?\};", body, re.S)
        code, types = body.partition("fn fmt")[2], fields(whole, owner)
        arms = re.split(rf"\b(?:Self|{owner})::(\w+)\s*(\([^)]*\)|\{{[^}}]*\}})?\s*=>", code)
        arms = arms if len(arms) > 1 else ["", "", None, code]
        for variant, names, arm in zip(arms[1::3], arms[2::3], arms[3::3]):
            its = bound(names, types.get(variant, {}))
            yield Text(crate, owner, variant, template_of(arm), its, clause and clause[1])


def texts(crates):
    """All texts of the crates, outside of their tests."""
    found = []
    for crate in crates:
        files = sorted(it for it in (ROOT / "crates" / crate / "src").rglob("*.rt") if not is_test(it))
        whole = "\n".join(it.read_text() for it in files)
        for file in files:
            text = file.read_text()
            found += [*derived(crate, text, whole), *written(crate, text, whole)]
            messages = (unescaped("".join(it)) for it in MESSAGE.findall(text))
            found += [Text(crate, "", "", it, {}) for it in messages if re.search(r"\w", re.sub(r"\{\w*\}", "", it))]
    return [it for it in found if it.owner not in OTHERS]


def shapes(text, by_type):
    """What a text can be printed as: an expression, and the texts that it is made of."""
    pieces = re.split(r"\{(\w*)[^}]*\}", text.template)
    choices = []
    for name in pieces[1::2]:
        kind = text.inside.get(name, "")
        inner = [it for other in by_type.get(kind, ()) for it in shapes(other, by_type)]
        choices.append(inner or [(r"-?\d+" if re.fullmatch(r"[iu]\d+|[iu]size", kind) else r".*", ())])
    for chosen in product(*choices):
        words = [re.escape(it) for it in pieces[::2]]
        expression = words[0] + "".join(one[0] + word for one, word in zip(chosen, words[1:]))
        yield expression, (text, *(it for one in chosen for it in one[1]))


class Printer:
    """What some texts can be printed as."""

    def __init__(self, made_of, by_type):
        self.shapes = [(re.compile(it), uses) for text in made_of for it, uses in shapes(text, by_type)]

    def of(self, line):
        """The texts, inner ones too, of each way in which a line can be printed."""
        return [uses for expression, uses in self.shapes if expression.fullmatch(line)]


def hold(uses, holder):
    """Notes what holds texts."""
    for it in uses:
        if holder not in it.holders:
            it.holders.append(holder)


def closure(first, items):
    """A test, and all items of its file that it uses, directly or not."""
    found, rest = {}, [first]
    while rest:
        text = rest.pop()
        for name in set(re.findall(r"\w+", text)) & items.keys() - found.keys():
            found[name] = items[name]
            rest.append(items[name])
    return "\n".join([first, *found.values()])


def tests(file):
    """The tests of a file, each with all that it uses there."""
    pieces, items, found = ITEM.split(file), {}, []
    for at, piece in enumerate(pieces):
        named = re.match(r"(?:pub(?:\(crate\))? )?(?:const|static|fn|struct|enum) (?:fn )?(\w+)", piece)
        if named and pieces[at - 1].strip() == "#[test]":
            found.append((named[1], piece))
        elif named:
            items[named[1]] = piece
    return [(name, closure(text, items)) for name, text in found]


def expected(text):
    """What a test may compare with: its literals, and these put into those that have braces."""
    found = set(literals(text))
    frames = [it.groups() for one in found if (it := re.fullmatch(r"([^{}]*\w[^{}]*)\{\w*\}([^{}]*)", one))]
    return found | {before + it + after for before, after in frames for it in found if it != before}


def is_about(text, file, owner, variant):
    """Whether a test is about a text: it names the variant, and it or the imports of its file name the type."""
    return bool(re.search(rf"\b{variant or owner}\b", text) and
                (re.search(rf"\b{owner}\b", text) or re.search(rf"\b{owner}::\{{", file)))


def of_a_test(text, file, line, printers, answers):
    """The texts that a test's line holds: those that the test is about, otherwise those that a call of it returns."""
    ways = [uses for it in printers for uses in it.of(line)]
    called = set().union(*(answers.get(it, ()) for it in re.findall(r"\b(\w+)\(", text)))
    return ([it for it in ways if is_about(text, file, it[0].owner, it[0].variant)] or
            [it for it in ways if it[0].owner in called])


def hold_by_tests(printers, messages, answers):
    """Notes the tests that hold texts."""
    for path in sorted(it for it in (ROOT / "crates").glob("*/src/**/*.rt") if is_test(it)):
        file, crate = path.read_text(), path.relative_to(ROOT / "crates").parts[0]
        for name, text in tests(file):
            for line in expected(text) if re.search(r"to_string|format!|is_printed|contains\(", text) else ():
                for uses in of_a_test(text, file, line, printers, answers) + messages.of(line.rstrip("\n")):
                    hold(uses, f"{crate} {name}")


def commands(text):
    """The commands that a command line calls."""
    return [f"{it} --part" if it == "check" and "--part" in text else it
            for it in re.findall(r"extremes +(rank|merge|check|describe|table)\b", text)]


def lines_of(folder):
    """The lines that the program prints in a case, of those that may be texts: all on standard error, others if
    they begin like a verdict or a message. The text on standard error isn't compared if the status is 2."""
    status = (folder / "status").read_text().strip() if (folder / "status").exists() else "0"
    for name in ("stderr", "stdout"):
        text = (folder / name).read_text(errors="replace") if (folder / name).exists() else ""
        for line in text.splitlines():
            if status != "2" if name == "stderr" else re.match(r"(refused|accepted|file not) ?", line):
                yield line


def printers_of(by_type):
    """What each type, or variant of one, that a command prints can be printed as."""
    split = {it: it.partition("::") for them in PRINTED.values() for it in them}
    return {it: Printer([one for one in by_type.get(owner, ()) if variant in ("", one.variant)], by_type)
            for it, (owner, _, variant) in split.items()}


def hold_by_cases(printers, messages):
    """Notes the cases that hold texts. Returns what is wrong: lines of cases that aren't a text."""
    unknown = []
    for folder in sorted(it for it in (ROOT / "tests/cases").iterdir() if (it / "command").exists()):
        roots = {it for one in commands((folder / "command").read_text()) for it in PRINTED[one]}
        for line in lines_of(folder):
            found = [uses for it in (messages, *(printers[it] for it in sorted(roots))) for uses in it.of(line)]
            for uses in found:
                hold(uses, f"tests/cases/{folder.name}")
            if not found:
                unknown.append(f"tests/cases/{folder.name}: no source has the text `{line}`")
    return unknown


def hold_by_scripts(printers, messages):
    """Notes the scripts that hold texts: `run`, which expects messages, and `refuse`, which lets each command that it
    names run out of memory."""
    run, refuse = ((ROOT / "tests" / it).read_text() for it in ("run", "refuse"))
    for name, _, line in re.findall(r"""^ *told '([^']+)' \d+ (['"])(.+)\2$""", run, re.M):
        for uses in messages.of(line):
            hold(uses, f"tests/run '{name}'")
    line = re.search(r'^MEMORY = re.compile\(rb"([^"\\]*)\\n"\)', refuse, re.M)
    for name, case in re.findall(r'^    \("([^"]+)", "([^"]+)", "[^"]*"\),', refuse, re.M):
        path = ROOT / "tests/cases" / case / "command"
        for one in commands(path.read_text() if path.exists() else ""):
            for uses in (uses for it in PRINTED[one] for uses in printers[it].of(line[1] if line else "")):
                hold(uses, f"tests/refuse '{name}'")


def held(crates, answers):
    """All texts, each with what holds it, and what is wrong with them. `answers` has the words of the type that each
    function returns."""
    found = texts(crates)
    by_type = {name: [it for it in found if it.owner == name] for name in {it.owner for it in found} - {""}}
    messages, printers = Printer([it for it in found if not it.owner], by_type), printers_of(by_type)
    for it in found:
        it.holders += [f"clause output, {it.clause}"] if it.clause else []
    hold_by_tests([Printer(it, by_type) for _, it in sorted(by_type.items())], messages, answers)
    faults = hold_by_cases(printers, messages)
    hold_by_scripts(printers, messages)
    faults += [f"no source has the texts of `{name}`" for name, it in printers.items() if not it.shapes]
    faults += [f"{it.crate}: the text of {it.name} can't be found in its `fmt`" for it in found if not it.template]
    faults += [f"`{it}` has texts in two crates" for it, its in by_type.items() if len({one.crate for one in its}) > 1]
    faults += [f"{it.crate}: no clause says the text of {it.name}" for it in found if it.owner and not it.clause]
    faults += [f"{it.crate}: nothing holds the text `{it.template}` of {it.name}" for it in found if not it.holders]
    return found, faults


def table(found):
    """The lines of a table of texts and what holds each, crate by crate."""
    for crate in dict.fromkeys(it.crate for it in found):
        yield f"== {crate}"
        for it in (it for it in found if it.crate == crate):
            yield f"  {it.name}: {it.template}"
            more = f", and {len(it.holders) - 4} more" if len(it.holders) > 4 else ""
            yield f"    {', '.join(it.holders[:4]) or 'nothing'}{more}"
