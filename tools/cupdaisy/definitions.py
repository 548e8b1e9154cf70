"""Prints docs/DEFINITIONS.md from the comments of `specs/`."""
import difflib
import pathlib
import re
from typing import NamedTuple

from cupdaisy import workspace
from cupdaisy.command_line import parser_of

WORD = re.compile(r"(?<![\w.◌])[^\W\d][\w']*")
GHOST_USE = re.compile(r"^ *ghost use Rattle\.(\w+)\.specs\.([\w.]+)\.\{([^}]*)\};", re.MULTILINE)
USE = re.compile(r"^(?:pub )?use Rattle\.(\w+)\.specs\.([\w.]+)\.\{([^}]*)\}", re.MULTILINE)
ITEM = re.compile(r"^(pub(?:\([^)]*\))? )?(?:const |unsafe |extern +)*(fn|trait|struct|enum|impl|mod)\b(.*)", re.MULTILINE)
IMPL_OF_TRAIT = re.compile(r"(?:<.*>)? ?[\w:]+(?:<[^{]*>)? for &?(\w+)")
OWN_NAME = re.compile(r"(?:<[^{]*?>)? ?(\w+)")
METHOD = re.compile(r"^    (pub(?:\([^)]*\))? )?(?:const |unsafe )*fn (\w+)", re.MULTILINE)
CLAUSE = re.compile(r"^ +(?:requires|ensures)\b[^{\n]*(?=\{)", re.MULTILINE)
GHOST_ITEM = re.compile(r"^    ghost (?!use\b)(\w+)[^{\n]*(?=\{)", re.MULTILINE)
SIGNATURE = re.compile(r"(?:(?:pub|abbrev|unfoldable|opaque|record|data) )*([^\s:(){}]+)(?: *[({].*?[)}])* *:(?= |$)")
MEMBER = re.compile(r"^  (?:pub )?(\w+) :", re.MULTILINE)


class Definition(NamedTuple):
    crate: str
    module: str
    name: str


def without(pattern, text):
    """The text with what the pattern finds blanked out, so that places stay."""
    return re.sub(pattern, lambda found: re.sub(r"[^\n]", " ", found[0]), text)


def names_in(braces):
    """The names between a use's braces, each with the name that it goes by."""
    for name in filter(None, (part.strip() for part in braces.split(","))):
        first, _, other = name.partition(" as ")
        yield (other or first).strip(), first.strip()


def brought(pattern, text, listed):
    """What the uses of a text bring from specs/ of the repository's crates, by the names that it goes by."""
    return {name: Definition(crate, module, first) for crate, module, braces in pattern.findall(text)
            if crate in listed and module.split(".")[0] not in ("declared", "contracts")
            for name, first in names_in(braces)}


# The contracts of a source.

def braced(text, at):
    """The text between the brace at this place and the one that closes it."""
    depth = 0
    for end in range(at, len(text)):
        depth += (text[end] == "{") - (text[end] == "}")
        if depth == 0:
            return text[at + 1:end]
    return text[at + 1:]


def head(text, indent):
    """What stands before a function's body."""
    body = re.search(rf"^{indent}\{{$", text, re.MULTILINE) or re.search(r"[{;]$", text, re.MULTILINE)
    return text[:body.start()] if body else text


def clauses(text, indent):
    """The clauses of the function that a text begins with."""
    before = head(text, indent)
    return [braced(before, clause.end()) for clause in CLAUSE.finditer(before)]


def ghost_items(text):
    """The ghost items of a trait, an impl or a type, but for an invariant."""
    for item in GHOST_ITEM.finditer(text):
        if item[1] != "invariant":
            end = re.compile(r"[;,]$", re.MULTILINE).search(text, item.end())
            yield item[1], text[item.end():end.end() if end else len(text)]


def methods(text, are_public):
    """The methods of a trait or an impl with their clauses: all, or those that say `pub`."""
    found = list(METHOD.finditer(text))
    for method, end in zip(found, [it.start() for it in found[1:]] + [len(text)]):
        if are_public or method[1] == "pub ":
            yield from ((method[2], clause) for clause in clauses(text[method.start():end], "    "))


def contracts(text, is_public):
    """The public contracts of a source: each clause or ghost item, with the name of the item that has it."""
    for item in ITEM.finditer(text):
        end = re.compile(r"^\}|^[^ \n}][^\n]*;$", re.MULTILINE).search(text, item.start())
        whole, kind = text[item.start():end.end() if end else len(text)], item[2]
        of_trait = IMPL_OF_TRAIT.match(item[3]) if kind == "impl" else None
        name = of_trait[1] if of_trait else (OWN_NAME.match(item[3]) or ["", ""])[1]
        if kind == "mod" or not is_public(name) or kind != "impl" and item[1] != "pub ":
            continue
        if kind == "fn":
            yield from ((name, clause) for clause in clauses(whole, ""))
        else:
            yield from ((f"{name}'s {ghost}", clause) for ghost, clause in ghost_items(whole))
            are_public = kind == "trait" or bool(of_trait)
            yield from ((f"{name}::{method}", clause) for method, clause in methods(whole, are_public))


def passed_on(crate, texts):
    """What the library passes on, the names of items and of whole modules, and what it exports to C; of a program all that is
    `pub`."""
    file = pathlib.Path("src", "lib.rt")
    if file not in texts:
        named = re.compile(r"^pub (?:const )?(?:fn|struct|enum|trait) (\w+)", re.MULTILINE)
        return {name for text in texts.values() for name in named.findall(text)}, set()
    text = texts[file]
    uses = re.findall(r"^pub use ([^;{]*)(?:\{([^}]*)\})?;", text, re.MULTILINE)
    names = {name for path, braces in uses for name, _ in names_in(braces or path.rpartition("::")[2])}
    exports = {name for text in texts.values() for name in re.findall(r"^pub extern +fn (\w+)", text, re.MULTILINE)}
    return names | exports, set(re.findall(r"^pub mod (\w+);", text, re.MULTILINE))


def sources(crate):
    """The sources of a crate but for its tests, without comments and texts."""
    top = workspace.TOP / "crates" / crate
    for file in sorted((top / "src").rglob("*.rt")):
        if "tests" not in file.relative_to(top).with_suffix("").parts:
            text = without(r"//.*", file.read_text())
            yield file.relative_to(top), without(r'"(?:[^"\\\n]|\\.)*"', text)


def cited_by_contracts(crate, listed):
    """The definitions that the public contracts of a crate cite, with a contract that does."""
    texts = dict(sources(crate))
    passed, whole = passed_on(crate, texts)
    for file, text in texts.items():
        names = brought(GHOST_USE, text, listed)
        is_whole = file.parts[1].removesuffix(".rt") in whole
        for item, clause in contracts(text, lambda name: is_whole or name in passed):
            for word in WORD.findall(clause):
                if word in names:
                    yield names[word], f"the contract of {item} ({crate}/{file})"


# The definitions of a module.

def blocks(text):
    """The definitions of a module, each with its text; what stands under a `module _` belongs to the module."""
    found, name, shift = {}, None, ""
    for line in text.split("\n"):
        if re.match(r" *module _ ", line):
            shift, name = re.match(" *", line)[0] + "  ", None
            continue
        if line.strip() and not line.startswith(shift):
            shift = ""
        line = line[len(shift):]
        if line[:1].strip() and not line.startswith(("--", "use ", "pub use ", "pub mod ", "mod ", "infix")):
            signed = SIGNATURE.match(line)
            name = signed[1] if signed else name if line.split(" ")[0] not in found else line.split(" ")[0]
        elif line[:1].strip():
            name = None
        if name:
            found[name] = found.get(name, "") + line + "\n"
    return found


class Specs:
    """The definitions of specs/, read as they are asked for."""

    def __init__(self, listed):
        self.listed, self.modules = listed, {}

    def module(self, crate, module):
        """A module's definitions, and what it brings from others."""
        if (crate, module) not in self.modules:
            file = workspace.TOP / "crates" / crate / "specs" / (module.replace(".", "/") + ".antt")
            text = without(r"--.*", file.read_text()) if file.exists() else ""
            self.modules[crate, module] = blocks(text), brought(USE, text, self.listed)
        return self.modules[crate, module]

    def owner(self, cited):
        """The definition that a name stands for: itself, the type it is a member of, or what its module passes on."""
        own, others = self.module(cited.crate, cited.module)
        if cited.name in own:
            return cited
        if cited.name in others:
            return self.owner(others[cited.name])
        types = [name for name, text in own.items() if cited.name in MEMBER.findall(text)]
        return cited._replace(name=types[0]) if types else cited

    def cites(self, definition):
        """The definitions that one cites."""
        own, others = self.module(definition.crate, definition.module)
        for word in dict.fromkeys(WORD.findall(own.get(definition.name, ""))):
            if word in own and word != definition.name:
                yield definition._replace(name=word)
            elif word in others and word not in own:
                yield self.owner(others[word])


def cited(listed, is_direct):
    """The definitions that contracts cite, and unless `is_direct` what those cite in turn, each with what cites it."""
    specs, found = Specs(listed), {}
    for crate in listed:
        for definition, by in cited_by_contracts(crate, listed):
            found.setdefault(specs.owner(definition), by)
    left = [] if is_direct else list(found)
    while left:
        definition = left.pop(0)
        for other in specs.cites(definition):
            if other not in found:
                found[other] = f"{definition.module}.{definition.name}" + (
                    f" of {definition.crate}" if other.crate != definition.crate else "")
                left.append(other)
    return found


# The page.

HEAD = """# Definitions

Printed by tools/definitions from `specs/`. What a reader has to believe: each definition that a public contract cites, and those that
these cite in turn, a line for each module. Its link leads to the definitions, each with a comment; `tools/definitions --comments`
prints these too. The line names the section that the module restates, of ITU-T H.264 (V14, 08/2021) where it says no other.
Everything else in `specs/` is a law about these or a form of them that proofs use.
"""


def comments(text):
    """The comment right before each definition of a module, None where it has none, in the order of the text."""
    found, comment = {}, []
    for line in text.split("\n"):
        line = line.strip()
        signed = SIGNATURE.match(line)
        if line.startswith("--"):
            comment.append(line[2:].strip())
        elif signed and not line.startswith(("use ", "pub use ", "pub mod ", "mod ")):
            found.setdefault(signed[1], " ".join(comment) or None)
            comment = []
        else:
            comment = []
    return found


def heading(text):
    """A module's first comment."""
    lines = []
    for line in text.split("\n"):
        if not line.startswith("--"):
            break
        lines.append(line[2:].strip())
    return " ".join(lines)


def rows(names, text):
    """A module's definitions among these, in the order of the text: the names of each with its comment; one without a comment stands
    beside the one before."""
    found = []
    for name, comment in comments(text).items():
        if name in names:
            if comment or not found:
                found.append([[name], comment or ""])
            else:
                found[-1][0].append(name)
    return found


def quoted(names):
    return ", ".join(f"`{name}`" for name in names)


def section(crate, module, names, has_comments):
    """A module's lines: what it restates, and its definitions, by name alone or each with its comment."""
    file = workspace.TOP / "crates" / crate / "specs" / (module.replace(".", "/") + ".antt")
    text = file.read_text() if file.exists() else ""
    found = rows(names, text)
    if not found:
        return []
    line = f"- [`{module}`](../{file.relative_to(workspace.TOP)}): {heading(text)}"
    if has_comments:
        return [line, *(f"  - {quoted(listed)}" + (f": {comment}" if comment else "") for listed, comment in found)]
    return [f"{line} {quoted(name for listed, _ in found for name in listed)}"]


def page(definitions, listed, has_comments=False):
    """The page of these definitions."""
    lines = [HEAD]
    for crate in listed:
        of_crate = [it for it in definitions if it.crate == crate]
        if of_crate:
            lines += [f"## {crate}", ""]
            for module in sorted({it.module for it in of_crate}):
                lines += section(crate, module, {it.name for it in of_crate if it.module == module}, has_comments)
            lines.append("")
    return "\n".join(lines)


def main(doc):
    parser = parser_of(doc)
    parser.add_argument("--write", action="store_true")
    parser.add_argument("--cited", action="store_true")
    parser.add_argument("--direct", action="store_true")
    parser.add_argument("--comments", action="store_true")
    options = parser.parse_args()
    listed = workspace.crates()
    definitions = cited(listed, options.direct)
    if options.cited:
        order = list(listed)
        for definition in sorted(definitions, key=lambda it: (order.index(it.crate), it)):
            print(f"{definition.crate} {definition.module}.{definition.name}: cited by {definitions[definition]}")
        return 0
    if options.comments:
        print(page(definitions, listed, has_comments=True))
        return 0
    file, printed = workspace.TOP / "docs" / "DEFINITIONS.md", page(definitions, listed)
    if options.write:
        file.write_text(printed)
        return 0
    there, wanted = file.read_text().splitlines(), printed.splitlines()
    differences = [line for line in difflib.unified_diff(there, wanted, lineterm="", n=0) if not line.startswith(("---", "+++", "@@"))]
    if differences:
        print("docs/DEFINITIONS.md isn't as tools/definitions --write prints it:", *differences, sep="\n")
    return 1 if differences else 0
