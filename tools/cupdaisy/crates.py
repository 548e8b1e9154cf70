"""Prints docs/CRATES.md, and says where documents disagree with crates.txt."""
import re
from typing import NamedTuple

from cupdaisy import workspace
from cupdaisy.command_line import parser_of

PAGE = workspace.TOP / "docs" / "CRATES.md"
SENTENCE = re.compile(r"(?<=[\w)>`])\.(?=\s|$)")
TESTS = "tests"


class Layer(NamedTuple):
    name: str
    does: str
    crates: list


def layers():
    """The layers of crates.txt, each with its crates in order."""
    found = []
    for line in (workspace.TOP / "crates.txt").read_text().splitlines():
        heading, crate = re.fullmatch(r"# (\w+): (.*)", line), re.match(r"\w+", line)
        if heading:
            found.append(Layer(heading[1], heading[2], []))
        elif crate:
            (found or [Layer("", "", [])])[-1].crates.append(crate[0])
    return found


def head(crate):
    """The first sentence of a crate's head."""
    top = workspace.TOP / "crates" / crate / "src"
    file = next((top / name for name in ("lib.rt", "main.rt") if (top / name).exists()), None)
    lines = [line[3:].strip() for line in file.read_text().splitlines() if line.startswith("//!")] if file else []
    paragraph = " ".join(lines[:lines.index("")] if "" in lines else lines)
    return SENTENCE.split(paragraph)[0]


def row(crate, listed):
    """A crate's row: what it does, and the crates among those listed that it stands on."""
    return f"| {crate} | {head(crate)} | {', '.join(listed[crate])} |"


def page():
    """The page of the crates."""
    listed = workspace.crates()
    lines = ["# The crates", "", "Printed by tools/crates from crates.txt and the first sentence of each crate's head, lowest layer first.",
             "docs/ARCHITECTURE.md has the way of a byte, of an edit and of a picture through them."]
    for layer in layers():
        lines += ["", f"## {layer.name.capitalize()}: {layer.does}", "", "| Crate | Does | Stands on |", "|---|---|---|"]
        lines += [row(crate, listed) for crate in layer.crates]
    return "\n".join(lines) + "\n"


def disagreements():
    """What disagrees with crates.txt."""
    listed = workspace.crates()
    order = {crate: place for place, crate in enumerate(listed)}
    if not PAGE.exists() or PAGE.read_text() != page():
        yield "docs/CRATES.md isn't what tools/crates prints"
    for crate, libraries in listed.items():
        for below in libraries:
            if order[below] > order[crate]:
                yield f"crates.txt has {crate} before {below}, on which it stands"
        if not head(crate):
            yield f"{crate} has no head that says what it does"
    named = {crate for layer in layers() if layer.name for crate in layer.crates}
    yield from (f"crates.txt has {crate} under no layer" for crate in listed if crate not in named)
    for name in ("ARCHITECTURE.md", "PROOFS.md"):
        text = (workspace.TOP / "docs" / name).read_text()
        wanted = (crate for layer in layers() if layer.name != TESTS or name == "ARCHITECTURE.md" for crate in layer.crates)
        yield from (f"docs/{name} doesn't name {crate}" for crate in wanted if not re.search(rf"\b{crate}\b", text))


def main(doc):
    parser = parser_of(doc)
    parser.add_argument("--check", action="store_true")
    if not parser.parse_args().check:
        print(page(), end="")
        return 0
    found = list(disagreements())
    print("\n".join(found) if found else "crates.txt and the documents agree")
    return 1 if found else 0
