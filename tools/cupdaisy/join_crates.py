"""Joins crates into one with a public module for each, and has all paths follow."""
import pathlib
import re
import shutil
from typing import NamedTuple, Optional

from cupdaisy import workspace
from cupdaisy.command_line import parser_of

CRATES = workspace.TOP / "crates"
TACTIC = "#![tactic(auto)]\n"
TEXTS = (".rt", ".antt", ".edit")
# What the toolchain makes of items, module by module.
MADE = ("declared", "contracts")
LEFT_OUT = {".git", "crates", "dist", "samples", "build", "__pycache__"}


class Part(NamedTuple):
    """A crate that becomes a part of another one: in a module, or at its top."""
    old: str
    module: Optional[str]

    def inside(self, file, top):
        """Where a file of a folder src/ or proofs/ stands in the new crate."""
        return f"{self.module}/{file}" if self.module else (top or file)

    def source(self, file):
        """Where a file of src/ stands in the new crate's src/."""
        return f"{self.module}.rt" if self.module and file == "lib.rt" else self.inside(file, None)


def modules_of(part):
    """The names of the modules at the top of a crate, as the new crate has them."""
    return [part.module] if part.module else [file.stem for file in (CRATES / part.old / "src").glob("*.rt")]


def renamed_in(parts):
    """The modules of definitions and of lemmas that get another name, by their crate and folder."""
    renamed = {}
    for folder in ("specs", "proofs"):
        seen = {name.lower() for part in parts for name in modules_of(part)} if folder == "proofs" else set()
        for part in parts:
            for file in sorted((CRATES / part.old / folder).glob("*.antt")):
                name = file.stem
                if name == "Lib":
                    continue
                if name.lower() in seen:
                    name = "".join(word.capitalize() for word in (part.module or part.old).split("_")) + name
                    renamed[part.old, folder, file.stem] = name
                    print(f"{folder}/{file.name} of {part.old} is {name}.antt")
                seen.add(name.lower())
    return renamed


class Joining:
    """Parts that are joined into a new crate."""

    def __init__(self, new, parts):
        self.new, self.parts = new, parts
        self.part = {part.old: part for part in parts}
        self.renamed = renamed_in(parts)
        # a crate's own module may have its name
        self.hidden = {part.old for part in parts if (CRATES / part.old / "src" / f"{part.old}.rt").exists()}
        olds = "|".join(sorted(map(re.escape, self.part), key=len, reverse=True))
        self.antt = re.compile(rf"\bRattle\.({olds})\.(specs|proofs)\.(\w+)")
        self.rust = re.compile(rf"(?<![\w:.])({olds})::(?:(specs|proofs)::)?(\w+|\{{|\*)")
        self.path = re.compile(rf"crates/({olds})((?:/[\w./-]*)?)(?!\w)")

    def module(self, old, folder, name):
        """The path of a module of specs/ or proofs/ in the new crate, from that folder on."""
        module = self.part[old].module
        if name in MADE:
            return [name, module] if module else [name]
        if folder == "proofs" and name[0].islower():
            return [module, name] if module else [name]
        return [self.renamed.get((old, folder, name), name)]

    def in_antt(self, found):
        return ".".join(["Rattle", self.new, found[2], *self.module(*found.groups())])

    def in_rust(self, crate):
        """Changes a path in a file of a crate."""
        top = "crate" if crate in self.part else self.new

        def changed(found):
            old, folder, name = found.groups()
            if old == crate and old in self.hidden:
                return found[0]
            if folder:
                return "::".join([top, folder, *self.module(old, folder, name)])
            module = self.part[old].module
            return "::".join([top, module, name] if module else [top, name])
        return changed

    def of_crate(self, old):
        """Changes a path that begins at the top of a part."""
        def changed(found):
            folder, name = found.groups()
            if folder:
                return "::".join(["crate", folder, *self.module(old, folder, name)])
            module = self.part[old].module
            return "::".join(["crate", module, name] if module else ["crate", name])
        return changed

    def edited_file(self, old):
        """Changes the line of an edit that names a file."""
        def changed(found):
            folder, _, rest = found[1].partition("/")
            if folder == "src":
                return f"file: src/{self.part[old].source(rest)}"
            head = rest.split("/")[0]
            if head.endswith(".antt"):
                return f"file: {folder}/{self.renamed.get((old, folder, head[:-5]), head[:-5])}.antt"
            return f"file: {folder}/{self.part[old].inside(rest, None)}"
        return changed

    def change(self, file, crate):
        """Changes the paths in a text of a crate."""
        before = text = file.read_text()
        text = self.antt.sub(self.in_antt, text)
        if crate in self.part:
            text = re.sub(r"(?<![\w:])crate::(?:(specs|proofs)::)?(\w+|\{|\*)", self.of_crate(crate), text)
            if file.suffix == ".edit":
                text = re.sub(r"(?m)^file: (.*)$", self.edited_file(crate), text)
        text = self.rust.sub(self.in_rust(crate), text)
        if text != before:
            file.write_text(text)

    def gather(self, head):
        """Moves the files of the parts into the new crate."""
        room, names = CRATES / f".{self.new}", {"specs": "", "proofs": ""}
        for part in self.parts:
            old = CRATES / part.old
            shutil.rmtree(old / "out", ignore_errors=True)
            for file in sorted(it for it in old.rglob("*") if it.is_file()):
                folder, _, rest = str(file.relative_to(old)).partition("/")
                if folder in names and rest == "Lib.antt":
                    names[folder] += re.sub(r"(?m)^((?:pub )?mod )(\w+)", lambda line, part=part, folder=folder:
                                            line[1] + self.renamed.get((part.old, folder, line[2]), line[2]), file.read_text())
                    continue
                to = room / folder / self.place(part, folder, rest) if rest else room / folder
                to.parent.mkdir(parents=True, exist_ok=True)
                file.rename(to.with_name(f"{part.old}_{to.name}") if to.exists() else to)
            shutil.rmtree(old)
        for folder, text in names.items():
            if text.strip():
                (room / folder / "Lib.antt").write_text(text)
        self.write_root(room / "src" / "lib.rt", head)
        room.rename(CRATES / self.new)

    def place(self, part, folder, rest):
        """Where a file of a part's folder stands in that of the new crate."""
        if folder == "src":
            return part.source(rest)
        if folder in ("specs", "proofs"):
            name = rest.removesuffix(".antt")
            return f"{self.renamed.get((part.old, folder, name), name)}.antt" if "/" not in rest else part.inside(rest, None)
        return rest

    def write_root(self, root, head):
        """Writes the new crate's root over that of the part at its top, if there is one."""
        modules = [part.module for part in self.parts if part.module]
        for module in modules:
            file = root.with_name(f"{module}.rt")
            file.write_text(file.read_text().replace(TACTIC, "", 1))
        text = root.read_text() if root.exists() else f"{TACTIC}\n"
        top, tactic, items = text.partition(TACTIC)
        declared = "".join(f"pub mod {module};\n" for module in modules)
        root.write_text((head or top) + tactic + "\n" + declared + items.removeprefix("\n"))

    def line_of_crates(self, lines):
        """The lines of crates.txt, with the new crate in the place of its last part."""
        olds, libraries, flags = set(self.part), [], []
        for name, line in lines:
            if name in olds:
                left, _, right = line.partition(":")
                flags += [flag for flag in left.split()[1:] if not flag.startswith("may_wait=")]
                libraries += right.split()
        waits = sum(int(number) for name, line in lines if name in olds for number in re.findall(r"\bmay_wait=(\d+)", line))
        flags = sorted(set(flags)) + [f"may_wait={waits}"] * (waits > 0)
        last = max(place for place, (name, _) in enumerate(lines) if name in olds)
        for place, (name, line) in enumerate(lines):
            if name is None:
                yield line
            elif name not in olds:
                left, _, right = line.partition(":")
                yield f"{left}: {' '.join(self.renamed_libraries(right.split()))}".rstrip()
            elif place == last:
                below = [library for library in self.renamed_libraries(libraries) if library != self.new]
                yield f"{' '.join([self.new, *flags])}: {' '.join(below)}".rstrip()

    def renamed_libraries(self, libraries):
        return list(dict.fromkeys(self.new if library in self.part else library for library in libraries))

    def in_documents(self):
        """Changes the paths of files that documents and tools name."""
        def changed(found):
            part, rest = self.part[found[1]], found[2]
            return f"crates/{self.new}/src/{part.source(rest[5:])}" if rest.startswith("/src/") else f"crates/{self.new}{rest}"
        for file in sorted(workspace.TOP.rglob("*")):
            if LEFT_OUT & set(file.relative_to(workspace.TOP).parts) or not file.is_file():
                continue
            try:
                before = file.read_text()
            except UnicodeDecodeError:
                continue
            text = self.path.sub(changed, before)
            if text != before:
                file.write_text(text)


def texts():
    """The texts of all crates, each with its crate."""
    for crate in sorted(folder.name for folder in CRATES.iterdir()):
        for file in sorted((CRATES / crate).rglob("*")):
            if file.suffix in TEXTS and file.is_file() and file.relative_to(CRATES / crate).parts[0] != "out":
                yield file, crate


def main(doc):
    parser = parser_of(doc)
    parser.add_argument("--head", type=pathlib.Path, metavar="FILE")
    parser.add_argument("new", metavar="NEW")
    parser.add_argument("parts", metavar="OLD", nargs="+")
    given = parser.parse_args()
    parts = [Part(old, module or None) for old, _, module in (word.partition("=") for word in given.parts)]
    unknown = [part.old for part in parts if part.old not in workspace.crates()]
    if unknown or sum(part.module is None for part in parts) > 1:
        parser.error(f"there is no crate {unknown[0]}" if unknown else "one crate alone stands at the top")
    joining = Joining(given.new, parts)
    for file, crate in texts():
        joining.change(file, crate)
    joining.gather(given.head.read_text() if given.head else None)
    listed = workspace.TOP / "crates.txt"
    lines = [(re.match(r"(\w+)[^:#]*:", line)[1] if re.match(r"(\w+)[^:#]*:", line) else None, line) for line in listed.read_text().splitlines()]
    listed.write_text("\n".join(joining.line_of_crates(lines)) + "\n")
    joining.in_documents()
    return 0
