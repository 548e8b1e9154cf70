"""Checks what documents show, where they point, and how long their sentences are."""
import os
import re
import signal
import subprocess
import tempfile
from typing import NamedTuple

from cupdaisy import processes
from cupdaisy.command_line import are_installed
from cupdaisy.program import PREVIEW
from cupdaisy.workspace import TOP

SECONDS, LATE = 60, -1
PAGES = ("README.md", "CONTRIBUTING.md", "CHANGELOG.md")
PLAIN = ("README.md", "docs/GUARANTEES.md", "docs/GLOSSARY.md")
WORDS, BYTES, LINES = 30, 8192, 200
BLOCK = re.compile(r"^```(\w+)\n(.*?)^```$", re.DOTALL | re.MULTILINE)
PATH = re.compile(r"(?<![\w/.`])((?:docs|tools|bench|samples|bin|examples|include|dist|crates|rust|python|packages)/[\w./-]*\w)")
# What is made, and no part of the repository.
MADE = ("bin/preview", "dist/x86_64-linux", "dist/aarch64-linux", "crates/NAME", "crates/preview/out")


# How commands begin that run examples over what `make examples` built, and where cargo finds that and builds.
EXAMPLES = ("build/", "PYTHONPATH=python python3 ", "cargo run ")
BUILT = {"CUPDAISY_LIB_DIR": str(TOP / "build"), "CARGO_TARGET_DIR": str(TOP / "build/rust")}


class Block(NamedTuple):
    kind: str
    text: str
    before: str    # what stands between it and the block or heading before it
    line: int


def pages():
    """The documents, by their names."""
    names = [*PAGES, *(f"docs/{path.name}" for path in sorted((TOP / "docs").glob("*.md")))]
    return {name: (TOP / name).read_text() for name in names if (TOP / name).exists()}


def blocks(text):
    """The blocks of a document in order."""
    found, end = [], 0
    for block in BLOCK.finditer(text):
        between = text[end:block.start()]
        found.append(Block(block[1], block[2], between, text.count("\n", 0, block.start()) + 1))
        end = block.end()
    return found


def run(commands):
    """What a shell at the top prints for these lines, and its status, LATE where it takes too long."""
    program = os.environ.get("PREVIEW")
    if program:
        commands = commands.replace("bin/preview", program)
    shell = subprocess.Popen(["sh", "-ec", commands], cwd=TOP, env={**os.environ, **BUILT}, stdin=subprocess.DEVNULL, stdout=subprocess.PIPE,
                             stderr=subprocess.PIPE, text=True, errors="replace", start_new_session=True)
    try:
        printed, _ = shell.communicate(timeout=SECONDS)
    except subprocess.TimeoutExpired:    # where dist/ isn't of these sources, bin/preview builds
        os.killpg(shell.pid, signal.SIGKILL)
        shell.communicate()
        return "", LATE
    return printed, shell.returncode


def of_program(text):
    """Whether all lines of a block call bin/preview."""
    return all(line.startswith("bin/preview") for line in text.splitlines() if line.strip())


def of_examples(text):
    """Whether all lines of a block call examples, and these are there."""
    are_there = are_installed("cargo") and (TOP / "build/embed_cpp").exists()
    return are_there and all(line.startswith(EXAMPLES) for line in text.splitlines() if line.strip())


def differences_of_commands(text):
    """What the commands of a document print differently, each with its line."""
    shown = blocks(text)
    for block, after in zip(shown, [*shown[1:], None]):
        if block.kind != "sh" or not (of_program(block.text) or of_examples(block.text)):
            continue
        printed, status = run(block.text)
        answers = after is not None and after.kind == "text" and "\n#" not in after.before
        if status == LATE:
            yield block.line, f"takes more than {SECONDS} seconds"
        elif status != 0 and not answers:
            yield block.line, f"ends with status {status}"
        elif answers:
            wanted = after.text
            is_same = printed.startswith(wanted) if "first" in after.before else printed == wanted
            if not is_same:
                yield block.line, "prints something else than the document shows"


def answers_so(block, options):
    """Whether a server with these options answers as an exchange shows."""
    requests = [line[3:] for line in block.text.splitlines() if line.startswith("-> ")]
    wanted = [line[3:] for line in block.text.splitlines() if line.startswith("<- ")]
    text = "".join(f"{line}\n" for line in requests)
    ran = processes.run([PREVIEW, "serve", "--workers", "0", *options], text.encode(), SECONDS, cwd=TOP)
    found = ran.output.decode().splitlines()
    fits = [re.fullmatch(re.escape(line).replace(r"\.\.", ".*"), other) for line, other in zip(wanted, found)]
    return len(wanted) == len(found) and all(fits)


def differences_of_exchanges(text):
    """The exchanges of a document in which the server answers otherwise. One whose paragraph before it says so is with a journal, of
    which the document has one."""
    with tempfile.TemporaryDirectory() as folder:
        for block in blocks(text):
            if block.kind != "jsonrpc":
                continue
            has_journal = "--journal" in block.before.strip().rpartition("\n\n")[2]
            if not answers_so(block, ["--journal", f"{folder}/edits.journal"] if has_journal else []):
                yield block.line, "shows an exchange in which the server answers otherwise"


def stripped(text):
    return [line.strip() for line in text.splitlines() if line.strip()]


def stands_in(wanted, files):
    """Whether the lines stand one after the other in one of the files, whatever their indents."""
    wanted = "\n".join(stripped(wanted))
    return any(wanted in "\n".join(stripped(path.read_text())) for path in files)


def differences_of_programs(text):
    """The programs of a document that no test or example has."""
    homes = {"rust": [*(TOP / "crates").glob("*/src/**/*.rt"), *(TOP / "rust").glob("*/examples/*.rs")],
             "c": list((TOP / "examples").glob("*.c")), "cpp": list((TOP / "examples").glob("*.cpp")),
             "python": list((TOP / "examples").glob("**/*.py"))}
    for block in blocks(text):
        if block.kind in homes and not stands_in(block.text, homes[block.kind]):
            yield block.line, f"shows a program that no {'test or example' if block.kind == 'rust' else 'file of examples/'} has"


def differences_of_paths(text):
    """The paths that a document names and that aren't there."""
    for found in PATH.finditer(text):
        path = found[1].rstrip(".")
        if not (TOP / path).exists() and not path.startswith(MADE) and not any(letter in path for letter in "*N{"):
            yield text.count("\n", 0, found.start()) + 1, f"names {path}, which isn't there"


def differences_of_files(text):
    """The files that the map names in a row of crates and that none of these has."""
    for row in re.finditer(r"^\| ([a-z0-9_, ]+) \| (.*) \|$", text, re.MULTILINE):
        sources = [TOP / "crates" / name / "src" for name in row[1].split(", ")]
        for file in re.findall(r"`([\w/]+\.rt)`", row[2]):
            if not any((source / file).is_file() for source in sources):
                yield text.count("\n", 0, row.start()) + 1, f"names {file}, which is no file of {row[1]}"


def differences_of_edits(text):
    """The wrong bodies that a table of crates lists and of which the crates of the row have no edit."""
    for row in re.finditer(r"^\| ([\w, ]+) \| (.*) \|$", text, re.MULTILINE):
        crates = [TOP / "crates" / name for name in row[1].split(", ")]
        if all(crate.is_dir() for crate in crates):
            edits = {path.stem for crate in crates for path in crate.glob("m*/*.edit")}
            for name in re.findall(r"[a-z0-9]+(?:_[a-z0-9]+)+", row[2]):
                if name not in edits:
                    yield text.count("\n", 0, row.start()) + 1, f"names {name}, which is no edit of {row[1]}"


def differences_of_links(text):
    """The pages of docs/ that README.md doesn't link."""
    for name in pages():
        if name.startswith("docs/") and f"]({name})" not in text:
            yield 1, f"doesn't link {name}"


def sentences(text):
    """The sentences of a document, tables by their cells and lists by their items, with the line where each begins."""
    text = BLOCK.sub(lambda found: "\n" * found[0].count("\n"), text)
    text = re.sub(r"`[^`\n]*`", "code", text)
    pieces, line = [], 1
    for paragraph in re.split(r"(\n\s*\n|\n(?=- )|\n(?=\|)|\n(?=#))", text):
        for cell in paragraph.split("|"):
            for sentence in re.split(r"(?<=[.:?!;])\s+", cell):
                pieces.append((line, sentence.strip()))
        line += paragraph.count("\n")
    return [piece for piece in pieces if piece[1]]


def differences_of_words(text):
    """The sentences of a document that are too long."""
    for line, sentence in sentences(text):
        words = re.findall(r"[^\s(),]+", sentence)
        if len(words) > WORDS:
            yield line, f"has a sentence of {len(words)} words: {' '.join(words[:6])} .."


def differences(name, text):
    """What is wrong with a document, each with its line."""
    yield from differences_of_commands(text)
    yield from differences_of_exchanges(text)
    yield from differences_of_programs(text)
    yield from differences_of_paths(text)
    if name in PLAIN:
        yield from differences_of_words(text)
    if name == "docs/DECISIONS.md":
        yield from differences_of_edits(text)
    if name == "docs/ARCHITECTURE.md":
        yield from differences_of_files(text)
    if name == "README.md":
        yield from differences_of_links(text)
    if name == "README.md" and len(text.encode()) > BYTES:
        yield 1, f"has {len(text.encode())} bytes, and not at most {BYTES}"
    if name == "docs/ARCHITECTURE.md" and text.count("\n") > LINES:
        yield 1, f"has {text.count(chr(10))} lines, and not at most {LINES}"


def main():
    told = 0
    for name, text in pages().items():
        for line, what in differences(name, text):
            print(f"{name}:{line}: {what}")
            told += 1
    print(f"{told} differences" if told else "the documents agree with what they show")
    return 1 if told else 0
