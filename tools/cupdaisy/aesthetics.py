"""Counts what a maintainer meets on reading the crates and the documents."""
import re
from typing import NamedTuple

from cupdaisy import workspace
from cupdaisy.command_line import parser_of

TESTS = ("_tests", "_builders", "drawn_sessions", "desk_soak", "timed_calls")
HEAD = re.compile(r"^( *)(pub(?:\([^)]*\))? )?(?:const |extern +)*fn (\w+)", re.MULTILINE)
# A name, a field, a borrow, or a literal.
PLAIN = r"(?:&(?:mut )?)?[\w.:]+(?:\.\.)?"
CALL = rf"(?:(?:Ok|Some|Err)\()?[\w.:<>]+\((?:{PLAIN}(?:, {PLAIN})*)?\)\??(?:\.\w+\((?:{PLAIN}(?:, {PLAIN})*)?\)\??)?\)?;?"
ENDLESS = re.compile(r"in 0\.\.u64::MAX")
THROWN = re.compile(r"let _ = ")
WIDE, SHORT, LONG = 6, 50, 400


class Function(NamedTuple):
    place: str
    name: str
    parameters: int
    body: str

    def shown(self):
        return f"{self.place}: {self.name}"


def without_comments(text):
    return re.sub(r"//[^\n]*", "", text)


def closed(text, at):
    """The place past the bracket that closes the one at this place."""
    depth = 0
    for end in range(at, len(text)):
        depth += (text[end] in "([{") - (text[end] in ")]}")
        if depth == 0:
            return end + 1
    return len(text)


def parameters_in(text):
    """How many parameters stand between two brackets."""
    depth, count, is_empty = 0, 0, True
    for sign in text:
        depth += (sign in "([{<") - (sign in ")]}>")
        if sign == "," and depth == 0:
            count, is_empty = count + 1, True
        elif not sign.isspace():
            is_empty = False
    return count + (not is_empty)


def functions_of(place, text):
    """The functions of a source, each with what its body says."""
    text = without_comments(text).replace("->", "  ")
    for head in HEAD.finditer(text):
        opened = text.find("(", head.end())
        past = closed(text, opened)
        body = re.compile(rf"^{head[1]}\{{|\{{\n|\{{\}}$|;$", re.MULTILINE).search(text, past)
        at = body.end() - 1 if body and body[0] != "{}" else body.start() if body else len(text)
        if at < len(text) and text[at] in "{\n":
            at = text.rfind("{", past, at + 1)
            inside = text[at + 1:closed(text, at) - 1]
        else:
            inside = None
        if inside is not None:
            yield Function(place, head[3], parameters_in(text[opened + 1:past - 1]), " ".join(inside.split()))


class Counted:
    """What the sources have."""

    def __init__(self):
        self.listed = workspace.crates()
        self.lines = {"src": 0, "specs": 0, "proofs": 0}
        self.files, self.functions, self.texts = {}, [], {}
        for crate in self.listed:
            self.read(crate)

    def read(self, crate):
        top = workspace.TOP / "crates" / crate
        is_product = not any(word in crate for word in TESTS)
        for part in self.lines:
            for file in sorted((top / part).rglob("*.rt" if part == "src" else "*.antt")):
                text, place = file.read_text(), str(file.relative_to(workspace.TOP))
                if part == "src" and (not is_product or "tests" in file.relative_to(top).with_suffix("").parts):
                    continue
                self.lines[part] += text.count("\n")
                if part == "src":
                    self.files[place] = text.count("\n")
                    self.texts[place] = without_comments(text)
                    self.functions += functions_of(place, text)

    def kinds(self):
        """What is counted, by its key, each as a list of what it is made of."""
        return {
            "forwarders": [it.shown() for it in self.functions if re.fullmatch(CALL, it.body) and "::new" not in it.body],
            "wide": [f"{it.shown()} ({it.parameters})" for it in self.functions if it.parameters > WIDE],
            "empty": [it.shown() for it in self.functions if not it.body],
            "endless": [f"{place}: {len(ENDLESS.findall(text))}" for place, text in self.texts.items() if ENDLESS.search(text)],
            "thrown": [f"{place}: {len(THROWN.findall(text))}" for place, text in self.texts.items() if THROWN.search(text)],
            "short": [f"{place}: {lines}" for place, lines in self.files.items() if lines < SHORT],
            "long": [f"{place}: {lines}" for place, lines in self.files.items() if lines > LONG],
        }


TITLES = {
    "forwarders": "functions that only call another",
    "wide": f"functions with more than {WIDE} parameters",
    "empty": "functions without a body, laws",
    "endless": "files with loops to 2^64",
    "thrown": "files where an answer is thrown away",
    "short": f"files with fewer than {SHORT} lines",
    "long": f"files with more than {LONG} lines",
}


def words_of_documents():
    files = [workspace.TOP / name for name in ("README.md", "CONTRIBUTING.md", "CHANGELOG.md")]
    return sum(len(file.read_text().split()) for file in [*files, *sorted((workspace.TOP / "docs").glob("*.md"))])


def main(doc):
    parser = parser_of(doc)
    parser.add_argument("--list", choices=TITLES)
    options = parser.parse_args()
    counted = Counted()
    kinds = counted.kinds()
    if options.list:
        print(*kinds[options.list], sep="\n")
        return 0
    print(f"{len(counted.listed)} crates")
    for part, what in (("src", "lines of code and contracts"), ("specs", "lines of definitions"), ("proofs", "lines of proof")):
        print(f"{counted.lines[part]} {what}")
    print(f"{len(counted.files)} files, {len(counted.functions)} functions")
    for kind, title in TITLES.items():
        print(f"{len(kinds[kind])} {title}")
    print(f"{words_of_documents()} words of documents")
    return 0
