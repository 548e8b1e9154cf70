"""Draws streams and checks the documents from outside."""
import argparse
import itertools
import pathlib
import random
import re
import tempfile
import xml.etree.ElementTree as tree

from cupdaisy import doubts, fold, processes, scripts, session, syntax
from cupdaisy.command_line import parser_of
from cupdaisy.damage import damaged
from cupdaisy.program import program
from cupdaisy.streams import cut, split, texts_of
from cupdaisy.workspace import TOP

SVG = "{http://www.w3.org/2000/svg}"
# What docs/images has, by the words after `draw`.
IMAGES = {"bframes.svg": ["samples/bframes.264"], "gap.svg": ["samples/damaged/gap.264"],
          "retouch.svg": ["samples/bframes.264", "--edits", "samples/retouch.script"]}
# For how many pictures that no unit has there is room where edits are drawn.
ROOM = 64
SECONDS = 20
CHOICES = ([], ["--units", "1000"], ["--from", "30", "--units", "5"])


def run(program, words, text):
    return processes.run([program, *words], text, SECONDS)


def blocks(plan):
    """The lines of each unit, as `plan` prints them."""
    return re.findall(r"^unit .*\n(?:request .*\n)*", plan, re.MULTILINE)


def doubt_line(told):
    """The line that is said of a unit in doubt, by what is told of it."""
    follows, in_doubt = told
    return f"in doubt: follows the fault of unit {follows}\n" if in_doubt else ""


def chosen(plan, told, words):
    """What is said of the units that are drawn: their blocks, and that they are in doubt."""
    options = dict(zip(words[::2], words[1::2]))
    first, count = int(options.get("--from", 1)), int(options.get("--units", 60))
    return [block + doubt_line(each) for block, each in zip(blocks(plan), told)][first - 1:first - 1 + count]


def plain_told(text):
    """What is told of each unit of a stream, by the plain fold."""
    stream, folded = [(number, syntax.Unit(nals)) for number, nals in enumerate(cut(split(text)), 1)], fold.Fold()
    return list(doubts.walked([doubts.seen(*unit, folded.step(*unit)) for unit in stream]))


def sides(rect):
    x, y, width, height = (int(rect.get(name)) for name in ("x", "y", "width", "height"))
    return x, y, x + width, y + height


def hull(rects):
    """The box of a unit: that around the fills of its slice types."""
    corners = [sides(rect) for rect in rects]
    return tuple(pick(column) for pick, column in zip((min, min, max, max), zip(*corners)))


def overlap(one, other):
    return one[0] < other[2] and other[0] < one[2] and one[1] < other[3] and other[1] < one[3]


def boxes_of(groups):
    return [hull([rect for rect in group.iter(f"{SVG}rect") if "box" in rect.get("class")]) for group in groups]


def ends(path):
    """Where an arc begins and ends, and whether it is a stub."""
    numbers = [int(number) for number in re.findall(r"-?\d+", path.get("d"))]
    return tuple(numbers[:2]), tuple(numbers[-2:]), "Q" in path.get("d")


def at_edge(point, box, list_number):
    return box[0] <= point[0] <= box[2] and point[1] == (box[3] if list_number == "0" else box[1])


def arcs_wrong(groups, boxes):
    """What is wrong with the arcs of the units, if anything."""
    left = min((box[0] for box in boxes), default=0)
    for group, box in zip(groups, boxes):
        for path in group.iter(f"{SVG}path"):
            if path.get("class") == "diamond":
                continue
            number, (begin, end, stub) = path.get("class")[1], ends(path)
            if not at_edge(begin, box, number):
                return "an arc begins beside its box"
            if not (end[0] < left if stub else any(at_edge(end, other, number) for other in boxes)):
                return "an arc ends beside all boxes"
    return ""


def units_in(root):
    """The groups of shapes of units, in both rows."""
    return [group for group in root.findall(f"{SVG}g") if (group.get("class") or "").split()[:1] == ["u"]]


def drawing_wrong(document, wanted):
    """What is wrong with the document of units whose lines are these, if anything."""
    try:
        root = tree.fromstring(document)
    except tree.ParseError as fault:
        return f"not well formed: {fault}"
    if root.tag != f"{SVG}svg" or root.get("role") != "img" or not root.get("aria-label"):
        return "not an image with a name"
    if any(element.tag in (f"{SVG}script", f"{SVG}image", f"{SVG}foreignObject") for element in root.iter()):
        return "more than shapes and text"
    groups = units_in(root)
    titles = [group.find(f"{SVG}title").text or "" for group in groups]
    if titles[:len(wanted)] != wanted:
        return "other lines than plan's"
    shown = sorted(int(lines.split()[3]) for lines in wanted if " position " in lines)
    if [int(title.split()[3]) for title in titles[len(wanted):]] != shown:
        return "a second row that isn't in output order"
    if doubts_wrong(groups, wanted):
        return "other marks of doubt than the model's"
    boxes = boxes_of(groups)
    if any(overlap(one, other) for one, other in itertools.combinations(boxes, 2)):
        return "boxes that overlap"
    return arcs_wrong(groups[:len(wanted)], boxes[:len(wanted)])


def doubts_wrong(groups, wanted):
    """Whether other units are marked than those of which it is said that they are in doubt."""
    doubted = {lines.split()[1] for lines in wanted if "\nin doubt: " in lines}
    for group in groups:
        outlines = [sides(rect) for rect in group.iter(f"{SVG}rect") if rect.get("class") == "doubt"]
        asks = [text.text for text in group.iter(f"{SVG}text") if (text.get("class") or "").split()[-1] == "ask"]
        is_doubted = group.find(f"{SVG}title").text.split()[1] in doubted
        if (outlines, asks) != ((boxes_of([group]), ["?"]) if is_doubted else ([], [])):
            return True
    return False


def wrong(program, text, words=()):
    """What is wrong with the drawing of a stream, if anything."""
    plan = run(program, ["plan", "-"], text)
    drawn = run(program, ["draw", "-", *words], text)
    if (plan.status, plan.errors) != (drawn.status, drawn.errors):
        return f"status {drawn.status}, where plan's is {plan.status}"
    if plan.status != 0:
        return "" if plan.output == drawn.output else "another refusal than plan's"
    return drawing_wrong(drawn.output, chosen(plan.output.decode(), plain_told(text), list(words)))


class Edited:
    """A session whose pictures are all held, and which is marked before edits."""

    def __init__(self, text):
        units = cut(split(text))
        self.session = session.Session(ROOM)
        self.session.change([(number, syntax.Unit(nals)) for number, nals in enumerate(units, 1)], len(units))
        self.session.held = {row.key for row in self.session.rows} - {None}
        self.session.mark()

    def by_id(self):
        return {unit[0]: row for unit, row in zip(self.session.stream, self.session.rows)}

    def ids(self):
        return [unit_id for unit_id, _ in self.session.stream]

    def told(self):
        """By the id of a unit, what is told of its doubt."""
        return dict(zip(self.ids(), doubts.told_in(self.session)))

    def make(self, number, command):
        """Makes a command of a script; what is told of it where it is refused."""
        if command[0] == "group":
            line = scripts.group_line(self.session, command[1])
        else:
            line = scripts.edit_line(self.session, command)
        return f"line {number}: {line}" if "refused" in line else ""

    def classes(self, unit_id):
        """The classes of the shapes of a unit."""
        row = self.by_id()[unit_id]
        picture = [] if row.key is None else ["stayed" if row.key in self.session.held else "pending"]
        return " ".join(["u", *(["altered"] if self.session.altered(unit_id) else []), *picture])


def marks_wrong(document, edited, ids):
    """What is wrong with the marks of the units that have these ids, if anything."""
    groups = units_in(tree.fromstring(document))
    wanted = [edited.classes(unit_id) for unit_id in ids]
    if [group.get("class") for group in groups[:len(ids)]] != wanted:
        return "other marks than the model's"
    marks = dict(zip(ids, wanted))
    if any(group.get("class") != marks[int(group.find(f"{SVG}title").text.split()[1])] for group in groups[len(ids):]):
        return "other marks in the second row"
    for group in groups:
        hatches = [sides(rect) for rect in group.iter(f"{SVG}rect") if rect.get("class") == "hatch"]
        if hatches != boxes_of([group]):
            return "a hatching that isn't that of its box"
    if any(len(group.findall(f"{SVG}{shape}")) != 1 for group in groups[:len(ids)]
           for shape in ("circle[@class='disc']", "path[@class='diamond']")):
        return "a unit without a mark for its picture"
    return ""


def drawn_edit(rng, ids, texts):
    """The line of an edit of a stream with about these ids."""
    unit_id = rng.choice([*ids, rng.choice(ids), 0, 4294967295]) if rng.random() < .2 else rng.choice(ids)
    text = rng.choice(texts).hex() if rng.random() < .9 else "00 00 01 09 10"
    return rng.choice((f"delete {unit_id}", f"insert after {unit_id} {text}", f"replace {unit_id} {text}", f"insert first {text}"))


def drawn_script(rng, text):
    """The lines of a script of some edits and groups."""
    texts = texts_of(text)
    ids, lines = list(range(1, len(texts) + 1 + rng.randint(0, 2))), ["# Edits.", ""]
    for _ in range(rng.randint(1, 5)):
        if rng.random() < .3:
            lines += ["group", *(drawn_edit(rng, ids, texts) for _ in range(rng.randint(0, 4))), "end"]
        else:
            lines.append(drawn_edit(rng, ids, texts))
    return lines


def edited_wrong(program, text, seed):
    """What is wrong with the drawing of a stream after drawn edits, if anything."""
    rng = random.Random(seed)
    lines = drawn_script(rng, text)
    if seed % 10 == 9:
        at = rng.choice([at for at, line in enumerate(lines) if line != "end"])
        lines.insert(at, rng.choice(("show 1", "settle", "take", "load a.264", "draw")))
        return edits_run(program, text, lines, [], (1, b"", f"script fault at line {first_wrong(lines)}\n".encode()), None)
    edited, told = Edited(text), ""
    try:
        for number, command in numbered_commands(lines):
            told += edited.make(number, command)
    except session.Open:
        return ""
    return edits_run(program, text, lines, drawn_choice(rng, edited), (0, None, told.encode()), edited)


def first_wrong(lines):
    """The number of the first line that is no edit, or None."""
    numbered = [(number, line.encode()) for number, line in enumerate(lines, 1) if line and not line.startswith("#")]
    while numbered:
        number, line = numbered.pop(0)
        try:
            command = scripts.command_at(number, line)
            if command == ("group",):
                scripts.group_of(number, numbered)
            elif command[0] not in scripts.EDITS:
                return number
        except scripts.WrongLine as wrong:
            return wrong.args[0]
    return None


def numbered_commands(lines):
    """The edits and groups of a script, each with the number of its first line."""
    numbered = [(number, line.encode()) for number, line in enumerate(lines, 1) if line and not line.startswith("#")]
    commands = []
    while numbered:
        number, line = numbered.pop(0)
        command = scripts.command_at(number, line)
        if command == ("group",):
            command = "group", scripts.group_of(number, numbered)
        commands.append((number, command))
    return commands


def drawn_choice(rng, edited):
    """Words for the first unit and how many, of a stream after edits."""
    words = ["--units", str(rng.choice((1, 5, 60, 1000)))]
    return [*words, "--from", str(rng.choice([*edited.ids()[:80], 0, 4294967295]))] if rng.random() < .5 else words


def edits_run(program, text, lines, words, wanted, edited):
    """What is wrong where the script of these lines is drawn with these words, if anything."""
    with tempfile.NamedTemporaryFile() as script:
        script.write("".join(line + "\n" for line in lines).encode())
        script.flush()
        drawn = run(program, ["draw", "-", "--edits", script.name, *words], text)
    status, output, told = wanted
    if status == 1 and drawn.errors != told:
        # The line after the fault says in words why the script's line is no edit.
        reason = drawn.errors.removeprefix(told)
        told += reason if re.fullmatch(rb"line %b: .+\n" % told.split()[-1], reason) else b""
    if (drawn.status, drawn.errors) != (status, told) or output is not None and drawn.output != output:
        return f"status {drawn.status} and {drawn.errors!r}, where {status} and {told!r} are wanted"
    if edited is None:
        return ""
    ids = edited_ids(edited, dict(zip(words[::2], words[1::2])))
    told = edited.told()
    blocks_of = ["".join(scripts.unit_lines(edited.session, unit_id)) + doubt_line(told[unit_id]) for unit_id in ids]
    return drawing_wrong(drawn.output, blocks_of) or marks_wrong(drawn.output, edited, ids)


def edited_ids(edited, options):
    """The ids of the units that are drawn after edits."""
    ids, first, count = edited.ids(), options.get("--from"), int(options["--units"])
    if first is None:
        return ids[:count]
    return ids[ids.index(int(first)):][:count] if int(first) in ids else []


def images_wrong(program, write):
    """Which of docs/images isn't what `draw` writes."""
    failures = []
    for name, words in IMAGES.items():
        document = processes.run([program, "draw", *words], cwd=TOP).output
        file = TOP / "docs" / "images" / name
        if write:
            file.parent.mkdir(exist_ok=True)
            file.write_bytes(document)
        elif not file.exists() or file.read_bytes() != document:
            failures.append(f"docs/images/{name} isn't what draw writes")
    return failures


def render(program, name, words, folder):
    """Has Chromium render a drawing."""
    folder.mkdir(parents=True, exist_ok=True)
    document = folder / f"{name}.svg"
    document.write_bytes(processes.run([program, "draw", *words], cwd=TOP).output)
    height = re.search(rb'height="(\d+)"', document.read_bytes())
    size = f"--window-size=1280,{int(height[1]) if height else 100}"
    for kind, scheme in (("light", []), ("dark", ["--blink-settings=preferredColorScheme=0"])):
        processes.run(["chromium", "--headless", "--no-sandbox", "--disable-gpu", "--hide-scrollbars", size, *scheme,
                       f"--screenshot={folder / f'{name}-{kind}.png'}", document.resolve().as_uri()], seconds=120)


def main(doc):
    parser = parser_of(doc)
    parser.add_argument("--program", help=argparse.SUPPRESS)
    parser.add_argument("--damaged", type=int, default=1000, metavar="N")
    parser.add_argument("--edited", type=int, default=200, metavar="N")
    parser.add_argument("--pictures", type=pathlib.Path, metavar="FOLDER")
    parser.add_argument("--write", action="store_true")
    parser.add_argument("files", type=pathlib.Path, metavar="FILE", nargs="+")
    options = parser.parse_args()
    drawing = options.program or program()
    failures = images_wrong(drawing, options.write)
    texts = [file.read_bytes() for file in options.files]
    for file, text in zip(options.files, texts):
        found = [wrong(drawing, text, words) for words in CHOICES]
        failures += [f"{file}: {what}" for what in found if what]
        if options.pictures:
            render(drawing, file.stem, [file.resolve()], options.pictures)
    if options.pictures:
        for name, words in IMAGES.items():
            render(drawing, pathlib.Path(name).stem, words, options.pictures)
    for seed in range(options.damaged):
        what = wrong(drawing, damaged(seed, texts[seed % len(texts)]))
        if what:
            failures.append(f"damaged by seed {seed}: {what}")
    for seed in range(options.edited):
        what = edited_wrong(drawing, texts[seed % len(texts)], seed)
        if what:
            failures.append(f"edited by seed {seed}: {what}")
    for failure in failures:
        print(failure)
    print(f"{len(options.files)} files, {options.damaged} damaged ones, {options.edited} edited, {len(failures)} failures")
    return 1 if failures else 0
