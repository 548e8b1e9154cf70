"""Drives examples/editor in headless Chromium."""
import base64
import pathlib
import random
import shutil
import subprocess
import sys
import tempfile
import time

from cupdaisy import processes
from cupdaisy.browser import Browser
from cupdaisy.command_line import NOT_INSTALLED, are_installed, parser_of
from cupdaisy.editor_scripts import COUNTS, FORESEEN, PLAYED, SCROLLED, SETTLED, THUMBNAILS, VIEWED, WHEEL
from cupdaisy.film import MANY, PERIOD, PICTURES, encode
from cupdaisy.program import program
from cupdaisy.workspace import SAMPLES, TOP

sys.path.insert(0, str(TOP / "examples/editor"))

from access_units import nal_units
from document import Document

SIZES = {"1280": (1280, 880), "800": (800, 880)}
# What docs/images has, by the state and the page's form.
IMAGES = {("cut", "light-1280"): "editor.png", ("damage", "dark-1280"): "editor-damage.png"}


def reduced(picture, file):
    """Writes a picture with 256 colours."""
    colours = "split[a][b];[a]palettegen=stats_mode=full[c];[b][c]paletteuse=dither=none"
    processes.run(["ffmpeg", "-v", "error", "-y", "-f", "png_pipe", "-i", "-", "-vf", colours, file], picture)


class Check:
    """The states of the page, each with what holds there."""

    def __init__(self, browser, options, name):
        self.browser, self.pictures, self.is_written, self.name, self.wrong = browser, options.pictures, options.write, name, []

    def expect(self, what, is_so):
        if not is_so:
            self.wrong.append(f"{self.name}: {what}")

    def state(self, name, **wanted):
        """Waits until all pictures are there and what is counted is as wanted."""
        for what, number in {"wrong": "", "asked": False, **wanted}.items():
            script = f"return ({COUNTS[what]})"
            if not self.browser.wait(f"{script} === arguments[0]", number):
                self.wrong.append(f"{self.name}: {name}: {what} {self.browser.run(script)}, and not {number}")
        self.expect(f"{name}: pictures are waited for", self.browser.wait(SETTLED))
        if self.pictures:
            time.sleep(0.3)
            shot = base64.b64decode(self.browser.call("/screenshot"))
            (self.pictures / f"{name.replace(' ', '-')}-{self.name}.png").write_bytes(shot)
            if self.is_written and (name, self.name) in IMAGES:
                reduced(shot, TOP / "docs/images" / IMAGES[name, self.name])

    def thumbnails(self, name, number_of):
        """Holds the number that each thumbnail shows against that of its unit's picture."""
        found = self.browser.run(THUMBNAILS)
        differ = [(unit, shown) for unit, shown in found if number_of(unit) not in (shown, None)]
        self.expect(f"{name}: no thumbnail is there", found)
        self.expect(f"{name}: thumbnails show other pictures: {differ[:4]}", not differ)

    def key(self, name, **held):
        self.browser.run("document.body.dispatchEvent(new KeyboardEvent('keydown', {key: arguments[0], bubbles: true, cancelable: true,"
                         " ...arguments[1]}))", name, held)

    def page(self, count, first, cursor):
        """Shows so many units from a place on, with the cursor on another."""
        self.browser.run("editor.view.count = arguments[0]; editor.go(arguments[2]); editor.view.first = arguments[1]; editor.look()",
                         count, first, cursor)

    def click(self, selector):
        self.browser.run("document.querySelector(arguments[0]).click()", selector)

    def at(self, place, row="units"):
        """Where a unit is on the screen, in the middle of its box or of its picture in output order."""
        return self.browser.run("const box = editor.timeline.canvas.getBoundingClientRect(), {view, stream, timeline} = editor;"
                                "return arguments[1] === 'units' ? [box.left + view.x(arguments[0] + 0.5), box.top + 125]"
                                " : [box.left + (stream.positions[arguments[0]] + 0.5 - timeline.firstPosition) * view.unit, box.top + 40]",
                                place, row)


def order_of(file):
    """The output order of the units, by plan: the id of each to the number of its picture."""
    lines = processes.printed([program(), "plan", file]).splitlines()
    return {int(words[1]): int(words[3]) for words in map(str.split, lines) if words[0] == "unit" and words[2] == "position"}


def walk(check, file):
    """What a user does with the film."""
    number_of = order_of(file)
    look_around(check, number_of)
    turn_the_wheel(check, number_of)
    break_and_undo(check, number_of)
    play(check)
    cut(check, number_of)
    save(check, file)
    empty(check)


def look_around(check, number_of):
    """A click moves the cursor, a drag chooses periods, and one in the upper row scrubs."""
    browser = check.browser
    check.state("opened", units=PICTURES, faults=0, cursor=1)
    check.thumbnails("opened", number_of.get)
    check.expect("the cursor's picture is another", browser.run(VIEWED) == number_of[1])
    browser.press(check.at(40))
    check.state("clicked", cursor=41)
    check.expect("the clicked unit's picture is another", browser.run(VIEWED) == number_of[41])
    browser.press(check.at(33), check.at(40), check.at(44))
    check.state("chosen", chosen=PERIOD)
    check.expect("a period can't go", browser.wait(FORESEEN, "no decode errors"))
    check.page(150, 40, 164)
    browser.run(f"editor.edits.choose({PERIOD + 20}, {PERIOD + 20})")
    check.state("cut", chosen=PERIOD)
    check.key("Escape")
    check.page(60, 0, 0)
    browser.press(check.at(10, "output"), check.at(20, "output"))
    check.state("scrubbed", cursor=21)


def turn_the_wheel(check, number_of):
    """The wheel scrolls and, with Ctrl, zooms; the strip of the whole stream moves the page."""
    browser = check.browser
    page = browser.run("return [editor.view.first, editor.view.count]")
    browser.run(WHEEL, 300, False)
    browser.run(WHEEL, -400, True)
    check.expect("the wheel doesn't scroll", browser.run("return editor.view.first") > page[0])
    check.expect("the wheel doesn't zoom", browser.run("return editor.view.count") < page[1])
    check.state("zoomed in")
    check.thumbnails("zoomed in", number_of.get)
    browser.press(browser.run("const box = editor.minimap.canvas.getBoundingClientRect();"
                              "return [box.left + box.width * 0.75, box.top + 12]"))
    middle = browser.run("return editor.view.first + editor.view.count / 2")
    check.expect("the strip doesn't move the page", abs(middle - 0.75 * PICTURES) < 3)
    check.page(60, 0, 0)


def break_and_undo(check, number_of):
    """Two reference pictures go: what it breaks is told first, and the pictures behind stay. After an undo all is as before."""
    browser = check.browser
    browser.run("editor.go(66), editor.edits.choose(63, 64, true)")
    check.expect("what it breaks isn't told", browser.wait(FORESEEN, "decode errors in"))
    check.key("Delete")
    check.state("asked", asked=True)
    check.click("#question button[value=no]")
    check.state("left", units=PICTURES)
    check.key("Delete")
    browser.wait("return document.getElementById('question').open")
    decoded = browser.run("return editor.pictures.decoded")
    check.click("#question button[value=yes]")
    browser.wait(f"return editor.stream.length === {PICTURES - 2}")
    faults, doubts = browser.run(f"return [{COUNTS['faults']}, {COUNTS['doubts']}]")
    check.expect(f"{faults} faults and {doubts} in doubt", faults > 5 and doubts > 5)
    altered = browser.run(f"return {COUNTS['altered']}")
    check.expect(f"{altered} altered, with {doubts} in doubt", altered > 5)
    check.expect("a fault is behind the next safe point", browser.run("return Math.max(...editor.stream.faults.keys())") < 2 * PERIOD - 2)
    check.state("deleted", units=PICTURES - 2, faults=faults, undo=1)
    sound = lambda unit: number_of[unit] if unit < 64 or unit > 2 * PERIOD else None
    check.thumbnails("deleted", sound)
    check.page(110, PERIOD - 18, PERIOD + 50)
    check.state("damage")
    check.thumbnails("damage", sound)
    check.page(60, 2 * PERIOD - 10, 2 * PERIOD + 8)
    check.state("behind")
    check.thumbnails("behind", sound)
    again = browser.run("return editor.pictures.decoded") - decoded
    check.expect(f"{again} pictures were decoded again", again < 60)
    check.key("z", ctrlKey=True)
    check.state("undone", units=PICTURES, faults=0, doubts=0, altered=0, undo=0)
    back = browser.run("return editor.stream.ids")
    check.thumbnails("undone", lambda unit: number_of[back.index(unit) + 1])


def play(check):
    """From the eighth picture on: none is left out."""
    browser = check.browser
    browser.run("editor.go(editor.stream.atPosition[7])")
    seen = browser.run_async(PLAYED, 10)
    check.expect(f"played {seen}", seen[0] in (7, 8) and seen == list(range(seen[0], seen[0] + 10)))
    check.key(".")
    check.key(",")
    check.key(",")
    check.state("stepped")
    check.expect("a step isn't one picture", browser.run(VIEWED) == browser.run("return editor.stream.positions[editor.cursor]"))


def cut(check, number_of):
    """A period is copied to the front, and moved by a key and by the mouse: nothing breaks, and nothing is asked."""
    browser = check.browser
    browser.run("editor.goTo('0:04:20')")
    check.state("gone to a time", cursor=2 * PERIOD + 1)
    browser.run(f"editor.edits.choose({2 * PERIOD}, {2 * PERIOD})")
    check.key("c", ctrlKey=True)
    browser.run("editor.edits.choose(null), editor.go(3)")
    check.key("v", ctrlKey=True)
    check.state("pasted", units=PICTURES + PERIOD, faults=0, doubts=0, chosen=PERIOD, undo=1)
    first = browser.run("return editor.stream.ids.slice(0, 60)")
    check.thumbnails("pasted", lambda unit: number_of[2 * PERIOD + 1 + first.index(unit)] if unit in first else number_of.get(unit))
    check.key("ArrowRight", ctrlKey=True)
    check.state("moved", units=PICTURES + PERIOD, faults=0, undo=2)
    check.page(250, 0, 61)
    browser.press(check.at(70), check.at(150), check.at(185))
    check.state("dragged", units=PICTURES + PERIOD, faults=0, undo=3)
    check.expect("what is dragged isn't snapped", browser.run("return editor.chosen.from") == 2 * PERIOD)
    check.click("[data-does=farther]")
    for _ in range(3):
        check.key("-")
    check.state("zoomed out", units=PICTURES + PERIOD)


def save(check, file):
    """What is saved plans without a fault."""
    check.click("#save")
    check.state("saved", units=PICTURES + PERIOD, altered=0)
    texts = processes.printed([program(), "plan", file]).splitlines()
    planned = [line for line in texts if line.startswith("unit")]
    check.expect("the saved file plans otherwise", len(planned) == PICTURES + PERIOD and not any("fault" in line for line in planned))


def empty(check):
    """All can go, and comes back."""
    check.key("a", ctrlKey=True)
    check.key("Delete")
    check.state("nothing left", units=0)
    check.key("z", ctrlKey=True)
    check.state("all back", units=PICTURES + PERIOD, faults=0)


def open_damaged(check, file):
    """A file that is refused is mended."""
    text = base64.b64encode(file.read_bytes()).decode()
    check.browser.run("const dropped = new DataTransfer();"
                      "dropped.items.add(new File([Uint8Array.from(atob(arguments[0]), (it) => it.charCodeAt(0))], 'damaged.264'));"
                      "document.dispatchEvent(new DragEvent('drop', {dataTransfer: dropped, cancelable: true}))", text)
    check.state("refused", asked=True)
    check.click("#question button[value=yes]")
    check.browser.wait("return editor.stream?.name === 'damaged-mended.264'")
    told = check.browser.run("return document.getElementById('told').textContent")
    check.expect(f"mended: {told}", "type 13" in told)


def scroll(check):
    """A long stream, scrolled and zoomed: how long frames take, which is told and nothing is asked of."""
    check.state("long", units=MANY, faults=0)
    (frame, slowest), (drawn, slowest_drawn) = check.browser.run_async(SCROLLED)
    print(f"check-editor: {check.name}: scrolling {MANY:,} units: a frame each {frame:.0f} ms, at most {slowest:.0f} ms;"
          f" drawing takes {drawn:.1f} ms, at most {slowest_drawn:.1f} ms")
    check.browser.run("editor.view.count = 2000; editor.go(10000)")
    check.state("long and zoomed out", units=MANY, cursor=10001)


def drawn_splices(rng, units):
    """A deletion, a copy, a move or a replacement of a few units."""
    begin, count = rng.randrange(len(units) - 4), rng.randrange(1, 4)
    place, some = rng.randrange(len(units) - count), units[begin:begin + count]
    return rng.choice(([(begin, count, [])], [(place, 0, some)], [(begin, count, []), (place, 0, some)], [(place, 1, some)]))


def edit_drawn(file, edits=30):
    """Makes drawn edits of a document, without a browser: what it has of units has to be what the server and `plan` say anew."""
    document, rng, wrong = Document(file, 1, True), random.Random(7), []
    text, stream = document.text(), document.shown
    for number in range(edits):
        document.edit(drawn_splices(rng, stream.units))
        planned = stream.planned()
        doubts = {place: (line.get("follows"), "in_doubt" in line) for place, line in enumerate(planned) if "follows" in line}
        if stream.outcomes != stream.asked(0, len(stream.ids)) or stream.doubts != doubts:
            wrong.append(f"{file.name}: after drawn edit {number} it has other outcomes")
        if len(stream.ids) < 12:
            break
    edited = document.text()
    for undone, again in ((document.undo, text), (document.redo, edited), (document.undo, text)):
        while document.undone_by if undone == document.undo else document.redone_by:
            undone()
        if document.text() != again:
            wrong.append(f"{file.name}: undone and made again, it is another stream")
        if again == text and any("altered" in outcome for outcome in stream.outcomes):
            wrong.append(f"{file.name}: all is undone, and units are altered")
    document.close()
    return wrong


def edit_killed(file):
    """Kills a document's server between edits, and ends without a save: the next document has the edits and ids, and saves them."""
    document, wrong = Document(file, 1, False), []
    document.edit([(2, 3, [])])
    document.shown.server.process.kill()
    document.edit([(4, 0, document.shown.units[:2])])
    document.close()
    resumed = Document(file, 1, False)
    if not resumed.is_resumed or resumed.shown.ids != document.shown.ids or nal_units(resumed.text()) != nal_units(document.text()):
        wrong.append(f"{file.name}: its edits aren't resumed")
    resumed.save()
    resumed.close()
    if list(file.parent.glob(f"{file.name}.journal*")):
        wrong.append(f"{file.name}: its journal stays")
    return wrong


def visit(options, name, file, walk_through, query="", is_dark=False, size=SIZES["1280"]):
    """Opens an editor and a browser for a walk; what was wrong."""
    command = [TOP / "examples/editor/editor.py", *([file] if file else []), "--port", "0"]
    editor = subprocess.Popen(command, stdout=subprocess.PIPE, text=True)
    address = editor.stdout.readline().strip()
    browser = Browser(is_dark, size)
    try:
        browser.call("/url", {"url": address + query})
        browser.wait("return globalThis.editor !== undefined && document.body.dataset.done !== undefined")
        check = Check(browser, options, name)
        walk_through(check)
        return check.wrong
    finally:
        browser.close()
        editor.terminate()
        editor.wait()


def by_decoder(file, word):
    """A walk that looks at the first pictures by another decoder."""
    def walk_through(check):
        check.state("opened", units=PICTURES)
        told = check.browser.run("return document.getElementById('decoder').textContent")
        check.expect(f"decoded otherwise than by {word}", told.startswith(word))
        if "ffmpeg" in word:
            check.thumbnails("opened", order_of(file).get)
    return walk_through


def main(doc):
    parser = parser_of(doc)
    parser.add_argument("--pictures", metavar="FOLDER", type=pathlib.Path)
    parser.add_argument("--write", action="store_true")
    options = parser.parse_args()
    if not are_installed("chromium", "chromedriver", "ffmpeg", "x264"):
        print("check-editor: chromium, chromedriver, ffmpeg or x264 isn't there, so nothing was looked at")
        return NOT_INSTALLED
    wrong = []
    with tempfile.TemporaryDirectory() as folder:
        folder = pathlib.Path(folder)
        if options.write:
            options.pictures = options.pictures or folder / "pictures"
        if options.pictures:
            options.pictures.mkdir(parents=True, exist_ok=True)
        encode(folder)
        film = folder / "film.264"
        for is_dark in (False, True):
            for wide, size in SIZES.items():
                name = f"{'dark' if is_dark else 'light'}-{wide}"
                file = pathlib.Path(shutil.copy(film, folder / f"{name}.264"))
                wrong += visit(options, name, file, lambda check: walk(check, file), "", is_dark, size)
        for file in (SAMPLES / "bframes.264", SAMPLES / "zoom.264"):
            wrong += edit_drawn(file)
        wrong += edit_killed(pathlib.Path(shutil.copy(SAMPLES / "bframes.264", folder / "killed.264")))
        wrong += visit(options, "ffmpeg", film, by_decoder(film, "decoded by ffmpeg"), "?decoder=ffmpeg")
        wrong += visit(options, "digests", film, by_decoder(film, "digests"), "?decoder=none")
        wrong += visit(options, "mend", None, lambda check: open_damaged(check, folder / "damaged.264"))
        wrong += visit(options, "long", folder / "long.264", scroll)
    print(*[f"check-editor: {line}" for line in wrong] or ["check-editor: ok"], sep="\n")
    return 1 if wrong else 0
