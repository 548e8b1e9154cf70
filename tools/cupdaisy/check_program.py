"""Checks the built program at its edge: statuses, streams, files, and what can fail there."""
import contextlib
import errno
import os
import pathlib
import pty
import re
import resource
import shutil
import subprocess
import tempfile
import tty

from cupdaisy import processes
from cupdaisy.command_line import parser_of
from cupdaisy.processes import Ran
from cupdaisy.program import program
from cupdaisy.workspace import SAMPLES, TOP

SECONDS = 20
NOBODY = 65534
STEP = 1 << 20
CLOCK = (SAMPLES / "clock.264").read_bytes()
# Parameter sets of one macroblock, and an IDR picture.
SETS, IDR = (bytes.fromhex(unit) for unit in ("000001 6742000ADA79 000001 68CE3880", "000001 65888480"))
UNIT = (b"unit 1 position 0 counts 0 0 requests 1\n"
        b"request 1.0 ts 1000 bits 25 type 2 frame 0 dpb - l0 - l1 - hold 0\n")
# README.md's examples.
CLOCK_BEGINS = (b"unit 1 position 0 counts 0 0 requests 1\n"
                b"request 1.0 ts 1000 bits 30 type 2 frame 0 dpb - l0 - l1 - hold 0\n"
                b"unit 2 position 1 counts 2 2 requests 1\n"
                b"request 2.0 ts 2000 bits 30 type 0 frame 1 dpb 1000:0:3 l0 0 l1 - hold 0\n")
SCRIPT_ANSWERS = b"""loaded 12
unit 3 position 2 counts 4 4 requests 1
request 3.0 ts 3000 bits 30 type 0 frame 2 dpb 2000:1:3 l0 0 l1 - hold 0
edit 13 id 2
unit 3 fault 11 FrameNumGap
edit 14 id 13
unit 13 position 1 counts 2 2 requests 1
request 13.0 ts 13000 bits 30 type 0 frame 1 dpb 1000:0:3 l0 0 l1 - hold 0
unit 3 position 2 counts 4 4 requests 1
request 3.0 ts 3000 bits 30 type 0 frame 2 dpb 13000:1:3 l0 0 l1 - hold 0
edit 15 id 13
unit 13 no picture
unit 3 fault 11 FrameNumGap
refused 16 NoSuchUnit
unit 2 none
"""
WORKERS_ANSWERS = b"""loaded 12
settled
show 12 ready
edit 13 id 2
show 3 fault 11 FrameNumGap
edit 14 id 13
settled
show 3 ready
"""
JUMP_ANSWERS = b"""rest off
loaded 30
settled
show 1 pending
wanted 1
settled
show 27 ready
show 21 ready
show 20 pending
wanted 2
settled
show 8 ready
settled
show 9 ready
show 20 pending
drop 27 dropped
show 27 pending
drop 27 not held
wanted 1
settled
show 27 ready
rest on
settled
show 20 ready
"""
AGREED, JUMP_AGREED = b"agreed 14 edits 3 shows\n", b"agreed 30 edits 10 shows\n"
NO_MEMORY = b"out of memory\n"
LOADED, NO_ROOM = b"loaded 100\n", b"refused 15 Memory\n"
SETTLED = b"settled\n"


def anything(text):
    """Some text, whatever its words."""
    return bool(text)


class Checker:
    """Runs the program in a folder, and counts what isn't as expected."""

    def __init__(self, program, folder):
        self.program, self.folder, self.runs, self.failures = program, folder, 0, 0

    def run(self, *words, text=None, before=(), **how):
        """A run on these words, with a text as standard input; `before` is what the command begins with."""
        return processes.run([*before, self.program, *words], text, SECONDS, **{"cwd": self.folder, **how})

    def expect(self, what, ran, status, output=b"", errors=b""):
        """Counts the run, and prints what isn't as expected; bytes or a test of them are expected on each stream."""
        self.runs += 1
        wrong = []
        if ran.status != status:
            wrong.append(f"status {ran.status}, not {status}" if ran.status is not None else "no end in time")
        for name, found, wanted in (("output", ran.output, output), ("error", ran.errors, errors)):
            if not (wanted(found) if callable(wanted) else found == wanted):
                wrong.append(f"on standard {name} {found[:200]!r}")
        if wrong:
            self.failures += 1
            print(f"{what}: {'; '.join(wrong)}", flush=True)

    def write(self, name, text):
        """Makes a file in the folder."""
        (self.folder / name).write_bytes(text)


def check_command_line(it):
    """Help and the version on standard output with status 0; what is wrong on standard error with status 2, alone."""
    for words in (["--help"], ["-h"], ["help"], ["plan", "--help"], ["run", "--help"], ["help", "run"],
                  ["audit", "--help"], ["help", "audit"], ["draw", "--help"], ["--version"], ["-V"]):
        it.expect(" ".join(words), it.run(*words), 0, anything)
        with open("/dev/full", "wb") as full:
            it.expect(f"{' '.join(words)} to a full disk", it.run(*words, stdout=full), 1)
    for words in ([], ["bogus"], ["plan"], ["plan", "a", "b"], ["run"], ["plan", "--cache", "1", "a"], ["--bogus"],
                  ["run", "a", "--hex=1"], ["run", "a", "--hex", "--hex"], ["plan", "--hex", "a"],
                  ["run", "a", "--cache", "0"], ["run", "a", "--cache", "4097"], ["run", "a", "--cache", "x"],
                  ["run", "a", "--workers", "-1"], ["run", "a", "--workers"], ["run", "a", "--workers", "65"],
                  ["audit"], ["audit", "a", "b"], ["audit", "a", "--hex"], ["audit", "a", "--workers", "0"],
                  ["audit", "a", "--workers", "65"], ["audit", "a", "--cache", "0"], ["draw"], ["draw", "a", "b"],
                  ["draw", "a", "--units", "0"], ["draw", "a", "--units", "1001"], ["draw", "a", "--from", "-1"],
                  ["draw", "a", "--from", "4294967296"], [""], ["plan", b"\xff"], [b"\xff"]):
        it.expect(f"the words {words}", it.run(*words), 2, b"", anything)
        with open("/dev/full", "wb") as full:
            it.expect(f"the words {words}, errors to a full disk", it.run(*words, stderr=full), 2)


COMPLETED = """source '{completions}'; COMP_WORDS=({words}); COMP_CWORD={at}; _preview; printf '%s\\n' "${{COMPREPLY[@]}}\""""
COMPLETED_BY_ZSH = """_describe() {{ print -l -- ${{found%%:*}} }}; compadd() {{ print -l -- $found }}; _files() {{ }}
complete_words() {{ source '{completions}' }}; words=({words}); CURRENT={at}; complete_words"""


def helped_commands(it):
    """The commands that the help lists, each with the options that its own help does; for help itself it has none."""
    lines = it.run("--help").output.decode().split("Commands:\n")[1].split("\n\n")[0].splitlines()
    names = [line.split()[0] for line in lines]
    return {name: re.findall(r"^ +(?:-\w, )?(--[a-z-]+)", it.run(name, "--help").output.decode(), re.MULTILINE)
            for name in names if name != "help"}


def completed(it, shell, *words):
    """What a shell completes behind these words by its completions, of an empty word or of one that is begun."""
    folder = TOP / "packages" / "completions"
    form, name, base = (COMPLETED, "preview.bash", 0) if shell == "bash" else (COMPLETED_BY_ZSH, "_preview", 1)
    line = form.format(completions=folder / name, at=len(words) + base,
                       words=" ".join(f"'{word}'" for word in (it.program, *words)))
    return processes.run([shell, "-c", line], None, SECONDS, cwd=it.folder)


def check_completions(it):
    """The completions for bash and zsh, and the manual page's synopsis, name each command and option that the help lists."""
    helped = helped_commands(it)
    synopsis = (TOP / "man" / "preview.1").read_text().split(".SH SYNOPSIS\n")[1].split(".SH ")[0].replace("\\", "")
    pages = {part.split()[0]: part for part in synopsis.split(".B preview ")[1:]}
    it.expect("the commands of the manual page", Ran(0, sorted(pages), b""), 0, sorted(helped))
    for name, options in helped.items():
        told = re.findall(r"--[a-z-]+", pages.get(name, ""))
        it.expect(f"the options of {name} in the manual page", Ran(0, sorted(told), b""), 0,
                  sorted(option for option in options if option != "--help"))
    for shell in ("bash", "zsh"):
        if not shutil.which(shell):
            print(f"{shell} is not installed: its completions weren't tried")
            continue
        it.expect(f"the commands that {shell} completes", completed(it, shell, ""), 0, names_all(helped))
        for name, options in helped.items():
            it.expect(f"the options of {name} that {shell} completes", completed(it, shell, name, "--"), 0, names_all(options))


def names_all(names):
    """Whether each of the names is a line of a text."""
    return lambda text: set(names) <= set(text.decode().splitlines())


def check_files(it):
    """A file by its name and by `-`, and one that is named `-`."""
    clock = it.run("plan", "clock.264")
    it.expect("plan clock.264", clock, 0, lambda text: text.startswith(CLOCK_BEGINS) and text.count(b"unit ") == 12)
    it.expect("plan - of clock.264", it.run("plan", "-", text=CLOCK), 0, clock.output)
    with open(it.folder / "clock.264", "rb") as file:
        it.expect("plan - from a file", it.run("plan", "-", stdin=file), 0, clock.output)
    it.expect("plan ./- where a file is named -", it.run("plan", "./-"), 0, UNIT)
    it.expect("run - of a script that loads -", it.run("run", "-", text=b"load -\nunit 1\n"), 0, b"loaded 1\n" + UNIT)
    it.expect("run script, which loads -", it.run("run", "script", text=CLOCK), 0, b"loaded 1\n" + UNIT)
    it.expect("the sample script", it.run("run", "samples/edits.script", cwd=TOP), 0, SCRIPT_ANSWERS)
    lines = (SAMPLES / "pictures.lines").read_bytes()
    pictures = ("run", "samples/pictures.script")
    it.expect("the sample script of pictures", it.run(*pictures, "--hex", cwd=TOP), 0, lines)
    ran = it.run(*pictures, cwd=TOP)
    it.expect("the same without hashes", ran, 0, re.sub(rb"(ready) [0-9a-f]{64}\n", rb"\1\n", lines))
    workers = "samples/workers.script"
    for count in ("0", "1", "2", "4", "64"):
        it.expect(f"the sample script beside {count} workers", it.run("run", "--workers", count, workers, cwd=TOP),
                  0, WORKERS_ANSWERS)
    for options in ((), ("--workers", "1"), ("--workers", "64", "--cache", "1")):
        it.expect(f"its audit {options}", it.run("audit", *options, workers, cwd=TOP), 0, AGREED)
    jump = "samples/jump.script"
    for count in ("1", "2", "64"):
        words = "--workers", count, jump
        it.expect(f"the sample of a jump beside {count} workers", it.run("run", *words, cwd=TOP), 0, JUMP_ANSWERS)
        it.expect(f"its audit beside {count}", it.run("audit", *words, cwd=TOP), 0, JUMP_AGREED)
    ran = it.run("audit", "-", text=b"load -\nshow 1\nshow 9\ndelete 9\n")
    it.expect("audit of a script that loads -", ran, 0, b"agreed 1 edits 2 shows\n")
    it.expect("plan of a text that isn't a stream", it.run("plan", "-", text=b"stream"), 1, b"refused 1 Split\n")
    it.expect("draw of a text that isn't a stream", it.run("draw", "-", text=b"stream"), 1, b"refused 1 Split\n")
    drawn = it.run("draw", "clock.264")
    it.expect("draw clock.264", drawn, 0, lambda text: text.startswith(b"<svg ") and text.endswith(b"</svg>\n"))
    it.expect("draw - of clock.264", it.run("draw", "-", "--from", "1", text=CLOCK), 0, drawn.output)
    ran = it.run("draw", "clock.264", "--from", "13")
    it.expect("draw clock.264 --from 13", ran, 0, lambda text: b"none is shown" in text and b'class="u"' not in text)
    it.expect("plan of parameter sets alone", it.run("plan", "-", text=SETS), 0, b"unit 1 no picture\n")
    it.expect("plan of a picture without its sets", it.run("plan", "-", text=IDR), 0, b"unit 1 fault 1 MissingPps\n")


# Names that can't be read, each with the error of the system.
UNREAD = (("nowhere", errno.ENOENT), ("folder", errno.EISDIR), ("folder/nowhere", errno.ENOENT), ("clock.264/nowhere", errno.ENOTDIR),
          ("no where", errno.ENOENT), ("n\u00f6where", errno.ENOENT), ("n" * 300, errno.ENAMETOOLONG))


START = "; relative paths in a script start at the working directory"


def unread(name, number, see=True, start=""):
    """What is told of a file that can't be read, and why; of a script there is no check. Of a file that a script loads it is told too
    where its path starts."""
    words = f"{name}: {os.strerror(number)} (os error {number}){start}" + (f"; see: preview check {name}" if see else "")
    return f"cannot read {name}\n{words}\n".encode()


def check_unread(it):
    """Inputs that can't be read: a message with the name and the reason, status 1, and no lines but those of commands before."""
    for name, number in UNREAD:
        for command in ("plan", "draw", "run", "audit"):
            it.expect(f"{command} {name}", it.run(command, name), 1, b"", unread(name, number, command in ("plan", "draw")))
        if " " not in name:
            script, told = f"load clock.264\nload {name}\nshow 1\n".encode(), f"cannot read {name}\n".encode()
            for words, lines in ((["run"], b"loaded 12\n"), (["run", "--workers", "2"], b"loaded 12\n"), (["audit"], b"")):
                it.expect(f"{words} of a script that loads {name}", it.run(*words, "-", text=script), 1, lines, told)
    for command in ("plan", "draw", "run", "audit"):
        folder = os.open(it.folder, os.O_RDONLY)
        it.expect(f"{command} - of a folder", it.run(command, "-", stdin=folder), 1, b"", b"cannot read -\n")
        os.close(folder)
        ran = it.run(command, "-", preexec_fn=lambda: os.close(0))
        it.expect(f"{command} - of a closed input", ran, 1, b"", b"cannot read -\n")
        with open("/dev/full", "wb") as full:
            ran = it.run(command, "nowhere", stderr=full)
        it.expect(f"{command} nowhere, errors to a full disk", ran, 1)
    ran = it.run("plan", "clock.264", preexec_fn=lambda: os.close(0))
    it.expect("plan clock.264 with a closed input", ran, 0, it.run("plan", "clock.264").output)


def check_permission(it):
    """A file that may not be read; root reads each, so it is read as nobody."""
    it.write("secret", CLOCK)
    (it.folder / "secret").chmod(0)
    before = ["setpriv", f"--reuid={NOBODY}", f"--regid={NOBODY}", "--clear-groups"] if os.geteuid() == 0 else []
    if before and not shutil.which(before[0]):
        print("setpriv is not installed: no file was tried that may not be read")
        return
    for command in ("plan", "draw", "run"):
        ran = it.run(command, "secret", before=before)
        it.expect(f"{command} of a file that may not be read", ran, 1, b"", unread("secret", errno.EACCES, command != "run"))


# Files that are no streams, and what they are; scripts, what of them is no command, and why.
OTHERS = (("text", "a text file"), ("film", "an MP4 or MOV file, a container"), ("empty", "an empty file"))
FAULTS = (("run", "undone.script", 2, 'no command "undo"'), ("run", "want.script", 1, "want takes ids of units, and is for runs beside workers"),
          ("audit", "mark.script", 1, "mark takes nothing, and is for run without workers"))


def check_reasons(it):
    """Behind a refusal of a file, and a fault of a script, standard error says why, where it can be read twice."""
    for name, text in (("film", bytes((0, 0, 0, 24)) + b"ftypmp42" + bytes(12)), ("empty", b""), ("cut.264", CLOCK + bytes((0, 0, 1, 0xE7))),
                       ("undone.script", b"load clock.264\nundo\n"), ("want.script", b"want 1\n"), ("mark.script", b"mark\n"),
                       ("lost.script", b"load text\nload nowhere\nload film\n"),
                       ("refused.script", b"load text\nload clock.264\nload cut.264\n")):
        it.write(name, text)
    for name, sentence in OTHERS:
        told = f"{name}: {sentence}, not a byte stream of H.264 (Annex B); see: preview check {name}\n".encode()
        for words, refused in ((["plan"], b"refused 1 Split\n"), (["draw"], b"refused 1 Split\n"),
                               (["plan", "--json"], b'{"refused":{"number":1,"name":"Split"}}\n')):
            it.expect(f"{words} {name}", it.run(*words, name), 1, refused, told)
    cut = (b"cut.264: access unit at index 12: forbidden_zero_bit of a NAL unit is 1: it is damaged (7.4.1); "
           b"see: preview check cut.264\n")
    it.expect("plan cut.264", it.run("plan", "cut.264"), 1, b"unit 12 refused 3 ForbiddenBit\n", cut)
    it.expect("plan of a pipe", it.run("plan", "/dev/stdin", text=b"stream"), 1, b"refused 1 Split\n")
    for command, script, line, why in FAULTS:
        told = f"script fault at line {line}\nline {line}: {why}\n".encode()
        it.expect(f"{command} {script}", it.run(command, script), 1, b"", told)
    told = b"script fault at line 1\nline 1: load takes the path of a file, and is no edit\n"
    it.expect("draw after a script that loads", it.run("draw", "clock.264", "--edits", "lost.script"), 1, b"", told)
    told = b"text: a text file, not a byte stream of H.264 (Annex B); see: preview check text\n"
    ran = it.run("run", "lost.script")
    missing, why = unread("nowhere", errno.ENOENT, start=START).split(b"\n", 1)
    it.expect("run lost.script", ran, 1, b"refused 1 Split\n", missing + b"\n" + told + why)
    _, why = unread("nowhere", errno.ENOENT).split(b"\n", 1)
    ran = it.run("run", "refused.script")
    it.expect("run refused.script", ran, 0, b"refused 1 Split\nloaded 12\nunit 12 refused 3 ForbiddenBit\n", told + cut)
    loads = b"".join(b'{"jsonrpc":"2.0","id":1,"method":"load","params":{"path":"%s"}}\n' % name
                     for name in (b"text", b"clock.264", b"cut.264", b"nowhere"))
    for workers in "0", "2":
        it.expect(f"serve of loads, {workers} workers", it.run("serve", "--workers", workers, text=loads), 0,
                  lambda text: [line.count(b'"error"') for line in text.splitlines()] == [1, 0, 1, 1], told + cut + why)
        ran = it.run("serve", "--workers", workers, "--journal", "clock.264", text=loads)
        it.expect(f"serve with a journal that is none, {workers} workers", ran, 1, b"", b"not a journal: clock.264\n")


def check_scripts(it):
    """The first line that is no command is named, and nothing is run; refused edits and streams are answered."""
    front = b"load clock.264\n\n# \xff\nunit 1\n"
    for line in (b"bogus", b"\tunit 1", b"unit 1\r", b"unit", b"unit 1 2", b"unit 12345678901", b"unit -1",
                 b"delete x", b"load", b"load a b", b"insert first 0", b"insert first 0g", b"insert before 1 00",
                 b"replace", b"\xff", b"take 1 2", b"settle now", b"drop", b"clear 1", b"mark 1", b"altered", b"want 1", b"rest on",
                 b"land", b"land x", b"give 1 2", b"show"):
        ran = it.run("run", "-", text=front + line + b"\nbogus\n")
        it.expect(f"a script with the line {line!r}", ran, 1, b"", b"script fault at line 5\n")
    for line in (b"unit 1", b"json 1", b"take", b"take 1", b"land 1", b"give 1", b"mark", b"altered 1", b"want x", b"rest",
                 b"bogus"):
        for words in (["run", "--workers", "1"], ["audit"]):
            ran = it.run(*words, "-", text=b"load clock.264\n" + line + b"\n")
            it.expect(f"{words} of a script with the line {line!r}", ran, 1, b"", b"script fault at line 2\n")
    for script, answer in ((b"", b""), (b"#\n\n", b""), (b"  unit   7  ", b"unit 7 none\n"),
                           (b"unit 9999999999\n", b"unit 9999999999 none\n"),
                           (b"delete 7\n", b"refused 16 NoSuchUnit\n"),
                           (b"take\nsettle\nland 1\ngive 2\nshow 3\n",
                            b"job none\nsettled\nland 1 none\ngive 2 none\nshow 3 none\n"),
                           (b"take 4\nsettle 4\ndrop 4\nclear\n", b"job none\nsettled\ndrop 4 none\ncleared\n"),
                           (b"mark\naltered 1\nload clock.264\naltered 1\nmark\naltered 12\n",
                            b"marked\naltered 1 none\nloaded 12\naltered 1 yes\nmarked\naltered 12 no\n"),
                           (b"insert first\n", b"refused 1 Split\n"), (b"load text\n", b"refused 1 Split\n"),
                           (b"insert after 1 00\n", b"refused 1 Split\n"),
                           (b"insert first " + (SETS + IDR).hex().encode() + b"\nunit 1", b"edit 1 id 1\n" + UNIT)):
        it.expect(f"the script {script!r}", it.run("run", "-", text=script), 0, answer)
    planned = it.run("plan", "--json", "clock.264").output
    asked = b"".join(b"json %d\n" % number for number in range(1, 13))
    it.expect("the JSON of each unit", it.run("run", "-", text=b"load clock.264\n" + asked + b"json 13\n"), 0,
              b"loaded 12\n" + planned + b'{"unit":13,"none":true}\n')
    ran = it.run("run", "-", "--cache", "1", "--workers", "0", text=b"unit 7\n")
    it.expect("run with a cache and no workers", ran, 0, b"unit 7 none\n")


def check_outputs(it):
    """An output that can't be written: status 1, and no word of that; why a file is refused is told all the same."""
    for words in (["plan", "clock.264"], ["run", "script"], ["run", "--workers", "2", "jobs.script"],
                  ["audit", "jobs.script"], ["plan", "text"], ["draw", "clock.264"], ["--help"], ["--version"]):
        what = " ".join(words)
        told = b"text: a text file, not a byte stream of H.264 (Annex B); see: preview check text\n" if "text" in words else b""
        with open("/dev/full", "wb") as full:
            it.expect(f"{what} to a full disk", it.run(*words, stdout=full), 1, b"", told)
        reader, writer = os.pipe()
        os.close(reader)
        it.expect(f"{what} to a closed pipe", it.run(*words, stdout=writer), 1, b"", told)
        os.close(writer)
        it.expect(f"{what} with a closed output", it.run(*words, preexec_fn=lambda: os.close(1)), 1, b"", told)
    expect_cut(it, "plan", "long.264")
    expect_cut(it, "run", "long.script")
    expect_cut(it, "run", "--workers", "4", "long.seat.script")


def check_terminals(it):
    """On a terminal the same is written as to a pipe, also where colour is asked for: there is none, so that NO_COLOR changes nothing."""
    for words in (["check", "clock.264"], ["check", "text"], ["plan", "clock.264"], ["plan", "text"], ["run", "script"], ["--help"], ["bogus"]):
        piped = it.run(*words)
        for more in ({}, {"NO_COLOR": "1"}, {"TERM": "xterm-256color", "CLICOLOR_FORCE": "1"}):
            it.expect(f"{words} on a terminal with {more}", on_terminal(it, words, more), piped.status, piped.output + piped.errors)


def on_terminal(it, words, more):
    """A run whose outputs are both a terminal that changes no byte, and what was written there."""
    ours, theirs = pty.openpty()
    tty.setraw(theirs)
    child = subprocess.Popen([it.program, *words], cwd=it.folder, stdin=subprocess.DEVNULL, stdout=theirs, stderr=theirs,
                             env={**os.environ, **more})
    os.close(theirs)
    written = b""
    # (reading fails once the program has closed its side)
    with contextlib.suppress(OSError):
        while part := os.read(ours, STEP):
            written += part
    os.close(ours)
    return Ran(child.wait(SECONDS), written, b"")


def expect_cut(it, *words):
    """Reads the front of a long output, and closes the pipe."""
    child = subprocess.Popen([it.program, *words], cwd=it.folder, stdin=subprocess.DEVNULL,
                             stdout=subprocess.PIPE, stderr=subprocess.PIPE)
    front = child.stdout.read(1)
    child.stdout.close()
    try:
        _, errors = child.communicate(timeout=SECONDS)
        ran = Ran(child.returncode, front, errors)
    except subprocess.TimeoutExpired:
        child.kill()
        ran = Ran(None, front, b"")
    it.expect(f"{' '.join(words)} to a pipe that is closed midway", ran, 1, anything)


def limited(most):
    """What gives a child an address space of so many bytes."""
    return lambda: resource.setrlimit(resource.RLIMIT_AS, (most, most))


def is_front(whole):
    """Whether a text is a front of the whole, and not all of it."""
    return lambda text: whole.startswith(text) and text != whole


def check_memory(it):
    """Address spaces from the least that the program begins in: with more of it there are threads, which take much."""
    sizes = [*range(STEP, 64 * STEP, STEP), *range(64 * STEP, 2048 * STEP, 32 * STEP)]
    least = next(most for most in sizes if it.run("--help", preexec_fn=limited(most)).status == 0)
    whole, unit = it.run("plan", "long.264").output, it.run("run", "memory.script").output.partition(b"\n")[2]
    answers = [loaded + answer for loaded in (LOADED, NO_ROOM) for answer in (unit, b"unit 1 none\n")]
    for most in (size for size in sizes if size >= least):
        plan = it.run("plan", "long.264", preexec_fn=limited(most))
        if plan.status == 0:
            it.expect(f"plan long.264 in {most} bytes", plan, 0, whole)
        else:
            it.expect(f"plan long.264 in {most} bytes", plan, 1, is_front(whole), NO_MEMORY)
        run = it.run("run", "memory.script", preexec_fn=limited(most))
        if run.status == 0:
            it.expect(f"run memory.script in {most} bytes", run, 0, one_of(answers))
        else:
            it.expect(f"run memory.script in {most} bytes", run, 1, one_of([b"", LOADED, NO_ROOM]), NO_MEMORY)
        check_jobs_in(it, most)
        check_workers_in(it, most)
    it.expect("plan long.264 in enough", plan, 0, whole)
    it.expect("run memory.script in enough", run, 0, LOADED + unit)


def check_jobs_in(it, most):
    """A script with pictures in an address space of so many bytes."""
    ends = [LOADED + SETTLED + b"show 1 ready\n"]
    ends += [NO_ROOM + SETTLED + shown for shown in (b"show 1 ready\n", b"show 1 none\n")]
    ran = it.run("run", "jobs.script", preexec_fn=limited(most))
    if ran.status == 0:
        it.expect(f"run jobs.script in {most} bytes", ran, 0, one_of(ends))
    else:
        fronts = [b"", LOADED, NO_ROOM, LOADED + SETTLED, NO_ROOM + SETTLED]
        it.expect(f"run jobs.script in {most} bytes", ran, 1, one_of(fronts), NO_MEMORY)


def check_workers_in(it, most):
    """The same beside workers, and its audit. A thread that can't be started ends the run before its first line."""
    ends = [LOADED + SETTLED + b"show 1 ready\n"]
    ends += [NO_ROOM + SETTLED + shown for shown in (b"show 1 ready\n", b"show 1 none\n")]
    ran = it.run("run", "--workers", "2", "jobs.script", preexec_fn=limited(most))
    if ran.status == 0:
        it.expect(f"run jobs.script beside workers in {most} bytes", ran, 0, one_of(ends))
    else:
        fronts = [b"", LOADED, NO_ROOM, LOADED + SETTLED, NO_ROOM + SETTLED]
        it.expect(f"run jobs.script beside workers in {most} bytes", ran, 1, one_of(fronts), NO_MEMORY)
    ran = it.run("audit", "jobs.script", preexec_fn=limited(most))
    if ran.status == 0:
        it.expect(f"audit jobs.script in {most} bytes", ran, 0, re.compile(rb"agreed \d+ edits 1 shows\n").fullmatch)
    else:
        it.expect(f"audit jobs.script in {most} bytes", ran, 1, b"", NO_MEMORY)


def one_of(texts):
    """Whether a text is one of these."""
    return set(texts).__contains__


def main(doc):
    parser = parser_of(doc)
    parser.add_argument("program", metavar="PROGRAM", nargs="?")
    chosen = parser.parse_args().program or program()
    with tempfile.TemporaryDirectory(prefix="check-program-") as room:
        os.chmod(room, 0o755)
        folder = pathlib.Path(room, "here")
        (folder / "folder").mkdir(parents=True)
        it = Checker(shutil.copy(chosen, room), folder)
        zoom = (SAMPLES / "zoom.264").read_bytes()
        for name, text in (("clock.264", CLOCK), ("-", SETS + IDR), ("text", b"stream"), ("zoom.264", zoom),
                           ("long.264", 40 * zoom), ("script", b"load -\nunit 1\n"),
                           ("long.script", b"load clock.264\n" + 10000 * b"unit 1\n"),
                           ("long.seat.script", b"load clock.264\n" + 100000 * b"show 1\n"),
                           ("memory.script", b"load zoom.264\nunit 1\n"),
                           ("jobs.script", b"load zoom.264\nsettle\nshow 1\n")):
            it.write(name, text)
        for check in (check_command_line, check_completions, check_files, check_unread, check_permission, check_scripts, check_reasons,
                      check_outputs, check_terminals, check_memory):
            check(it)
    print(f"{it.runs} runs, {it.failures} failures")
    return 1 if it.failures else 0
