"""Proves crates as the gate does, over a store of what passed."""
import contextlib
import copy
import fcntl
import functools
import hashlib
import importlib.machinery
import importlib.util
import os
import pathlib
import shutil
import sys
import threading
import time

from cupdaisy import workspace
from cupdaisy.command_line import parser_of

KINDS = ("proof", "tests", "run", "edits")
DRAIN = workspace.TOP.with_name(workspace.TOP.name + ".drain")


def toolchain():
    """The toolchain's own `rt`, as a module."""
    path = workspace.kit() / "bin" / "rt"
    sys.path.insert(0, str(path.parent))
    loader = importlib.machinery.SourceFileLoader("rt", str(path))
    module = importlib.util.module_from_spec(importlib.util.spec_from_loader("rt", loader))
    loader.exec_module(module)
    return module


def crates_of(rt):
    """The crates of the repository, lowest first, as `rt ci` has them. What rt computes anew at each call is computed once."""
    below = functools.cache(lambda crate: tuple(dict.fromkeys(it for dep in crate.deps for it in (*below(dep), dep))))
    rt.rtlib.Crate.below = lambda crate: list(below(crate))
    rt.Crate.stamp = functools.cache(rt.Crate.stamp)
    rt.rtlib.Crate, rt.Crate.cuts_libraries = rt.Crate, True
    rt.rtlib.guarded()
    rt.Crate.allowed = rt.handles_of(str(workspace.TOP))
    crates = rt.rtlib.crates_below(str(workspace.TOP))
    for crate in crates:
        rt.read_files(crate)
    return sorted(crates, key=lambda crate: len(crate.below()))


def sum_of(*parts):
    return hashlib.sha256(repr(parts).encode()).hexdigest()


def sum_of_folder(folder):
    """A sum of the files of a folder, without the stamp that rt puts there."""
    files = sorted(file for file in folder.rglob("*") if file.is_file() and file.name != "stamp")
    return sum_of(*((str(file.relative_to(folder)), hashlib.sha256(file.read_bytes()).digest()) for file in files))


class Run:
    """A run over the crates of the repository."""

    def __init__(self, rt, kept, lanes):
        self.rt, self.kept, self.lanes = rt, kept, lanes
        self.crates = crates_of(rt)
        self.sums = {crate.name: self.texts_of(crate) for crate in self.crates}
        self.libraries, self.proved, self.running, self.failed = {}, {}, set(), []
        self.changed = threading.Condition()

    def texts_of(self, crate):
        """A sum of a crate's line and of its texts."""
        texts = [(file.replace(crate.folder, ""), pathlib.Path(file).read_bytes()) for file in self.rt.rtlib.files_of(crate.folder)]
        return sum_of(crate.name, sorted(crate.said.items(), key=str), texts)

    def entry_of(self, crate, kind):
        """The folder in which it is kept that this passed."""
        edits = [pathlib.Path(file).read_bytes() for file in self.rt.edits_of(crate)[0]] if kind == "edits" else []
        below = [(dep.name, self.libraries.get(dep.name)) for dep in crate.below()]
        return self.kept / sum_of(self.sums[crate.name], below, kind, edits)[:24]

    @contextlib.contextmanager
    def processor(self):
        """One of the machine's processors, among all runs over this store."""
        while True:
            for number in range(os.cpu_count()):
                with open(self.kept / f"processor-{number}", "w") as lock:
                    try:
                        fcntl.flock(lock, fcntl.LOCK_EX | fcntl.LOCK_NB)
                    except OSError:
                        continue
                    yield
                    return
            time.sleep(0.3)

    def checked(self, crate, kind):
        """Whether the toolchain passes a crate, or its tests; what it says is left in out/."""
        crate, out = copy.copy(crate), pathlib.Path(crate.folder, "out")
        out.mkdir(exist_ok=True)
        # A lone proof takes the processors that no other one waits for.
        jobs = max(1, min(3, self.lanes - len(self.running) + 1))
        with open(out / f"prove-{kind}", "w+", errors="replace") as crate.out:
            try:
                return crate.ci(["--jobs", str(jobs)], kind == "tests") == 0
            except SystemExit as refused:
                print(refused, file=crate.out)
                return False

    def made(self, crate):
        """The files that a proof or a test leaves in out/, but for a library."""
        return [file for file in pathlib.Path(crate.folder, "out").glob(f"{crate.name}*") if file.is_file()]

    def take(self, crate, entry):
        """Takes from the store what was made of a crate."""
        out = pathlib.Path(crate.folder, "out")
        out.mkdir(exist_ok=True)
        for file in entry.glob(f"{crate.name}*"):
            shutil.copy2(file, out)
        if (entry / "rlib").is_dir():
            shutil.rmtree(out / "rlib", ignore_errors=True)
            shutil.copytree(entry / "rlib", out / "rlib", copy_function=os.link)
            (out / "rlib" / "stamp").write_text(crate.stamp())

    def put(self, crate, entry, kind):
        """Keeps what was made of a crate, as a whole or not at all."""
        draft = entry.with_name(f"{entry.name}.{os.getpid()}")
        shutil.rmtree(draft, ignore_errors=True)
        draft.mkdir(parents=True)
        library = pathlib.Path(crate.folder, "out", "rlib")
        if kind == "proof" and crate.makes_rlib():
            shutil.copytree(library, draft / "rlib", ignore=shutil.ignore_patterns("stamp"), copy_function=os.link)
        elif kind != "edits":
            for file in self.made(crate):
                shutil.copy2(file, draft)
        passed = sum_of_folder(draft / "rlib") if (draft / "rlib").is_dir() else kind
        (draft / "passed").write_text(passed)
        shutil.rmtree(entry, ignore_errors=True)
        draft.rename(entry)

    def tried(self, crate):
        """Whether each must-fail edit of a crate is refused."""
        told = self.rt.must_fail_all(copy.copy(crate), self.rt.edits_of(crate)[0], ["--jobs", "1"])
        for refused, line in told:
            if not refused:
                self.say(line)
        return all(refused for refused, _ in told)

    def passes(self, crate, kind):
        """Whether this passes, now or before."""
        if kind == "run":
            return all(self.rt.run(crate, False, ending) for ending in self.rt.BACKENDS.values()
                       if os.path.isfile(f"{crate.folder}/out/{crate.name}{ending}"))
        entry, began = self.entry_of(crate, kind), time.monotonic()
        if not (entry / "passed").is_file():
            with self.processor():
                passed = self.tried(crate) if kind == "edits" else self.checked(crate, kind)
            self.say(f"{crate.name} {kind}: {'passed' if passed else 'FAILED'} ({time.monotonic() - began:.0f} s)")
            if not passed:
                return False
            self.put(crate, entry, kind)
        if kind != "edits":
            self.take(crate, entry)
        if kind == "proof":
            self.libraries[crate.name] = (entry / "passed").read_text()
        return kind != "tests" or self.rt.run(crate, True)

    def say(self, line):
        print(f"{time.strftime('%H:%M:%S')} {line}", flush=True)

    def tasks(self, names, what):
        """What is to be done, the longest chain first and proofs before all else."""
        wanted = {dep.name for crate in self.crates if crate.name in names for dep in (*crate.below(), crate)}
        used = [crate for crate in self.crates if crate.name in wanted]
        behind = {crate.name: crate.count(rb"\n") for crate in used}
        lines = dict(behind)
        for crate in reversed(used):
            for dep in crate.deps:
                behind[dep.name] = max(behind[dep.name], lines[dep.name] + behind[crate.name])
        has = {"proof": lambda crate: True, "tests": lambda crate: crate.has_tests(), "run": lambda crate: crate.is_program,
               "edits": lambda crate: bool(self.rt.edits_of(crate)[0])}
        found = [(crate, kind) for crate in used for kind in KINDS
                 if has[kind](crate) and (kind == "proof" or kind in what and crate.name in names)]
        return sorted(found, key=lambda it: (it[1] == "edits", it[1] != "proof", -behind[it[0].name]))

    def is_ready(self, crate, kind):
        return all(dep.name in self.proved for dep in crate.below()) and (kind == "proof" or crate.name in self.proved)

    def is_barred(self, crate, kind):
        names = [dep.name for dep in crate.below()] + [crate.name] * (kind != "proof")
        return not all(self.proved[name] for name in names)

    def is_kept(self, crate, kind):
        return kind == "proof" and not self.is_barred(crate, kind) and (self.entry_of(crate, kind) / "passed").is_file()

    def next_of(self, left):
        """Takes the next task out of those that are left: None where none is ready yet."""
        ready = [task for task in left if self.is_ready(*task)]
        task = next((task for task in ready if self.is_kept(*task)), ready[0] if ready else None)
        if task:
            left.remove(task)
        return task

    def work(self, left):
        """Does one task after the other, until none is left."""
        while True:
            with self.changed:
                while DRAIN.exists() or not (task := self.next_of(left)):
                    if not left or not self.running or DRAIN.exists():
                        return
                    self.changed.wait(5)
                self.running.add(task)
            crate, kind = task
            passed = not self.is_barred(crate, kind) and self.passes(crate, kind)
            with self.changed:
                self.running.discard(task)
                if kind == "proof":
                    self.proved[crate.name] = passed
                if not passed:
                    self.failed.append(f"{crate.name} {kind}")
                self.changed.notify_all()

    def all(self, names, what):
        """Does all that is asked for, and answers whether it passed."""
        left = self.tasks(names, what)
        lanes = [threading.Thread(target=self.work, args=(left,)) for _ in range(self.lanes)]
        for lane in lanes:
            lane.start()
        for lane in lanes:
            lane.join()
        self.say(f"failed, or left out for that: {', '.join(self.failed)}" if self.failed else "all passed")
        return not self.failed and not left


def main(doc):
    parser = parser_of(doc)
    parser.add_argument("names", metavar="NAME", nargs="*")
    parser.add_argument("--what", default="proof", metavar="KINDS")
    parser.add_argument("--lanes", type=int, default=4, metavar="N")
    parser.add_argument("--kept", type=pathlib.Path, default=pathlib.Path.home() / ".cache" / "cupdaisy-proofs", metavar="FOLDER")
    given = parser.parse_args()
    unknown = set(given.names) - set(workspace.crates())
    what = set(given.what.split(","))
    if unknown or what - set(KINDS):
        parser.error(f"there is no {', '.join(sorted(unknown | what - set(KINDS)))}")
    given.kept.mkdir(parents=True, exist_ok=True)
    os.chdir(workspace.TOP)
    run = Run(toolchain(), given.kept, given.lanes)
    return 0 if run.all(set(given.names) or set(workspace.crates()), what) else 1
