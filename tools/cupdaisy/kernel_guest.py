"""A guest of qemu with Debian's kernel and its virtual stateless decoder, visl: what is downloaded and built for it, and how it boots."""
import contextlib
import gzip
import lzma
import os
import pathlib
import platform
import re
import shutil
import stat
import subprocess
import time

from cupdaisy.command_line import are_installed
from cupdaisy.processes import printed_with_errors
from cupdaisy.workspace import TOP

RELEASE = "6.12"
SUITES = ("bookworm", "bookworm-backports")
KEYRING = pathlib.Path("/usr/share/keyrings/debian-archive-keyring.gpg")
MIRROR = re.compile(r"^(?:URIs: *|deb (?:\[[^]]*\] )?)(https?://\S*/debian)/?(?:\s|$)", re.MULTILINE)
QEMU = "qemu-system-x86_64"
FILES = TOP / "tests" / "kernel"
# The modules that the guest loads, in order; Debian's kernel has all but the two that are built here.
MODULES = ("mc videodev videobuf2-common videobuf2-v4l2 videobuf2-memops videobuf2-vmalloc v4l2-tpg v4l2-mem2mem visl"
           " netfs 9pnet 9pnet_virtio 9p").split()
BUILT = ("v4l2-mem2mem", "visl")
MAKEFILE = """\
# the trace headers name themselves from include/trace on
ccflags-y += -DCONFIG_VISL_DEBUGFS=1 -I$(src)/include/trace
obj-m += v4l2-mem2mem.o visl.o
visl-y := visl-core.o visl-video.o visl-dec.o visl-trace-points.o visl-debugfs.o
"""
# What visl is told: to trace each request, and to say where it finds each reference.
PARAMETERS = " ".join(f"visl.{name}" for name in (
    "tpg_verbose=1", "bitstream_trace_frame_start=0", "bitstream_trace_nframes=1000000", "visl_debug=1", "visl_dprintk_frame_start=0",
    "visl_dprintk_nframes=1000000"))
# The guest's clock goes by its instructions: on a loaded machine its timers would come late, which a kernel takes for broken ones,
# and most of its time would go into them. What makes a kernel safe from others makes software emulation slow.
CLOCK = "shift=3,sleep=off"
KERNEL_PARAMETERS = ("console=ttyS0 quiet loglevel=1 log_buf_len=16M panic=-1 no_timer_check"
                     " mitigations=off init_on_alloc=0 nokaslr audit=0")
# One that has x86-64-v2, which the library needs.
CPU = "max"
MEGABYTES, SECONDS, BOOTS = 512, 7200, 3


class CannotBeHad(Exception):
    """A program, a package or a module isn't there and can't be had, so nothing can be checked."""


class DidNotEnd(Exception):
    """A guest didn't boot, or didn't come to its end in time."""


def said(command, what, **how):
    """What a command says; it has to end with status 0."""
    status, text = printed_with_errors([str(word) for word in command], **how)
    if status != 0:
        raise CannotBeHad(f"{what}: {' | '.join(text.strip().splitlines()[-4:])[-600:]}")
    return text


class Guest:
    """What is below the folder, where it is kept from one run to the next."""

    def __init__(self, folder, jobs):
        self.folder, self.jobs = folder.resolve(), jobs
        self.debs, self.programs, self.kernel = (self.folder / name for name in ("debs", "programs", "kernel"))
        self.sources, self.built = self.folder / "sources", self.folder / "built"
        self.image = None

    def prepare(self):
        """Downloads and builds what isn't there yet, and makes the image that the guest boots."""
        if platform.machine() != "x86_64":
            raise CannotBeHad(f"the guest is x86-64, and this machine is {platform.machine()}")
        missing = [program for program in ("gcc", "make", "xz", "dpkg-deb", "apt-get") if not are_installed(program)]
        if missing:
            raise CannotBeHad(f"{', '.join(missing)} isn't installed")
        begun = time.monotonic()
        if not (self.folder / "version").exists():
            self.download()
        downloaded = time.monotonic()
        if not all((self.built / f"{name}.ko").exists() for name in BUILT):
            self.build_modules()
        self.build_image()
        said([*self.qemu(), "--version"], QEMU, env=self.environment())
        print(f"kernel {self.version()}: downloaded in {downloaded - begun:.0f} s, built in {time.monotonic() - downloaded:.0f} s, "
              f"{self.megabytes()} MB in {self.shown()}", flush=True)

    def shown(self):
        return self.folder.relative_to(TOP) if self.folder.is_relative_to(TOP) else self.folder

    def megabytes(self):
        return sum(path.lstat().st_size for path in self.folder.rglob("*") if path.is_file() and not path.is_symlink()) // 1000000

    def version(self):
        return (self.folder / "version").read_text().strip()

    def apt(self, program, *words, at=None):
        """apt with its own sources, lists and archives, which takes no lock of the system's."""
        own = self.folder / "apt"
        options = {"Dir::Etc::sourcelist": own / "own.sources", "Dir::Etc::sourceparts": "-", "Dir::State::lists": own / "lists",
                   "Dir::Cache": own, "Dir::Cache::archives": self.debs, "APT::Sandbox::User": "", "Debug::NoLocking": "true",
                   "APT::Get::List-Cleanup": "false", "APT::Keep-Downloaded-Packages": "true"}
        flags = [word for name, value in options.items() for word in ("-o", f"{name}={value}")]
        return said([f"apt-{program}", "-qq", *flags, *words], f"apt-{program} {words[0]}", cwd=at)

    def download(self):
        """Downloads the packages and unpacks of them what is needed."""
        for name in ("apt/lists/partial", "debs/partial"):
            (self.folder / name).mkdir(parents=True, exist_ok=True)
        if not KEYRING.exists():
            raise CannotBeHad(f"{KEYRING} isn't there (debian-archive-keyring)")
        (self.folder / "apt/own.sources").write_text(
            f"Types: deb\nURIs: {mirror()}\nSuites: {' '.join(SUITES)}\nComponents: main\nSigned-By: {KEYRING}\n")
        self.apt("get", "update")
        found = re.search(rf"^Depends: linux-image-({re.escape(RELEASE)}\S*)-amd64 ", self.apt("cache", "show", "linux-image-amd64"),
                          re.MULTILINE)
        if not found:
            raise CannotBeHad(f"Debian's mirror has no kernel {RELEASE} in {SUITES[-1]}")
        version, (backports,) = found[1], SUITES[1:]
        # with what they need beside what is installed
        self.apt("get", "install", "--download-only", "--yes", "--no-install-recommends", f"busybox-static/{SUITES[0]}",
                 *([] if are_installed(QEMU) else [f"qemu-system-x86/{SUITES[0]}"]))
        self.apt("get", "download", f"linux-source-{RELEASE}/{backports}",
                 *(f"{name}/{backports}" for name in (f"linux-image-{version}-amd64", f"linux-headers-{version}-amd64",
                                                      f"linux-headers-{version}-common", f"linux-kbuild-{version}")), at=self.debs)
        self.unpack()
        (self.folder / "version").write_text(version + "\n")

    def unpack(self):
        """Unpacks what was downloaded, and takes the packages of the kernel away, which are large."""
        for path in sorted(self.debs.glob("*.deb")):
            if path.name.startswith(("linux-headers-", "linux-kbuild-")):
                said(["dpkg-deb", "-x", path, self.kernel], path.name)
            elif path.name.startswith("linux-image-"):
                tar_of(path, self.kernel, "./boot/vmlinuz-*", "./lib/modules/*/kernel/drivers/media/*", "./lib/modules/*/kernel/net/9p/*",
                       "./lib/modules/*/kernel/fs/9p/*", "./lib/modules/*/kernel/fs/netfs/*")
            elif path.name.startswith("linux-source-"):
                tar_of(path, self.folder, f"./usr/src/linux-source-{RELEASE}.tar.xz")
                packed, top = self.folder / f"usr/src/linux-source-{RELEASE}.tar.xz", f"linux-source-{RELEASE}/drivers/media"
                self.sources.mkdir(exist_ok=True)
                said(["tar", "-C", self.sources, "--strip-components=1", "-xJf", packed, f"{top}/test-drivers/visl",
                      f"{top}/v4l2-core/v4l2-mem2mem.c"], "the kernel's sources")
                shutil.rmtree(self.folder / "usr")
            elif not path.name.startswith("linux-"):
                said(["dpkg-deb", "-x", path, self.programs], path.name)
            if path.name.startswith("linux-"):
                path.unlink()

    def build_modules(self):
        """Builds v4l2-mem2mem and visl as modules of Debian's kernel."""
        headers = self.kernel / "usr/src" / f"linux-headers-{self.version()}-amd64"
        makefile = headers / "Makefile"
        common = headers.parent / f"linux-headers-{self.version()}-common"
        makefile.write_text(re.sub(r"^include .*", f"include {common}/Makefile", makefile.read_text(), flags=re.MULTILINE))
        shutil.rmtree(self.built, ignore_errors=True)
        shutil.copytree(self.sources / "drivers/media/test-drivers/visl", self.built)
        shutil.copy(self.sources / "drivers/media/v4l2-core/v4l2-mem2mem.c", self.built)
        # they are included by their path from the top of the sources
        within = self.built / "drivers/media/test-drivers"
        within.mkdir(parents=True)
        (within / "visl").symlink_to(self.built)
        (self.built / "include/trace").mkdir(parents=True)
        (self.built / "Makefile").write_text(MAKEFILE)
        said(["nice", "-n", "10", "make", "-s", "-C", headers, f"M={self.built}", "CONFIG_DEBUG_INFO_BTF_MODULES=", f"-j{self.jobs}",
              "modules"], "the modules can't be built (they need gcc-12)")

    def build_image(self):
        """The initramfs: init, busybox, the example host with its calls told, and the modules."""
        folder = self.folder / "image"
        shutil.rmtree(folder, ignore_errors=True)
        folder.mkdir()
        warnings = "-Wall -Wextra -Werror -O2".split()
        said(["gcc", "-static", *warnings, FILES / "dump_trace.c", "-o", folder / "dump_trace"], "dump_trace.c")
        said(["gcc", "-static", *warnings, "-std=c99", "-Wl,--wrap=ioctl,--wrap=poll", f"-I{TOP / 'include'}",
              TOP / "examples/v4l2_request.c", "-x", "c", "-std=gnu99", FILES / "told_calls.c", "-x", "none", TOP / "build/libcupdaisy.a",
              "-o", folder / "v4l2_request"], "v4l2_request.c")
        shutil.copy(self.programs / "bin/busybox", folder)
        entries = [("bin", None, 0o40755), ("dev", None, 0o40755), ("modules", None, 0o40755),
                   ("init", (FILES / "init").read_bytes(), 0o100755), ("modules/order", "\n".join(MODULES).encode() + b"\n", 0o100644)]
        entries += [(f"bin/{path.name}", path.read_bytes(), 0o100755) for path in folder.iterdir()]
        entries += [(f"modules/{name}.ko", self.module(name), 0o100644) for name in MODULES]
        self.image = self.folder / "image.gz"
        self.image.write_bytes(gzip.compress(archive(entries), 1))

    def module(self, name):
        if name in BUILT:
            return (self.built / f"{name}.ko").read_bytes()
        found = next((self.kernel / "lib/modules").rglob(f"{name}.ko.xz"), None)
        if found is None:
            raise CannotBeHad(f"Debian's kernel has no module {name}")
        return lzma.decompress(found.read_bytes())

    def has_qemu(self):
        """Whether qemu was downloaded, as it isn't installed."""
        return (self.programs / "usr/bin" / QEMU).exists()

    def environment(self):
        libraries = [str(self.programs / name / "x86_64-linux-gnu") for name in ("usr/lib", "lib")]
        return os.environ | ({"LD_LIBRARY_PATH": ":".join(libraries)} if self.has_qemu() else {})

    def qemu(self):
        """qemu, with where its files are."""
        program, shares = QEMU, pathlib.Path("/usr/share")
        if self.has_qemu():
            program, shares = self.programs / "usr/bin" / QEMU, self.programs / "usr/share"
        return [program, "-L", shares / "qemu", "-L", shares / "seabios"]

    def boot(self, folder):
        """Boots the guest with a folder shared, whose file `jobs` says what it runs."""
        console = folder / "console"
        command = ["timeout", SECONDS, "nice", "-n", "10", *self.qemu(), "-accel", "tcg", "-icount", CLOCK, "-cpu", CPU, "-m", MEGABYTES, "-nographic",
                   "-no-reboot", "-nodefaults", "-net", "none", "-display", "none",
                   "-kernel", next((self.kernel / "boot").glob("vmlinuz-*")), "-initrd", self.image,
                   "-virtfs", f"local,path={folder},mount_tag=work,security_model=none,id=work", "-serial", f"file:{console}",
                   "-append", f"{KERNEL_PARAMETERS} {PARAMETERS}"]
        for _ in range(BOOTS):
            status, text = printed_with_errors(list(map(str, command)), env=self.environment())
            text += console.read_text(errors="replace") if console.exists() else ""
            if "booted " in text:
                break
        if status != 0 or not re.search(r"^ended \S+ s\r?$", text, re.MULTILINE):
            raise DidNotEnd(f"the guest didn't come to its end: status {status}, {text[-400:]!r}")


def mirror():
    """The mirror of Debian from which this machine's packages are."""
    folder = pathlib.Path("/etc/apt")
    for path in (*sorted((folder / "sources.list.d").glob("*")), folder / "sources.list"):
        with contextlib.suppress(OSError):
            found = MIRROR.search(path.read_text())
            if found:
                return found[1]
    return "http://deb.debian.org/debian"


def tar_of(package, folder, *names):
    """Unpacks some files of a package alone."""
    packed = subprocess.Popen(["dpkg-deb", "--fsys-tarfile", package], stdout=subprocess.PIPE)
    said(["tar", "-C", folder, "-x", "--wildcards", *names], package.name, stdin=packed.stdout)
    packed.stdout.close()
    packed.wait()


def archive(entries):
    """An initramfs (cpio, "newc") of files with their modes, and a console."""
    text = bytearray()
    devices = [("dev/console", None, stat.S_IFCHR | 0o600), ("TRAILER!!!", None, 0)]
    for number, (name, content, mode) in enumerate([*entries, *devices], 1):
        content, device = content or b"", (5, 1) if stat.S_ISCHR(mode) else (0, 0)
        fields = (number, mode, 0, 0, 1, 0, len(content), 0, 0, *device, len(name) + 1, 0)
        text += b"070701" + b"".join(b"%08x" % field for field in fields) + name.encode() + b"\0"
        text += bytes(-len(text) % 4) + content
        text += bytes(-len(text) % 4)
    return bytes(text)
