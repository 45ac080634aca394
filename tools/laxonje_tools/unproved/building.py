"""A program and an archive for hosts in C, built of sources that nothing was proved of."""
import contextlib
import glob
import os
import pathlib
import re
import shutil
import subprocess

from laxonje_tools import kit
from laxonje_tools.unproved import exports
from laxonje_tools.unproved.bitcode import bitcode_of
from laxonje_tools.unproved.hints import hints_of
from laxonje_tools.unproved.plain import plain

TARGET = "x86_64-unknown-linux-gnu"
# The line of `xdpbox version` in the crate xdp_commands.
VERSION = re.compile(r'(const VERSION: &str = "xdpbox [0-9.]+)(\\n";)')
# The words with which the kit's `rattle build` has its clang compile a module, but for the level.
WORDS = [
    *(f"--target={TARGET}", "-march=x86-64", "-ffunction-sections", "-fdata-sections", "--no-default-config", "-fintegrated-cc1"),
    *(word for flag in ("-no-trap-after-noreturn", "-trap-unreachable", "-no-x86-call-frame-opt") for word in ("-mllvm", flag)),
    *(word for flag in ("-disable-machine-licm", "-disable-postra-machine-licm") for word in ("-mllvm", flag)),
    *("-mllvm", "-sink-common-insts=false", "-w"),
]
# The levels of what is handed out, and of tests, which are compiled for longer than they run.
HANDED_OUT, TESTED = "-O3", "-O0"


class Fault(Exception):
    """What a command said that failed."""


def run(*words, **how):
    done = subprocess.run(words, stdin=subprocess.DEVNULL, capture_output=True, text=True, errors="replace", check=False, **how)
    if done.returncode:
        raise Fault(f"{os.path.basename(words[0])}: {(done.stderr or done.stdout).strip()}")
    return done.stdout


def marked_version(text, commit):
    """The source of `xdpbox version` with the line of a program that nothing was proved of."""
    marked, count = VERSION.subn(lambda it: f"{it[1]}, UNPROVED, {commit}{it[2]}", text)
    if count != 1:
        raise Fault("crates/xdp_commands/src/help.rt has no line of a version")
    return marked


class Building:
    """A crate of the checkout that is built in a room of its own. `say` is told of each step."""

    def __init__(self, root, name, room, say, has_tests):
        self.root, self.name, self.room, self.say, self.has_tests = root, name, room, say, has_tests
        self.rtlib = kit.kit()
        # (its first call sets a signal's handler, which only the main thread may)
        self.rtlib.guarded()
        with contextlib.chdir(root):
            crates = self.rtlib.crates_below(os.path.join(root, "crates"))
        self.crate = next(it for it in crates if it.name == name)
        self.clang = f"{self.rtlib.KIT}/toolchain/bin/clang"

    def lines(self, folder, folders=None, root=("src/main.rt",)):
        """The module's text of the crate in a folder, with `folders` in place of crates' own below it."""
        self.say(f"reads {self.name}, the {len(self.crate.below())} crates below it, and the kit's")
        bitcode = bitcode_of(self.rtlib, self.crate, folder, self.room, folders or {}, root)
        self.say("takes out what stops a try, and puts the inline hints in")
        text = os.path.join(self.room, "tried.ll")
        run(self.clang, "-S", "-emit-llvm", "-x", "ir", bitcode, "-o", text, "-O0", "-Xclang", "-disable-llvm-passes", "-w")
        hints = hints_of([*glob.glob(f"{self.root}/crates/*"), *glob.glob(f"{self.rtlib.KIT}/rattle/*")])
        with open(text, encoding="utf-8", errors="surrogateescape") as file:
            yield from plain(file, hints, self.has_tests)

    def compile(self, lines, place, level=HANDED_OUT):
        """The object that these lines make."""
        text, made = os.path.join(self.room, "plain.ll"), os.path.join(self.room, "module.o")
        with open(text, "w", encoding="utf-8", errors="surrogateescape") as file:
            file.writelines(lines)
        self.say("compiles it")
        run(self.clang, *WORDS, level, place, "-c", "-x", "ir", text, "-o", made)
        return made

    def marked(self, commit):
        """A copy of xdp_commands whose `version` says what the program is, by the folder that it stands for."""
        own = os.path.join(self.root, "crates/xdp_commands")
        made = os.path.join(self.room, "xdp_commands")
        shutil.copytree(own, made, ignore=shutil.ignore_patterns("out"))
        source = pathlib.Path(made, "src/help.rt")
        source.write_text(marked_version(source.read_text(encoding="utf-8"), commit), encoding="utf-8")
        return {own: made}

    def program(self, to, commit):
        """Builds a program of this commit."""
        module = self.compile(self.lines(self.crate.folder, self.marked(commit)), "-fPIE")
        run("objcopy", "--set-section-alignment", ".text.*=64", module)
        self.link(module, to)

    def tests(self, to):
        """Builds the program of a library's own tests, as `rt test` would, or a program; what a proof would have shown is tested at each
        step."""
        root = ("src/main.rt",) if self.crate.is_program else ("--test", "src/lib.rt")
        self.link(self.compile(self.lines(self.crate.folder, root=root), "-fPIE", TESTED), to)

    def link(self, module, to):
        """Links a program."""
        self.say("links it")
        libraries = [f"{self.rtlib.KIT}/c/libos_c.a", f"{self.rtlib.KIT}/c/liblibc_c.a"]
        words = ["--target", TARGET, "--toolchain", f"{self.rtlib.KIT}/toolchain", "-o", to]
        run(f"{self.rtlib.KIT}/bin/rattle-link", *words, module, *libraries)

    def copied(self):
        """A copy of a static library that is a program, and the names of its exports."""
        folder = os.path.join(self.room, self.name)
        shutil.copytree(self.crate.folder, folder, ignore=shutil.ignore_patterns("out"))
        source, found, modules = pathlib.Path(folder, "src"), [], []
        (source / "lib.rt").rename(source / "main.rt")
        for path in sorted(source.glob("*.rt")):
            text = path.read_text(encoding="utf-8")
            if calls := list(exports.exports_of(text)):
                path.write_text(text + exports.reaching(calls), encoding="utf-8")
                modules.append("" if path.stem == "main" else path.stem)
                found += [call.name for call in calls]
        root = source / "main.rt"
        root.write_text(root.read_text(encoding="utf-8") + exports.main_of(modules), encoding="utf-8")
        return folder, found

    def objects(self, header, include):
        """The objects of a static library with the calls of a header."""
        folder, names = self.copied()
        structs = exports.answered(header)
        module = self.compile(exports.exported(self.lines(folder), names, structs), "-fPIC")
        source, between = os.path.join(self.room, "shim.c"), os.path.join(self.room, "shim.o")
        pathlib.Path(source).write_text(exports.shim(header, names), encoding="utf-8")
        run(os.environ.get("CC", "cc"), "-O2", "-fPIC", "-I", include, "-c", source, "-o", between)
        has = set(re.findall(r" T (\w+)", run("nm", module, between)))
        if missing := [name for name in names if name not in has]:
            raise Fault(f"the calls {', '.join(missing)} weren't built")
        return [module, between]
