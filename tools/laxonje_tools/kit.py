"""What the tools take of the kit's own command: its words for a check, and what is built over what is proved.

`tools/laxonje_tools/kit.py ROOT NAME` proves the static library or the program NAME of the checkout ROOT over its libraries as `rt ci` left them there,
which `rt lib` would prove again, and makes crates/NAME/out/libNAME.a, or the program's object, crates/NAME/out/NAME.o."""
import importlib.machinery
import importlib.util
import os
import shutil
import subprocess
import sys


def kit():
    """What the kit's own command knows of crates, as a module: the words with which one is checked."""
    return command().rtlib


def command():
    """The kit's own command as a module."""
    path = os.path.realpath(shutil.which(os.environ.get("RT", "rt")))
    loader = importlib.machinery.SourceFileLoader("rt_of_kit", path)
    module = importlib.util.module_from_spec(importlib.util.spec_from_loader(loader.name, loader))
    sys.modules[loader.name] = module
    loader.exec_module(module)
    return module


def crates_over_kept(root, names):
    """The crates of a copy of the repository by their names. What stands below those that are named has the libraries that `rt ci` kept on
    this machine of the same files; one of which it kept none is proved now."""
    rt = command()
    rt.rtlib.guarded()
    rt.Crate.allowed, rt.Crate.cuts_libraries = rt.handles_of(root), True
    crates = rt.crates_of(root)
    below = {name for crate in crates if crate.name in names for name in (it.name for it in crate.below())}
    store = rt.Kept(crates)
    for crate in (it for it in crates if it.name in below):
        os.makedirs(os.path.join(crate.folder, "out"), exist_ok=True)
        if not store.give(crate, False, store.key(crate)):
            print(f"{crate.name}: nothing is kept of it, so it is proved first", flush=True)
            if crate.ci(["--jobs", "1"], False):
                raise SystemExit(f"{crate.name} isn't proved")
            store.keep(crate, False, store.key(crate))
        store.is_built(crate)
    return {it.name: it for it in crates}


def build(root, name):
    """Proves a static library or a program, and builds that or the object of this; the status of that."""
    rtlib = kit()
    rtlib.guarded()
    os.chdir(root)
    crate = {it.name: it for it in rtlib.crates_below(os.getcwd())}[name]
    os.makedirs(os.path.join(crate.folder, "out"), exist_ok=True)
    words = [rtlib.RATTLE, "build", *crate.words(["--jobs", "1"], keeps=False)]
    words += ["--toolchain", f"{rtlib.KIT}/toolchain", "--backend", "llvm", "-o", f"out/lib{name}.a" if crate.is_static else f"out/{name}.o"]
    return subprocess.run([*rtlib.guarded(), *words], cwd=crate.folder, stdin=subprocess.DEVNULL, check=False).returncode


if __name__ == "__main__":
    sys.exit(build(sys.argv[1], sys.argv[2]))
