"""What the tests of the tools share."""
import importlib.machinery
import importlib.util
import pathlib
import subprocess

TOOLS = pathlib.Path(__file__).resolve().parents[2]
ROOT = TOOLS.parent


def script(name):
    """A script of the tools as a module, by its path there."""
    loader = importlib.machinery.SourceFileLoader(pathlib.Path(name).name.replace("-", "_"), str(TOOLS / name))
    module = importlib.util.module_from_spec(importlib.util.spec_from_loader(loader.name, loader))
    loader.exec_module(module)
    return module


def said(words, **how):
    """The status of a command, what it printed, and what it said on standard error."""
    how = {"capture_output": True, "text": True, "check": False, "stdin": subprocess.DEVNULL, **how}
    done = subprocess.run([str(word) for word in words], **how)
    return done.returncode, done.stdout, done.stderr


# A command rt of a kit: it proves the crates of this repository as a file beside it tells it to.
RT = """#!/bin/sh
case $1 in
    version) echo "${KIT:-rattle-kit-13z} logic 0" ;;
    ci) mkdir -p crates/xdpbox/out && echo program > crates/xdpbox/out/xdpbox ;;
    *) echo "rt $*" ;;
esac
[ "$1" != version ] || exit 0
cat "$(dirname "$0")/ci"
exit "$(cat "$(dirname "$0")/status")"
"""
