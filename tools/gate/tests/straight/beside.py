"""Parts of tests that run beside each other, and whether those in C can."""
import contextlib
import io
import multiprocessing
import os
import pathlib
import subprocess
import sys
import tempfile

TOOLS = pathlib.Path(__file__).resolve().parents[3]
STARTED = "settings-from-c", "filter-test", "straighten"  # the tools that tests start


def can_compile(clang):
    """Whether clang is there, with the headers of Linux and libbpf."""
    probe = "#include <linux/bpf.h>\n#include <bpf/bpf_helpers.h>\n"
    folder = "-I/usr/include/x86_64-linux-gnu"
    try:
        run = subprocess.run(
            [clang, "-target", "bpf", folder, "-fsyntax-only", "-x", "c", "-"],
            input=probe,
            text=True,
            capture_output=True,
            check=False,
        )
    except OSError:
        return False
    return run.returncode == 0


def results(parts, jobs):
    """Of each part, a function and its words, what it prints, and its tests, as (name, fault): in this order."""
    with tempfile.TemporaryDirectory() as folder:
        keep_compiled(folder)
        with multiprocessing.Pool(jobs) as pool:
            yield from pool.imap(done, parts, chunksize=1)


def done(part):
    """The same of one part."""
    function, words = part
    with contextlib.redirect_stdout(io.StringIO()) as printed:
        rows = list(function(*words))
    return printed.getvalue(), rows


def keep_compiled(folder):
    """Has Python keep in a folder what it compiles of the tools that tests start again and again."""
    os.environ["PYTHONPYCACHEPREFIX"] = folder
    env = {name: value for name, value in os.environ.items() if name != "PYTHONDONTWRITEBYTECODE"}
    for tool in STARTED:
        subprocess.run([sys.executable, TOOLS / tool, "--help"], env=env, stdout=subprocess.DEVNULL, check=True)
