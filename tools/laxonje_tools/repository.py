"""What the tools share that work on a copy of the repository: its crates, and the copy."""
import os
import pathlib
import shutil
import subprocess

ROOT = str(pathlib.Path(__file__).resolve().parents[2])
# The command rt, another one if the environment names it.
RT = os.environ.get("RT", "rt")


def lines_of(text):
    """Each crate in the text of crates.txt with all libraries that it uses, in that order."""
    lines = [line.split(":") for line in text.split("\n") if ":" in line and not line.startswith("#")]
    return {head.split()[0]: names.split() for head, names in lines}


def crates():
    """Each crate with the libraries of crates.txt that it uses, in that order."""
    uses = lines_of(pathlib.Path(ROOT, "crates.txt").read_text())
    return {name: [it for it in used if it in uses] for name, used in uses.items()}


def crates_of_tests(root=ROOT):
    """The names of the crates of tests: those below the line `# tests` of crates.txt, up to the next such line."""
    text = pathlib.Path(root, "crates.txt").read_text()
    return list(lines_of(text.partition("\n# tests\n")[2].partition("\n#")[0]))


def files():
    """The files of the working tree that git knows, and those that it would be shown."""
    words = ["git", "ls-files", "-z", "--cached", "--others", "--exclude-standard"]
    listed = subprocess.run(words, cwd=ROOT, stdout=subprocess.PIPE, text=True, check=True).stdout
    return [path for path in listed.split("\0") if path and os.path.isfile(os.path.join(ROOT, path))]


def copy_to(room, kept):
    """Copies the working tree, and of these crates what their checks kept."""
    for path in files():
        os.makedirs(os.path.dirname(os.path.join(room, path)), exist_ok=True)
        shutil.copy2(os.path.join(ROOT, path), os.path.join(room, path))
    # rt looks for the top of a repository
    subprocess.run(["git", "init", "-q"], cwd=room, check=True)
    for name in kept:
        out = os.path.join("crates", name, "out")
        if os.path.isdir(os.path.join(ROOT, out)):
            shutil.copytree(os.path.join(ROOT, out), os.path.join(room, out), symlinks=True)
