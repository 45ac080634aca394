"""What is installed, and what a release is made of."""
import os
import pathlib
import re
import shlex
import shutil
import subprocess
import tempfile

from tested.common import ROOT, RT, TOOLS, said

def fake_build(folder, is_proved):
    """A folder as tools/build-unproved makes it, of a library with two calls."""
    host = folder / "host"
    host.mkdir(parents=True)
    (folder / "netback").mkdir()
    for name in ("xdpbox", "laxonje-pcap", "netback/laxonje-netback"):
        (folder / name).write_text("#!/bin/sh\n")
        (folder / name).chmod(0o755)
    shutil.copy(ROOT / "include/laxonje.h", host)
    number = re.search(r"LAXONJE_VERSION (\d+)", (host / "laxonje.h").read_text())[1]
    package = ["prefix=${pcfiledir}", "libdir=${prefix}", "includedir=${prefix}", "Name: laxonje", "Description: Filters", "Version: 2"]
    package += ["Cflags: -I${includedir}", "Libs: -L${libdir} -llaxonje"]
    (host / "laxonje.pc").write_text("\n".join(package) + "\n")
    for name in ("liblaxonje.a", f"liblaxonje.so.{number}"):
        (host / name).write_text(name)
    if not is_proved:
        (folder / "README").write_text(f"UNPROVED. It is from {said([TOOLS / 'commit'])[1].strip()}.\n")
    return folder


def files_below(folder):
    return sorted(str(path.relative_to(folder)) for path in pathlib.Path(folder).rglob("*") if not path.is_dir() or path.is_symlink())


def install_tests():
    """What is installed, listed and taken away."""
    with tempfile.TemporaryDirectory() as room:
        built = fake_build(pathlib.Path(room, "built it"), False)
        to = pathlib.Path(room, "to")
        (to / "usr/include").mkdir(parents=True)
        (to / "usr/include/other.h").write_text("")
        (to / "usr/share").mkdir()
        env = {**os.environ, "DESTDIR": str(to), "LIBDIR": "lib/there"}
        install = [TOOLS / "install", "--from", built, "--netback", "/usr"]
        status, text, error = said(install, env=env)
        yield "it installs", status == 0 and not error and text.endswith("UNPROVED: nothing of it was proved\n")
        listed = (to / "usr/share/laxonje/installed").read_text().splitlines()
        files = sorted(line.lstrip("/") for line in listed if not line.endswith("/"))
        yield "each file is listed", files == [it for it in files_below(to) if it != "usr/include/other.h"]
        wanted = ["bin/xdpbox", "bin/laxonje-settings-from-c", "include/laxonje.h", "lib/there/liblaxonje.so", "lib/there/pkgconfig/laxonje.pc"]
        wanted += ["share/man/man3/laxonje.3", "share/bash-completion/completions/xdpbox", "share/doc/laxonje/docs/HOST.md"]
        wanted += ["share/man/man3/laxonje_run.3", "share/laxonje/crates/laxonje/src/lib.rs", "share/laxonje/crates/laxonje-sys/build.rs"]
        wanted += ["sbin/laxonje-netback", "share/bash-completion/completions/laxonje-netback"]
        yield "what is wanted is there", all(f"usr/{name}" in files for name in wanted)
        packed = (to / "usr/lib/there/pkgconfig/laxonje.pc").read_text()
        is_placed = packed.startswith("prefix=/usr\nlibdir=/usr/lib/there\n") and '-L"${libdir}" -llaxonje' in packed and "pcfiledir" not in packed
        yield "the package's file", is_placed and str(to) not in packed
        before = files_below(to)
        yield "a second time", said(install, env=env)[0] == 0 and files_below(to) == before
        status = said([TOOLS / "install", "--uninstall", "/usr"], env=env)[0]
        yield "what was there stays", status == 0 and files_below(to) == ["usr/include/other.h"]
        yield "no folder is left but what was there", sorted(os.listdir(to / "usr")) == ["include", "share"]
        own = pathlib.Path(room, "of its own")
        status = said([TOOLS / "install", "--from", built, own])[0]
        yield "no laxonje-netback if it isn't asked for", not [it for it in files_below(own) if "netback" in it and "share/doc" not in it]
        both = (own / "bin/laxonje-packets-of-pcap", TOOLS / "packets-of-pcap")
        made, plain = [said([tool, ROOT / "examples/five-packets.pcap"])[1] for tool in both]
        yield "a tool that is installed, in a folder with blanks", status == 0 and made == plain and made.startswith("[[packet]]")
        odd = pathlib.Path(room, "a&b|c\\d")
        status = said([TOOLS / "install", "--from", built, "--netback", odd], env={**os.environ, "LIBDIR": "lib&|"})[0]
        packed = (odd / "lib&|/pkgconfig/laxonje.pc").read_text().splitlines() if status == 0 else []
        yield "a prefix with signs that sed knows", packed[:2] == [f"prefix={odd}", f"libdir={odd}/lib&|"]
        made = said([odd / "bin/laxonje-packets-of-pcap", ROOT / "examples/five-packets.pcap"])[1]
        yield "a tool that is installed there", made == plain
        units = [path.read_text() for path in odd.rglob("*.service")]
        doubled = str(odd).replace("\\", "\\\\")
        yield "the service there", bool(units) and all(f'ExecStart="{doubled}/sbin/laxonje-netback" ' in text for text in units)
        yield from package_tests(odd)
        yield from stopped_tests(pathlib.Path(room), built)
        yield "nothing to take away", said([TOOLS / "install", "--uninstall", "/usr"], env=env)[0] == 1
        yield "nothing that is built", said([TOOLS / "install", "--from", room, "/usr"], env=env)[0] == 1
        yield "a library that isn't there", said([TOOLS / "install-host", "/usr", room], env=env)[0] == 1


def package_tests(prefix):
    """What pkg-config says of a library that is installed in a folder whose name has signs; and the links between crates, documents and examples."""
    if shutil.which("pkg-config"):
        env = {**os.environ, "PKG_CONFIG_PATH": str(prefix / "lib&|/pkgconfig")}
        status, text, _ = said(["pkg-config", "--cflags", "--libs", "laxonje"], env=env)
        words = shlex.split(text)
        yield "its flags are words", status == 0 and words == [f"-I{prefix}/include", f"-L{prefix}/lib&|", "-llaxonje"]
    else:
        print("left out: what pkg-config says of the library, since it isn't installed")
    named = ["doc/laxonje/examples/host-vm-memory/../../netback/laxonje/Cargo.toml", "laxonje/crates/laxonje/../../docs/HOST.md"]
    named += ["laxonje/crates/laxonje/../../examples/host-vm-memory/README.md", "doc/laxonje/docs/../netback/laxonje/README.md"]
    yield "what crates, documents and examples name is there", all((prefix / "share" / name).is_file() for name in named)


def stopped_tests(room, built):
    """An installation that stops midway is taken away by its list."""
    to = room / "it's in the way"
    (to / "lib/liblaxonje.a").mkdir(parents=True)
    install = [TOOLS / "install", "--from", built, to]
    yield "a folder in a file's place", said(install)[0] == 1 and "bin/xdpbox" in files_below(to)
    status = said([TOOLS / "install", "--uninstall", to])[0]
    yield "what was put there is taken away", status == 0 and [str(path.relative_to(to)) for path in to.rglob("*")] == ["lib", "lib/liblaxonje.a"]
    (to / "lib/liblaxonje.a").rmdir()
    status = said(install)[0]
    made, plain = [said([tool, ROOT / "examples/five-packets.pcap"])[1] for tool in (to / "bin/laxonje-packets-of-pcap", TOOLS / "packets-of-pcap")]
    yield "a tool in a folder with a quote", status == 0 and made == plain


def release_tests():
    """What a release is made of, and when none is made."""
    with tempfile.TemporaryDirectory() as room:
        top = pathlib.Path(room, "repository")
        shutil.copytree(TOOLS, top / "tools", ignore=shutil.ignore_patterns("__pycache__"))
        for name in ("include/laxonje.h", "CHANGELOG.md"):
            (top / name).parent.mkdir(exist_ok=True)
            shutil.copy(ROOT / name, top / name)
        (top / ".gitignore").write_text("out/\n__pycache__/\n")
        bin_ = pathlib.Path(room, "bin")
        bin_.mkdir()
        (bin_ / "rt").write_text(RT)
        (bin_ / "rt").chmod(0o755)
        env = {**os.environ, "PATH": f"{bin_}:{os.environ['PATH']}"}
        release = lambda *words: said([top / "tools/release", *words], env=env)
        author = ["-c", "user.name=n", "-c", "user.email=e"]
        git = lambda *words: subprocess.run(["git", "-C", top, *author, *words], check=True, capture_output=True)
        git("init", "-q")
        yield "no commit", release()[0] == 1
        git("add", "-A")
        git("commit", "-qm", "all")
        yield "nothing that is built", "there is no" in release()[2]
        commit = said([top / "tools/commit"])[1].strip()
        built = fake_build(top / "out/proved", True)
        yield "no gate", f"the gate wasn't run on {commit}" in release()[2]
        log = top / "out/gate.log"
        lines = [f"{commit}, rattle-kit-13z", "== part 1 of 1, after 0 min: proofs", "proofs: 6 passed, 0 failed (1.0 processor minutes)", "== low", "fn low::first: proved", "logic=proved functions=1"]
        log.write_text("\n".join([*lines, "rt: high is kept: an earlier run", "7 passed, 1 failed", ""]))
        yield "a gate that failed", "didn't pass" in release()[2]
        log.write_text(log.read_text().replace("1 failed", "0 failed").replace(", rattle", ", with changes, rattle"))
        yield "a gate over changes", f"the gate wasn't run on {commit}" in release()[2]
        log.write_text(log.read_text().replace(", with changes", ""))
        status, text, error = release()
        version = said([TOOLS / "version"])[1].strip()
        packed = top / f"out/release/laxonje-{version}.tar.gz"
        yield "a release", (status, error) == (0, "") and f"  {packed.name}\n" in text and packed.is_file()
        first = packed.read_bytes()
        os.utime(built / "xdpbox", (1, 1))
        yield "the same once more", release()[0] == 0 and packed.read_bytes() == first
        subprocess.run(["tar", "-xf", packed, "-C", room], check=True)
        made = pathlib.Path(room, f"laxonje-{version}")
        proof = (made / "PROOF").read_text()
        yield "its proof", proof.startswith(f"{commit}\nrattle-kit-13z") and "7 passed, 0 failed" in proof
        yield "its parts", "\nproofs: 6 passed, 0 failed (1.0 processor minutes)\n" in proof and "== part" not in proof
        yield "its crates", "low: logic=proved functions=1\nhigh: kept\n" in proof
        sums = subprocess.run(["sha256sum", "-c", "--quiet", "SHA256SUMS"], cwd=made, capture_output=True, check=False)
        count = len((made / "SHA256SUMS").read_text().splitlines())
        yield "its sums", sums.returncode == 0 and count == len(files_below(made)) - 1
        yield "no licence", (made / "NO-LICENCE").is_file()
        yield "which sources these are", said([made / "tools/commit"])[1].strip() == commit
        yield from built_tests(made)
        fake_build(top / "out/unproved", False)
        yield "an unproved build of another commit", "isn't of" in release("--unproved")[2]
        (top / "out/unproved/README").write_text(f"UNPROVED, from {commit}.\n")
        status, text, _ = release("--unproved")
        yield "an unproved release says so", status == 0 and f"laxonje-{version}-unproved.tar.gz" in text and "UNPROVED" in text
        with open(top / "CHANGELOG.md", "a", encoding="utf-8") as file:
            file.write("more\n")
        yield "a change", "with changes" in release()[2]


def built_tests(made):
    """The parts that a release's own command runs, each a stub, over what it has."""
    parts = re.search(r"for part in (.*); do", (made / "tools/test-built").read_text())[1].split()
    yield "the parts of a release's tests", len(parts) == 4 and all((TOOLS / "gate" / part).is_file() for part in parts)
    for part in parts:
        (made / "tools/gate" / part).write_text('#!/bin/sh\n[ -x "$XDPBOX" ] && [ -f "$ARCHIVE/liblaxonje.a" ] && echo "2 passed, 0 failed"\n')
    status, text, error = said([made / "tools/test-built"], cwd="/")
    yield "a release's tests", (status, error) == (0, "") and text.splitlines()[-1] == "8 passed, 0 failed"
    (made / "tools/gate" / parts[0]).write_text('#!/bin/sh\necho "2 passed, 0 failed"\nexit 1\n')
    yield "one of them that fails", said([made / "tools/test-built"])[1].splitlines()[-1] == "8 passed, 1 failed"


def version_tests():
    """The version is one, and its first number is that of the header."""
    version = said([TOOLS / "version"])[1].strip()
    number = re.search(r"^#define LAXONJE_VERSION (\d+)$", (ROOT / "include/laxonje.h").read_text(), re.MULTILINE)[1]
    yield "the version's form", re.fullmatch(r"\d+\.\d+\.\d+", version) is not None
    yield "its first number is the header's", version.split(".")[0] == number
