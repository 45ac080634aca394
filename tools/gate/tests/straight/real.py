"""XDP programs of Debian's packages, where these are installed: each is accepted, or refused in words.

REAL names a folder below which packages were unpacked, in place of /."""
import concurrent.futures
import glob
import os
import pathlib
import re
import struct
import subprocess
import tempfile

from laxonje_tools.from_c import elf
from laxonje_tools.from_c.absent import LEFT_OUT

TOOLS = pathlib.Path(__file__).resolve().parents[3]
# objects, and programs that have objects in them: of libxdp1, suricata, xdp-tools and knot
PLACES = "usr/lib/*/bpf/*.o", "usr/lib/suricata/ebpf/*.bpf", "usr/sbin/xdp*", "usr/lib/*/libknot.so.*"
ACCEPTED = {"xdp_dispatcher", "xdp_pass", "xdp_drop", "xdp_basic_prog", "xdpdump", "xsk_def_prog"}
MOST_WORDS = 4


def objects_in(data):
    """The object files for BPF in a file's bytes, be it one itself."""
    for found in re.finditer(elf.MAGIC, data):
        part = data[found.start() :]
        try:
            elf.check_header(part)
        except (elf.NoObject, struct.error, IndexError):
            continue
        (table,), (size, count) = struct.unpack_from("<Q", part, 40), struct.unpack_from("<HH", part, 58)
        yield part[: table + size * count]


def programs(folder):
    """Each XDP program once, as (object, function)."""
    seen, root = set(), os.environ.get("REAL", "/")
    files = sorted({os.path.realpath(path) for place in PLACES for path in glob.glob(os.path.join(root, place))})
    for file in files:
        for number, data in enumerate(objects_in(pathlib.Path(file).read_bytes())):
            path = folder / f"{os.path.basename(file)}.{number}.o"
            path.write_bytes(data)
            for function in elf.functions_of(elf.sections_of(data)):
                if function.section.startswith("xdp") and function.code not in seen:
                    seen.add(function.code)
                    yield path, function.name


def ran(xdpbox, path, name):
    """What is made of a program, with words for maps whose size a loader gives."""
    words = []
    for _ in range(MOST_WORDS):
        left_out = (f"--without-{what}" for what in LEFT_OUT)
        command = [TOOLS / "settings-from-c", *left_out, "--program", name, path, *words]
        run = subprocess.run(command, env={**os.environ, "XDPBOX": xdpbox}, capture_output=True, text=True, check=False)
        missing = re.findall(r"the map (\S+) has no number of entries", run.stderr)
        if not missing:
            break
        words += [f"{map_name}=1024" for map_name in missing]
    return run


def fault_of(name, run):
    if "Traceback" in run.stderr or run.returncode not in (0, 1):
        return run.stderr[-300:]
    if run.returncode and (run.stdout or not run.stderr):
        return "it is refused without words"
    return run.stderr[-300:] if run.returncode and name in ACCEPTED else ""


def tests(_, xdpbox):
    with tempfile.TemporaryDirectory() as folder:
        rows = list(programs(pathlib.Path(folder)))
        if not rows:
            print("left out: XDP programs of Debian's packages, since none of libxdp1, xdp-tools, suricata and knot is installed")
            return
        with concurrent.futures.ThreadPoolExecutor() as pool:
            runs = list(pool.map(lambda row: ran(xdpbox, *row), rows))
        print(f"of {len(rows)} XDP programs of Debian's packages {sum(not run.returncode for run in runs)} are accepted")
        for (path, name), run in zip(rows, runs):
            yield f"{name} of {path.name}", fault_of(name, run)
