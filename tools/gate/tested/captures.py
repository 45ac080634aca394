"""Captures, and laxonje-pcap in a folder of its own."""
import json
import os
import pathlib
import signal
import struct
import subprocess
import sys
import time

from tested.common import ROOT

SANITIZED = ["-O1", "-g", "-fsanitize=address,undefined", "-fno-sanitize-recover=all"]
PASSES = 'program = ["b700000002000000", "9500000000000000"]\n'
ACTIONS = ["ABORTED", "DROP", "PASS", "TX"]


def capture(packets, order="<", magic=0xA1B2C3D4, link=1, cut=None):
    """A classic capture; the packet of the number `cut` has a byte fewer than it says."""
    parts = [struct.pack(order + "IHHiIII", magic, 2, 4, 0, 0, 262144, link)]
    for number, packet in enumerate(packets, 1):
        kept = packet[:-1] if number == cut else packet
        parts.append(struct.pack(order + "IIII", number, 5 * number, len(kept), len(packet)) + kept)
    return b"".join(parts)


def block(order, kind, body):
    body += bytes(-len(body) % 4)
    size = len(body) + 12
    return struct.pack(order + "II", kind, size) + body + struct.pack(order + "I", size)


def blocks(packets, order="<", links=(1,)):
    """A pcapng capture, whose packets come from its interfaces in turn."""
    parts = [block(order, 0x0A0D0D0A, struct.pack(order + "IHHq", 0x1A2B3C4D, 1, 0, -1))]
    parts += [block(order, 1, struct.pack(order + "HHI", link, 0, 262144)) for link in links]
    for number, packet in enumerate(packets):
        head = struct.pack(order + "IIIII", number % len(links), 0, number, len(packet), len(packet))
        parts.append(block(order, 6, head + packet))
    return b"".join(parts)


def packets_of(data):
    """The packets of a classic capture with their times."""
    order = "<" if data[:4] in (b"\xd4\xc3\xb2\xa1", b"\x4d\x3c\xb2\xa1") else ">"
    at = 24
    while at < len(data):
        seconds, parts, kept = struct.unpack_from(order + "III", data, at)
        yield (seconds, parts), data[at + 16 : at + 16 + kept]
        at += 16 + kept


def built(folder):
    """The library, and the program under the sanitizers and without."""
    host = os.environ.get("ARCHIVE")
    if not host:
        host = f"{folder}/host"
        subprocess.run([ROOT / "tools/build-host", host], check=True, stdout=subprocess.DEVNULL)
    made = []
    for name, flags in (("sane", SANITIZED), ("fast", ["-O2"])):
        done = subprocess.run([ROOT / "tools/build-pcap", host, f"{folder}/{name}", *flags], capture_output=True, text=True, check=False)
        if done.returncode == 3:
            print(f"{done.stderr.strip()}: laxonje-pcap is left out\n0 passed, 0 failed")
            sys.exit(0)
        if done.returncode:
            print(f"{done.stderr}\n0 passed, 1 failed")
            sys.exit(1)
        made.append(f"{folder}/{name}")
    return made


class Tool:
    """The program in a folder of its own, if files are made by name."""

    def __init__(self, program, folder):
        self.program, self.folder = program, pathlib.Path(folder)
        self.write("passes", PASSES)

    def write(self, name, content):
        data = content.encode() if isinstance(content, str) else content
        (self.folder / name).write_bytes(data)
        return name

    def run(self, *words, given=b"", **how):
        how = {"stdout": subprocess.PIPE, "stderr": subprocess.PIPE, **how}
        return subprocess.run([self.program, *map(str, words)], cwd=self.folder, input=given, check=False, timeout=60, **how)

    def answers(self, *words, **how):
        """The status and the first line of standard error without the program's name."""
        done = self.run(*words, **how)
        said = done.stderr.decode(errors="replace").split("\n")[0].removeprefix("laxonje-pcap: ")
        return done.returncode, said

    def counts(self, *words, **how):
        """The numbers of packets by action, in their order; None if it failed."""
        done = self.run("-j", *words, **how)
        return done.returncode or [json.loads(done.stdout)["actions"][name]["packets"] for name in ACTIONS]


def hear_interrupts():
    """A shell starts what runs in the background with this signal ignored, and so would its children."""
    signal.signal(signal.SIGINT, signal.SIG_DFL)


class Live:
    """A run on a capture that comes by a pipe, which stays open: with `sent` the bytes that have come."""

    def __init__(self, tool, *words):
        pipes = {"stdin": subprocess.PIPE, "stdout": subprocess.PIPE, "stderr": subprocess.PIPE}
        self.run = subprocess.Popen([tool.program, *words, "passes", "-"], cwd=tool.folder, preexec_fn=hear_interrupts, **pipes)

    def send(self, data):
        self.run.stdin.write(data)
        self.run.stdin.flush()
        return self

    def lines_to(self, begin):
        """The lines of standard output up to one that begins so."""
        lines = []
        while not lines or not lines[-1].startswith(begin):
            line = self.run.stdout.readline().decode()
            if not line:
                break
            lines.append(line)
        return lines

    def ends(self, number, data=b""):
        """What it prints after a signal and these bytes, and its status."""
        time.sleep(0.3)
        self.run.send_signal(number)
        if data:
            time.sleep(0.2)
            self.send(data)
        begun = time.monotonic()
        try:
            out, said = self.run.stdout.read().decode(), self.run.stderr.read().decode()
            return out, said, self.run.wait(timeout=20), time.monotonic() - begun
        finally:
            self.run.kill()
            self.run.stdin.close()
