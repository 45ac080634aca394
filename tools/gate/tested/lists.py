"""Files of addresses and prefixes as the rows of a map."""
import pathlib
import tempfile
import tomllib

from tested.common import ROOT, said

# A file, and the map's key, size and rows. The numbers of addresses are those of RFC 5737, RFC 3849 and RFC 7042.
LISTS = (
    ("192.0.2.1\n\n# those of a test\n 198.51.100.7 # one\n", ("exact", 4, ["c0000201", "c6336407"])),
    ("192.0.2.1 # one\f 198.51.100.7\u2028 203.0.113.1\n", ("exact", 4, ["c0000201"])),
    ("2001:db8::1\r\n", ("exact", 16, ["20010db8000000000000000000000001"])),
    ("00:00:5E:00:53:01\n", ("exact", 6, ["00005e005301"])),
    ("0x0050\n0x01Bb\n", ("exact", 2, ["0050", "01bb"])),
    ("192.0.2.0/24\n192.0.2.1\n0.0.0.0/0\n", ("prefix", 4, ["18000000c0000200", "20000000c0000201", "0000000000000000"])),
    ("2001:db8::/32", ("prefix", 16, ["2000000020010db8000000000000000000000000"])),
)

# A file that is refused, and what is said of it.
REFUSED = (
    ("", "it has no row"),
    ("192.0.2.256\n", "line 1: "),
    ("192.0.2.1/24\n", "line 1: 192.0.2.1/24 has host bits set"),
    ("192.0.2.0/33\n", "line 1: "),
    ("0x123\n", "line 1: "),
    ("0x" + "00" * 65, "line 1: "),
    ("192.0.2.0/255.255.255.0\n", "line 1: 192.0.2.0/255.255.255.0 is no prefix"),
    ("fe80::1%eth0\n", "line 1: fe80::1%eth0 names a link"),
    ("192.0.2.1\n2001:db8::1\n", "line 2: 16 bytes, but those before have 4"),
    ("192.0.2.1\n192.0.2.2\n192.0.2.1\n", "line 3: it is that of line 1"),
    ("192.0.2.1/32\n192.0.2.1\n", "line 2: it is that of line 1"),
    ("192.0.2.1\n192.0.2.1/32\n", "line 2: it is that of line 1"),
    ("".join(f"10.{n >> 16}.{n >> 8 & 255}.{n & 255}\n" for n in range(65537)), "line 65537: more than 65536 rows"),
)


def list_tests():
    """What is printed of a file, and what of one that is no list."""
    with tempfile.TemporaryDirectory() as folder:
        path = pathlib.Path(folder, "list")
        for text, (kind, size, rows) in LISTS:
            path.write_text(text, encoding="utf-8")
            status, printed, error = said([ROOT / "tools/rows-of-list", path])
            wanted = {"entries": len(rows), "key": kind, "size": size, "rows": rows}
            yield f"rows of {text!r}", status == 0 and not error and tomllib.loads(printed) == wanted
        for text, wanted in REFUSED:
            path.write_text(text, encoding="utf-8")
            status, printed, error = said([ROOT / "tools/rows-of-list", path])
            yield f"no rows of {text[:40]!r}", status == 1 and not printed and error.startswith(f"{path}: {wanted}")
