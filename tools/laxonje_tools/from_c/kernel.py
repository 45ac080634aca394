"""What a program asks of the kernel that loads it, by the relocations of BTF ("CO-RE"). Linux's Documentation/bpf/btf.rst has their format.

Where a field lies, how large it is and how many bits it has are as the file declares them. Whether the kernel has a type, and what an
enumeration's number is there, isn't known here."""
from __future__ import annotations

from typing import TYPE_CHECKING, Iterator

from .elf import SLOT_BYTES
from .btf import rows_of_ext

if TYPE_CHECKING:
    from .elf import Function, Part

# where the header of .BTF.ext has the place of the relocations
RELOCATIONS_IN_HEADER = 24
# enum bpf_core_relo_kind of Linux's uapi/linux/bpf.h, by what libbpf's bpf_core_read.h calls them
OF_KERNEL = {
    2: "bpf_core_field_exists",
    7: "bpf_core_type_id_kernel",
    8: "bpf_core_type_exists",
    9: "bpf_core_type_size",
    10: "bpf_core_enum_value_exists",
    11: "bpf_core_enum_value",
    12: "bpf_core_type_matches",
}


def faults_of_kernel(sections: dict[str, Part], function: Function) -> Iterator[tuple[int, str]]:
    """What a function asks that isn't known here, as (slot, words)."""
    for section, place, kind in rows_of(sections):
        if section == function.section and 0 <= place - function.place < len(function.code) and kind in OF_KERNEL:
            words = f"asks {OF_KERNEL[kind]}, and there is no kernel here to answer: write the answer in its place, as a constant"
            yield (place - function.place) // SLOT_BYTES, words


def rows_of(sections: dict[str, Part]) -> Iterator[tuple[str, int, int]]:
    """The relocations, as (section, place, kind)."""
    for _, section, (place, _, _, kind) in rows_of_ext(sections, RELOCATIONS_IN_HEADER, "relocation"):
        yield section, place, kind
