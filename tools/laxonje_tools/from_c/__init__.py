"""From a C program to settings, as `tools/settings-from-c` does it.

    compiler  clang, and what is put in front of the C
    elf       an object file's sections, symbols and relocations
    btf       its debug information: the sizes of maps, and the line of C of each slot
    calls     functions and helpers whose calls are written out
    helpers   instructions that do what a helper does
    tables    hash maps to which a program adds rows
    many      arrays of more values than a map has rows
    queues    queues and stacks
    stale     rows of these that are used after an update
    frames    how much of the stack a function uses
    absent    what isn't here, with Linux's answer where there is none of it either
    own_device  redirects to the device that a packet came from
    repeated  functions that helpers call again and again
    sums      bpf_csum_diff
    memory    constants and globals
    large     which values are written as rows, and where they lie then
    places    what registers have of the addresses of such values
    layouts   which rows there are
    in_rows   a program with such values in rows
    turned    additions of the address of a value to a number
    values_apart  what follows ways that meet with values of several maps, copied for each
    looked_up  globals whose values are looked up in front of a program
    maps      maps, and what is given of them
    lists     files of addresses and prefixes
    beginnings  files with the numbers that counters begin with
    linux     what Linux itself makes of packets
    program   all of it, as settings
    faults    what settings can't say, with what to write instead
"""
