"""Straightens a BPF program: changes it, after clang and before the verifier, so that the verifier accepts it.

The verifier follows each slot with few notes: it takes no loop, and loses an address on which more than eight ways
disagree. What clang makes of C as it is written for Linux has both. Here such a program is given other instructions
with the same runs. Nothing is changed that the verifier doesn't ask for, and nothing here but `written_out` and `guarded` is trusted: the
verifier judges the result, and `xdpbox same`, which is proved, shows that it is the same program.

    instructions  an instruction's fields, what it reads and writes, what it computes of constants
    settings      settings as text, and the program in them
    graph         what follows what, what is live, what lies in a loop
    kinds         which stores surely don't go to the stack
    constants     which constants registers and stack slots have after an instruction
    counters      which numbers have to be told apart so that each loop ends
    copies        a slot together with its constants: loops become chains of copies
    addresses     what registers stand for, and where ways with different addresses meet
    keys          keys of lookups that aren't on the stack
    joined        whether clang joined two conditions to one
    counts        a load, an addition and a store of a counter as one atomic addition
    lowered       which stores to counters may take them below 0
    emit          the copies, and what is put between them, as a program
    verifier      what `xdpbox explain` says of a program
    marks         what a search has found out
    few           numbers that are made of constants alone
    sources       where an access's address comes from
    of_values     what a search marks of accesses in maps' values
    search        from refusal to refusal until the verifier accepts
    ways          the ways in which that is searched
    written_out   a program with numbers of fewer than eight bytes, keys outside of the stack, and masks of indices written out
    split         a program with one access for each number where one reaches several
    lines         a program with other lines in the place of some
    seen          whether a program shows the number of an address of a map's value
    guarded       a program with tests in front of accesses to the packet
    shown         how a result is shown to be the same
    printed       settings that are printed: read again, and asked of xdpbox
    refused       why no program was found, in words
    command       what the two tools have in common: straightened, shown to be the same, or refused in words
"""
