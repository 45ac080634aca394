"""The smallest programs that need one transformation each, as settings."""
from tests.straight.written import (
    ADD_CONSTANT,
    ADD_REGISTER,
    AND_CONSTANT,
    ATOMIC_DOUBLE,
    CALL,
    DATA,
    DATA_END,
    EXIT,
    IF_ABOVE_CONSTANT,
    IF_ABOVE_REGISTER,
    IF_EQUAL_CONSTANT,
    IF_NOT_CONSTANT,
    LOAD_BYTE,
    LOAD_DOUBLE,
    LOAD_HALF,
    LOAD_WORD,
    LSH_CONSTANT,
    MOVE_CONSTANT,
    MOVE_REGISTER,
    PASS,
    QUEUE,
    R0,
    R1,
    R10,
    R2,
    R3,
    R4,
    R5,
    R6,
    R7,
    RSH_CONSTANT,
    START,
    STORE_DOUBLE,
    STORE_HALF,
    STORE_WORD,
    STORE_WORD_CONSTANT,
    SUB_CONSTANT,
    WIDE_LOAD,
    in_packet,
    lookup,
    settings,
    with_memory,
)

# r0 = 0; five times: r0 += 2
LOOP = settings(
    (MOVE_CONSTANT, R0),
    (MOVE_CONSTANT, R3),
    (ADD_CONSTANT, R0, 0, 0, 2),
    (ADD_CONSTANT, R3, 0, 0, 1),
    (IF_NOT_CONSTANT, R3, 0, -3, 5),
    (EXIT,),
)
# the same on the stack: the counter is spilled
SPILLED_LOOP = settings(
    (MOVE_CONSTANT, R0),
    (MOVE_CONSTANT, R3),
    (STORE_DOUBLE, R10, R3, -8),
    (ADD_CONSTANT, R0, 0, 0, 2),
    (LOAD_DOUBLE, R3, R10, -8),
    (ADD_CONSTANT, R3, 0, 0, 1),
    (STORE_DOUBLE, R10, R3, -8),
    (IF_NOT_CONSTANT, R3, 0, -5, 5),
    (EXIT,),
)
# as many times as the packet's first byte says
ENDLESS = settings(
    *START, *in_packet(1, 3), (LOAD_BYTE, R5, R2), (SUB_CONSTANT, R5, 0, 0, 1), (IF_NOT_CONSTANT, R5, 0, -2, 0), *PASS
)
# as many times as its two lowest bits say, and once more
MASKED_LOOP = settings(
    *START,
    *in_packet(1, 5),
    (LOAD_BYTE, R5, R2),
    (AND_CONSTANT, R5, 0, 0, 3),
    (ADD_CONSTANT, R5, 0, 0, 1),
    (SUB_CONSTANT, R5, 0, 0, 1),
    (IF_NOT_CONSTANT, R5, 0, -2, 0),
    *PASS
)
# a walk of twelve steps of one byte or two: r2 += 1 or 2, and each step is compared with the packet's end
WALK = settings(
    *START,
    (MOVE_CONSTANT, R6),
    *in_packet(1, 6),
    (LOAD_BYTE, R5, R2),
    (ADD_CONSTANT, R2, 0, 0, 1),
    (IF_NOT_CONSTANT, R5, 0, 1, 7),
    (ADD_CONSTANT, R2, 0, 0, 1),
    (ADD_CONSTANT, R6, 0, 0, 1),
    (IF_NOT_CONSTANT, R6, 0, -9, 12),
    *PASS
)
# the same, each step as long as its first byte says
LONG_WALK = settings(
    *START,
    (MOVE_CONSTANT, R6),
    *in_packet(1, 6),
    (LOAD_BYTE, R5, R2),
    (ADD_CONSTANT, R2, 0, 0, 1),
    (IF_NOT_CONSTANT, R5, 0, 1, 7),
    (ADD_REGISTER, R2, R5),
    (ADD_CONSTANT, R6, 0, 0, 1),
    (IF_NOT_CONSTANT, R6, 0, -9, 12),
    *PASS
)
# twenty steps, each as long as two bytes of the packet say: the verifier can't know that the sum is within a packet
FAR_WALK = settings(
    *START,
    (MOVE_CONSTANT, R6),
    *in_packet(2, 4),
    (LOAD_HALF, R5, R2),
    (ADD_REGISTER, R2, R5),
    (ADD_CONSTANT, R6, 0, 0, 1),
    (IF_NOT_CONSTANT, R6, 0, -7, 20),
    *PASS,
)
# twelve steps, each as long as a byte says, or 1 if that is 0: the number is a constant on one of two ways
CONSTANT_ON_SOME_WAYS = settings(
    *START,
    (MOVE_CONSTANT, R6),
    *in_packet(1, 6),
    (LOAD_BYTE, R5, R2),
    (IF_NOT_CONSTANT, R5, 0, 1, 0),
    (MOVE_CONSTANT, R5, 0, 0, 1),
    (ADD_REGISTER, R2, R5),
    (ADD_CONSTANT, R6, 0, 0, 1),
    (IF_NOT_CONSTANT, R6, 0, -9, 12),
    *PASS,
)
# a word of the packet is added to an address
WIDE_NUMBER = settings(
    *START,
    *in_packet(4, 6),
    (LOAD_WORD, R5, R2),
    (ADD_REGISTER, R2, R5),
    (MOVE_REGISTER, R4, R2),
    (ADD_CONSTANT, R4, 0, 0, 1),
    (IF_ABOVE_REGISTER, R4, R3, 1),
    (LOAD_BYTE, R5, R2),
    *PASS
)
# one of four bytes of the stack
STACK_INDEX = settings(
    (STORE_WORD_CONSTANT, R10, 0, -4, 0x03010002),
    (LOAD_WORD, R3, R1, QUEUE),
    (AND_CONSTANT, R3, 0, 0, 3),
    (MOVE_REGISTER, R2, R10),
    (ADD_CONSTANT, R2, 0, 0, -4),
    (ADD_REGISTER, R2, R3),
    (LOAD_BYTE, R0, R2),
    (EXIT,),
)
# one of four counters of a value
COUNTER_INDEX = settings(
    (LOAD_WORD, R6, R1, QUEUE),
    *lookup(
        (AND_CONSTANT, R6, 0, 0, 3),
        (LSH_CONSTANT, R6, 0, 0, 3),
        (ADD_REGISTER, R0, R6),
        (MOVE_CONSTANT, R1, 0, 0, 1),
        (ATOMIC_DOUBLE, R0, R1),
    ),
    *PASS,
    entries=1,
    counters=4
)
COUNT = settings(*lookup((LOAD_DOUBLE, R1, R0), (ADD_CONSTANT, R1, 0, 0, 3), (STORE_DOUBLE, R0, R1)), *PASS, entries=1)
# a byte of the packet is added, which is read between the load and the store
COUNT_OF_A_NUMBER = settings(
    *START,
    *in_packet(1, 12),
    (MOVE_REGISTER, R6, R2),
    *lookup((LOAD_DOUBLE, R1, R0), (LOAD_BYTE, R3, R6), (ADD_REGISTER, R3, R1), (STORE_DOUBLE, R0, R3)),
    *PASS,
    entries=1
)
TWO_COUNTS = settings(
    *lookup(
        (LOAD_DOUBLE, R1, R0),
        (ADD_CONSTANT, R1, 0, 0, 1),
        (STORE_DOUBLE, R0, R1),
        (LOAD_DOUBLE, R1, R0, 8),
        (ADD_CONSTANT, R1, 0, 0, 60),
        (STORE_DOUBLE, R0, R1, 8),
    ),
    *PASS,
    entries=1,
    counters=2
)
# a count in each of three turns
COUNT_IN_A_LOOP = settings(
    *lookup(
        (MOVE_CONSTANT, R3),
        (LOAD_DOUBLE, R1, R0),
        (ADD_CONSTANT, R1, 0, 0, 5),
        (STORE_DOUBLE, R0, R1),
        (ADD_CONSTANT, R3, 0, 0, 1),
        (IF_NOT_CONSTANT, R3, 0, -5, 3),
    ),
    *PASS,
    entries=1
)
# r1 += r1: the counter is doubled, which is no addition of a number
DOUBLED = settings(*lookup((LOAD_DOUBLE, R1, R0), (ADD_REGISTER, R1, R1), (STORE_DOUBLE, R0, R1)), *PASS, entries=1)
# what was counted is the answer
COUNT_READ = settings(
    *lookup(
        (LOAD_DOUBLE, R6, R0), (ADD_CONSTANT, R6, 0, 0, 1), (STORE_DOUBLE, R0, R6), (MOVE_REGISTER, R0, R6), (EXIT,)
    ),
    *PASS,
    entries=1
)
# a counter is set to the packet's first byte
COUNTER_SET = settings(
    *START, *in_packet(1, 9), (LOAD_BYTE, R6, R2), *lookup((STORE_DOUBLE, R0, R6)), *PASS, entries=1
)
# it is set to 7 if the first byte is 7, and else it grows by 2, up to 5
COUNTER_SET_ON_SOME_WAYS = settings(
    *START,
    *in_packet(1, 14),
    (LOAD_BYTE, R6, R2),
    *lookup(
        (MOVE_CONSTANT, R1, 0, 0, 7),
        (IF_EQUAL_CONSTANT, R6, 0, 3, 7),
        (LOAD_DOUBLE, R1, R0),
        (IF_ABOVE_CONSTANT, R1, 0, 2, 4),
        (ADD_CONSTANT, R1, 0, 0, 2),
        (STORE_DOUBLE, R0, R1),
    ),
    *PASS,
    entries=1,
)
# loaded once, and stored three times, each time with the first byte more
COUNTED_TWICE = settings(
    *START,
    *in_packet(1, 14),
    (LOAD_BYTE, R6, R2),
    *lookup(
        (LOAD_DOUBLE, R1, R0),
        (MOVE_CONSTANT, R3),
        (ADD_REGISTER, R1, R6),
        (STORE_DOUBLE, R0, R1),
        (ADD_CONSTANT, R3, 0, 0, 1),
        (IF_NOT_CONSTANT, R3, 0, -4, 3),
    ),
    *PASS,
    entries=1,
)
# a table of eight, by three bits of the packet, and one of twelve, by a compared byte: in part its numbers rise by one
TABLE = with_memory(
    *START,
    *in_packet(1, 7),
    (LOAD_BYTE, R5, R2),
    (AND_CONSTANT, R5, 0, 0, 7),
    (WIDE_LOAD, R6),
    (ADD_REGISTER, R6, R5),
    (LOAD_BYTE, R0, R6),
    (EXIT,),
    *PASS,
    constants=bytes((1, 2, 2, 3, 0, 0, 1, 2)),
)
RISING_TABLE = with_memory(
    *START,
    *in_packet(1, 7),
    (LOAD_BYTE, R5, R2),
    (IF_ABOVE_CONSTANT, R5, 0, 5, 11),
    (WIDE_LOAD, R6),
    (ADD_REGISTER, R6, R5),
    (LOAD_BYTE, R0, R6),
    (EXIT,),
    *PASS,
    constants=bytes((0, 1, 2, 3, 3, 3, 0, 9, 10, 11, 12, 1)),
)
# a global that counts to four
GLOBAL = with_memory(
    (WIDE_LOAD, R6),
    (LOAD_DOUBLE, R3, R6),
    (IF_ABOVE_CONSTANT, R3, 0, 4, 3),
    (ADD_CONSTANT, R3, 0, 0, 1),
    (STORE_DOUBLE, R6, R3),
    *PASS,
    (MOVE_CONSTANT, R0, 0, 0, 1),
    (EXIT,),
    counters=1,
)
# half of a counter is set, and a byte of it read
HALF_COUNTER = settings(
    *lookup(
        (LOAD_BYTE, R6, R0, 1),
        (ADD_CONSTANT, R6, 0, 0, 300),
        (STORE_WORD, R0, R6),
        (MOVE_REGISTER, R0, R6),
        (EXIT,),
    ),
    *PASS,
    entries=1,
)
# the upper half of one is added to
UPPER_HALF = settings(
    *lookup((LOAD_WORD, R6, R0, 4), (ADD_CONSTANT, R6, 0, 0, 3), (STORE_WORD, R0, R6, 4)), *PASS, entries=1
)
# both halves of one are added to, and the lower one, which gets a counter of its own, is the answer
BOTH_HALVES = settings(
    *lookup(
        (LOAD_WORD, R6, R0),
        (ADD_CONSTANT, R6, 0, 0, -3),
        (STORE_WORD, R0, R6),
        (LOAD_WORD, R7, R0, 4),
        (ADD_CONSTANT, R7, 0, 0, 1),
        (STORE_WORD, R0, R7, 4),
        (LOAD_BYTE, R0, R0, 1),
        (EXIT,),
    ),
    *PASS,
    entries=2,
    counters=2,
)
BETWEEN_COUNTERS = settings(
    *lookup((MOVE_CONSTANT, R1, 0, 0, 1), (STORE_HALF, R0, R1, 7)), *PASS, entries=1, counters=2
)
# a global of two bytes that counts to four
SMALL_GLOBAL = with_memory(
    (WIDE_LOAD, R6),
    (LOAD_HALF, R3, R6),
    (IF_ABOVE_CONSTANT, R3, 0, 4, 3),
    (ADD_CONSTANT, R3, 0, 0, 1),
    (STORE_HALF, R6, R3),
    *PASS,
    (MOVE_CONSTANT, R0, 0, 0, 1),
    (EXIT,),
    counters=1,
)
# the byte in front of a cursor that was compared
BELOW = settings(
    *START,
    *in_packet(14, 7),
    (LOAD_BYTE, R5, R2),
    (MOVE_REGISTER, R6, R2),
    (ADD_CONSTANT, R6, 0, 0, 14),
    (ADD_REGISTER, R6, R5),
    (IF_ABOVE_REGISTER, R6, R3, 2),
    (LOAD_BYTE, R0, R6, -1),
    (EXIT,),
    *PASS,
)
# an offset that is cut to 32 bits, which it has anyway, after a comparison by the whole one
CUT_TO_32_BITS = settings(
    *START,
    *in_packet(14, 12),
    (LOAD_BYTE, R5, R2),
    (MOVE_REGISTER, R6, R2),
    (ADD_REGISTER, R6, R5),
    (ADD_CONSTANT, R6, 0, 0, 2),
    (IF_ABOVE_REGISTER, R6, R3, 7),
    (ADD_CONSTANT, R5, 0, 0, 1),
    (LSH_CONSTANT, R5, 0, 0, 32),
    (RSH_CONSTANT, R5, 0, 0, 32),
    (MOVE_REGISTER, R6, R2),
    (ADD_REGISTER, R6, R5),
    (LOAD_BYTE, R0, R6),
    (EXIT,),
    *PASS,
)
UNCHECKED = settings(*START, (LOAD_BYTE, R5, R2), *PASS)
# nine numbers are added or not, and the end of all was compared with the packet's end before
COVERED = settings(
    *START,
    *in_packet(47, 2 * 9 + 4),
    (LOAD_BYTE, R5, R2),
    *[
        fields
        for number in range(9)
        for fields in [(IF_NOT_CONSTANT, R5, 0, 1, number), (ADD_CONSTANT, R2, 0, 0, number + 1)]
    ],
    (LOAD_BYTE, R5, R2),
    (MOVE_CONSTANT, R0, 0, 0, 1),
    (EXIT,),
    *PASS
)
ACCEPTED = settings(*PASS)
