"""Programs with an index that is one of two numbers, turned round."""
from laxonje_tools.straight.instructions import ALU64, XOR
from tests.straight.written import (
    ADD_CONSTANT,
    ADD_REGISTER,
    AND_CONSTANT,
    EXIT,
    IF_EQUAL_CONSTANT,
    LOAD_BYTE,
    LOAD_DOUBLE,
    LOAD_WORD,
    LSH_CONSTANT,
    MOVE_CONSTANT,
    MOVE_REGISTER,
    PASS,
    QUEUE,
    R0,
    R1,
    R10,
    R2,
    R3,
    R6,
    STORE_DOUBLE,
    STORE_WORD_CONSTANT,
    lookup,
    settings,
)

XOR_CONSTANT = ALU64 | XOR
FEW = {
    "TURNED_INDEX": settings(  # one of two bytes of the stack
        (STORE_WORD_CONSTANT, R10, 0, -4, 0x03010002),
        (LOAD_WORD, R3, R1, QUEUE),
        (AND_CONSTANT, R3, 0, 0, 1),
        (XOR_CONSTANT, R3, 0, 0, 1),
        (LSH_CONSTANT, R3, 0, 0, 1),
        (MOVE_REGISTER, R2, R10),
        (ADD_CONSTANT, R2, 0, 0, -4),
        (ADD_REGISTER, R2, R3),
        (LOAD_BYTE, R0, R2),
        (EXIT,),
    ),
    "COUNTER_BESIDE_TURNED_INDEX": settings(  # its address lies on the stack while one of two words beside it is stored
        (LOAD_WORD, R3, R1, QUEUE),
        (MOVE_CONSTANT, R6, 0, 0, 1),
        (IF_EQUAL_CONSTANT, R3, 0, 1, 0),
        (MOVE_CONSTANT, R6),
        (XOR_CONSTANT, R6, 0, 0, 1),
        (LSH_CONSTANT, R6, 0, 0, 3),
        *lookup(
            (STORE_DOUBLE, R10, R0, -16),
            (MOVE_REGISTER, R2, R10),
            (ADD_CONSTANT, R2, 0, 0, -32),
            (ADD_REGISTER, R2, R6),
            (STORE_DOUBLE, R2, R6),
            (LOAD_DOUBLE, R1, R10, -16),
            (STORE_DOUBLE, R1, R6),
        ),
        *PASS,
        entries=1
    ),
}
