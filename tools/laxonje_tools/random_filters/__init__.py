"""Random filters in C, of the kind that people write, to be run here and by Linux.

    maps      maps that a filter declares, and the rows of its lists
    source    its statements
    packets   packets whose bytes its conditions meet"""
