"""What tools/build-unproved consists of.

- bitcode: what `rt try` makes of a crate before it runs it
- plain: that text without the tests of `rt try`, and with the sources' inline hints (hints)
- exports: the calls for C that the sources export, and the C that answers their structs
- building: a program and an archive of these
- joined: crates of tests as one"""
