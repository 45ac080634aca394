"""Reads the definitions of crates/*/specs and the contracts of crates/*/src, and finds what a contract depends on."""
