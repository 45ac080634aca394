"""The tests that tools/gate/test-tools runs: each group gives rows of a name and whether it passed."""
