"""How the kept input and output of each program are made: a module for each, with `make(rust)`. make_vectors.py runs them."""
