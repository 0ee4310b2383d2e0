"""Cases of `tools/try_nodes.py`, by what is done to the nodes."""
