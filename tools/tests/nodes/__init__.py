"""Small nodes, right ones and ones with a bug, which write captures; and peers that talk over TCP."""
