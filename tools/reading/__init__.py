"""A second reading of the rules, made from docs/ alone, apart from the program: what check, alone, why, draw, cover and align answer."""
