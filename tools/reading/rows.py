"""Rows of rules. A part of tools/reading/judging.py, which judges pairs apart from the program."""


class Refused(Exception):
    """A record can't be made, for this reason."""

    def __init__(self, reason):
        super().__init__(reason)
        self.reason = reason


class Departs(Exception):
    """The line of a record departs from the format of captures."""


class Row:
    """A row by its heading. Its parts are named: whether it is `allowed`, lists of `checks`, `effects` and `tests`, `phases`, a `need`, and more."""

    def __init__(self, heading, **parts):
        self.heading = heading
        self.parts = parts

    def __getitem__(self, part):
        return self.parts[part]

    def copy(self, **parts):
        return Row(self.heading, **{**self.parts, **parts})
