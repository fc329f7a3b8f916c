"""Lines of calls for the machines of `machine_rows`, with the answers that are wanted, and how the program's differ from them. A part of
tools/tests/test_machines."""
import re

WINDOWS = 'plain', 'ring'
WRONG = re.compile(r'(\d+): (.*)')
ANY_FAULT = re.compile(r'\w+ \d')  # what is wanted where None is: any fault with its number


class Calls:
    """Lines of calls for one machine, over these windows, each with the answer that is wanted and the row that it is of."""

    def __init__(self, machine, windows=WINDOWS):
        self.machine, self.windows = machine, windows
        self.lines, self.wanted, self.rows = [], [], []

    def call(self, line, wanted, row):
        self.lines.append(line)
        self.wanted.append(wanted)
        self.rows.append(row)

    def count(self):
        """How many rows there are, over all windows."""
        return len(self.windows) * len(set(self.rows))

    def text(self):
        """What the program is given. Of a line that has the answer which is wanted it prints only another, and of the others each."""
        return ''.join('%s\n' % line if wanted is None else '%s | %s\n' % (line, wanted) for line, wanted in zip(self.lines, self.wanted))

    def faults(self, window, said):
        """For each row the first answer that is another than is wanted, of what the program printed; None where it did not play all lines."""
        asked = [at for at, wanted in enumerate(self.wanted) if wanted is None]
        printed = [line for line in (said or '').splitlines() if not WRONG.match(line)]
        if said is None or len(printed) != len(asked):
            return ['%s, %s window: not all of the %d lines were played' % (self.machine, window, len(self.lines))]
        found = [(int(match[1]) - 1, match[2]) for match in map(WRONG.fullmatch, said.splitlines()) if match]
        found += [(at, answer) for at, answer in zip(asked, printed) if not ANY_FAULT.fullmatch(answer)]
        faults = {}
        for at, answer in sorted(found):
            faults.setdefault(self.rows[at], '%s, %s window, %s: %s: %.100r, where %.100r is wanted' % (
                self.machine, window, self.rows[at], self.lines[at][:100], answer, self.wanted[at]))
        return list(faults.values())


def optional(number):
    """A number or none, as the program prints it."""
    return 'None' if number is None else 'Some(%d)' % number


def digits(data):
    """Bytes as a word of a line."""
    return data.hex() or '-'
