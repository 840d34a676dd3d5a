"""What the checks share: where things stand, the references beside this project, and how a check ends."""
import os
import sys

TOP = os.path.dirname(os.path.dirname(os.path.abspath(__file__)))
SHARED = os.path.join(os.path.dirname(TOP), 'shared')
PROGRAM = os.path.join(TOP, 'crates', 'rpy', 'out', 'rpy')


def unready(check, program, *references):
    """The status of a check that cannot run, which says why: 0 without the references, 1 without the program. Else None."""
    if not all(os.path.exists(os.path.join(SHARED, reference)) for reference in references):
        print('%s: skipped, the references in ../shared are not here' % check)
        return 0
    if not os.path.exists(program):
        print('%s: the program is not built' % check)
        return 1
    return None


def use(*references):
    """Modules of these references can be imported."""
    sys.path[:0] = [os.path.join(SHARED, reference) for reference in references]


def asked():
    """The numbers among the words of the command, and the program that they name, else the one that is built here."""
    numbers = [int(word) for word in sys.argv[1:] if word.isdigit()]
    others = [os.path.abspath(word) for word in sys.argv[1:] if not word.isdigit()]
    return numbers, others[0] if others else PROGRAM


def number(k, default):
    """The k-th word of the command, where it is there."""
    return int(sys.argv[k]) if len(sys.argv) > k else default


class Verdicts:
    """How many comparisons passed and failed; each that fails is shown."""

    def __init__(self):
        self.passed = self.failed = 0

    def told(self, what, good, got, want):
        if good:
            self.passed += 1
        else:
            self.failed += 1
            print('%s: %r, and not %r' % (what, got, want))


def ended(passed, failed):
    """The last line of a check, and its status: one that tested nothing has failed."""
    print('%d passed, %d failed' % (passed, failed))
    return 0 if failed == 0 and passed > 0 else 1
