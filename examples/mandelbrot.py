"""The Mandelbrot set in characters, with numbers of 24 binary places.

    rpy run examples/mandelbrot.py
"""

ONE = 1 << 24
SHADES = ' .:-=+*#%@'


def escapes(re, im):
    """The number of rounds until the point leaves the circle, at most 45."""
    x = 0
    y = 0
    for i in range(45):
        xx = x * x >> 24
        yy = y * y >> 24
        if xx + yy > 4 * ONE:
            return i
        y = (x * y >> 23) + im
        x = xx - yy + re
    return 45


def entry_point(argv):
    for row in range(21):
        im = (row - 10) * ONE / 8
        line = []
        for column in range(60):
            re = (column - 42) * ONE / 20
            line.append(SHADES[escapes(re, im) / 5])
        print ''.join(line)
    return 0


if __name__ == '__main__':
    import sys
    sys.exit(entry_point(sys.argv))
