"""Conway's game of life on a torus.

    rpy run examples/life.py -- 4
"""

GLIDER = ['.#......', '..#.....', '###.....', '........', '........', '........']


def neighbours(rows, y, x):
    height = len(rows)
    width = len(rows[y])
    count = 0
    for dy in range(-1, 2):
        row = rows[(y + dy) % height]
        for dx in range(-1, 2):
            if (dy != 0 or dx != 0) and row[(x + dx) % width] == '#':
                count += 1
    return count


def lives(rows, y, x):
    count = neighbours(rows, y, x)
    return count == 3 or (count == 2 and rows[y][x] == '#')


def step(rows):
    later = []
    for y in range(len(rows)):
        cells = []
        for x in range(len(rows[y])):
            if lives(rows, y, x):
                cells.append('#')
            else:
                cells.append('.')
        later.append(''.join(cells))
    return later


def entry_point(argv):
    steps = 4
    if len(argv) > 1:
        try:
            steps = int(argv[1])
        except ValueError:
            print 'no number: ' + argv[1]
            return 1
    rows = [row for row in GLIDER]
    for _ in range(steps):
        rows = step(rows)
    for row in rows:
        print row
    return 0


if __name__ == '__main__':
    import sys
    sys.exit(entry_point(sys.argv))
