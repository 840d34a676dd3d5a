"""In how many ways so many queens stand on a board without a threat, and the first of them.

    rpy run examples/queens.py -- 8
"""


class Board(object):
    def __init__(self, size):
        self.size = size
        self.columns = [False] * size
        self.rising = [False] * (2 * size)
        self.falling = [False] * (2 * size)
        self.placed = []
        self.first = None
        self.count = 0

    def place(self, row):
        if row == self.size:
            self.count += 1
            if self.first is None:
                self.first = self.placed[:]
            return
        for column in range(self.size):
            up = row + column
            down = row - column + self.size
            if not self.columns[column] and not self.rising[up] and not self.falling[down]:
                self.take(column, up, down, True)
                self.placed.append(column)
                self.place(row + 1)
                self.placed.pop()
                self.take(column, up, down, False)

    def take(self, column, up, down, flag):
        self.columns[column] = flag
        self.rising[up] = flag
        self.falling[down] = flag


def entry_point(argv):
    size = 6
    if len(argv) > 1:
        try:
            size = int(argv[1])
        except ValueError:
            print 'no number: ' + argv[1]
            return 1
    if size < 0:
        size = 0
    board = Board(size)
    board.place(0)
    print board.count, 'ways'
    first = board.first
    if first is not None:
        for column in first:
            print '. ' * column + 'Q' + ' .' * (size - column - 1)
    return 0


if __name__ == '__main__':
    import sys
    sys.exit(entry_point(sys.argv))
