"""A sorted tree, into which numbers are put at random, walked in order.

    rpy run examples/trees.py -- 20
"""


class Node(object):
    def __init__(self, key):
        self.key = key
        self.count = 1
        self.left = None
        self.right = None


def insert(node, key):
    if node is None:
        return Node(key)
    if key < node.key:
        node.left = insert(node.left, key)
    elif key > node.key:
        node.right = insert(node.right, key)
    else:
        node.count += 1
    return node


def walk(node, keys):
    if node is not None:
        walk(node.left, keys)
        keys.append(str(node.key))
        walk(node.right, keys)


def depth(node):
    if node is None:
        return 0
    return 1 + max(depth(node.left), depth(node.right))


def entry_point(argv):
    n = 12
    if len(argv) > 1:
        try:
            n = int(argv[1])
        except ValueError:
            print 'no number: ' + argv[1]
            return 1
    seed = 12345
    root = None
    for _ in range(n):
        seed = (seed * 1103515245 + 12345) & 0x7fffffff
        root = insert(root, (seed >> 8) % 1000)
    keys = []
    walk(root, keys)
    print ' '.join(keys)
    print 'depth', depth(root)
    return 0


if __name__ == '__main__':
    import sys
    sys.exit(entry_point(sys.argv))
