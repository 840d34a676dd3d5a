"""How often each word stands in a text, the most frequent first.

    rpy run examples/words.py -- 'the cat and the dog and the bird'
"""

DEMO = 'one fish two fish red fish blue fish'


def count(text):
    counts = {}
    for word in text.split(' '):
        if word:
            counts[word] = counts.get(word, 0) + 1
    return counts


def ordered(counts):
    """The pairs by their counts, equal ones in the order of the text."""
    pairs = []
    for word, n in counts.items():
        at = 0
        while at < len(pairs) and pairs[at][1] >= n:
            at += 1
        pairs.insert(at, (word, n))
    return pairs


def entry_point(argv):
    text = DEMO
    if len(argv) > 1:
        text = ' '.join(argv[1:])
    for word, n in ordered(count(text)):
        print n, word
    return 0


if __name__ == '__main__':
    import sys
    sys.exit(entry_point(sys.argv))
