"""The primes below a number, by the sieve of Eratosthenes.

    rpy run examples/sieve.py -- 100
"""


def primes(n):
    is_prime = [True] * n
    found = []
    for i in range(2, n):
        if is_prime[i]:
            found.append(i)
            j = i * i
            while j < n:
                is_prime[j] = False
                j += i
    return found


def entry_point(argv):
    n = 1000
    if len(argv) > 1:
        try:
            n = int(argv[1])
        except ValueError:
            print 'no number: ' + argv[1]
            return 1
    found = primes(n)
    if found:
        print len(found), 'primes, the last of them', found[-1]
    else:
        print 'no primes'
    return 0


if __name__ == '__main__':
    import sys
    sys.exit(entry_point(sys.argv))
