"""The primes up to 1,000 by the sieve of Eratosthenes, 3,000 times."""

is_crossed = [False] * 1001


def count_primes():
    count = 0
    for n in range(2, 1001):
        is_crossed[n] = False
    for n in range(2, 1001):
        if not is_crossed[n]:
            count += 1
            for multiple in range(n * n, 1001, n):
                is_crossed[multiple] = True
    return count


def run():
    for _ in range(3000):
        count = count_primes()
    print("primes", count)


run()
