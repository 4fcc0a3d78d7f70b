"""A hundred million additions in one loop."""


def run():
    total = 0
    for i in range(1, 100_000_001):
        total += i
    print("sum", total)


run()
