"""The first 30 Fibonacci numbers, by recursion."""


def fibonacci(n):
    if n <= 2:
        return 1
    return fibonacci(n - 1) + fibonacci(n - 2)


for n in range(1, 31):
    print("number", fibonacci(n))
