"""Sixteen tasks that take turns, 100,000 each."""

from collections import deque

turns = 0


def take_turns():
    global turns
    for _ in range(100_000):
        turns += 1
        yield
    print("turns", turns)


tasks = deque(take_turns() for _ in range(16))
while tasks:
    task = tasks.popleft()
    try:
        next(task)
        tasks.append(task)
    except StopIteration:
        pass
