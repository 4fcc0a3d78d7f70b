"""A thousand numbers that look like random ones, sorted by insertion, 40 times."""

numbers = [0] * 1001
seed = 1


def fill():
    global seed
    for i in range(1, 1001):
        seed = (seed * 1103515245 + 12345) % 2147483648
        numbers[i] = seed


def sort():
    for i in range(2, 1001):
        number = numbers[i]
        place = i
        while place > 1 and numbers[place - 1] > number:
            numbers[place] = numbers[place - 1]
            place -= 1
        numbers[place] = number


for _ in range(40):
    fill()
    sort()
print("least", numbers[1])
print("middle", numbers[500])
print("greatest", numbers[1000])
