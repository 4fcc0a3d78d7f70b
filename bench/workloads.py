#!/usr/bin/env python3
"""Writes the images that machines are measured on, each beside the output and the number of steps that are reckoned here without a machine.

    workloads.py FOLDER     for each NAME: NAME.img, or NAME.adb of which it is to be compiled, NAME.out, NAME.steps
"""
import os
import sys

from assembler import ENTRY, PLAIN, PROCEDURE, TASK, Body, assembled

MAIN = [("MAIN", 15, 0)]


def loops(turns=5_000_000):
    """The sum of 1 to `turns`, by a counter and a test."""
    text = f"""
        PUSH 1; STL 0
        top: LDL 0; PUSH {turns}; LE; JZ done
        LDL 1; LDL 0; ADD; STL 1
        LDL 0; PUSH 1; ADD; STL 0; JMP top
        done: LDL 1; PUT 0; RET"""
    image = assembled([Body(TASK, text, locals=2)], MAIN)
    return image, [f"0 MAIN x {turns * (turns + 1) // 2}"], 2 + 13 * turns + 4 + 3


def calls(number=30):
    """The Fibonacci number by a function of one parameter that calls itself twice."""
    function = """
        LDL 0; PUSH 2; LT; JZ deeper; LDL 0; RET
        deeper: LDL 0; PUSH 1; SUB; CALL 1; LDL 0; PUSH 2; SUB; CALL 1; ADD; RET"""
    bodies = [
        Body(TASK, f"PUSH {number}; CALL 1; PUT 0; RET"),
        Body(PLAIN, function, parameters=1, results=1, locals=1),
    ]
    values, steps = [0, 1], [6, 6]
    for n in range(2, number + 1):
        values.append(values[n - 1] + values[n - 2])
        steps.append(14 + steps[n - 1] + steps[n - 2])
    return assembled(bodies, MAIN), [f"0 MAIN x {values[number]}"], 4 + steps[number]


def tree_of_calls(levels=22):
    """Two calls without parameters on each level, whose results are added."""
    bodies = [Body(TASK, "CALL 1; PUT 0; RET")]
    bodies += [Body(PLAIN, f"CALL {level + 1}; CALL {level + 1}; ADD; RET", results=1) for level in range(1, levels + 1)]
    bodies.append(Body(PLAIN, "PUSH 1; RET", results=1))
    return assembled(bodies, MAIN), [f"0 MAIN x {2**levels}"], 3 + 4 * (2**levels - 1) + 2 * 2**levels


def branches(turns=1_500_000):
    """Which of four counters is raised depends on numbers that look random."""
    text = f"""
        PUSH 12345; STL 0
        top: LDL 0; PUSH 1103515245; MUL; PUSH 12345; ADD; PUSH 2147483648; MOD; STL 0
        LDL 0; PUSH 1073741824; LT; JZ high
        LDL 0; PUSH 536870912; LT; JZ second; LDL 1; PUSH 1; ADD; STL 1; JMP next
        second: LDL 2; PUSH 1; ADD; STL 2; JMP next
        high: LDL 0; PUSH 1610612736; GE; JNZ fourth; LDL 3; PUSH 1; ADD; STL 3; JMP next
        fourth: LDL 4; PUSH 1; ADD; STL 4
        next: LDL 5; PUSH 1; ADD; STL 5; LDL 5; PUSH {turns}; EQ; JZ top
        LDL 1; PUT 0; LDL 2; PUT 0; LDL 3; PUT 0; LDL 4; PUT 0; RET"""
    value, counts, steps = 12345, [0] * 4, 2 + 9
    for _ in range(turns):
        value = (value * 1103515245 + 12345) % 2**31
        quarter = value // 2**29
        counts[quarter] += 1
        steps += 8 + 4 + 4 + (4 if quarter == 3 else 5) + 8
    image = assembled([Body(TASK, text, locals=6)], MAIN)
    return image, [f"0 MAIN x {count}" for count in counts], steps


def arrays(region, length, turns):
    """Each word of an array is raised by the one three places on and by its index, with wrapping; locals have two words before the array."""
    first = 2 if region == 0 else 0
    text = f"""
        top: PUSH 0; STL 1
        word: LDL 1; PUSH {first}; ADD
        LDL 1; PUSH {first}; ADD; LDX {region}
        LDL 1; PUSH 3; ADD; PUSH {length}; REM; PUSH {first}; ADD; LDX {region}; ADD
        LDL 1; ADD; PUSH 1000003; REM; STX {region}
        LDL 1; PUSH 1; ADD; STL 1; LDL 1; PUSH {length}; LT; JNZ word
        LDL 0; PUSH 1; ADD; STL 0; LDL 0; PUSH {turns}; LT; JNZ top
        PUSH {first}; LDX {region}; PUT 0; PUSH {first + length - 1}; LDX {region}; PUT 0; RET"""
    words = [0] * length
    for _ in range(turns):
        for index in range(length):
            words[index] = (words[index] + words[(index + 3) % length] + index) % 1000003
    body = Body(TASK, text, locals=2 + (length if region == 0 else 0))
    image = assembled([body], MAIN, words=[0] * length if region == 1 else [])
    return image, [f"0 MAIN x {words[0]}", f"0 MAIN x {words[-1]}"], turns * (2 + 29 * length + 8) + 7


def straight_sums(terms=500, times=180):
    """A function that adds `terms` numbers, called again and again on two levels, without loops and tests."""
    summed = "PUSH 0; " + "CALL {}; ADD; " * times
    bodies = [
        Body(TASK, summed.replace("{}", "1") + "PUT 0; RET"),
        Body(PLAIN, summed.replace("{}", "2") + "RET", results=1),
        Body(PLAIN, "PUSH 0; " + " ".join(f"PUSH {term}; ADD;" for term in range(terms)) + " RET", results=1),
    ]
    value = times * times * sum(range(terms))
    return assembled(bodies, MAIN), [f"0 MAIN x {value}"], 1 + times * (2 + 2 + 2 * times + times * (2 + 2 * terms)) + 2


def turns(rounds=50_000):
    """17 tasks of three priorities that wait for the same times, and tell it after the last one."""
    text = f"""
        top: LDL 0; PUSH 1000; ADD; STL 0; LDL 0; DLY
        LDG 0; PUSH 1; ADD; STG 0
        LDL 0; PUSH {1000 * rounds}; LT; JNZ top
        LDG 0; PUT 0; RET"""
    names = [f"T{number}" for number in range(16)] + ["MAIN"]
    tasks = [(name, 10 + number % 3, 0) for number, name in enumerate(names)]
    order = sorted(tasks, key=lambda task: -task[1])
    before = 17 * (rounds - 1)
    lines = [f"{1000 * rounds} {task[0]} x {before + number + 1}" for number, task in enumerate(order)]
    return assembled([Body(TASK, text, locals=1)], tasks, words=[0]), lines, 17 * (rounds * 14 + 3)


def sleepers(rounds=2_000):
    """65 tasks that all sleep, each for a time of its own, ten microseconds apart: whenever one wakes, the others sleep on."""
    text = f"""
        LDG 1; PUSH 10; ADD; STG 1; LDG 1; STL 0
        top: LDL 0; DLY
        LDG 0; PUSH 1; ADD; STG 0
        LDL 0; PUSH 650; ADD; STL 0; LDL 0; PUSH {650 * rounds + 1}; LT; JNZ top
        LDG 0; PUT 0; RET"""
    names = [f"T{number}" for number in range(64)] + ["MAIN"]
    before = 65 * (rounds - 1)
    lines = [f"{650 * (rounds - 1) + 10 * place} {name} x {before + place}" for place, name in enumerate(names, 1)]
    return assembled([Body(TASK, text, locals=1)], [(name, 10, 0) for name in names], words=[0, 0]), lines, 65 * (6 + 14 * rounds + 3)


def hand_over(values=500_000):
    """A producer puts values into one object and waits at another's entry, where the consumer lets it go on; each handing over serves one call."""
    producer = f"""
        top: LDL 0; PUSH 1; ADD; STL 0
        LDL 0; PCALL 2; ECALL 1
        LDL 0; PUSH {values}; LT; JNZ top
        LDL 0; PUT 0; RET"""
    consumer = f"""
        top: ECALL 0; LDL 1; ADD; STL 1; PCALL 4
        LDL 0; PUSH 1; ADD; STL 0; LDL 0; PUSH {values}; LT; JNZ top
        LDL 1; PUT 1; RET"""
    bodies = [
        Body(TASK, producer, locals=1),
        Body(TASK, consumer, locals=2),
        Body(PROCEDURE, "LDL 0; STP 1; PUSH 1; STP 0; RET", parameters=1, locals=1, owner=0),
        Body(ENTRY, "PUSH 0; STP 0; LDP 1; RET", results=1, owner=0),
        Body(PROCEDURE, "PUSH 1; STP 0; RET", owner=1),
        Body(ENTRY, "PUSH 0; STP 0; RET", owner=1),
    ]
    objects = [(25, 3, 2, 0, [0, 0]), (25, 5, 2, 0, [0])]
    image = assembled(bodies, [("PRODUCER", 20, 0), ("MAIN", 10, 1)], labels=("given", "sum"), objects=objects)
    lines = [f"0 PRODUCER given {values}", f"0 MAIN sum {values * (values + 1) // 2}"]
    return image, lines, values * (11 + 5 + 13 + 4 + 3 + 3) + 3 + 3


def compiled_turns(rounds=50_000):
    """16 tasks of three priorities that wait for the same times, from their source, with the code of docs/CODEGEN.md: a turn takes 22 steps, the last one 5 fewer."""
    order = sorted(range(16), key=lambda number: -(number % 3))
    tasks = "".join(f"   task T{number} with Priority => {10 + number % 3};\n" for number in range(16))
    bodies = "".join(
        f"""   task body T{number} is
      Next : Time := Clock;
   begin
      for Round in 1 .. {rounds} loop
         Next := Next + Milliseconds (1);
         delay until Next;
         Count := Count + 1;
      end loop;
      Put ("x", Count);
   end T{number};
"""
        for number in range(16)
    )
    source = f"""pragma Profile (Ravenscar);
with Ada.Real_Time; use Ada.Real_Time;
with Control_IO; use Control_IO;
package App is
   Count : Integer := 0;
{tasks}end App;
package body App is
{bodies}end App;
with App;
procedure Main is
begin
   null;
end Main;
"""
    lines = [f"{1000 * rounds} T{number} x {16 * (rounds - 1) + place + 1}" for place, number in enumerate(order)]
    return source, lines, 16 * (11 + 22 * rounds - 5 + 3) + 1


WORKLOADS = {
    "loops": loops,
    "calls": calls,
    "tree_of_calls": tree_of_calls,
    "branches": branches,
    "arrays_of_locals": lambda: arrays(0, 100, 12_000),
    "arrays_of_plain_words": lambda: arrays(1, 8_000, 150),
    "straight_sums": straight_sums,
    "turns": turns,
    "sleepers": sleepers,
    "hand_over": hand_over,
}

# their images are those that the program compiles
SOURCES = {"compiled_turns": compiled_turns}


def written(folder, name, kind, content, lines, steps):
    """Writes an image or a source beside its output and the number of its steps."""
    last_time = lines[-1].split()[0]
    for end, data in ((kind, content), ("out", "\n".join([*lines, f"ended at {last_time}"]).encode() + b"\n"), ("steps", f"{steps}\n".encode())):
        with open(os.path.join(folder, f"{name}.{end}"), "wb") as file:
            file.write(data)


if __name__ == "__main__":
    for name, workload in WORKLOADS.items():
        image, *reckoned = workload()
        written(sys.argv[1], name, "img", image.bytes(), *reckoned)
    for name, workload in SOURCES.items():
        source, *reckoned = workload()
        written(sys.argv[1], name, "adb", source.encode(), *reckoned)
