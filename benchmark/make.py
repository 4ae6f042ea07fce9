#!/usr/bin/env python3
"""Makes the three schedules that benchmark/run.sh measures, each just below 65,536 bytes, and the first half of
each by its lines.

    make.py PLAIN FOLDER

PLAIN is the built benchmark/plain.cpp, which tells where each task of the workload is. FOLDER gets workload.txt, refusals.txt
and notes.txt, and workload-half.txt and so on.
The same seeds give the same bytes on every machine.
"""
import random
import subprocess
import sys

LARGEST = 65536


class Choices:
    """Choices by a seed. Only random() is used, whose numbers no version of Python changes."""

    def __init__(self, seed):
        self.source = random.Random(seed)

    def below(self, count):
        return int(self.source.random() * count)

    def of(self, items):
        return items[self.below(len(items))]

    def chance(self, share):
        return self.source.random() < share

    def shuffled(self, items):
        rest, taken = list(items), []
        while rest:
            taken.append(rest.pop(self.below(len(rest))))
        return taken


class Text:
    """The lines of a schedule, as long as they fit."""

    def __init__(self):
        self.lines = []
        self.size = 0

    def add(self, line):
        """Whether there was room for the line."""
        if self.size + len(line) + 1 >= LARGEST:
            return False
        self.lines.append(line)
        self.size += len(line) + 1
        return True

    def bytes(self, count=None):
        return "".join(line + "\n" for line in self.lines[:count]).encode("latin-1")


# ---- the workload ----

TASKS = 64
REST, READING, WRITING = "-", "r", "w"
# lines at which a task may wait: 0.2, 6, 22 and 22.2
WAITING = {"2", "60", "220", "222"}


def look(plain, text, places, count):
    """Brings the places of tasks up to date by what the plain program tells of the last `count` lines."""
    listing = subprocess.run([plain], input=text.bytes(), stdout=subprocess.PIPE, check=True).stdout
    told = listing.decode("ascii").rsplit("\n", count + 1)[-count - 1:-1]
    for line, answer in zip(text.lines[-count:], told):
        words = answer.split(" ")
        if words[1] == "ok":
            places[int(line.split(" ")[1])] = words[2]


def call_inside(pick, task, place, leaving):
    """A call of a task that is inside with this right."""
    if pick.chance(0.4):
        return f"R {task} {pick.below(16)}"
    if place == WRITING and pick.chance(0.4):
        thickness = pick.of([0, 1000001]) if pick.chance(0.1) else 1 + pick.below(1000000)
        return f"P {task} {pick.below(17)} {thickness}"
    if pick.chance(0.5 if leaving else 0.3):
        return f"L {task}"
    return f"D {task}" if place == WRITING else f"U {task}"


def next_call(pick, task, place, leaving):
    """What a task does in a round, if anything. Those inside stay a while, and those that wait look only now and then."""
    if place in (READING, WRITING):
        return call_inside(pick, task, place, leaving) if pick.chance(0.5) else None
    if place in WAITING and pick.chance(0.95):
        return None
    return f"S {task}"


def workload(plain):
    """64 tasks, every third a writer. Rounds go over the tasks in a new order each, and a task makes at most one
    call in a round, so that its place from the round before still holds. How many tasks are on their way or inside changes
    every 32 rounds: with few of them writers come in and upgrades are granted, with many they wait and are turned down."""
    pick = Choices(1)
    text = Text()
    text.add("O w r " + "".join("W" if task % 3 == 2 else "R" for task in range(TASKS)))
    places = [REST] * (TASKS + 1)
    crowd, rounds = 1, 0
    while True:
        if rounds % 32 == 0:
            crowd = pick.of([1, 1, 2, 2, 3, 6, 16, 48])
        rounds += 1
        busy = sum(place != REST for place in places[1:])
        before = len(text.lines)
        for task in pick.shuffled(range(1, TASKS + 1)):
            if places[task] != REST:
                line = next_call(pick, task, places[task], busy > crowd)
            elif busy < crowd:
                busy += 1
                line = f"E {task}"
            else:
                line = None
            if line and not text.add(line):
                return text
        if len(text.lines) > before:
            look(plain, text, places, len(text.lines) - before)


# ---- refusals ----

HUGE = ["4294967296", "99999999999", "18446744073709551616", "9" * 30, "1" + "0" * 60]
BAD_NUMBERS = ["00", "01", "+1", "-1", "1.0", "1\r", "x", "", " 1", "1 ", "1\t", "0x1", "9" * 30 + "x"]
BAD_OPENINGS = ["O", "O ", "O w", "O w r", "O w r ", "O x r RW", "O w x RW", "O wr RW", "O w  r RW", "O w r RW R", "Ow r RW"]
LETTERS = "ESUDL"


def bad_text(pick):
    """A line that its text refuses: 40, 41 or 42."""
    letter = pick.of(LETTERS)
    kind = pick.below(8)
    if kind == 0:
        return pick.of(["e", "u", "X", "Z", "?", " ", "\t", "\r", "0", "\xff"]) + pick.of(["", " 1", " 1 2", " 99999999999"])
    if kind == 1:
        return letter + pick.of(["", "1", "E 1", "\t1", "  1", " 1 2", " 1 "])
    if kind == 2:
        return f"{letter} {pick.of(BAD_NUMBERS)}"
    if kind == 3:
        return f"{letter} {pick.of(HUGE)}"
    if kind == 4:
        return pick.of(["R", "R 1", "R 1 01", "R 01 1", "R 1 2 3", "R 1  2", f"R {pick.of(HUGE)} 01"])
    if kind == 5:
        return f"R {pick.of(HUGE)} {pick.of(HUGE)}"
    if kind == 6:
        return pick.of(BAD_OPENINGS)
    return pick.of(["P 1 2", "P 1 2 03", f"P 1 2 {pick.of(HUGE)}", "P", "P 1 2 3 4"])


def by_lock(pick):
    """A call that the opened lock refuses: tasks 1 and 2 are inside with the reading right, 3 is at line 0.2 and 4 at rest."""
    row = pick.below(16)
    lines = [
        "O w r RW", "O p m " + "R" * 16, "E 0", f"S {5 + pick.below(60)}", "U 4294967295", "L 0", "R 0 0", "D 5",
        "E 1", "E 2", "E 3", "S 1", "S 2", "S 4", "U 3", "D 4", "L 3", "L 4", f"R 3 {row}", f"R 4 {row}",
        "D 1", "D 2", f"R 1 {16 + pick.below(1000)}", "R 2 4294967295", "U 1",
    ]
    lines += [f"P 1 {row} 4200", "P 2 16 0", "P 3 0 1", "P 5 1 1", f"P 4 {row} 1000001"]
    return pick.of(lines)


def refusals():
    pick = Choices(2)
    text = Text()
    # a closed lock: 10, the text of lines, and openings that leave nothing behind: 12, 13, 14
    for _ in range(600):
        text.add(pick.of(["E 1", "S 99", "U 0", "D 1", "L 4294967295", "R 1 1"]) if pick.chance(0.5) else bad_text(pick))
        if pick.chance(0.1):
            text.add(pick.of(["O w r " + "R" * 65, "O w m RWX", "O p r " + "W" * 16, "O p m R\r"]))
    text.add("O p m RRWR")
    for line in ["E 1"] + ["S 1"] * 7 + ["E 2"] + ["S 2"] * 7 + ["E 3"]:
        text.add(line)
    # beside another reader each upgrade is obeyed and turned down at once; from the one after 1,000 on it is 29
    for _ in range(1000):
        text.add("U 1")
    while text.add(bad_text(pick) if pick.chance(0.5) else by_lock(pick)):
        pass
    return text


# ---- notes ----


def notes():
    """A note of each length from 1 to 358 in a mixed order, a call or a blank line after each fourth, and calls to the end."""
    pick = Choices(3)
    marks = [chr(code) for code in range(32, 127)]
    first = ["E 1"] + ["S 1"] * 7 + ["R 1 15", "S 1", "Z", ""]
    text = Text()
    text.add("O w r R")
    for count, length in enumerate(pick.shuffled(range(1, 359)), 1):
        text.add("#" + "".join(pick.of(marks) for _ in range(length - 1)))
        if count % 4 == 0:
            text.add(first.pop(0) if first else pick.of(["R 1 15", "S 1", "Z", ""]))
    while text.add("R 1 15"):
        pass
    return text


def main():
    plain, folder = sys.argv[1:3]
    schedules = {"workload": workload(plain), "refusals": refusals(), "notes": notes()}
    for name, text in schedules.items():
        with open(f"{folder}/{name}.txt", "wb") as whole, open(f"{folder}/{name}-half.txt", "wb") as half:
            whole.write(text.bytes())
            half.write(text.bytes(len(text.lines) // 2))


if __name__ == "__main__":
    main()
