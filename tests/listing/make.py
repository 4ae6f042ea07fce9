#!/usr/bin/env python3
"""Makes the random and the large vectors, and all listings, by oracle.py.

usage: make.py                 the random schedules of vectors/, and the listing of every schedule there
       make.py large FOLDER    the schedules that are too large to store, with their listings
"""

import os
import sys

sys.dont_write_bytecode = True
import oracle

HERE = os.path.dirname(os.path.abspath(__file__))
PAIRS = ["w r", "w m", "p r", "p m"]
ROLES_OF_WALKS = ["RW", "RRW", "RWRWR", "RRWRRRWRRRWRRRWR", "RRRW" * 16]
MOST_ON_PACKED = 15
LONGEST = oracle.LONGEST_INPUT


class Dice:
    """Numbers that look random: the same from the same seed, on every machine and every Python."""

    def __init__(self, seed):
        self.state = seed * 2 + 1

    def below(self, bound):
        self.state = (self.state * 6364136223846793005 + 1442695040888963407) % 2**64
        return (self.state >> 33) % bound

    def one_of(self, choices):
        return choices[self.below(len(choices))]

    def in_hundred(self, percent):
        return self.below(100) < percent


# Walks: most calls suit the place of the task, the others are of any kind.


def any_call(dice, letters, tasks):
    letter = dice.one_of(letters)
    task = dice.one_of([dice.below(tasks + 2), 1 + dice.below(tasks), 1 + dice.below(tasks)])
    row = dice.one_of([dice.below(16), dice.below(16), 15, 16, 99])
    thickness = dice.one_of([1 + dice.below(oracle.THICKEST), 0, 1, 1_000_000, 1_000_001])
    return [f"{letter} {task}", f"{letter} {task} {row}", f"{letter} {task} {row} {thickness}"][
        {"R": 1, "P": 2}.get(letter, 0)
    ]


def fitting_call(dice, letters, task):
    """A call that is obeyed in the task's place."""
    if task.place == oracle.REST:
        return f"E {task.number}"
    if task.place != oracle.INSIDE:
        return f"S {task.number}"
    row = dice.below(16)
    if dice.in_hundred(15):
        return f"R {task.number} {row}"
    if task.right() == oracle.READING:
        return f"{dice.one_of('UUL')} {task.number}"
    if "P" in letters and dice.in_hundred(40):
        return f"P {task.number} {row} {1 + dice.below(oracle.THICKEST)}"
    return f"{dice.one_of('DL')} {task.number}"


def walk(seed, opening, letters, count):
    """The lines of a walk. It stays with a task for a while, so that some get far."""
    dice = Dice(seed)
    schedule = oracle.Schedule()
    schedule.obey(opening.encode())
    tasks = schedule.lock.tasks
    lines = [opening]
    task = tasks[0]
    while len(lines) < count:
        if dice.in_hundred(25):
            task = dice.one_of(tasks)
        if dice.in_hundred(8):
            lines.append(any_call(dice, letters, len(tasks)))
        else:
            lines.append(fitting_call(dice, letters, task))
        schedule.answer(lines[-1].encode())
    return lines


def text_of(lines):
    return "".join(line + "\n" for line in lines).encode()


def walks():
    """Walks over all pairs and numbers of tasks; those with P in them are named put-."""
    for number, pair in enumerate(PAIRS):
        memory, queue = pair.split()
        for roles in ROLES_OF_WALKS:
            if memory == "p" and len(roles) > MOST_ON_PACKED:
                roles = roles[:MOST_ON_PACKED]
            name = f"walk-{memory}{queue}-{len(roles)}"
            count = 300 + 6 * len(roles)
            yield name, text_of(walk(1000 * number + len(roles), f"O {pair} {roles}", "ESUDLR", count))
        yield f"put-walk-{memory}{queue}", text_of(walk(7 + number, f"O {pair} RWR", "ESUDLRP", 300))


# Text that is wrong here and there, or wrong altogether.

NOISE = b" 019\t\r\x00\xff#EOSULDRwrx-+"
ALPHABET = b"OESUDLR# 0123456789wprmRW\r\t\n\n\n\n\nE 1\nS 1\nO w r RW\n"


def spoiled(dice, text):
    """A byte is put in, taken out, or altered."""
    at = dice.below(len(text) + 1)
    byte = bytes([dice.one_of(NOISE)])
    return text[:at] + dice.one_of([byte, b"", byte]) + text[at + dice.below(2) :]


def noise(seed, pair):
    dice = Dice(seed)
    lines = walk(seed, f"O {pair} RWRW", "ESUDLR", 200)
    spoilt = [line.encode() for line in lines]
    for number in range(len(spoilt)):
        if dice.in_hundred(25):
            spoilt[number] = spoiled(dice, spoilt[number])
    return b"\n".join([f"O {pair} RWX".encode(), *spoilt])


def bytes_from(seed, count, choices=bytes(range(256))):
    dice = Dice(seed)
    return bytes(dice.one_of(choices) for _ in range(count))


def front_bytes(tail):
    """Every byte but 10 and P at the front of a line."""
    return b"".join(bytes([byte]) + tail for byte in range(256) if byte not in b"\nP")


def upgrades_turned_down():
    """Reader 1 is turned down 1,000 times, and then refused, until its next attempt."""
    inside = ["E 1"] + ["S 1"] * 7
    lines = ["O w r RR", "E 2"] + ["S 2"] * 7 + inside + ["U 1"] * 1_002
    lines += ["D 1", "R 1 0", "S 1", "U 2", "L 1"] + ["S 1"] * 5 + inside + ["U 1"] * 2
    return text_of(lines)


def stored():
    yield from walks()
    for number, pair in enumerate(PAIRS):
        yield f"noise-{pair.replace(' ', '')}", noise(50 + number, pair)
    yield "bytes-any", bytes_from(90, 2_000)
    yield "bytes-of-schedules", bytes_from(91, 2_000, ALPHABET)
    yield "bytes-in-front", b"O w m RW\n" + front_bytes(b"\n")
    yield "bytes-in-front-of-a-field", b"O p r RW\n" + front_bytes(b" 1\n")
    yield "ask-29-upgrades", upgrades_turned_down()


# Large ones.


def filled(lines):
    """The lines, and the last of them cut where the input would be too long."""
    return text_of(lines)[:LONGEST]


def upgrades_granted():
    """1,000 upgrades of one attempt, each granted and given up; then 29, and 1 in the next attempt."""
    granted = ["U 1"] + ["S 1"] * 4
    inside = ["E 1"] + ["S 1"] * 7
    lines = ["O p m RW"] + inside + (granted + ["D 1", "S 1"]) * 1_000
    return text_of(lines + ["U 1", "R 1 3", "D 1", "L 1"] + ["S 1"] * 4 + inside + granted)


def lengths():
    """Around the longest input."""
    yield "length-longest-blank", b"\n" * LONGEST
    yield "length-longest-note", b"#" * (LONGEST - 1) + b"\n"
    yield "length-longest-note-open", b"#" * LONGEST
    yield "length-longest-calls", (b"O w r R\n" + b"E 1\nS 1\n" * LONGEST)[:LONGEST]
    yield "length-longest-calls-open", (b"O w r R\nE 1\n#\n" + b"S 1\n" * LONGEST)[:LONGEST]
    yield "length-longest-refused", b"E\n" * (LONGEST // 2)
    yield "length-one-more-blank", b"\n" * (LONGEST + 1)
    yield "length-one-more-note", b"#" * LONGEST + b"\n"
    yield "length-one-more-calls", (b"E 1\n" * LONGEST)[:LONGEST] + b"\n"
    yield "length-twice", b"S 1\n" * (LONGEST // 2)
    yield "length-a-million", b"#" * 1_000_000
    yield "length-of-a-number", b"O w r R\nE " + b"9" * (LONGEST - 10)
    yield "length-of-a-number-with-a-zero", b"O w r R\nE 0" + b"1" * (LONGEST - 11)
    yield "length-of-roles", b"O w r " + b"R" * (LONGEST - 6)
    yield "length-of-fields", b"O w r R\nE" + b" 1" * (LONGEST // 2 - 5)


def queue_of_many(seed, pair, writers):
    """The oldest writer goes in and out and joins again, last, while all the others wait."""
    dice = Dice(seed)
    waiting = []
    for number in range(1, writers + 1):
        waiting.insert(dice.below(number), number)
    lines = [f"O {pair} {'W' * writers}"] + [f"E {task}" for task in waiting]
    while len(lines) < 18_000:
        task = waiting.pop(0)
        lines += [f"S {task}"] * 13 + [f"S {dice.one_of(waiting)}", f"L {task}"] + [f"S {task}"] * 2
        waiting.append(task)
        lines += [f"E {task}", f"S {task}"]
    return lines


def large():
    yield from lengths()
    yield "upgrades-granted", upgrades_granted()
    for number, pair in enumerate(PAIRS):
        tail = pair.replace(" ", "")
        roles = ("RRWRWRRR" * 8)[: MOST_ON_PACKED if pair[0] == "p" else 64]
        yield f"queue-of-many-{tail}", filled(queue_of_many(340 + number, pair, len(roles)))
        yield f"long-walk-{tail}", filled(walk(300 + number, f"O {pair} {roles}", "ESUDLR", 18_000))
        yield f"long-walk-of-few-{tail}", filled(walk(310 + number, f"O {pair} RWRW", "ESUDLR", 18_000))
        yield f"put-long-walk-{tail}", filled(walk(320 + number, f"O {pair} RWWR", "ESUDLRP", 18_000))
    yield "long-bytes-any", bytes_from(330, LONGEST)
    yield "long-bytes-of-schedules", bytes_from(331, LONGEST, ALPHABET)


def write(folder, name, content):
    with open(os.path.join(folder, name), "wb") as file:
        file.write(content)


def make(folder, schedules):
    """Writes the schedules into the folder, and the listing of every schedule there."""
    for name, text in schedules:
        write(folder, name + ".txt", text)
    for name in sorted(os.listdir(folder)):
        if name.endswith(".txt"):
            with open(os.path.join(folder, name), "rb") as file:
                write(folder, name[:-4] + ".listing", oracle.listing(file.read()))


if __name__ == "__main__":
    match sys.argv[1:]:
        case []:
            make(os.path.join(HERE, "vectors"), stored())
        case ["large", folder]:
            make(folder, large())
        case _:
            sys.exit(__doc__)
