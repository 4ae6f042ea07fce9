#!/usr/bin/env python3
"""Turns a schedule, read from standard input, into its listing, written to standard output.

Written from docs/LOCK.md, docs/REFUSALS.md, docs/SCHEDULES.md and docs/DECISIONS.md alone. It shares
no code with the library, and keeps things the plain way, in sets and lists.
"""

import sys

LONGEST_INPUT = 65_536
LARGEST_NUMBER = 4_294_967_295
THICKEST = 1_000_000
MOST_TASKS = 64
MOST_UPGRADES = 1_000
ROWS = 16

C, D, GATE, X, PERMIT, U, V = range(7)
CLEAR, UPGRADING, UPGRADED_NOW = 0, 1, 2  # what U holds
OPENED_CELLS = [0, 0, 0, 1, 1, 0, 0]

REST, INSIDE = "rest", "inside"
NORMAL, UPGRADED, DOWNGRADED = "normal", "upgraded", "downgraded"
READING, WRITING = "r", "w"


class Refused(Exception):
    """A question was answered no."""

    def __init__(self, number):
        super().__init__(number)
        self.number = number


def ask(number, answer):
    """Question `number`: goes on where the answer is yes."""
    if not answer:
        raise Refused(number)


class Memory:
    """Seven cells under the cache layer. Each operation charges its share to the task that does it."""

    LIMITS = {b"w": LARGEST_NUMBER, b"p": 15}

    def __init__(self, letter):
        self.limit = self.LIMITS[letter]
        self.numbers = list(OPENED_CELLS)
        self.holders = [set() for _ in self.numbers]

    def read(self, task, cell):
        """Free for a holder; whoever else reads pays, and becomes a holder."""
        if task.number not in self.holders[cell]:
            task.pay(1)
            self.holders[cell].add(task.number)
        return self.numbers[cell]

    def write(self, task, cell, number):
        """On a lock that was opened and only called, every number fits its cell."""
        assert 0 <= number <= self.limit, "the cell cannot hold this number"
        task.pay(1)
        self.holders[cell].clear()
        self.numbers[cell] = number

    def add(self, task, cell, change):
        self.write(task, cell, self.numbers[cell] + change)

    def swap(self, task, cell, expected, new):
        """Pays and empties the copies also where it says no."""
        holds = self.numbers[cell] == expected
        self.write(task, cell, new if holds else self.numbers[cell])
        return holds


class Task:
    """A task of the lock: its place, its four registers, and its account."""

    def __init__(self, number, role):
        self.number = number
        self.writer = role == ord("W")
        self.place = REST  # REST, INSIDE, or the name of the line that it does next
        self.standing = NORMAL  # what it is inside as; while it upgrades, what it was inside as
        self.leaves = False  # at 28.1 and 28.2: it leaves (and does not downgrade)
        self.prev = self.curr = self.d = self.x = 0
        self.cost = 0
        self.upgrades = 0

    def pay(self, share):
        self.cost = min(self.cost + share, LARGEST_NUMBER)

    def right(self):
        """The right of a task inside."""
        if self.standing == UPGRADED or (self.writer and self.standing == NORMAL):
            return WRITING
        return READING

    def enter(self, standing):
        """Where a line leads that lets the task inside."""
        self.standing = standing
        return INSIDE

    def shown_place(self):
        """A listing's word for the place: for a line ten times its number."""
        if self.place == REST:
            return "-"
        if self.place == INSIDE:
            return self.right()
        whole, _, tenths = self.place.partition(".")
        return str(10 * int(whole) + int(tenths or 0))

    def shown(self):
        return f"{self.shown_place()} {self.cost}"


# The lines, part by part. Each function does one line and gives the place that it leads to.

PART_OF = {}


def part(names):
    """Enters a function into PART_OF under the published number of each line that it does."""

    def enter(function):
        PART_OF.update(dict.fromkeys(names.split(), function))
        return function

    return enter


@part("0.1 0.2 1 2 3 4 6")
def writer(line, task, memory, queue):
    match line:
        case "0.1":
            queue.append(task.number)
            return "0.2"
        case "0.2":
            return "1" if queue[:1] == [task.number] else "0.2"
        case "1":
            task.prev = memory.read(task, D)
            return "2"
        case "2":
            task.curr = max(1 - task.prev, 0)
            return "3"
        case "3":
            memory.write(task, D, task.curr)
            return "4"
        case "4":
            memory.write(task, PERMIT, 0)
            return "9"
        case "6":
            return task.enter(NORMAL) if memory.read(task, PERMIT) == 1 else "6"


@part("9 10 11 12 13 14 15")
def promote(line, task, memory, _queue):
    end = "6" if task.writer else REST
    match line:
        case "9":
            task.x = memory.read(task, X)
            return "10"
        case "10":
            return end if task.x == 0 else "11"
        case "11":
            return "12" if memory.swap(task, X, task.x, task.number) else end
        case "12":
            return end if memory.read(task, PERMIT) == 1 else "13"
        case "13":
            return "14" if memory.read(task, C) == 0 else end
        case "14":
            return "15" if memory.swap(task, X, task.number, 0) else end
        case "15":
            memory.write(task, PERMIT, 1)
            return end


@part("16 16.1 17 18 19 20 21 22 22.1 22.2")
def reader(line, task, memory, _queue):
    match line:
        case "16":
            memory.add(task, C, 1)
            return "16.1"
        case "16.1":
            memory.swap(task, U, UPGRADING, CLEAR)
            return "17"
        case "17":
            task.d = memory.read(task, D)
            return "18"
        case "18":
            task.x = memory.read(task, X)
            return "19"
        case "19":
            return "21" if task.x == 0 else "20"
        case "20":
            memory.swap(task, X, task.x, task.number)
            return "21"
        case "21":
            return "22" if memory.read(task, X) == 0 else "22.1"
        case "22":
            return "22.1" if memory.read(task, GATE) == task.d else "22"
        case "22.1":
            return "22.2" if memory.read(task, U) == UPGRADED_NOW else task.enter(NORMAL)
        case "22.2":
            return task.enter(NORMAL) if memory.read(task, V) == 0 else "22.2"


@part("27.1 27.2 27.3 27.4 27.5")
def upgrade(line, task, memory, _queue):
    turned_down = INSIDE  # inside as before: the standing is the one that the task had
    match line:
        case "27.1":
            return turned_down if memory.read(task, C) > 1 else "27.2"
        case "27.2":
            memory.write(task, U, UPGRADING)
            return "27.3"
        case "27.3":
            return turned_down if memory.read(task, C) > 1 else "27.4"
        case "27.4":
            memory.write(task, V, 1)
            return "27.5"
        case "27.5":
            granted = memory.swap(task, U, UPGRADING, UPGRADED_NOW)
            return task.enter(UPGRADED) if granted else turned_down


@part("25.1 25.2 25.3")
def downgrade(line, task, memory, _queue):
    match line:
        case "25.1":
            memory.add(task, C, 1)
            return "25.2"
        case "25.2":
            memory.write(task, GATE, task.curr)
            return "25.3"
        case "25.3":
            memory.write(task, X, task.number)
            return task.enter(DOWNGRADED)


@part("28.1 28.2 29.2")
def end_upgrade(line, task, memory, _queue):
    match line:
        case "28.1":
            memory.write(task, V, 0)
            return "28.2"
        case "28.2":
            memory.write(task, U, CLEAR)
            return "29.2" if task.leaves else task.enter(DOWNGRADED)
        case "29.2":
            memory.add(task, C, -1)
            return "32.1" if task.writer else "9"


@part("7 8 26.1 23 32.1")
def leave(line, task, memory, queue):
    match line:
        case "7":
            memory.write(task, GATE, task.curr)
            return "8"
        case "8":
            memory.write(task, X, task.number)
            return "32.1"
        case "26.1":
            memory.add(task, C, -1)
            return "32.1"
        case "23":
            memory.add(task, C, -1)
            return "9"
        case "32.1":
            assert queue[:1] == [task.number], "only the oldest quits"
            queue.pop(0)
            return REST


class Lock:
    """A lock that is open, and its calls. Each call gives what the listing shows after ok."""

    def __init__(self, memory, _queue, roles):
        ask(12, 1 <= len(roles) <= MOST_TASKS)
        ask(13, all(role in b"RW" for role in roles))
        self.memory = Memory(memory)
        ask(14, self.memory.limit >= max(2, len(roles)))
        self.queue = []  # Ring and Masks have one meaning: who waits, oldest first
        self.tasks = [Task(number, role) for number, role in enumerate(roles, 1)]
        self.rows = [0] * ROWS

    def task(self, number):
        ask(20, 1 <= number <= len(self.tasks))
        return self.tasks[number - 1]

    def does(self, task, name):
        """The task does this line."""
        task.place = PART_OF[name](name, task, self.memory, self.queue)
        return task.shown()

    def begin(self, number):
        task = self.task(number)
        ask(21, task.place == REST)
        task.cost = task.upgrades = 0
        return self.does(task, "0.1" if task.writer else "16")

    def advance(self, number):
        task = self.task(number)
        ask(23, task.place not in (REST, INSIDE))
        return self.does(task, task.place)

    def takes(self, number, wanted=None):
        """The task that a pass is taken for: of the wanted right, or of whichever it has."""
        task = self.task(number)
        ask(24, task.place == INSIDE)
        ask(26, wanted in (None, task.right()))
        return task

    def upgrade(self, number):
        task = self.takes(number, READING)
        ask(29, task.upgrades < MOST_UPGRADES)
        task.upgrades += 1
        return self.does(task, "27.1")

    def downgrade(self, number):
        task = self.takes(number, WRITING)
        task.leaves = False
        return self.does(task, "28.1" if task.standing == UPGRADED else "25.1")

    def leave(self, number):
        task = self.takes(number)
        task.leaves = True
        if task.standing == UPGRADED:
            return self.does(task, "28.1")
        if not task.writer:
            return self.does(task, "23")
        return self.does(task, "7" if task.standing == NORMAL else "26.1")

    def read(self, number, row):
        task = self.takes(number)
        ask(30, row < ROWS)
        return f"{task.shown()} {self.rows[row] or 'absent'}"

    def put(self, number, row, thickness):
        task = self.takes(number, WRITING)
        ask(30, row < ROWS)
        ask(31, 1 <= thickness <= THICKEST)
        self.rows[row] = thickness
        return task.shown()


# The text of a schedule.


def is_number(field):
    """Decimal digits with no leading zero, as many as one likes."""
    return field.isdigit() and (field == b"0" or field[:1] != b"0")


def is_any_of(*letters):
    return lambda field: field in letters


def is_filled(field):
    return field != b""


CALLS = {
    b"O": (None, [is_any_of(b"w", b"p"), is_any_of(b"r", b"m"), is_filled]),
    b"E": (Lock.begin, [is_number]),
    b"S": (Lock.advance, [is_number]),
    b"U": (Lock.upgrade, [is_number]),
    b"D": (Lock.downgrade, [is_number]),
    b"L": (Lock.leave, [is_number]),
    b"R": (Lock.read, [is_number, is_number]),
    b"P": (Lock.put, [is_number, is_number, is_number]),
}


def small_enough(digits):
    """Asked before the number is made of its digits, which may be thousands."""
    return len(digits) <= len(str(LARGEST_NUMBER)) and int(digits) <= LARGEST_NUMBER


def parse(text):
    """The call that a line names, with its fields: 40, 41 of the whole line, 42."""
    ask(40, text[:1] in CALLS)
    call, kinds = CALLS[text[:1]]
    letter, *fields = text.split(b" ")
    ask(41, letter in CALLS and len(fields) == len(kinds))
    ask(41, all(is_kind(field) for is_kind, field in zip(kinds, fields)))
    if call is None:
        return call, fields
    ask(42, all(small_enough(field) for field in fields))
    return call, [int(field) for field in fields]


class Schedule:
    """One schedule has one lock, which an obeyed O opens."""

    def __init__(self):
        self.lock = None

    def obey(self, text):
        """What the listing shows after ok."""
        call, fields = parse(text)
        if call is None:
            ask(11, self.lock is None)
            self.lock = Lock(*fields)
            return str(len(self.lock.tasks))
        ask(10, self.lock is not None)
        return call(self.lock, *fields)

    def answer(self, text):
        """The listing's text for a line that is not blank."""
        if text.startswith(b"#"):
            return text
        try:
            return b"ok " + self.obey(text).encode()
        except Refused as refused:
            return b"no %d" % refused.number


def lines_of(text):
    """Lines end in byte 10; the last may lack it."""
    lines = text.split(b"\n")
    return lines[:-1] if lines[-1] == b"" else lines


def listing(text):
    if len(text) > LONGEST_INPUT:
        return b"0 no 43\n"
    schedule = Schedule()
    return b"".join(
        b"%d %s\n" % (number, schedule.answer(text))
        for number, text in enumerate(lines_of(text), 1)
        if text != b""
    )


if __name__ == "__main__":
    sys.stdout.buffer.write(listing(sys.stdin.buffer.read()))
