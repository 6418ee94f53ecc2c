#!/usr/bin/env python3
"""Writes generated scenario files into a directory.

    generate.py [--no-script] DIR COUNT SEED

About two thirds of the files are sound, the rest is damaged: a sound file of
which some bytes, lines or numbers were changed, most often so that it is
faulty. File i depends on SEED and i alone, not on COUNT.

With --no-script the sound files have no script lines, and a damaged file that
has any gets a last line that is faulty for sure.
"""
import argparse
import os
import random

MAX_FILE = 32768
SCRIPT = b"pfbrg"


def text(letter, *numbers):
    return " ".join([letter] + [str(n) for n in numbers])


# ---- sound files ----

class Cell:
    """One sound file. Things that are declared later may name what is there already.

    In a rising cell every send has a greater signal than the row that sends it,
    so its work comes to an end and any number of dispatches ends idle. For this
    the upper half of the signals moves no chart and is all that entries and
    exits send.
    """

    def __init__(self, rng):
        self.rng = rng
        self.rising = rng.random() < 0.5
        self.signals = sorted(rng.sample(range(1, 65), rng.choice([2, 2, 3, 3, 4, 4, 6, 10, 24])))
        if rng.random() < 0.3:
            self.signals = sorted(set(self.signals[1:-1]) | {1, 64})
        self.upper = self.signals[len(self.signals) // 2]
        self.lines = []
        self.pools = []
        self.sends = []  # kind and signal of each
        self.states = [(0, 0)]  # parent and depth of each, the top first
        self.rows = self.flat_rows = self.transitions = 0
        self.values = [0, 1, 65535]
        self.heavy = rng.random() < 0.25  # whether the net has marks and arcs near 255
        self.loud = rng.choice([0.3, 0.8, 1])  # how often a state has an entry or exit send

    def add(self, letter, *numbers):
        self.lines.append(text(letter, *numbers))

    def signal(self):
        if self.rng.random() < 0.03:
            return self.rng.randint(1, 64)
        return self.rng.choice(self.signals)

    def word(self):
        rng = self.rng
        if rng.random() < 0.7:
            return min(65535, max(0, rng.choice(self.values) + rng.choice([-1, 0, 0, 1])))
        return rng.choice([rng.randint(0, 10), rng.randint(0, 65535)])

    # set-up

    def set_up(self):
        rng = self.rng
        todo = []
        if rng.random() < 0.97:
            count = rng.choice([1, 1, 1, 2, 2, 3])
            sizes = sorted(rng.sample(range(1, 9), count))
            left = 64
            for i, size in enumerate(sizes):
                most = left - (count - 1 - i)
                frames = min(most, rng.choice([1, 1, 2, 2, 3, 4, 6, 10, 20, 40, 64]))
                left -= frames
                self.pools.append((size, frames))
                todo.append("P")
        todo += ["Q"] * rng.choice([0, 1, 2, 3, 3, 3, 5])
        todo += ["S"] * rng.choice([0, 1, 3, 6, 12, 40])
        todo += ["W"] * rng.choice([0, 1, 1, 2])
        rng.shuffle(todo)
        pools = iter(self.pools)
        for letter in todo:
            if letter == "P":
                self.add("P", *next(pools))
            elif letter == "Q":
                self.add("Q", rng.randint(1, 3), rng.choice([1, 2, 2, 3, 4, 8, 15, 16]),
                         rng.choice([0, 1, 1, 2, 3, 7, 8]))
            elif letter == "S":
                self.add("S", rng.randint(1, 3), self.signal())
            else:
                self.add("W", rng.randint(0, 1))

    # tables

    def send_for(self, signal):
        """A declared send that a row of this signal may have, or 0."""
        fit = [i for i, (kind, sent) in enumerate(self.sends, 1)
               if not self.rising or kind == 3 or sent > signal]
        return self.rng.choice(fit) if fit and self.rng.random() < 0.8 else 0

    def crossing_send(self):
        return self.send_for(self.upper - 1) if self.rng.random() < self.loud else 0

    def add_send(self):
        rng = self.rng
        if len(self.sends) == 32:
            return
        kind = rng.choice([1, 1, 1, 2, 2, 2, 3, 3, 3])
        if kind == 3:
            self.sends.append((3, 0))
            self.add("D", 3, 0, 0, 0)
            return
        signal = self.signal()
        self.sends.append((kind, signal))
        receiver = 0
        if kind == 1:
            receiver = rng.randint(4, 8) if rng.random() < 0.1 else rng.randint(1, 3)
        self.add("D", kind, receiver, signal, self.word())

    def add_state(self):
        if len(self.states) == 33:
            return
        fit = [s for s, (_, depth) in enumerate(self.states) if depth < 4]
        parent = self.rng.choice(fit[-6:] if self.rng.random() < 0.7 else fit)
        self.states.append((parent, self.states[parent][1] + 1))
        self.add("H", parent, self.crossing_send(), self.crossing_send())

    def set_initial(self):
        target = self.rng.randrange(len(self.states))
        above = []
        state = self.states[target][0]
        while state:
            above.append(state)
            state = self.states[state][0]
        if above:
            self.add("I", self.rng.choice(above), target)

    def add_row(self):
        rng = self.rng
        if self.rows == 64 or len(self.states) == 1:
            return
        self.rows += 1
        signal = self.signal()
        guard = rng.choice([0, 0, 1, 2])
        value = 0
        if guard:
            value = rng.choice([0, 1, 2, 5, 100, 65535, rng.randint(0, 65535)])
            self.values.append(value)
        kinds = [0, 0, 0, 1, 2]
        if self.rising and signal >= self.upper:
            kinds = [1, 2]
        kind = rng.choice(kinds)
        # A low number is more likely near the top, a high one further down.
        state = min(rng.randint(1, len(self.states) - 1) for _ in range(rng.choice([1, 2, 3])))
        target = max(rng.randint(1, len(self.states) - 1) for _ in range(rng.choice([1, 1, 2]))) if kind == 0 else 0
        send = self.send_for(signal) if kind != 2 else 0
        self.add("R", state, signal, guard, value, kind, target, send)

    def add_flat_row(self):
        rng = self.rng
        if self.flat_rows == 64:
            return
        self.flat_rows += 1
        few = rng.choice([1, 2, 2, 3, 16])
        signal = self.signal()
        if rng.random() < 0.3:
            self.add("F", rng.randint(1, few), signal, 2, 0, 0)
        else:
            self.add("F", rng.randint(1, few), signal, 0, rng.randint(1, few), self.send_for(signal))

    def place(self):
        return self.rng.randint(1, 2 if self.heavy else 8)

    def set_marks(self):
        amounts = [1, 127, 128, 253, 254, 255] if self.heavy else [0, 1, 1, 2, 3, 5, 100, 255]
        self.add("N", self.place(), self.rng.choice(amounts))

    def add_transition(self):
        if self.transitions == 8:
            return
        self.transitions += 1
        signal = self.signal()
        self.add("T", signal, self.send_for(signal))

    def set_arc(self):
        rng = self.rng
        if self.transitions:
            amounts = [0, 1, 1, 2, 127, 128, 254, 255] if self.heavy else [0, 0, 1, 1, 2]
            self.add("A", rng.randint(1, self.transitions), self.place(),
                     rng.choice(amounts), rng.choice(amounts))

    def declare(self):
        rng = self.rng
        todo = []
        for call, counts in [(self.add_send, [2, 6, 12, 32]), (self.add_state, [1, 3, 6, 12, 32]),
                             (self.set_initial, [0, 1, 3, 10]), (self.add_row, [4, 12, 30, 64]),
                             (self.add_flat_row, [4, 10, 25, 64]), (self.set_marks, [0, 1, 4, 10]),
                             (self.add_transition, [1, 3, 5, 8]), (self.set_arc, [0, 2, 6, 20])]:
            todo += [call] * (rng.choice(counts) if rng.random() < 0.9 else 0)
        if rng.random() < 0.3:
            rng.shuffle(todo)
        for call in todo:
            call()

    # script

    def event(self):
        rng = self.rng
        size = rng.choice(self.pools)[0]
        words = rng.choice([0, 1, 1, size, rng.randint(0, size)])
        return [self.signal()] + [self.word() for _ in range(words)]

    def turns(self):
        rng = self.rng
        if self.rising:
            return rng.choice([0, 1, 1, 2, 3, 5, 10, 1000, 65535])
        if rng.random() < 0.002:
            return 3000
        return rng.choice([0, 1, 1, 2, 3, 5, 10, 20])

    def script(self):
        rng = self.rng
        weights = [rng.choice([1, 2, 5]), rng.choice([0, 1, 3]), rng.choice([0, 1, 3]),
                   rng.choice([0, 1]), rng.choice([1, 2, 4])]
        if not self.pools:
            weights = [0, 0, 0, 0, 1]
        count = rng.choice([1, 3, 8, 20, 20, 50, 50, 150])
        if rng.random() < 0.01:
            count = 9000
        room = MAX_FILE - sum(len(line) + 1 for line in self.lines)
        for letter in rng.choices("pfbrg", weights, k=count):
            if letter == "g":
                line = text("g", self.turns())
            elif letter in "pf":
                line = text(letter, rng.randint(1, 3), *self.event())
            else:
                line = text(letter, *self.event())
            room -= len(line) + 1
            if room < 0:
                break
            self.lines.append(line)


def sound(rng, script):
    cell = Cell(rng)
    if rng.random() < 0.95:
        cell.set_up()
    if rng.random() < 0.95:
        cell.declare()
    if script:
        cell.script()
    return "".join(line + "\n" for line in cell.lines).encode()


# ---- damage: each takes the bytes of a file and answers changed ones ----

BYTES = b" \n\r\t\0-+#.0123456789PQSWDHIRFNTApfbrgxz\x0b\x7f\x80\xff"
NUMBERS = ["0", "1", "2", "3", "4", "5", "7", "8", "9", "15", "16", "17", "31", "32", "33", "63", "64", "65",
           "254", "255", "256", "65534", "65535", "65536", "65537", "99999", "100000", "131073", "4294967297",
           "18446744073709551617", "00", "01", "007", "-1", "+1", "1.", "x", ""]
GOOD_NUMBERS = NUMBERS[:NUMBERS.index("65535") + 1]


def change_byte(rng, data):
    i = rng.randrange(len(data))
    return data[:i] + bytes([rng.choice(BYTES)]) + data[i + 1:]


def insert_byte(rng, data):
    i = rng.randrange(len(data) + 1)
    return data[:i] + bytes([rng.choice(BYTES)]) + data[i:]


def delete_byte(rng, data):
    i = rng.randrange(len(data))
    return data[:i] + data[i + 1:]


def cut(rng, data):
    return data[:rng.randrange(len(data))]


def no_last_feed(rng, data):
    return data[:-1]


def lines_of(data):
    *lines, rest = data.split(b"\n")
    return [line + b"\n" for line in lines] + ([rest] if rest else [])


def drop_line(rng, data):
    lines = lines_of(data)
    if lines:
        del lines[rng.randrange(len(lines))]
    return b"".join(lines)


def double_line(rng, data):
    lines = lines_of(data)
    if lines:
        i = rng.randrange(len(lines))
        lines[i:i] = [lines[i]] * rng.choice([1, 1, 1, 2, 8, 9, 32, 33, 64, 65])
    return b"".join(lines)


def move_line(rng, data):
    lines = lines_of(data)
    if lines:
        line = lines.pop(rng.randrange(len(lines)))
        lines.insert(rng.randrange(len(lines) + 1), line)
    return b"".join(lines)


def change_line(change):
    """Damage to one line. Every letter that the file has is as likely as the others."""
    def damage(rng, data):
        lines = lines_of(data)
        letter = rng.choice(sorted({line[:1] for line in lines}))
        i = rng.choice([i for i, line in enumerate(lines) if line[:1] == letter])
        lines[i] = change(rng, lines[i])
        return b"".join(lines)
    return damage


def change_number(rng, line):
    words = line[:-1].split(b" ")
    numbers = NUMBERS if rng.random() < 0.2 else GOOD_NUMBERS
    words[rng.randrange(min(1, len(words) - 1), len(words))] = rng.choice(numbers).encode()
    return b" ".join(words) + b"\n"


def more_or_fewer(rng, line):
    words = line[:-1].split(b" ")
    if rng.random() < 0.5:
        words.append(rng.choice(NUMBERS).encode())
    else:
        words.pop()
    return b" ".join(words) + b"\n"


def change_letter(rng, line):
    return bytes([rng.choice(b"PQSWDHIRFNTApfbrgx")]) + line[1:]


def other_space(rng, line):
    return rng.choice([line.replace(b" ", b"  ", 1), line[:-1] + b" \n", b" " + line, line.replace(b" ", b"\t", 1),
                       line[:-1] + b"\r\n", b"\n" + line])


def carriage_returns(rng, data):
    return data.replace(b"\n", b"\r\n")


def random_line(rng):
    letter = rng.choice("PPQQSSWDHIRFNTApfbrg")
    least, most = {"P": (2, 2), "Q": (3, 3), "S": (2, 2), "W": (1, 1), "D": (4, 4), "H": (3, 3), "I": (2, 2),
                   "R": (7, 7), "F": (5, 5), "N": (2, 2), "T": (2, 2), "A": (4, 4), "p": (2, 10), "f": (2, 10),
                   "b": (1, 10), "r": (1, 10), "g": (1, 1)}[letter]
    numbers = [rng.choice(GOOD_NUMBERS) for _ in range(rng.randint(least, most))]
    return text(letter, *numbers).encode() + b"\n"


def add_line(rng, data):
    """A line of good form with numbers near the limits, at a random line or behind the last of its part."""
    lines = lines_of(data)
    line = random_line(rng)
    if rng.random() < 0.3:
        lines.insert(rng.randrange(len(lines) + 1), line)
        return b"".join(lines)  # often the wrong part
    parts = [b"PQSW", b"DHIRFNTA", SCRIPT]
    part = next(i for i, letters in enumerate(parts) if line[:1] in letters)
    later = b"".join(parts[part + 1:])
    i = next((i for i, l in enumerate(lines) if l[:1] in later), len(lines))
    lines.insert(i, line)
    return b"".join(lines)


def long_line(rng, data):
    length = rng.choice([79, 80, 80, 81, 81, 82, 200, 5000])
    line = rng.choice([b"b 1", b"r 64", b"p 1 1", b"p 1 12", b"P 1 10", b"g 1", b"x"])
    while len(line) + 2 < length:
        line += b" 0"
    line += b"0" * (length - len(line))
    if line.endswith(b" 00"):
        line = line[:-3] + b" 10"
    lines = lines_of(data)
    lines.insert(rng.choice([len(lines), rng.randrange(len(lines) + 1)]), line + b"\n")
    return b"".join(lines)


def large(rng, data):
    """Lines behind the last one, up to the greatest length, one byte more or much more."""
    size = rng.choice([MAX_FILE - 1, MAX_FILE, MAX_FILE, MAX_FILE + 1, MAX_FILE + 1, MAX_FILE + 2, 40000, 70000])
    data += b"g 0\n" * max(0, (size - len(data)) // 4 - 1)
    left = size - len(data)
    if left >= 4:
        data += {4: b"g 0\n", 5: b"g 10\n", 6: b"g 100\n", 7: b"g 1000\n"}[left]
    return data


DAMAGES = [change_byte, change_byte, insert_byte, delete_byte, cut, no_last_feed, drop_line, drop_line, double_line,
           double_line, move_line, move_line, change_line(change_number), change_line(change_number),
           change_line(change_number), change_line(change_number), change_line(change_number),
           change_line(change_number), change_line(change_number), change_line(more_or_fewer),
           change_line(change_letter), change_line(other_space), carriage_returns, add_line, add_line, add_line,
           add_line, long_line, large]


def damaged(rng, script):
    data = sound(rng, rng.random() < 0.5)
    for _ in range(rng.choice([1, 1, 1, 2, 3])):
        if data:
            data = rng.choice(DAMAGES)(rng, data)
    if not script and data.endswith(b"\n") and any(line[:1] in SCRIPT for line in data.split(b"\n") if line):
        data += b"x\n"
    return data


def main():
    parser = argparse.ArgumentParser(description="Writes generated scenario files into a directory.")
    parser.add_argument("--no-script", action="store_true", help="sound files without script lines")
    parser.add_argument("dir", metavar="DIR")
    parser.add_argument("count", metavar="COUNT", type=int)
    parser.add_argument("seed", metavar="SEED")
    options = parser.parse_args()
    os.makedirs(options.dir, exist_ok=True)
    script = not options.no_script
    for i in range(1, options.count + 1):
        rng = random.Random(f"{options.seed}/{i}")
        if rng.random() < 1 / 3:
            name, data = "damaged", damaged(rng, script)
        else:
            name, data = "sound", sound(rng, script)
        with open(os.path.join(options.dir, f"{i:06d}-{name}.txt"), "wb") as file:
            file.write(data)


if __name__ == "__main__":
    main()
