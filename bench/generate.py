#!/usr/bin/env python3
"""Writes a correct trace of one register to standard output, and makes towers.

Of a safe register process 0 writes, one write after the other; the other
processes read. A read during which no write is open returns what was written
last, or 0 before the first write; each other read returns a value by chance, of a regular one what was written last.

Of an atomic register every process reads and writes. Each operation happens at
once at some moment between its invocation and its answer, so a read returns what
was there at that moment, which is nil at first; no value is written twice.

Moments are the numbers of the lines, so they rise and none occurs twice. Where
the number of events is even, every operation is answered.
"""
import argparse
import random

READERS = 8
EVENT = "{:process %s :type :%s :f :%s :value %s :index %s}\n"


def trace(events, seed=1, writes=0.5, regular=False):
    """The lines of a trace of so many events; `writes` is the share of operations that write. Of a `regular` register a
    read during which a write is open returns what was written last when it is answered."""
    chance = random.Random(seed)
    value = 0          # of the last finished write
    writing = None     # the value of the open write
    reading = {}       # open reads: process -> whether a write overlaps it

    def any_process():
        return 0 if chance.random() < writes else chance.randint(1, READERS)

    upcoming = any_process()  # of the next operation; its turn also ends its open one
    for index in range(events):
        opened = len(reading) + (writing is not None)
        last_ones = events - index <= opened
        if opened and (last_ones or chance.random() < 0.5):
            process = chance.choice(sorted(reading) + ([0] if writing is not None else []))
        else:
            process = upcoming

        if process == 0 and writing is None:
            writing = chance.randint(1, 999)
            reading = dict.fromkeys(reading, True)
            upcoming = any_process()
            yield EVENT % (0, "invoke", "write", writing, index)
        elif process == 0:
            yield EVENT % (0, "ok", "write", writing, index)
            value, writing = writing, None
        elif process not in reading:
            reading[process] = writing is not None
            upcoming = any_process()
            yield EVENT % (process, "invoke", "read", "nil", index)
        else:
            overlapped = reading.pop(process)
            answer = chance.randint(0, 999) if overlapped and not regular else value
            yield EVENT % (process, "ok", "read", answer, index)


def atomic_trace(events, seed=1, processes=10, reads=0.5):
    """The lines of a trace of so many events; `reads` is the share of operations that read."""
    chance = random.Random(seed)
    value, written = "nil", 0
    opened = {}        # process -> what it does, and with which value
    to_happen = set()  # the open ones that did not happen yet

    def happen(process):
        nonlocal value
        to_happen.discard(process)
        act, own = opened[process]
        if act == "write":
            value = own
        else:
            opened[process] = act, value

    for index in range(events):
        if to_happen and chance.random() < 0.5:
            happen(chance.choice(sorted(to_happen)))
        last_ones = events - index <= len(opened)
        if opened and (last_ones or len(opened) == processes or chance.random() < 0.5):
            process = chance.choice(sorted(opened))
            if process in to_happen:
                happen(process)
            yield EVENT % (process, "ok", *opened.pop(process), index)
        else:
            process = chance.choice([each for each in range(processes) if each not in opened])
            if chance.random() < reads:
                opened[process] = "read", "nil"
            else:
                written += 1
                opened[process] = "write", written
            to_happen.add(process)
            yield EVENT % (process, "invoke", *opened[process], index)


ATOMIC_TOWER = "{:levels [{:name top :registers [{:name x :kind :atomic :writers :any}]}]}\n"
REGULAR_TOWER = "{:levels [{:name top :registers [{:name x :kind :regular :writers [0] :initial 0}]}]}\n"


CLAIMED_TOWER = "{:levels [{:name top :registers [{:name x :kind :atomic :writers [0]}]}]}\n"
CLAIMED = ["regular", "safe", "atomic"]


def claimed_trace(claims, operations=1_000):
    """The lines of a trace of so many operations, writes and reads that return what was written, one after the other,
    and then of so many claims of other kinds."""
    for number in range(operations):
        process, act, value = (0, "write", number) if number % 2 == 0 else (1, "read", number - 1)
        yield EVENT % (process, "invoke", act, value, 2 * number)
        yield EVENT % (process, "ok", act, value, 2 * number + 1)
    for number in range(claims):
        yield "{:edit :claim :register x :kind :%s}\n" % CLAIMED[number % len(CLAIMED)]


def kind_of(register):
    return ["safe", "regular", "atomic"][register % 3]


def flat_tower(registers):
    """The pieces of a tower file of so many registers of each kind in turn, on one level."""
    yield "{:levels [{:name all :registers [\n"
    for register in range(registers):
        yield "{:name %s :kind :%s :writers [%s] :initial 0}\n" % (register, kind_of(register), register % 4)
    yield "]}]}\n"


def flat_trace(events, registers, first=0, step=1):
    """The lines of a trace of so many events, a multiple of four, over these registers of a flat tower in turn: a
    write by the writer of the register, and a read by another process which returns its value."""
    numbers = range(first, registers, step)
    for turn in range(events // 4):
        register = numbers[turn % len(numbers)]
        number = turn * step + first
        value, moment = number + 1, number * 4
        for offset, (process, stage, act, said) in enumerate(
            [(register % 4, "invoke", "write", value), (register % 4, "ok", "write", value), (register % 4 + 4, "invoke", "read", "nil"), (register % 4 + 4, "ok", "read", value)]
        ):
            yield EVENT % (process, stage, act, "[%s %s]" % (register, said), moment + offset)


def flat_lines(events, registers):
    """What `regaudit check` prints of one such trace, or of four that share its registers."""
    turns = events // 4
    for register in range(registers):
        count = turns // registers + (register < turns % registers)
        yield "register %s %s holds %s\n" % (register, kind_of(register), 2 * count)

LEVELS = ["bits", "safe", "regular", "atomic"]
KINDS = ["safe", "safe", "regular", "atomic"]


def levels(registers):
    """The numbers of the registers of each level, the lowest first."""
    edges = [registers * level // len(LEVELS) for level in range(len(LEVELS) + 1)]
    return [range(first, end) for first, end in zip(edges, edges[1:])]


def tower(registers):
    """The pieces of a tower file of so many registers, a multiple of the number of levels."""
    yield "{:levels ["
    for level, numbers in enumerate(levels(registers)):
        yield "{:name %s :registers [\n" % LEVELS[level]
        for number in numbers:
            parts = ""
            if level:
                below = number - len(numbers)
                parts = " :domain [0 1 2] :of [register-%s register-%s]" % (below, number % len(numbers))
            yield "{:name register-%s :kind :%s :writers [0] :initial 0%s}\n" % (number, KINDS[level], parts)
        yield "]}\n"
    yield "]}\n"


def lines_of_tower(registers):
    """What `regaudit tower` prints of it."""
    for level, numbers in enumerate(levels(registers)):
        for number in numbers:
            yield "%s %s register-%s %s\n" % (number, LEVELS[level], number, KINDS[level])


def main():
    words = argparse.ArgumentParser(description=__doc__)
    words.add_argument("events", type=int)
    words.add_argument("--seed", type=int, default=1)
    words.add_argument("--writes", type=float, default=0.5, help="share of operations that write, 0 to 1")
    words.add_argument("--atomic", action="store_true", help="of an atomic register of ten processes")
    told = words.parse_args()
    if told.atomic:
        lines = atomic_trace(told.events, told.seed, reads=1 - told.writes)
    else:
        lines = trace(told.events, told.seed, told.writes)
    for line in lines:
        print(line, end="")


if __name__ == "__main__":
    main()
