#!/usr/bin/env python3
"""Writes the inputs of the benchmark, always the same ones.

- bonds.txt: 32 bonds with 400 rolls together, and no notice
- mixed.txt: these bonds, then as many notices as an input has room for, half of their days near rolls and fixings
- apart.txt: these bonds, then as many notices, on days on which no roll stands
- tenth.txt: the beginning of mixed.txt, with a tenth of the notices
"""
import argparse
import os
import random
from datetime import date, timedelta

SEED = 1954
BONDS, ROLLS = 32, 400
LONGEST_INPUT = 65_536
MOST_ENTRIES = 200
FIRST, LAST = date(2023, 1, 1), date(2025, 12, 31)
ONE = timedelta(1)


def easter(year):
    a, (b, c) = year % 19, divmod(year, 100)
    d, e = divmod(b, 4)
    g = (b - (b + 8) // 25 + 1) // 3
    h = (19 * a + b - d - g + 15) % 30
    i, k = divmod(c, 4)
    l = (32 + 2 * e + 2 * i - h - k) % 7
    m = (a + 11 * h + 22 * l) // 451
    month, day = divmod(h + l - 7 * m + 114, 31)
    return date(year, month, day + 1)


def is_good(day):
    """Whether T leaves a day open."""
    fixed = (day.month, day.day) in ((1, 1), (5, 1), (12, 25), (12, 26))
    return day.weekday() < 5 and not fixed and (day - easter(day.year)).days not in (-2, 1)


def good_before(day):
    """The good day next before a day in T."""
    day -= ONE
    while not is_good(day):
        day -= ONE
    return day


def month_end(day):
    return date(day.year + day.month // 12, day.month % 12 + 1, 1) - ONE


def shifted(anchor, months, mark):
    """The day so many months after an anchor."""
    year, month = divmod(anchor.year * 12 + anchor.month - 1 + months, 12)
    end = month_end(date(year, month + 1, 1))
    if mark and anchor == month_end(anchor):
        return end
    return end.replace(day=min(anchor.day, end.day))


class Bond:
    def __init__(self, number, effective, maturity, months, stub, mark, lag, face, rate):
        self.lag = lag
        self.line = f"B {number} {effective} {maturity} {months} {stub} {mark} {lag} {face} {rate}"
        anchor, end, step = (maturity, effective, -months) if stub < 2 else (effective, maturity, months)
        regular = []
        while effective < (day := shifted(anchor, step * (len(regular) + 1), mark)) < maturity:
            regular.append(day)
        if stub in (1, 3) and day != end and regular:
            regular.pop()
        self.rolls = [effective, *sorted(regular), maturity]

    def footings(self):
        """Of each roll the first and the last day on which it stands in T."""
        for u in self.rolls:
            low = high = u
            while not is_good(high) and high < month_end(u):
                high += ONE
            adjusted = high if is_good(high) else good_before(u)
            low = min(low, adjusted)
            fixing = adjusted
            for _ in range(0 if u == self.rolls[-1] else self.lag):
                fixing = good_before(fixing)
            yield min(low, fixing), high


def drawn_bond(rng, number, rolls):
    """A bond of so many rolls that meets the years of the notices."""
    while True:
        months, stub, mark, lag = rng.choice((1, 3, 3, 6, 6, 12)), rng.randrange(4), rng.randrange(2), rng.randrange(11)
        effective = date(2019, 1, 1) + timedelta(rng.randrange(2_350))
        if mark:
            effective = month_end(effective)
        maturity = shifted(effective, months * (rolls - 1), mark) + timedelta(rng.choice((0, rng.randrange(40 * months))))
        face, rate = rng.randrange(10_000, 10_000_000_000), rng.randrange(6_000)
        bond = Bond(number, effective, maturity, months, stub, mark, lag, face, rate)
        if len(bond.rolls) == rolls and date(2024, 1, 1) < maturity < date(2031, 1, 1):
            return bond


def drawn_bonds(rng):
    """32 bonds, with 4 to 20 rolls each and 400 together."""
    counts = [ROLLS // BONDS + i % 2 for i in range(BONDS)]
    for _ in range(100):
        one, other = rng.sample(range(BONDS), 2)
        if counts[one] > 4 and counts[other] < 20:
            counts[one] -= 1
            counts[other] += 1
    assert sum(counts) == ROLLS
    return [drawn_bond(rng, n, rolls) for n, rolls in zip(rng.sample(range(1, 1_000_000), BONDS), counts)]


class Notices:
    """Draws notices on days of a list, and keeps track of the days that they amend."""

    def __init__(self, rng, days):
        self.rng, self.days = rng, days
        self.good = {}

    def day(self, good):
        """A day that is good now, or one that is closed."""
        while True:
            day = self.rng.choice(self.days)
            if self.good.get(day, is_good(day)) == good:
                return day

    def granted(self):
        # The more days are entered, the more often one of them is withdrawn.
        if self.rng.randrange(MOST_ENTRIES - 1) < len(self.good):
            day = self.rng.choice(sorted(self.good))
            del self.good[day]
            return f"W {day}"
        letter = self.rng.choice("DDDCCM")
        amended = {"D": [False], "C": [True], "M": [True, False]}[letter]
        days = [self.day(not good) for good in amended]
        self.good.update(zip(days, amended))
        return " ".join((letter, *map(str, days)))

    def refused(self):
        letter = self.rng.choice("DCMW")
        if letter == "M":
            return "M {0} {0}".format(self.rng.choice(self.days))
        if letter == "W":
            return f"W {self.rng.choice([day for day in self.days if day not in self.good])}"
        return f"{letter} {self.day(letter == 'C')}"

    def lines(self, room, share_refused):
        """Notices for so many bytes."""
        while True:
            line = self.refused() if self.rng.random() < share_refused else self.granted()
            room -= len(line) + 1
            if room < 0:
                return
            yield line


def main():
    parser = argparse.ArgumentParser(description=__doc__, formatter_class=argparse.RawDescriptionHelpFormatter)
    parser.add_argument("folder", help="where the inputs are written")
    folder = parser.parse_args().folder
    os.makedirs(folder, exist_ok=True)
    rng = random.Random(SEED)
    bonds = drawn_bonds(rng)
    entries = [bond.line for bond in bonds]
    room = LONGEST_INPUT - sum(len(line) + 1 for line in entries)

    every = [FIRST + n * ONE for n in range((LAST - FIRST).days + 1)]
    year_after = [LAST + n * ONE for n in range(1, 366)]
    footings = [(low, high) for bond in bonds for low, high in bond.footings() if low <= LAST and high >= FIRST]
    apart = [day for day in every if not any(low <= day <= high for low, high in footings)]
    around = [low + n * ONE for low, high in footings for n in range(-3, (high - low).days + 4)]
    mixed = around + 2 * (every + apart) + year_after

    notices = list(Notices(rng, mixed).lines(room, 0.05))
    inputs = {
        "bonds": [],
        "mixed": notices,
        "tenth": notices[: len(notices) // 10],
        "apart": list(Notices(rng, apart).lines(room, 0)),
    }
    for name, lines in inputs.items():
        with open(os.path.join(folder, name + ".txt"), "w", encoding="ascii") as file:
            file.writelines(line + "\n" for line in entries + lines)


main()
