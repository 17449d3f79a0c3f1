#!/usr/bin/env python3
"""A random input for the program, the same one for the same seed; standard error tells how often each answer occurs.

usage: python3 tools/random_runs.py SEED LINES > INPUT

The lines of crates/sample_runs/data/long_1.in, long_2.in and long_3.in are those of seeds 1, 2 and 3, with 400, 500 and 600 lines.
Days are taken where they matter: at rolls and fixings of live bonds, at Easter, at month ends, at days that are entered already.
"""
import collections
import datetime
import random
import sys

import reference

NEAR = (datetime.date(2023, 1, 1), datetime.date(2027, 12, 31))
FAR = (datetime.date(1990, 1, 1), datetime.date(2100, 12, 31))
MALFORMED = ["D 2024-02-30", "B 1 2024-01-01", "X", "c 2024-05-01", "M 2025-12-25", "W  2025-01-02", "D 2024-1-02", "Z 1", "X 012", "C 2024-05-01 "]


class Maker:
    """Makes lines one by one, each from the state after those before it."""

    def __init__(self, seed):
        self.random = random.Random(seed)
        self.sheet = reference.Sheet()
        self.fewest = self.random.choice([8, 14, 20])  # bonds to begin with
        self.siege = []  # lines still to come that close one day after the other
        self.hot = [self.near_day() for _ in range(5)]  # days on which many bonds roll

    def chance(self, share):
        return self.random.random() < share

    def date_within(self, bounds):
        first, last = (reference.day_of(date) for date in bounds)
        return self.random.randint(first, last)

    def near_day(self):
        """A day of 2023 to 2027, often a month's end or the middle of a month."""
        day = self.date_within(NEAR)
        date = reference.date_of(day)
        kind = self.random.randrange(4)
        if kind == 0:
            return day + reference.month_length(date.year, date.month) - date.day
        if kind == 1:
            return day - date.day + 15
        return day

    # Bonds

    def number(self):
        if self.sheet.bonds and self.chance(0.08):
            return self.random.choice(sorted(self.sheet.bonds))
        return self.random.choice([self.random.randint(1, 99), self.random.randint(1, 999_999)])

    def bond(self):
        r = self.random
        months = r.choice([1, 3, 3, 6, 6, 12])
        stub, mark, lag = r.randrange(4), r.randrange(2), r.choice([0, 1, 2, 2, 3, 5, 9, 10])
        one_end = r.choice(self.hot) if self.chance(0.8) else self.date_within(NEAR if self.chance(0.5) else FAR)
        periods = r.choice([1, 2, 4, 6, 8, 12, 20, r.randint(1, 60), 105])
        other_end = reference.shifted(one_end, r.choice([-1, 1]) * periods * months, mark)
        if self.chance(0.5):
            other_end += r.randint(-20, 20)
        effective, maturity = sorted((one_end, other_end))
        face, rate = r.choice([100, 3_600, 1_000_000, r.randint(1, 10**11)]), r.choice([0, 1_000, 4_500, r.randint(1, 100_000)])
        if self.chance(0.04):
            months, lag = r.choice([(months, 11), (2, lag)])
        elif self.chance(0.03):
            effective, maturity = maturity, effective
        dates = [reference.date_text(day) for day in (effective, maturity)]
        return "B %d %s %s %d %d %d %d %d %d" % (self.number(), *dates, months, stub, mark, lag, face, rate)

    # Notices

    def hot_roll(self):
        """The adjusted day of a day on which many bonds roll, or of one some months before or after it."""
        u = reference.shifted(self.random.choice(self.hot), self.random.choice([0, 0, 0, 6, -6, 12, -12]), self.random.randrange(2))
        return next((day for day in reference.tried(u) if self.sheet.pile.good(day)), u)

    def roll(self):
        """Any roll of any live bond, rather one that is near, and its bond."""
        rolls = [(bond, u) for bond in self.sheet.by_number() for u in reference.unadjusted_rolls(bond)]
        first, last = (reference.day_of(date) for date in NEAR)
        near = [(bond, u) for bond, u in rolls if first <= u <= last]
        return self.random.choice(near if near and self.chance(0.9) else rolls)

    def any_day(self):
        r = self.random
        kind = r.randrange(10)
        if kind < 4 and self.sheet.bonds:
            bond, u = self.roll()
            roll = reference.Roll(self.sheet.pile, bond, u, u == bond.maturity)
            return r.choice([u, roll.adjusted, roll.fixing or u, roll.lowest - 1, roll.highest + 1]) + r.choice([-2, -1, 0, 0, 0, 0, 1, 2])
        if kind == 5:
            return reference.day_of(reference.easter(r.randint(2023, 2027))) + r.choice([-3, -2, -2, -1, 0, 1, 1, 2])
        if kind == 6:
            return reference.day_of(datetime.date(r.randint(2023, 2027), *r.choice([(1, 1), (5, 1), (12, 24), (12, 25), (12, 26), (12, 31)])))
        if kind == 7 and self.sheet.pile.entered:
            return r.choice(sorted(self.sheet.pile.entered))
        if kind == 8 and self.chance(0.3):
            return self.date_within(FAR)
        return self.hot_roll() + r.choice([-1, 0, 0, 1])

    def day(self, good):
        """A day that is good, or one that is closed; now and then just any day."""
        day = self.any_day()
        if self.chance(0.9):
            for _ in range(200):
                if self.sheet.pile.good(day) == good:
                    break
                day = self.any_day() if self.chance(0.5) else day + self.random.choice([-1, 1])
        return day

    def notice(self):
        entered = sorted(self.sheet.pile.entered)
        kind = self.random.randrange(10)
        if len(entered) > 150 and self.chance(0.5):
            kind = 9
        if kind < 3:
            return "D " + reference.date_text(self.day(True))
        if kind < 5:
            return "C " + reference.date_text(self.day(False))
        if kind < 8:
            opened = self.day(False)
            closed = self.day(True)
            if self.chance(0.4):
                closed = next((day for day in range(opened + 1, opened + 9) if self.sheet.pile.good(day)), closed)
            if self.chance(0.05):
                closed = opened
            return "M %s %s" % (reference.date_text(opened), reference.date_text(closed))
        if entered and self.chance(0.85):
            return "W " + reference.date_text(self.random.choice(entered))
        return "W " + reference.date_text(self.any_day())

    def begin_siege(self):
        """Closes the good days around a roll: those that it tries, or those before it that its fixing counts."""
        bond, u = self.roll()
        roll = reference.Roll(self.sheet.pile, bond, u, u == bond.maturity)
        if roll.fixing is not None and bond.lag >= 5:
            days = range(roll.adjusted - 1, roll.adjusted - reference.DAYS_BACK_FOR_FIXING - 1, -1)
        else:
            days = reference.tried(u)
        days = [day for day in days if self.sheet.pile.good(day)]
        if self.chance(0.5):
            self.random.shuffle(days)
        self.siege = ["D " + reference.date_text(day) for day in days]

    def line(self):
        if len(self.sheet.pile.entered) == reference.MOST_ENTRIES and self.chance(0.5):
            self.siege = []
        if self.siege:
            return self.siege.pop(0)
        if len(self.sheet.bonds) < self.fewest or self.chance(0.2):
            return self.bond()
        share = self.random.random()
        if share < 0.03:
            return self.random.choice(["# a remark", "", "#"])
        if share < 0.06:
            return self.random.choice(MALFORMED)
        if share < 0.13:
            live = self.chance(0.8)
            return "X %d" % (self.random.choice(sorted(self.sheet.bonds)) if live else self.random.randint(0, 10**6))
        if share < 0.14:
            self.begin_siege()
            return "# days around a roll are closed one by one"
        return self.notice()


def main():
    seed, count = (int(word) for word in sys.argv[1:])
    maker = Maker(seed)
    tally, most = collections.Counter(), 0
    for _ in range(count):
        line = maker.line()
        try:
            lines = reference.answer(maker.sheet, line.encode())
        except reference.Refusal as refusal:
            lines = ["no %d" % refusal.number]
        print(line)
        if lines:
            words = lines[0].split()
            tally["no " + words[1] if words[0] == "no" else words[0]] += 1
            if len(lines) > 1:
                tally[words[0] + ", with changes"] += 1
            tally["changes"] += len(lines) - 1
            most = max(most, len(lines) - 1)
    for name, times in sorted(tally.items()):
        print("%6d %s" % (times, name), file=sys.stderr)
    print("%6d the most changes of one notice" % most, file=sys.stderr)


if __name__ == "__main__":
    main()
