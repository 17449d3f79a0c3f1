#!/usr/bin/env python3
"""What the program has to print, worked out a second time and independently, from the rules and not from the code
(docs/RULES.md, FORMATS.md and REFUSALS.md state them).

usage: python3 tools/reference.py < INPUT > OUTPUT

The figures in crates/sample_runs/data are made with it. Nothing is kept from one line to the next but the live bonds and the
amendments: at each notice every roll of every bond is worked out whole, once with the calendar before it and once after it.
"""
import calendar
import datetime
import re
import sys

LONGEST_INPUT = 65_536
LONGEST_LINE = 100
FIRST_DATE = datetime.date(1900, 1, 1)  # day 0
FIRST_TERM, LAST_TERM = 365, 109_207
MOST_ROLLS, MOST_BONDS, MOST_ON_SHEET = 100, 32, 400
MOST_ENTRIES, MOST_CHANGES = 200, 400
OWN_LAYER = 9
DAYS_BACK_FOR_FIXING = 60

NUMBER = re.compile(rb"0|[1-9][0-9]{0,11}")
DATE = re.compile(rb"([0-9]{4})-([0-9]{2})-([0-9]{2})")
FORMS = {b"B": "nddnnnnnn", b"X": "n", b"D": "d", b"C": "d", b"M": "dd", b"W": "d"}
GRANTED = {b"D": "declared", b"C": "cancelled", b"M": "moved", b"W": "withdrawn"}


class Refusal(Exception):
    def __init__(self, number):
        self.number = number


# Days and the calendar


def date_of(day):
    return FIRST_DATE + datetime.timedelta(days=day)


def day_of(date):
    return (date - FIRST_DATE).days


def easter(year):
    """Easter Sunday by the rule of Meeus."""
    a = year % 19
    b, c = divmod(year, 100)
    d, e = divmod(b, 4)
    f = (b + 8) // 25
    g = (b - f + 1) // 3
    h = (19 * a + b - d - g + 15) % 30
    i, k = divmod(c, 4)
    l = (32 + 2 * e + 2 * i - h - k) % 7
    m = (a + 11 * h + 22 * l) // 451
    month, day = divmod(h + l - 7 * m + 114, 31)
    return datetime.date(year, month, day + 1)


def code_under(day):
    """The code in the calendar without amendments."""
    date = date_of(day)
    if date.weekday() >= 5:
        return 1
    if (date.month, date.day) in ((1, 1), (5, 1), (12, 25), (12, 26)):
        return 2
    if (date - easter(date.year)).days in (-2, 1):
        return 3
    return 0


class Amended:
    """The calendar with its amendments: the entered days, and the code that each of them has now."""

    def __init__(self, entered):
        self.entered = entered

    def code(self, day):
        if day in self.entered:
            return self.entered[day]
        return code_under(day)

    def good(self, day):
        return self.code(day) == 0

    def with_code(self, day, code):
        return Amended({**self.entered, day: code})

    def restored(self, day):
        return Amended({d: c for d, c in self.entered.items() if d != day})


# Bonds


class Bond:
    def __init__(self, fields):
        (self.number, self.effective, self.maturity, self.months, self.stub, self.mark, self.lag, self.face, self.rate) = fields


def check_fields(bond):
    fine = (
        1 <= bond.number <= 999_999
        and bond.months in (1, 3, 6, 12)
        and bond.stub in (0, 1, 2, 3)
        and bond.mark in (0, 1)
        and 0 <= bond.lag <= 10
        and 1 <= bond.face <= 100_000_000_000
        and 0 <= bond.rate <= 100_000
    )
    if not fine:
        raise Refusal(1)
    if not all(FIRST_TERM <= day <= LAST_TERM for day in (bond.effective, bond.maturity)):
        raise Refusal(2)
    if bond.maturity <= bond.effective:
        raise Refusal(2)


def month_length(year, month):
    return calendar.monthrange(year, month)[1]


def shifted(anchor, months, mark):
    """The day so many months after the anchor (before it, if negative)."""
    date = date_of(anchor)
    year, month = divmod(date.year * 12 + date.month - 1 + months, 12)
    month += 1
    length = month_length(year, month)
    at_end = mark == 1 and date.day == month_length(date.year, date.month)
    return day_of(datetime.date(year, month, length if at_end else min(date.day, length)))


def unadjusted_rolls(bond):
    backward = bond.stub in (0, 1)
    anchor, far_end = (bond.maturity, bond.effective) if backward else (bond.effective, bond.maturity)
    step = -bond.months if backward else bond.months
    regular = []
    k = 1
    while True:
        day = shifted(anchor, k * step, bond.mark)
        if not bond.effective < day < bond.maturity:
            break
        regular.append(day)
        k += 1
    regular.sort()
    if day != far_end and regular:
        if bond.stub == 1:
            regular = regular[1:]
        if bond.stub == 3:
            regular = regular[:-1]
    return [bond.effective] + regular + [bond.maturity]


def tried(u):
    """The days that modified following tries: on to the month's end, then back from the day before."""
    date = date_of(u)
    month_end = u + month_length(date.year, date.month) - date.day
    return list(range(u, month_end + 1)) + list(range(u - 1, u - 31, -1))


class Roll:
    """A roll's adjusted day and fixing, and the days on which both depend."""

    def __init__(self, pile, bond, u, is_last):
        run = []
        for day in tried(u):
            run.append(day)
            if pile.good(day):
                break
        else:
            raise Refusal(20)
        self.adjusted = run[-1]
        self.fixing = None
        if bond.lag > 0 and not is_last:
            back = range(self.adjusted - 1, self.adjusted - DAYS_BACK_FOR_FIXING - 1, -1)
            good = [day for day in back if pile.good(day)]
            if len(good) < bond.lag:
                raise Refusal(21)
            self.fixing = good[bond.lag - 1]
        self.lowest = min(run) if self.fixing is None else min(min(run), self.fixing)
        self.highest = max(run)

    def depends_on(self, day):
        return self.lowest <= day <= self.highest


def rolls_of(pile, bond):
    days = unadjusted_rolls(bond)
    return [Roll(pile, bond, u, i == len(days) - 1) for i, u in enumerate(days)]


def amount(bond, days):
    """Face by rate by days, to the nearest minor unit, an exact half going up."""
    return (2 * bond.face * bond.rate * days + 36_000_000) // (2 * 36_000_000)


def payments_of(bond, rolls):
    """Each payment's date, fixing, days and amount."""
    payments = []
    for start, end in zip(rolls, rolls[1:]):
        days = end.adjusted - start.adjusted
        payments.append((end.adjusted, start.fixing, days, amount(bond, days)))
    return payments


# The sheet


class Sheet:
    def __init__(self):
        self.bonds = {}
        self.pile = Amended({})

    def by_number(self):
        return [self.bonds[number] for number in sorted(self.bonds)]

    def all_rolls(self, pile):
        return [(bond, rolls_of(pile, bond)) for bond in self.by_number()]

    def enter(self, bond):
        check_fields(bond)
        if bond.number in self.bonds:
            raise Refusal(3)
        count = len(unadjusted_rolls(bond))
        if count > MOST_ROLLS:
            raise Refusal(5)
        on_sheet = sum(len(unadjusted_rolls(live)) for live in self.by_number())
        if len(self.bonds) == MOST_BONDS or on_sheet + count > MOST_ON_SHEET:
            raise Refusal(6)
        rolls_of(self.pile, bond)
        self.bonds[bond.number] = bond
        return ["entered %d %d" % (bond.number, count)]

    def retire(self, number):
        if number not in self.bonds:
            raise Refusal(4)
        del self.bonds[number]
        return ["retired %d" % number]

    def amended(self, letter, days):
        """The calendar after a notice; what it refuses of the calendar's own."""
        before = self.pile
        opens = days[:1] if letter in (b"C", b"M") else []
        closes = days[-1:] if letter in (b"D", b"M") else []
        if letter == b"M" and days[0] == days[1]:
            raise Refusal(11)
        if any(before.good(day) for day in opens) or any(not before.good(day) for day in closes):
            raise Refusal(12)
        if letter == b"W":
            if days[0] not in before.entered:
                raise Refusal(13)
            return before.restored(days[0])
        fresh = [day for day in days if day not in before.entered]
        if len(before.entered) + len(fresh) > MOST_ENTRIES:
            raise Refusal(14)
        after = before
        for day in opens:
            after = after.with_code(day, 0)
        for day in closes:
            after = after.with_code(day, OWN_LAYER)
        return after

    def notice(self, letter, days):
        before, after = self.pile, self.amended(letter, days)
        old = self.all_rolls(before)
        new = self.all_rolls(after)
        counted = sum(any(roll.depends_on(day) for day in days) for _, rolls in old for roll in rolls)
        changes = []
        for (bond, old_rolls), (_, new_rolls) in zip(old, new):
            pairs = zip(payments_of(bond, old_rolls), payments_of(bond, new_rolls))
            for k, (was, now) in enumerate(pairs, start=1):
                if was != now:
                    changes.append(change_line(bond, k, was, now, after.code(was[0]), before.code(now[0])))
        if len(changes) > MOST_CHANGES:
            raise Refusal(30)
        self.pile = after
        return ["%s %d %d" % (GRANTED[letter], counted, len(changes))] + changes


def date_text(day):
    return "-" if day is None else date_of(day).isoformat()


def change_line(bond, k, was, now, code_after_of_old, code_before_of_new):
    fields = [bond.number, k]
    fields += [date_text(was[0]), date_text(now[0]), date_text(was[1]), date_text(now[1])]
    fields += [was[2], now[2], was[3], now[3], code_after_of_old, code_before_of_new]
    return " ".join(str(field) for field in fields)


# Lines


def field_of(kind, word):
    if kind == "n":
        if not NUMBER.fullmatch(word):
            raise Refusal(50)
        return int(word)
    match = DATE.fullmatch(word)
    if not match:
        raise Refusal(50)
    year, month, day = (int(part) for part in match.groups())
    if not 1900 <= year <= 2199 or not 1 <= month <= 12 or not 1 <= day <= month_length(year, month):
        raise Refusal(50)
    return day_of(datetime.date(year, month, day))


def answer(sheet, line):
    """The lines printed for one line of the input."""
    if len(line) > LONGEST_LINE:
        raise Refusal(50)
    if line == b"" or line.startswith(b"#"):
        return []
    letter, *words = line.split(b" ")
    if letter not in FORMS or len(words) != len(FORMS[letter]):
        raise Refusal(50)
    fields = [field_of(kind, word) for kind, word in zip(FORMS[letter], words)]
    if letter == b"B":
        return sheet.enter(Bond(fields))
    if letter == b"X":
        return sheet.retire(fields[0])
    return sheet.notice(letter, fields)


def report(text):
    out = ["convention M"]
    if len(text) > LONGEST_INPUT:
        out.append("no 51 0")
    else:
        lines = text.split(b"\n")
        if lines[-1] == b"":
            lines.pop()
        sheet = Sheet()
        for number, line in enumerate(lines, start=1):
            try:
                out += answer(sheet, line)
            except Refusal as refusal:
                out.append("no %d %d" % (refusal.number, number))
    return "".join(line + "\n" for line in out)


if __name__ == "__main__":
    sys.stdout.write(report(sys.stdin.buffer.read()))
