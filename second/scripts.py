"""Scripts of calls for the probe: by a seed, always the same script."""

import random

KINDS = ["delivering", "average", "five"]

# just inside and just past every range, and where narrower numbers would wrap
EDGES = [0, 1, 2, 64, 65, 100, 101, 260, 261, 3000, 3001, 99_999, 100_000, 999_999, 1_000_000, 9_999_999, 10_000_000]
EDGES += [(1 << bits) + more for bits in (8, 16, 31, 32, 63) for more in (-1, 0, 1, 5)] + [(1 << 64) - 1, 1 << 64]

# lines that cannot be read
UNREADABLE = [
    "", " ", "mark", "mark 5 1000000", "mark 5 1000000 81", "mark 5 1000000 3 ", "mark  5 1000000 3", "expire", "expire 81", "expire -1", "designate 1", "Designate",
    "trade 1 2 3", "trade 1 2 3 4 5", "trade 1 2 3 x", "trade 1 2 -3 4", "quote 5 18446744073709551616", "quote 5 1.5", "quote +5 1", "notify 1", "buy 1 2 3 4",
    "register CUST001 101 201 R", "register CUST00001 101 201 R", "register CUST0001 10 201 R", "register CUST0001 101 2011 R", "register CUST0001 101 201 X",
    "register CUST0\u00e901 101 201 R", "build five 10 euro 1 2 0 0", "build six 10 real 1 2 0 0", "build five 10 real 1 2 0", "build five 10 real 1 2 0 0 0",
]


# builds that are refused whatever else they say: no terms, or sessions and windows that cannot be had
UNBUILDABLE = ["build five %d real 1 5 0 0" % n for n in (0, 101, (1 << 32) + 10, (1 << 64) - 1)]
UNBUILDABLE += ["build average 10 dollar %d 5 0 0" % n for n in (0, 1 << 32, (1 << 32) + 5, (1 << 64) - 1)]
UNBUILDABLE += ["build %s 10 real 5 %d 0 0" % (kind, n) for kind in ("average", "five") for n in (0, 261, (1 << 32) + 5, (1 << 64) - 1)]
UNBUILDABLE += ["build average 10 real 5 9 %d %d" % window for window in ((0, 1), (1, 0), (1, 8), (1 << 32, 1 << 32))]
UNBUILDABLE += ["build delivering 10 real 5 9 %d %d" % window for window in ((0, 0), (0, 8), (1, 9), (5, 4), (1, 1 << 32), ((1 << 32) + 1, (1 << 32) + 2), ((1 << 64) - 1, 0))]
UNBUILDABLE += ["build delivering 10 real 5 1 %d %d" % window for window in ((0, 0), (1, 1), (1, 0))]


class Plan:
    """A book to be: what it is built on, how many accounts it is to have, and about which price it is traded."""

    def __init__(self, rng, kind=None, last=None, accounts=None, tick=None):
        self.rng, self.kind = rng, kind or rng.choice(KINDS)
        self.size = rng.choice([1, 100, rng.randint(1, 100), rng.randint(1, 100)])
        self.currency = rng.choice(["real", "dollar"])
        self.tick = tick or rng.choice([1, 7, 50, rng.randint(1, 50)])
        self.last = last or rng.choice([1, 2, 3, 5, 8, rng.randint(2, 12)])
        if self.kind == "delivering":
            self.last = max(2, self.last)
        self.opens, self.closes = sorted(rng.randint(1, self.last - 1) for _ in range(2)) if self.kind == "delivering" else (0, 0)
        self.accounts = rng.choice([0, 1, 2, 3, 5, 12, 30, 64]) if accounts is None else accounts
        self.most = rng.choice([3, 40, 400, 3000])
        self.around = rng.choice([1, 999_999 // self.tick, rng.randint(1, 999_999 // self.tick)])

    def build(self):
        return "build %s %d %s %d %d %d %d" % (self.kind, self.size, self.currency, self.tick, self.last, self.opens, self.closes)

    def register(self, k):
        return "register CUST%04d 101 201 %s" % (k, self.rng.choice("RN"))

    def price(self):
        """A multiple of the tick, within the range."""
        return self.tick * min(999_999 // self.tick, max(1, self.around + self.rng.randint(-40, 40)))

    def settlement(self):
        return self.rng.choice([1, 999_999, self.price(), min(999_999, self.price() + self.rng.randint(0, 49))])

    def rate(self):
        return self.rng.choice([100_000, 9_999_999, 2_000_000, self.rng.randint(100_000, 9_999_999)])

    def account(self):
        return self.rng.randint(1, max(1, self.accounts))

    def trade(self):
        buyer, seller = self.rng.sample(range(1, self.accounts + 1), 2) if self.accounts > 1 else (1, 2)
        return "trade %d %d %d %d" % (buyer, seller, self.price(), self.rng.randint(1, self.most))

    def odd_trade(self):
        """One with itself, at a price off the tick, past the greatest, or of many contracts."""
        buyer, seller, price = self.account(), self.account(), self.price()
        price = self.rng.choice([price, price, price + 1, price - 1, 999_999, self.tick, self.tick * (999_999 // self.tick), self.tick * (999_999 // self.tick + 1), self.tick * (1 << 32)])
        return "trade %d %d %d %d" % (buyer, seller, price, self.rng.choice([1, 2999, 3000, 3001]))

    def quote(self):
        return "quote %d %d" % (self.settlement(), 1 if self.kind == "five" else self.rng.choice([1, 3000, self.rng.randint(1, 3000)]))

    def notify(self, most=30):
        return "notify %d %d" % (self.account(), self.rng.randint(1, most))

    def rows(self):
        """How many rows are handed in: enough, one too few, or any number."""
        exact = min(80, self.accounts)
        return self.rng.choice([exact, exact, 80, min(80, exact + 1), max(0, exact - 1), self.rng.randint(0, 80)])

    def mark(self):
        return "mark %d %d %d" % (self.settlement(), self.rate(), self.rows())

    def expire(self):
        return "expire %d" % self.rows()

    def any_call(self):
        calls = [self.build, lambda: self.register(self.account()), self.trade, self.quote, self.notify, lambda: "designate", self.mark, self.expire]
        return self.rng.choice(calls)()


def edged(rng, line):
    """The call with one of its numbers at an edge, or next to what it was."""
    words = line.split(" ")
    numbers = [i for i, word in enumerate(words) if word.isdigit()]
    if numbers and words[0] != "register":
        i = rng.choice(numbers)
        words[i] = str(rng.choice(EDGES + [int(words[i]) + 1, max(0, int(words[i]) - 1)]))
    return " ".join(words)


def odd_register(rng, plan):
    """An account with a byte next to the letters and digits, or one that is there already."""
    odd = rng.choice(["/", ":", "@", "[", "A", "Z", "0", "9", "a", "z", "\u00e9"])
    customer = odd * (8 // len(odd.encode()))
    return "register %s %s %s R" % rng.choice([(customer, "101", "201"), ("CUST0001", "10" + odd, "201"), ("CUST0001", "101", odd + "01"), ("CUST0001", "101", "201")])


def disturbance(rng, plan):
    """A call that is refused, cannot be read, or comes at a wrong time, most often."""
    what = rng.randrange(9)
    if what == 0:
        return rng.choice(UNREADABLE)
    if what == 1:
        return odd_register(rng, plan)
    if what == 2:
        return rng.choice(UNBUILDABLE) if rng.random() < 0.95 else edged(rng, plan.build())
    if what == 3:
        return rng.choice([plan.expire(), "designate", plan.notify(), plan.mark() if rng.random() < 0.2 else plan.quote()])
    if what == 4:
        return plan.odd_trade()
    return edged(rng, rng.choice([plan.trade, plan.trade, plan.quote, plan.notify, plan.expire])())


def ending(rng, plan):
    """The rest of the sessions, then expiries and quotations."""
    lines = ["designate"] * 3 + ["mark %d %d 80" % (plan.settlement(), plan.rate()) for _ in range(plan.last if rng.random() < 0.5 else 2)]
    for _ in range(rng.randint(1, 4)):
        lines += [plan.expire()] * rng.randint(0, 2) + [plan.quote() for _ in range(rng.randint(0, 6))]
    return lines + ["expire %d" % max(0, min(80, plan.accounts) - 1)] * 2 + [plan.expire() for _ in range(4)]


def book(rng, bad, plan=None, day=None):
    """A book from its building to its end, with so large a part of disturbances."""
    plan = plan or Plan(rng)
    lines = [disturbance(rng, plan) for _ in range(4)] if bad else []
    lines += [edged(rng, plan.build()) for _ in range(3)] if bad else []
    lines.append(plan.build())
    late = rng.randint(0, plan.accounts) if rng.random() < 0.3 else 0
    lines += [plan.register(k) for k in range(1, plan.accounts - late + 1)]
    for session in range(plan.last):
        for _ in range(rng.randint(0, 20) if day is None else day):
            lines.append(plan.trade())
            if rng.random() < bad:
                lines.append(disturbance(rng, plan))
            if plan.kind == "delivering" and rng.random() < 0.4:
                lines.append(plan.notify())
        if session == 0:
            lines += [plan.register(k) for k in range(plan.accounts - late + 1, plan.accounts + 1)]
        if plan.kind == "delivering":
            lines += ["designate"] * rng.choice([0, 2, 40])
        if bad:
            lines.append(edged(rng, plan.mark()))
            lines.append("mark %d %d %d" % rng.choice([(0, plan.rate(), 80), (1_000_000, plan.rate(), 80), (plan.settlement(), 99_999, 80), (plan.settlement(), 10_000_000, 0)]))
        lines += ["mark %d %d %d" % (plan.settlement(), plan.rate(), max(0, min(80, plan.accounts) - 1))] * rng.randint(0, 1)
        lines += [plan.mark(), plan.mark()] if rng.random() < 0.3 else ["mark %d %d %d" % (plan.settlement(), plan.rate(), rng.randint(min(80, plan.accounts), 80))]
    return lines + ending(rng, plan)


def full_sheet(rng):
    """More trades in a day than the sheet has rows."""
    plan = Plan(rng, kind=rng.choice(KINDS), last=3, accounts=rng.choice([5, 64, 66]))
    plan.most = 3
    return book(rng, 0, plan, 1040)


def many_lots(rng):
    """Half of the accounts grow longer each day, until there is no room for their lots."""
    plan = Plan(rng, kind=rng.choice(["average", "five"]), last=90, accounts=64)
    plan.most = 3
    lines = [plan.build()] + [plan.register(k) for k in range(1, 66)]
    for session in range(36):
        lines += ["trade %d %d %d 1" % (buyer, 32 + rng.randint(1, 32), plan.price()) for buyer in range(1, 33)]
        lines += [plan.trade() for _ in range(10)] if session > 30 else []
        lines += ["mark %d %d %d" % (plan.settlement(), plan.rate(), rng.randint(63, 80))] * 2
    return lines


def many_notices(rng):
    """More notices than there is room for, then designations in the order of both lines."""
    plan = Plan(rng, kind="delivering", last=6, accounts=64)
    plan.opens, plan.closes = 1, 5
    lines = [plan.build()] + [plan.register(k) for k in range(1, 65)]
    for _ in range(7):
        lines += ["trade %d %d %d %d" % (rng.randint(1, 20), rng.randint(21, 64), plan.price(), rng.randint(1, 60)) for _ in range(40)]
        lines += ["notify %d %d" % (rng.randint(21, 64), rng.randint(1, 3)) for _ in range(rng.choice([20, 90]))]
        lines += ["trade %d %d %d %d" % (rng.randint(21, 64), rng.randint(1, 20), plan.price(), rng.randint(1, 200)) for _ in range(10)]
        lines += ["designate"] * rng.choice([2, 90]) + [plan.mark()] + ["designate"] * 90 + ["mark %d %d 64" % (plan.settlement(), plan.rate())]
    return lines


def many_quotations(rng):
    """Quotations up to the greatest sum of quantities, and past it."""
    plan = Plan(rng, kind="average", last=1, accounts=3)
    lines = [plan.build()] + [plan.register(k) for k in range(1, 4)] + [plan.trade() for _ in range(4)] + ["mark 5 2000000 3"]
    lines += ["quote %d %d" % (plan.settlement(), rng.choice([3000, 3000, 2999])) for _ in range(336)]
    return lines + ["quote 999999 %d" % n for n in (1000, 300, 100, 30, 10, 3, 1, 1)] * 2 + ending(rng, plan)


def extremes(rng):
    """All 260 sessions, with the greatest numbers of contracts at the ends of the ranges of price and rate."""
    plan = Plan(rng, last=260, accounts=64, tick=rng.choice([1, 7, 49]))
    plan.size = rng.choice([1, 99, 100, 100])
    lines = [plan.build()] + [plan.register(k) for k in range(1, 65)]
    for _ in range(260):
        for k in rng.sample(range(1, 64, 2), 8):
            sides = rng.choice([(k, k + 1), (k + 1, k)])
            lines += ["trade %d %d %d %d" % (*sides, plan.tick * rng.choice([1, 999_999 // plan.tick]), rng.choice([1500, 3000]))] * rng.randint(1, 2)
        lines.append("mark %d %d 64" % (rng.choice([1, 999_999]), rng.choice([100_000, 9_999_999])))
    return lines + ["quote %d 1" % rng.choice([1, 999_999]) for _ in range(5)] + ["expire 63", "expire 64"]


def make(seed):
    """The script of a seed."""
    rng = random.Random(seed)
    first = [full_sheet, many_lots, many_notices, many_quotations, extremes]
    if seed < len(first):
        return first[seed](rng)
    what = rng.randrange(40)
    if what < len(first):
        return first[what](rng)
    plan = Plan(rng)
    lines = [plan.any_call() for _ in range(rng.randint(0, 3))]
    for _ in range(rng.randint(1, 3)):
        lines += book(rng, rng.choice([0, 0.3, 0.6]))
    return lines
