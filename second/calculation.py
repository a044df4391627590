"""A second calculation of a book, written from docs/RULES.md by lists of postings.

Nothing is accumulated: what an account bought and sold are lists of (price, contracts), carried is the one
less the other, a total is its formula, and a page is worked from the sheet of the day.
"""

TERMS, MONTHS = range(2)
# the terms of a contract: size, currency, tick, and how it ends
TICKERS = {
    "ICF": ((100, "dollar", 5, "delivering"), "HKNUZ"),
    "WCF": ((10, "dollar", 5, "average"), "HKNUZ"),
    "WBG": ((33, "real", 1, "five"), "FGHJKMNQUVXZ"),
}


class Refused(Exception):
    """A question that was not met, by its number and layer."""

    def __init__(self, number, layer=2):
        super().__init__(number)
        self.number, self.layer = number, layer


def ask(met, number):
    if not met:
        raise Refused(number)


def nearest(numerator, denominator):
    """The nearest whole number, a half away from zero."""
    size = (2 * abs(numerator) + denominator) // (2 * denominator)
    return size if numerator >= 0 else -size


def pay(owed, contract, residency, rate):
    """What a line pays, what it leaves over, and whether it counts as converted."""
    paid_in = "real" if residency == "R" else "dollar"
    if contract == paid_in:
        return owed, 0, 0
    weight = {"real": 1_000_000, "dollar": rate}
    paid = nearest(owed * weight[contract], weight[paid_in])
    return paid, paid * weight[paid_in] - owed * weight[contract], 1 if owed else 0


class Kind:
    """The quotations taken, and the price that they end at."""

    def __init__(self, ending):
        self.ending, self.taken = ending, []

    def quote(self, price, quantity):
        if self.ending == "delivering":
            raise Refused(14, 3)
        if self.ending == "five" and quantity != 1:
            raise Refused(14, 3)
        if self.ending == "average" and sum(q for _, q in self.taken) + quantity > 1_000_000:
            raise Refused(14, 3)
        self.taken.append((price, quantity))

    def final(self):
        if self.ending == "average" and self.taken:
            value, quantity = sum(p * q for p, q in self.taken), sum(q for _, q in self.taken)
            return (2 * value + quantity) // (2 * quantity)
        if self.ending == "five" and len(self.taken) >= 5:
            return nearest(sum(p for p, _ in self.taken[-5:]), 5)
        return None


class Book:
    """The tally: parties, postings, the sheet that waits, lots, notices, and where it stands."""

    def __init__(self, terms, last, opens, closes):
        self.size, self.currency, self.tick, ending = terms
        self.delivers = ending == "delivering"
        ask(1 <= last <= 260, 1)
        ask(1 <= opens <= closes <= last - 1 if self.delivers else opens == closes == 0, 1)
        self.last, self.opens, self.closes = last, opens, closes
        self.kind = Kind(ending)
        self.parties, self.bought, self.sold = [], [], []
        self.sheet, self.lots, self.notices = [], [], []
        self.session, self.price, self.rate, self.expired = 1, 0, 0, False
        self.noticed, self.designated, self.marked = [], [], []
        self.day, self._carried = {}, {}

    # ---- what the lists say
    def carried(self, k):
        """Contracts bought less contracts sold. The sum is kept only while the lists stay as they are."""
        key = (len(self.bought[k - 1]), len(self.sold[k - 1]))
        if self._carried.get(k, (None,))[0] != key:
            self._carried[k] = key, sum(c for _, c in self.bought[k - 1]) - sum(c for _, c in self.sold[k - 1])
        return self._carried[k][1]

    def total(self, k):
        value = lambda postings: sum(p * c for p, c in postings)
        return self.size * (self.carried(k) * self.price + value(self.sold[k - 1]) - value(self.bought[k - 1]))

    def today(self, k):
        """Contracts that an account bought and sold on the sheet, from the lists of its own trades."""
        bought, sold = self.day.get(k, ([], []))
        return sum(bought), sum(sold)

    def enter(self, buyer, seller, price, contracts):
        self.sheet.append((buyer, seller, price, contracts))
        self.day.setdefault(buyer, ([], []))[0].append(contracts)
        self.day.setdefault(seller, ([], []))[1].append(contracts)

    def under_notice(self, k):
        return sum(count for seller, _, count in self.notices if seller == k)

    def is_due(self):
        return bool(self.notices) and self.notices[0][1] < self.session

    def numbers(self):
        return range(1, len(self.parties) + 1)

    # ---- the calls
    def register(self, identity, residency):
        ask(self.session <= self.last, 2)
        ask(len(self.parties) < 64, 3)
        ask(all(65 <= b <= 90 or 48 <= b <= 57 for b in identity), 4)
        ask(all(identity != other for other, _ in self.parties), 5)
        self.parties.append((identity, residency))
        self.bought.append([])
        self.sold.append([])
        return len(self.parties)

    def trade(self, buyer, seller, price, contracts):
        ask(self.session <= self.last, 2)
        ask(buyer in self.numbers() and seller in self.numbers() and buyer != seller, 6)
        ask(1 <= price <= 999_999 and price % self.tick == 0, 7)
        ask(1 <= contracts <= 3000, 8)
        ask(len(self.sheet) < 1024, 9)
        (b_bought, b_sold), (s_bought, s_sold) = self.today(buyer), self.today(seller)
        b_net = self.carried(buyer) + b_bought - b_sold + contracts
        s_net = self.carried(seller) + s_bought - s_sold - contracts
        ask(abs(b_net) <= 3000 and abs(s_net) <= 3000 and b_bought + contracts <= 3000 and s_sold + contracts <= 3000, 10)
        noticed = self.under_notice(buyer)
        ask(noticed == 0 or -b_net >= noticed, 11)
        if self.session == self.last and self.delivers:
            ask(s_net >= 0 and b_sold == 0 and s_bought == 0, 12)
        if len(self.lots) + len(self.parties) > 1024:  # each account opens one lot at most
            then = {buyer: b_net, seller: s_net}
            opened = sum(1 for k in self.numbers() if then.get(k, self.net(k)) > max(0, self.carried(k)))
            ask(len(self.lots) + opened <= 1024, 13)
        self.enter(buyer, seller, price, contracts)

    def net(self, k):
        bought, sold = self.today(k)
        return self.carried(k) + bought - sold

    def quote(self, price, quantity):
        ask(1 <= price <= 999_999, 7)
        ask(1 <= quantity <= 3000, 8)
        self.kind.quote(price, quantity)

    def notify(self, seller, contracts):
        ask(self.session <= self.last, 2)
        ask(self.opens <= self.session <= self.closes, 15)
        ask(seller in self.numbers(), 6)
        ask(1 <= contracts <= 3000, 8)
        ask(-self.net(seller) >= self.under_notice(seller) + contracts, 16)
        ask(len(self.notices) < 64, 17)
        self.notices.append((seller, self.session, contracts))
        self.noticed.append((seller, self.session, contracts))

    def designate(self):
        ask(self.is_due(), 18)
        seller, since, noticed = self.notices[0]
        owner, session, held = self.lots[0]
        assert all(session <= other for _, other, _ in self.lots)
        contracts = min(noticed, held)
        self.notices[:1] = [(seller, since, noticed - contracts)] if noticed > contracts else []
        self.lots[:1] = [(owner, session, held - contracts)] if held > contracts else []
        self.bought[seller - 1].append((self.price, contracts))
        self.sold[owner - 1].append((self.price, contracts))
        self.designated.append((seller, contracts))
        return owner, seller, contracts, self.price

    def ask_room(self, rows):
        """Whether a page of so many rows has one for each account; a page of None has as many as are needed."""
        ask(rows is None or rows >= len(self.parties), 21)

    def mark(self, price, rate, rows=None):
        ask(self.session <= self.last, 2)
        ask(not self.is_due(), 19)
        ask(1 <= price <= 999_999, 7)
        ask(100_000 <= rate <= 9_999_999, 20)
        self.ask_room(rows)
        sides = {k: ([], []) for k in self.numbers()}
        for buyer, seller, at, contracts in self.sheet:
            sides[buyer][0].append((at, contracts))
            sides[seller][1].append((at, contracts))
        owed, nets = [], []
        for k in self.numbers():
            bought, sold = sides[k]
            count = lambda postings: sum(c for _, c in postings)
            offset = min(count(bought), count(sold))
            (b_first, b_left), (s_first, s_left) = split(bought, offset), split(sold, offset)
            value = lambda postings: sum(p * c for p, c in postings)
            above = lambda postings: sum((price - p) * c for p, c in postings)
            day_trade = self.size * (value(s_first) - value(b_first))
            margin = self.size * (self.carried(k) * (price - self.price) + above(b_left) - above(s_left))
            owed.append((day_trade, margin))
            nets.append((self.carried(k), self.carried(k) + count(bought) - count(sold)))
        page = self.page(owed, rate)
        for k in self.numbers():
            before, after = (max(0, n) for n in nets[k - 1])
            if after > before:
                self.lots.append((k, self.session, after - before))
            elif before > after:
                self.lots = less(self.lots, k, before - after)
            self.bought[k - 1] += sides[k][0]
            self.sold[k - 1] += sides[k][1]
        self.sheet, self.day, self.price, self.rate = [], {}, price, rate
        self.marked.append(self.session)
        self.session += 1
        return page

    def expire(self, rows=None):
        ask(not self.delivers and self.session == self.last + 1 and not self.expired, 22)
        final = self.kind.final()
        ask(final is not None, 23)
        self.ask_room(rows)
        page = self.page([(0, self.size * self.carried(k) * (final - self.price)) for k in self.numbers()], self.rate)
        for k in self.numbers():
            carried = self.carried(k)
            if carried:
                (self.sold if carried > 0 else self.bought)[k - 1].append((final, abs(carried)))
        self.lots, self.expired = [], True
        return page

    def page(self, owed, rate):
        """Rows, and what they come to; the laws of a page are asserted on the way."""
        rows, reais, dollars, remainder, lines = [], 0, 0, 0, 0
        for k, amounts in zip(self.numbers(), owed):
            residency = self.parties[k - 1][1]
            row = []
            for amount in amounts:
                paid, left, counts = pay(amount, self.currency, residency, rate)
                row.append(paid)
                reais, dollars = (reais + paid, dollars) if residency == "R" else (reais, dollars + paid)
                remainder, lines = remainder + left, lines + counts
            rows.append(tuple(row))
        assert reais * 1_000_000 + dollars * rate == remainder
        assert 2 * abs(remainder) <= lines * (1_000_000 if self.currency == "dollar" else rate)
        return self.session, rows, (reais, dollars, remainder, lines)

    # ---- the laws of a run, on these figures
    def assert_laws(self):
        totals = [self.total(k) for k in self.numbers()]
        assert sum(totals) == 0
        assert self.session == 1 + len(self.marked)
        for k in self.numbers():
            assert sum(c for owner, _, c in self.lots if owner == k) == max(0, self.carried(k))
            assert abs(self.carried(k)) <= 3000
        assert self.lots == sorted(self.lots, key=lambda lot: (lot[1], lot[0]))
        assert units(self.noticed) == units(self.designated) + units(self.notices)
        due = [n for n in self.noticed if n[1] < self.session - 1]
        assert units(self.designated)[: len(units(due))] == units(due)


def units(rows):
    """One entry, the seller, for each contract."""
    return [row[0] for row in rows for _ in range(row[-1])]


def split(postings, first):
    """The earliest `first` contracts, and the others; a posting may be split."""
    front, back = [], []
    for price, contracts in postings:
        now = min(contracts, first)
        first -= now
        if now:
            front.append((price, now))
        if contracts > now:
            back.append((price, contracts - now))
    return front, back


def less(lots, owner, contracts):
    """So many contracts less of an owner's oldest lots."""
    left = []
    for holder, session, count in lots:
        if holder == owner and contracts:
            taken = min(count, contracts)
            contracts, count = contracts - taken, count - taken
        if count:
            left.append((holder, session, count))
    assert contracts == 0
    return left
