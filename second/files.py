"""Files of records to try: by a seed, always the same file."""

import random

MONTHS = {"ICF": "HKNUZ", "WCF": "HKNUZ", "WBG": "FGHJKMNQUVXZ"}
TICK = {"ICF": 5, "WCF": 5, "WBG": 1}


# openings that cannot be had: no session, too many, a window for a mini, none for a delivery, reversed, up to the last session
UNBUILDABLE = ["BKWCFZ06000000000", "BKWBGF06261000000", "BKWCFH06010001002", "BKICFZ06010000000", "BKICFZ06010005004", "BKICFZ06010001010", "BKICFZ06001001001"]


def identity(n):
    return "CUST%04d101201" % n


def opening(rng, ticker, last):
    opens, closes = (rng.randint(1, max(1, last // 2)), max(1, last - 1)) if ticker == "ICF" else (0, 0)
    return "BK%s%s06%03d%03d%03d" % (ticker, rng.choice(MONTHS[ticker]), last, min(opens, closes), closes)


def accounts(rng, n):
    return ["AC%s%s" % (identity(k), rng.choice("RN")) for k in range(1, n + 1)]


def price(rng, ticker, around):
    return max(1, around + rng.randint(-40, 40)) * TICK[ticker]


def trade(rng, ticker, n, around, most):
    buyer, seller = rng.sample(range(1, n + 1), 2)
    return "TR%02d%02d%06d%04d" % (buyer, seller, price(rng, ticker, around), rng.randint(1, most))


def marking(rng, ticker, around):
    return "MK%06d%07d" % (price(rng, ticker, around) + rng.randint(0, TICK[ticker] - 1), rng.choice([100_000, 9_999_999, 2_000_000, rng.randint(100_000, 9_999_999)]))


def bad_record(rng, n):
    """A record that some question refuses, most of the time."""
    far = rng.choice([0, n + 1, 99])
    return rng.choice([
        "AC" + identity(rng.randint(1, n)) + "R", "ACcust0001101201R", "ACCUST 001101201N", "TR%02d010100000001" % far, "TR01%02d0100000001" % far,
        "TR01010100000001", "TR01020000000001", "TR01020100030001", "TR01020100000000", "TR01020100003001", "TR01020100003000", "TR01029999990001",
        "NT%02d0001" % far, "NT010000", "NT013000", "NT010001", "NT023001", "QT0000000001", "QT0100000000", "QT0100003001", "QT0100000002", "QT9999993000",
        "MK0000002000000", "MK0100000099999", "MK0100000000000", "DG", "EX", "BKWCFZ06002000000", "BKABCZ06002000000", "BKWCFA06002000000",
    ])


def quotations(rng, ticker, around):
    return ["QT%06d%04d" % (price(rng, ticker, around), 1 if ticker == "WBG" else rng.randint(1, 3000)) for _ in range(rng.randint(0, 8))]


def book(rng, bad, ticker=None, last=None, n=None, day=None, most=40):
    """A book from its opening to its end, with so large a part of bad records."""
    ticker = ticker or rng.choice(sorted(MONTHS))
    last = last or rng.randint(2, 12)
    n = n or rng.choice([2, 3, 5, 12, 64])
    around = rng.randint(60, 20_000) if ticker != "WBG" else rng.randint(60, 90_000)
    lines = [bad_record(rng, n) for _ in range(3)] + rng.sample(UNBUILDABLE, 2) if bad else []
    lines += [opening(rng, ticker, last)] + accounts(rng, n)
    for session in range(1, last + 1):
        for _ in range(rng.randint(0, 30) if day is None else day):
            lines.append(trade(rng, ticker, n, around, most))
            if rng.random() < bad:
                lines.append(bad_record(rng, n))
            if rng.random() < bad / 4:
                lines.append(rng.choice(lines))
            if ticker == "ICF" and rng.random() < 0.3:
                lines.append("NT%02d%04d" % (rng.randint(1, n), rng.randint(1, 30)))
            if rng.random() < 0.05:
                lines += quotations(rng, ticker, around)[:1]
        if ticker == "ICF":
            if rng.random() < bad:
                lines.append(marking(rng, ticker, around))
            lines += ["DG"] * rng.choice([0, 3, 40, 140])
        lines.append(marking(rng, ticker, around))
    if ticker == "ICF":
        for _ in range(4):
            lines += ["DG"] * 60 + [marking(rng, ticker, around)]
    lines += ["EX"] * rng.randint(0, 1) + quotations(rng, ticker, around) + ["EX"] * rng.randint(1, 2)
    lines += [bad_record(rng, n) for _ in range(4)] if bad else []
    return lines


def full(rng):
    """64 accounts and full sheets, one row more each day, over all 260 sessions."""
    ticker = rng.choice(["WCF", "WBG"])
    return book(rng, 0, ticker, 260, 64, 1025, 3)


def many_lots(rng):
    """Half of the accounts grow longer each day, until there is no room for their lots."""
    lines = ["BKWCFZ06260000000"] + accounts(rng, 64)
    for session in range(60):
        for buyer in range(1, 33):
            lines.append("TR%02d%02d%06d0001" % (buyer, 32 + rng.randint(1, 32), price(rng, "WCF", 2000)))
        if session > 30:
            lines += [trade(rng, "WCF", 64, 2000, 3) for _ in range(20)]
        lines.append(marking(rng, "WCF", 2000))
    return lines


def many_notices(rng):
    """More notices than there is room for, then designations in the order of both lines."""
    lines = ["BKICFZ06012001011"] + accounts(rng, 66)
    for session in range(1, 14):
        for _ in range(40):
            lines.append("TR%02d%02d%06d%04d" % (rng.randint(1, 20), rng.randint(21, 64), price(rng, "ICF", 2400), rng.randint(1, 60)))
        for _ in range(rng.choice([20, 90])):
            lines.append("NT%02d%04d" % (rng.randint(21, 64), rng.randint(1, 3)))
        lines += ["TR%02d%02d%06d%04d" % (rng.randint(21, 64), rng.randint(1, 20), price(rng, "ICF", 2400), rng.randint(1, 200)) for _ in range(10)]
        lines += ["DG"] * rng.choice([2, 90]) + [marking(rng, "ICF", 2400)]
        lines += ["DG"] * 90 + [marking(rng, "ICF", 2400)]
    return lines


def damaged(rng, data):
    """The same bytes with some changed, dropped, doubled or cut off."""
    data = bytearray(data)
    for _ in range(rng.randint(1, 30)):
        at = rng.randrange(len(data))
        what = rng.randrange(4)
        if what == 0:
            data[at] = rng.randrange(256)
        elif what == 1:
            del data[at]
        elif what == 2:
            data[at:at] = data[at : at + rng.randint(1, 40)]
        else:
            data[at:at] = bytes([rng.choice(b"\n\r 0A")])
    return bytes(data[: rng.randint(1, len(data))] if rng.random() < 0.5 else data)


def make(seed):
    """The file of a seed."""
    rng = random.Random(seed)
    what = rng.choice(["valid", "mixed", "mixed", "damaged", "lots", "notices", "bytes"]) if seed >= 10 else ["full", "lots", "notices", "valid", "mixed", "damaged", "bytes", "mixed", "mixed", "mixed"][seed]
    if what == "bytes":
        return bytes(rng.choice(b"BKACTRQTNTMKDGEX0123456789\n") if rng.random() < 0.98 else rng.randrange(256) for _ in range(rng.randint(0, 4000)))
    lines = {"full": full, "lots": many_lots, "notices": many_notices}.get(what, lambda r: book(r, 0 if what == "valid" else 0.3))(rng)
    data = ("\n".join(lines) + "\n").encode()
    return damaged(rng, data) if what == "damaged" else data
