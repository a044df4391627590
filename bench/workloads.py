#!/usr/bin/env python3
"""Writes the inputs of the benchmark into a folder: always the same bytes.

    bench/workloads.py FOLDER
"""

import os
import random
import sys

RATE = 2_153_700
AROUND = 2000  # prices lie around so many ticks of 5 cents


def price(rng):
    return 5 * (AROUND + rng.randint(-40, 40))


def accounts(n):
    return ["ACCUST%04d101201%s" % (k, "RN"[k % 2]) for k in range(1, n + 1)]


def trade(buyer, seller, at, contracts):
    return "TR%02d%02d%06d%04d" % (buyer, seller, at, contracts)


def marking(rng):
    return "MK%06d%07d" % (price(rng), RATE + rng.randint(-90_000, 90_000))


def opening(ticker, sessions):
    return "BK%sZ06%03d%s" % (ticker, sessions, "001%03d" % (sessions - 1) if ticker == "ICF" else "000000")


def ending(rng):
    return ["QT%06d%04d" % (price(rng), rng.randint(1, 3000)) for _ in range(5)] + ["EX"]


def random_trades(rng, n, count):
    """Trades of 1 to 3 contracts between any two accounts."""
    return [trade(*rng.sample(range(1, n + 1), 2), price(rng), rng.randint(1, 3)) for _ in range(count)]


def plain_book(rng, sessions, n, count):
    """A book from its opening to its expiry with so many trades a session."""
    lines = [opening("WCF", sessions)] + accounts(n)
    for _ in range(sessions):
        lines += random_trades(rng, n, count) + [marking(rng)]
    return lines + ending(rng)


def garbage(rng, records):
    """Bytes at random, and records that are damaged, cut short, run on or out of place. No book is ever opened."""
    whole = random_trades(rng, 64, 40) + accounts(40) + [marking(rng), "DG", "EX", "NT010001", "QT0100000001", "BKABCZ06002000000", "BKWCFA06002000000", "BKWCFZ06000000000"]
    pool = []
    for _ in range(1000):
        record = bytearray(rng.choice(whole).encode())
        pool.append(bytes(record))
        pool.append(bytes(record[: rng.randrange(len(record))]))
        pool.append(bytes(record) + rng.randbytes(rng.randint(1, 8)))
        record[rng.randrange(len(record))] = rng.randrange(256)
        pool.append(bytes(record))
        pool += [rng.randbytes(rng.randint(0, 24)) for _ in range(4)]
    pool = [piece.replace(b"\n", b".") + b"\n" for piece in pool]
    return b"".join(rng.choices(pool, k=records))


# ---- how time grows: one number doubles, the others stay


def flat_day(rng, n, count):
    """Trades that leave every account where it was: each is undone by a later one. So no lot is opened."""
    there = random_trades(rng, n, count // 2)
    back = [trade(int(t[4:6]), int(t[2:4]), price(rng), int(t[12:])) for t in there]
    return there + back


def flat_book(rng, n, count):
    lines = [opening("WCF", 260)] + accounts(n)
    for _ in range(260):
        lines += flat_day(rng, n, count) + [marking(rng)]
    return lines + ending(rng)


def built_lots(rng, buyers, sellers, rows):
    """Sessions after which there are so many lots of one contract."""
    lines, left = [], rows
    while left:
        now = min(left, len(buyers))
        lines += [trade(buyer, rng.choice(sellers), price(rng), 1) for buyer in buyers[:now]] + [marking(rng)]
        left -= now
    return lines


def designated_lots(rng, rows):
    """Each session 60 lots are opened and the 60 oldest are designated, with so many lots before and after."""
    buyers, sellers = range(1, 61), range(61, 65)
    lines = [opening("ICF", 260)] + accounts(64) + built_lots(rng, buyers, sellers, rows)
    for session in range(240):
        lines += ["DG"] * 60 if session else []
        lines += [trade(buyer, sellers[buyer % 4], price(rng), 1) for buyer in buyers]
        lines += ["NT%02d0001" % sellers[k % 4] for k in range(60)] + [marking(rng)]
    return lines


def sold_lots(rng, rows):
    """Each session half of the owners buy one contract, and the others sell their oldest, with so many lots before and after."""
    buyers, sellers = range(1, 61), range(61, 65)
    lines = [opening("WCF", 260)] + accounts(64) + built_lots(rng, buyers, sellers, rows)
    for session in range(240):
        for owner in buyers:
            house = rng.choice(sellers)
            lines.append(trade(owner, house, price(rng), 1) if (owner + session) % 2 else trade(house, owner, price(rng), 1))
        lines.append(marking(rng))
    return lines


GROWTH = {
    "accounts": ([16, 32, 64], lambda rng, n: flat_book(rng, n, 512)),
    "sheet": ([256, 512, 1024], lambda rng, count: flat_book(rng, 64, count)),
    "lots-designated": ([128, 256, 512], designated_lots),
    "lots-sold": ([128, 256, 512], sold_lots),
}


def write(folder, name, data):
    if not isinstance(data, bytes):
        data = ("\n".join(data) + "\n").encode()
    path = os.path.join(folder, name)
    os.makedirs(os.path.dirname(path), exist_ok=True)
    with open(path, "wb") as file:
        file.write(data)


def main(folder):
    write(folder, "empty.txt", b"")
    write(folder, "year.txt", plain_book(random.Random(1), 260, 64, 1024))
    for day in range(40):
        write(folder, "day/%02d.txt" % day, plain_book(random.Random(100 + day), 1, 64, 1000))
    write(folder, "garbage.txt", garbage(random.Random(2), 1_000_000))
    for name, (steps, make) in GROWTH.items():
        for step in steps:
            write(folder, "growth/%s-%d.txt" % (name, step), make(random.Random(3), step))


if __name__ == "__main__":
    if len(sys.argv) != 2:
        sys.exit(__doc__)
    main(sys.argv[1])
