"""The lines that the program has to print for an input, from docs/FORMAT.md."""

from calculation import MONTHS, TERMS, TICKERS, Book, Refused

DIGIT, LETTER, TEXT, RESIDENCE, NEWLINE = "0", "A", "*", "R", "\n"
LAYOUTS = {
    b"BK": [(LETTER, 3), (LETTER, 1), (DIGIT, 2), (DIGIT, 3), (DIGIT, 3), (DIGIT, 3)],
    b"AC": [(TEXT, 14), (RESIDENCE, 1)],
    b"TR": [(DIGIT, 2), (DIGIT, 2), (DIGIT, 6), (DIGIT, 4)],
    b"QT": [(DIGIT, 6), (DIGIT, 4)],
    b"NT": [(DIGIT, 2), (DIGIT, 4)],
    b"MK": [(DIGIT, 6), (DIGIT, 7)],
    b"DG": [],
    b"EX": [],
}


def fits(kind, byte):
    if kind == DIGIT:
        return 48 <= byte <= 57
    if kind == LETTER:
        return 65 <= byte <= 90
    if kind == TEXT:
        return byte != 10
    if kind == RESIDENCE:
        return byte in b"RN"
    return byte == 10


class Unread(Exception):
    def __init__(self, number, place):
        super().__init__(number)
        self.number, self.place = number, place


def read(line, start, is_open):
    """The mark and the fields of a line, or what is wrong with it."""
    mark = line[:2]
    if mark not in LAYOUTS:
        raise Unread(24, start)
    at, fields = 2, []
    for kind, width in LAYOUTS[mark] + [(NEWLINE, 1)]:
        for i in range(at, at + width):
            if i >= len(line) or not fits(kind, line[i]):
                raise Unread(25, start + i)
        field = line[at : at + width]
        fields.append(int(field) if kind == DIGIT else field)
        at += width
    if (mark == b"BK") == is_open:
        raise Unread(26, start)
    if mark == b"BK":
        ticker, month = fields[0].decode(), fields[1].decode()
        if ticker not in TICKERS or month not in TICKERS[ticker][MONTHS]:
            raise Unread(27, start)
    return mark, fields[:-1]


def serve(book, mark, fields):
    """What an accepted record of an open book prints."""
    if mark == b"AC":
        book.register(fields[0], fields[1].decode())
    elif mark == b"TR":
        book.trade(*fields)
    elif mark == b"QT":
        book.quote(*fields)
    elif mark == b"NT":
        book.notify(*fields)
    elif mark == b"DG":
        return ["D %d %d %d %d" % book.designate()]
    else:
        session, rows, sums = book.mark(*fields) if mark == b"MK" else book.expire()
        if session < 20 or session % 20 == 0:  # the formula goes over all postings: not every evening of a long book
            book.assert_laws()
        return ["S %d %d %d %d" % (session, k, *row) for k, row in enumerate(rows, 1)] + ["T %d %d %d %d %d" % (session, *sums)]
    return []


def report(data, seen=None):
    """All lines; `seen` counts the refusals by number. Each line comes with the record that printed it."""
    lines, book, start, number = [], None, 0, 0
    while start < len(data):
        end = data.find(b"\n", start)
        end = len(data) if end < 0 else end + 1
        number += 1
        try:
            mark, fields = read(data[start:end], start, book is not None)
            if mark == b"BK":
                book = Book(TICKERS[fields[0].decode()][TERMS], *fields[3:])
            else:
                lines += [(number, text) for text in serve(book, mark, fields)]
        except Unread as fault:
            lines.append((number, "R %d 1 %d %d" % (number, fault.number, fault.place)))
            count(seen, fault.number)
        except Refused as fault:
            lines.append((number, "R %d %d %d %d" % (number, fault.layer, fault.number, start)))
            count(seen, fault.number)
        start = end
    if book:
        book.assert_laws()
    return lines


def count(seen, number):
    if seen is not None:
        seen[number] = seen.get(number, 0) + 1
