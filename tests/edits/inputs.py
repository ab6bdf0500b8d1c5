"""What the trials run on: the vectors, questions by hand and at random, and books and sheets that are right, damaged or made by hand.
Every run makes the same ones."""

from itertools import product
from struct import pack, unpack_from

BOOK, PREVIEW, SHEET, LINE, QUESTION = 65536, 16384, 64, 64, 32768
MOST = 1_000_000_000


class Input:
    """One call with its arguments: S solves, B checks a book, M a sheet, H hands back; T, C and N do what S, B and M do in the edition that
    their number names; s, b, h, t and c are the preview's; O carries a question over, and R a sheet back, to a target in the book's place;
    K writes the short book of one, in the edition that its number names, to a target in the sheet's place. Of buffers to write, the lengths
    alone."""

    def __init__(self, name, call, question=b"", book=b"", sheet=b"", number=0, lines=0):
        self.name, self.call, self.question = name, call, bytes(question)
        self.book, self.sheet, self.number, self.lines = book, sheet, number, lines

    def packed(self):
        sizes = [part if isinstance(part, int) else len(part) for part in (self.book, self.sheet)]
        head = pack("<IIIIQQ", ord(self.call), len(self.question), *sizes, self.number, self.lines)
        return head + self.question + b"".join(part for part in (self.book, self.sheet) if not isinstance(part, int))


def solving(name, question, book=BOOK + 16, sheet=SHEET + 16):
    return Input(name, "S", question, book, sheet)


def over(name, question, target=1000):
    return Input(f"carried over: {name}", "O", question, target)


def back(name, question, given, target=SHEET + 16):
    return Input(f"carried back: {name}", "R", question, target, given)


def short(name, question, book, target=BOOK + 16, edition=1):
    return Input(f"short book: {name}", "K", question, bytes(book), target, edition)


def preview(given):
    """The same by the preview's call."""
    return Input(f"preview: {given.name}", given.call.lower(), given.question, given.book, given.sheet, given.number, given.lines)


def naming(edition, given):
    """The same by the call that names an edition."""
    call = {"S": "T", "B": "C", "M": "N"}[given.call]
    return Input(f"edition {edition}: {given.name}", call, given.question, given.book, given.sheet, edition)


# ---- questions by their parts: a clause is its literals' codes and its constraints, a constraint its relation, coefficients and bound

def question(b, r, clauses):
    out = pack("<BBH", b, r, len(clauses))
    for literals, constraints in clauses:
        out += bytes([len(literals), *literals, len(constraints)])
        for relation, coefficients, bound in constraints:
            row = (list(coefficients) + [0] * r)[:r]
            out += pack(f"<B{r}ii", relation, *row, bound)
    return out


def alone(relation, coefficients, bound):
    return ([], [(relation, coefficients, bound)])


# a line of a book
def line(how, which, first, second, relation=0, positive=0, negative=0, coefficients=(), bound=0):
    row = (list(coefficients) + [0] * 8)[:8]
    return pack("<BBHHBBII8ii12x", how, which, first, second, relation, 0, positive, negative, *row, bound)


def sheet(booleans, denominator, numerators):
    out = bytes([len(booleans), *booleans, len(numerators)]) + pack(f"<i{len(numerators)}i", denominator, *numerators)
    return out + bytes(SHEET - len(out))


# ---- the vectors

def rows(file):
    with open(file, encoding="utf-8") as text:
        return [row.rstrip("\n").split("|") for row in text if not row.startswith("#")]


def vectors(folder):
    yield from questions_and_books(folder)
    for file in ("base_books.txt", "cheapest_books.txt"):
        for name, asked, book, *_ in rows(f"{folder}/{file}"):
            yield Input(f"book of {file}: {name}", "B", bytes.fromhex(asked), bytes.fromhex(book))
    yield from sheets_of(folder)
    yield from buffers_and_parts(folder)


def of_editions(folder):
    """Those of edition 2, and of every edition."""
    second = f"{folder}/edition_2"
    for given in (*questions_and_books(second), *sheets_of(second)):
        yield naming(2, given)
    for given in questions_and_books(f"{second}/preview"):
        yield preview(naming(2, given))
    for row in rows(f"{folder}/editions.txt"):
        yield naming(int(row[0]), with_buffers(*row[1:5]))
    for row in rows(f"{folder}/preview/editions.txt"):
        yield preview(naming(int(row[0]), with_buffers(*row[1:5])))


def questions_and_books(folder):
    for name, asked, *_ in rows(f"{folder}/solve.txt"):
        yield solving(name, bytes.fromhex(asked))
    for name, asked, book, *_ in rows(f"{folder}/check_book.txt"):
        yield Input(f"book: {name}", "B", bytes.fromhex(asked), bytes.fromhex(book))


def sheets_of(folder):
    for name, asked, given, *_ in rows(f"{folder}/check_sheet.txt"):
        yield Input(f"sheet: {name}", "M", bytes.fromhex(asked), b"", bytes.fromhex(given))


def with_buffers(start, zeros, book, given):
    asked = bytes.fromhex(start) + bytes(int(zeros))
    return solving(f"{len(asked)} bytes, buffers of {book} and {given}", asked, int(book), int(given))


def buffers_and_parts(folder):
    for row in rows(f"{folder}/buffers.txt"):
        yield with_buffers(*row[:4])
    numbers = {"agrees": 64, "cannot": 65, "unwritten": 66}
    for word, second, third, *rest in rows(f"{folder}/hand_back.txt"):
        number, lines = (numbers[word], second) if word in numbers else (int(second), third)
        book, given = rest[-4:-2]
        name = f"handing back: {word} {lines}, buffers of {book} and {given}"
        yield Input(name, "H", b"", int(book), int(given), number, int(lines))


# ---- by hand

def by_hand():
    x = alone(1, [1], 5)
    many = [(1, [1], i) for i in range(8)]
    sixteen = [([], many), ([], many), ([], many[:3])]
    yield solving("16 links", question(0, 1, sixteen))
    yield solving("17 links", question(0, 1, sixteen + [([], many[:2]), x]))
    yield solving("16 links and a dropped clause", question(1, 1, sixteen + [([0, 128], many)]))
    yield solving("16 links and struck conditions", question(1, 1, sixteen + [([0], [(1, [0], -1)] * 4)]))
    # link 31: x <= 0 or x <= 1; -x <= -5
    last = [([], [(1, [0, 1], i) for i in range(8)])] * 2 + [([], [(1, [0, 1], i) for i in range(2)])]
    last += [([], [(1, [1], 0), (1, [1], 1)]), alone(1, [-1], -5)]
    yield solving("a pair by mark 31", question(16, 2, last))
    yield solving("9 figures, 5 marks", bytes([5, 9, 0, 0]))
    yield solving("3x <= 10^9; -2x <= 10^9", question(0, 1, [alone(1, [3], MOST), alone(1, [-2], MOST)]))
    yield solving("3x <= -10^9; -2x <= -10^9", question(0, 1, [alone(1, [3], -MOST), alone(1, [-2], -MOST)]))
    # two lines by a mark, each with a condition
    two = question(1, 1, [([0], [(1, [1], 0)]), ([128], [(1, [-1], -5)])])
    lines = line(0, 0, 0, 0, 1, 1, 0, [1], 0) + line(0, 0, 1, 0, 1, 0, 1, [-1], -5)
    yield Input("book: by a mark, both with a condition", "B", two, lines + line(2, 0, 0, 1, 1, 0, 0, [1], 0))
    # a line that names a later one
    pair = question(0, 1, [alone(2, [1], 5), alone(1, [-1], -5)])
    upper, lower = line(0, 0, 0, 0, 2, 0, 0, [1], 5), line(0, 0, 1, 0, 1, 0, 0, [-1], -5)
    yield Input("book: a later second parent", "B", pair, upper + line(1, 0, 0, 2) + lower + line(1, 0, 0, 2))
    yield Input("book: a later first parent", "B", pair, lower + line(1, 0, 2, 0) + upper + line(1, 0, 2, 0))
    # sheets with a numerator beyond its range
    three = question(2, 3, [])
    for i in range(3):
        for size in (MOST + 1, -MOST - 1):
            numerators = [size if j == i else j for j in range(3)]
            yield Input(f"sheet: numerator {i} is {size}", "M", three, b"", sheet([2, 2], 7, numerators))
    for length in (0, 63, 64, 65):
        yield Input(f"sheet: {length} bytes", "M", three, b"", (sheet([2, 2], 1, [0, 0, 0]) + bytes(64))[:length])
    yield from weaker()
    yield from stated()
    yield from open_marks()
    for number, lines in ((64, 3), (65, 3), (66, 3), (14, 3), (65, 1024), (64, 1025), (65, 0)):
        for book, given in ((BOOK, SHEET), (BOOK - 1, SHEET), (BOOK, SHEET - 1), (SHEET, BOOK)):
            yield Input(f"handing back: {number} {lines}, buffers of {book} and {given}", "H", b"", book, given, number, lines)


def weaker():
    """Every two clauses of a few, and results, that an earlier line covers or nearly does."""
    conditions = [[]] + [[(relation, [1], bound)] for bound in (-1, 0, 1) for relation in (1, 2)] + [[(1, [2], 1)], [(1, [0, 1], 0)]]
    clauses = [(literals, condition) for literals in ([], [0], [128], [0, 129]) for condition in conditions]
    for i, first in enumerate(clauses[1:], 1):
        for j, second in enumerate(clauses):
            yield solving(f"clauses {i} and {j}", question(2, 2, [first, second]))
    # -x + y <= 0; y <= 0; 2x - y <= 1, whose result is y <= 1; with either relation, and other bounds of y
    for result in (1, 2):
        for relation, bound in ((1, 0), (2, 0), (1, 1), (2, 1), (1, 2), (1, -1)):
            rows = [alone(result, [-1, 1], 0), alone(relation, [0, 1], bound), alone(1, [2, -1], 1)]
            yield solving(f"a result with relation {result}, after {relation} {bound}", question(0, 2, rows))
    # a or b or c; b; not a
    yield solving("a result by a mark that a clause covers", question(3, 0, [([0, 1, 2], []), ([1], []), ([128], [])]))
    # a or x + y <= 10^9; -x <= 1; a
    wide = [([0], [(1, [1, 1], MOST)]), alone(1, [-1], 1), ([0], [])]
    yield solving("a wide result that a clause covers", question(1, 2, wide))
    # y <= 0; -y <= 0; x + y <= 10^9; -x <= 1
    wide = [alone(1, [0, 1], 0), alone(1, [0, -1], 0), alone(1, [1, 1], MOST), alone(1, [-1], 1)]
    yield solving("a wide result that a smaller bound covers", question(0, 2, wide))


def stated():
    """= and >=, relations 3 and 4: every two relations in a clause, every two clauses of a few, links, a second = cut everywhere."""
    for first in range(6):
        for second in range(6):
            clause = ([0], [(first, [1], 5), (second, [0, 1], 1)])
            # not a, and x and y on either side of their bounds
            for x, y in ((4, 0), (4, 2), (6, 0), (6, 2)):
                rest = [([128], []), alone(3, [1], x), alone(3, [0, 1], y)]
                yield solving(f"relations {first} and {second}, x = {x}, y = {y}", question(1, 2, [clause] + rest))
    conditions = [(relation, [factor], bound) for relation in (1, 2, 3, 4) for factor in (0, 1) for bound in (-1, 0, 1)]
    conditions += [(3, [-2], 1), (4, [-2], 1), (3, [MOST], -MOST), (4, [1], -MOST), (4, [-MOST], MOST)]
    for i, first in enumerate(conditions):
        yield solving(f"condition {i} beside a mark", question(1, 1, [([0], [first])]))
        yield solving(f"condition {i} beside two conditions", question(0, 2, [([], [(1, [1], 3), first, (1, [0, 1], 2)])]))
        for j, second in enumerate(conditions):
            yield solving(f"conditions {i} and {j}", question(0, 1, [([], [first]), ([], [second])]))
    # two clauses that begin with =, of a figure or of none, and then have seven conditions, and so many
    for row, bound in (([1], 5), ([0], 5), ([0], -5)):
        for count in range(9):
            more = [(1, [1], -i) for i in range(1, 8)]
            halves = [([], [(3, row, bound)] + more), ([], [(3, row, bound)] + more[:count])]
            yield solving(f"links of = {row[0]} x, {bound}, and {count} more", question(0, 1, halves + [alone(3, [1], 0)]))
    # two = of three, cut everywhere
    for places in ((0, 1), (0, 2), (1, 2)):
        three = question(1, 1, [alone(3, [1], 1), ([0, 128], [(3 if i in places else 4, [1], i) for i in range(3)]), ([], [])])
        for length in range(15, len(three) + 1):
            yield solving(f"= at {places[0]} and {places[1]}, {length} bytes", three[:length])
        for book, given in ((BOOK - 1, SHEET), (BOOK, SHEET - 1), (BOOK, SHEET)):
            yield solving(f"= at {places[0]} and {places[1]}, buffers of {book} and {given}", three, book, given)
        yield Input(f"book: = at {places[0]} and {places[1]}, no book", "B", three)
        yield Input(f"sheet: = at {places[0]} and {places[1]}, no sheet", "M", three)
    # sheets about their bounds, by quarters
    asked = question(1, 2, [([0], [(3, [2, -1], 1), (4, [0, 1], 1)]), ([128], [(4, [1, 1], 2), (1, [1], 0)]), alone(3, [3, 0], 3)])
    for marks in (0, 1):
        for x in range(2, 7):
            for y in range(2, 7):
                yield Input(f"sheet: mark {marks}, {x} and {y} quarters", "M", asked, b"", sheet([marks], 4, [x, y]))
    # a book that loads each piece of two readings with two links, and one more, by other numbers and links
    asked = question(0, 2, [([], [(1, [0, 1], 1), (3, [1], 5)]), alone(4, [0, 1], 2)])
    pieces = [(1, 0, [0, 1], 1), (0, 1, [1], 5), (2, 0, [0, 1], 1), (0, 2, [-1], -5)]
    for i, (positive, negative, row, bound) in enumerate(pieces):
        for piece in range(5):
            yield Input(f"book: piece {i} as {piece}", "B", asked, line(0, 0, 0, piece, 1, positive, negative, row, bound))
        for relation in (2, 3, 4):
            yield Input(f"book: piece {i} with relation {relation}", "B", asked, line(0, 0, 0, i, relation, positive, negative, row, bound))
        turned = [-amount for amount in row]
        yield Input(f"book: piece {i} turned", "B", asked, line(0, 0, 0, i, 1, positive, negative, turned, -bound))
        other = [mark ^ 3 if mark else 0 for mark in (positive, negative)]
        yield Input(f"book: piece {i} with the other link", "B", asked, line(0, 0, 0, i, 1, *other, row, bound))
    yield Input("book: clause 1 behind a clause with =", "B", asked, line(0, 0, 1, 0, 1, 0, 0, [0, -1], -2))
    yield Input("book: clause 2 behind a clause with =", "B", asked, line(0, 0, 2, 0, 1, 0, 0, [0, -1], -2))


def with_open_marks():
    """Questions of three to sixteen marks, most of which stand in no clause, or in one clause or literal alone; some in clauses that
    tidying drops or an earlier line covers, or beside links and equalities."""
    x, true, false = (1, [1], 5), (1, [], 0), (1, [], -1)
    four = [alone(1, [1], 9 - i) for i in range(4)]
    yield "no clause", question(3, 1, [])
    yield "no clause, 16 marks", question(16, 0, [])
    yield "no mark", question(0, 1, [([], [x])])
    for b in (3, 16):
        for mark in sorted({0, 1, b // 2, b - 1}):
            for sign, literal in (("", mark), ("not ", mark + 128)):
                name = f"{b} marks, {sign}{mark}"
                yield f"{name} alone", question(b, 0, [([literal], [])])
                yield f"{name} twice", question(b, 0, [([literal, literal], [])])
                yield f"{name} or x <= 5", question(b, 1, [([literal], [x])])
                yield f"{name} and a true constant", question(b, 0, [([literal], [true])])
                yield f"{name} and a false constant", question(b, 0, [([literal], [false])])
                yield f"{name} or x = 5", question(b, 1, [([literal], [(3, [1], 5)])])
                yield f"{name} or 0 = 0", question(b, 0, [([literal], [(3, [], 0)])])
                yield f"{name} in the second clause", question(b, 1, [([], [x]), ([literal], [])])
                yield f"{name} in a second, weaker clause", question(b, 1, [([], [x]), ([literal], [x])])
                yield f"{name} in the last of five clauses", question(b, 1, four + [([literal], [])])
                yield f"{name} in the first of five clauses", question(b, 1, [([literal], [])] + four)
                for place in (0, 1, 2):
                    literals = [1 if mark == 0 else 0] * 2
                    literals.insert(place, literal)
                    yield f"{name}, literal {place} of three", question(b, 0, [(literals, [])])
                yield f"{name}, the last of 32", question(b, 0, [([1 if mark == 0 else 0] * 31 + [literal], [])])
            yield f"{b} marks, {mark} or not {mark}", question(b, 0, [([mark, mark + 128], [])])
            yield f"{b} marks, all but {mark}", question(b, 0, [([i for i in range(b) if i != mark], [])])
        yield f"{b} marks, all", question(b, 0, [(list(range(b)), [])])
        yield f"{b} marks, 0; 0 or 1", question(b, 0, [([0], []), ([0, 1], [])])
        yield f"{b} marks and a link", question(b, 2, [([], [x, (1, [0, 1], 5)])])
        yield f"{b} marks and a link that is yes", question(b, 1, [([], [(1, [1], 0), (1, [-1], -5)]), ([], [(4, [1], 1)])])
        yield f"{b} marks and 16 links", question(b, 2, [([], [(1, [1, i], 0) for i in range(n)]) for n in (8, 8, 3)])
        yield f"{b} marks, cannot agree", question(b, 0, [([1], []), ([129], [])])
        yield f"{b} marks, unwritten", question(b, 2, [alone(1, [MOST - 1], 1), alone(1, [0, MOST], 1)])
        yield f"{b} marks, wide", question(b, 3, [alone(1, [MOST, 3], 0), alone(1, [1 - MOST, 0, 1], 0)])


def open_marks():
    """Those questions; and sheets with each byte that a mark may and may not have, alone and beside another field at fault."""
    for name, asked in with_open_marks():
        yield solving(f"open marks: {name}", asked)
    # a or x <= 5; b or not b; not c; d is open: every two marks of 0, 0, 0, 2 by every two bytes
    asked = question(4, 1, [([0], [(1, [1], 5)]), ([1, 129], []), ([130], [])])
    for marks in product((0, 1, 2, 3, 255), repeat=4):
        if sum(mark != right for mark, right in zip(marks, (0, 0, 0, 2))) <= 2:
            yield Input(f"sheet: open marks, {marks}", "M", asked, b"", sheet(marks, 1, [5]))
    for marks in ((0, 0, 0, 2), (0, 0, 0, 0), (2, 0, 0, 2)):
        for place in (0, 5, 9, 10, 13):
            given = bytearray(sheet(marks, 1, [5]))
            given[place] = 127
            yield Input(f"sheet: open marks, {marks}, byte {place} is 127", "M", asked, b"", bytes(given))
    # marks alone, each byte for all of them, and for one
    for name, b, clauses in (("no clause", 3, []), ("no clause", 16, []), ("15", 16, [([15], [])]), ("not 0", 16, [([128], [])])):
        asked = question(b, 0, clauses)
        for value in (0, 1, 2, 3):
            yield Input(f"sheet: {b} marks, {name}, all {value}", "M", asked, b"", sheet([value] * b, 1, []))
            for place in range(b):
                marks = [value if i == place else 2 for i in range(b)]
                yield Input(f"sheet: {b} marks, {name}, {value} at {place}", "M", asked, b"", sheet(marks, 1, []))


# ---- by the calls that name an edition

EDITIONS = (0, 1, 2, 3, 19, 255, 256, *(2**bits + edition for bits in (8, 16, 32, 63) for edition in (1, 2)), 2**63, 2**64 - 2, 2**64 - 1)


def of_shares():
    """Questions that edition 2 answers otherwise, or nearly: each figure of so many about 0, alone, beside a mark and in a sum."""
    for r in range(9):
        yield f"no clause, {r} figures", question(0, r, [])
        for i in range(r):
            unit = [0] * i + [1]
            for relation in (1, 2, 3, 4):
                for bound in (-1, 0, 1):
                    yield f"figure {i} of {r}, relation {relation}, {bound}", question(0, r, [alone(relation, unit, bound)])
            turned = [-amount for amount in unit]
            for relation, bound in ((1, 0), (2, 0), (1, -3), (1, 3)):
                yield f"figure {i} of {r} turned, relation {relation}, {bound}", question(0, r, [alone(relation, turned, bound)])
            yield f"a or figure {i} of {r} below 0; not a", question(1, r, [([0], [(2, unit, 0)]), ([128], [])])
        for bound in (-1, 0, 1):
            yield f"the sum of {r} figures <= {bound}", question(0, r, [alone(1, [1] * r, bound)])
    # 256 clauses, of which the last needs a negative figure
    for i in (0, 6, 7):
        rest = [alone(1, [0, 0, 1, k], 0) for k in range(1, 256)]
        yield f"256 clauses, figure {i} below 0", question(0, 8, rest + [alone(2, [0] * i + [1], 0)])


def editions():
    """Those questions in both editions, with their sheets and books; and every edition, with what else may be refused."""
    for name, asked in of_shares():
        for edition in (1, 2):
            given = naming(edition, solving(name, asked))
            yield given
            yield preview(given)
    fine = question(0, 1, [alone(1, [1], -1)])
    asked = {"x <= -1": fine, "no byte": b"", "17 marks": b"\x11", "a tail": fine + b"\0", "32,769 bytes": bytes(32769),
             "two =": question(0, 1, [([], [(3, [1], 1), (3, [1], 1)])]), "no clause": question(0, 1, [])}
    book = line(0, 0, 0, 0, 1, 0, 0, [1], -1) + line(0, 0, 1, 0, 1, 0, 0, [-1], 0) + line(1, 0, 0, 1)
    for edition in EDITIONS:
        for name, given in asked.items():
            checks = [Input(f"book: {name}, {len(part)} bytes", "B", given, part) for part in (book, b"", book[:63])]
            checks += [Input(f"sheet: {name}, {len(part)} bytes", "M", given, b"", part) for part in (sheet([], 1, [-1]), b"", bytes(64))]
            for check in checks:
                yield naming(edition, check)
                if check.call == "B":
                    yield preview(naming(edition, check))
            for lent in ((BOOK, SHEET), (BOOK - 1, SHEET), (BOOK, SHEET - 1), (PREVIEW, SHEET), (PREVIEW - 1, SHEET), (0, 0)):
                solved = naming(edition, solving(f"{name}, buffers of {lent[0]} and {lent[1]}", given, *lent))
                yield solved
                yield preview(solved)
    # the edition's clauses as a book may name them: every number and piece about theirs, with each relation and sign
    for r in (1, 2, 3, 8):
        given = question(0, r, [alone(1, [1] * r, -1)])
        for figure in range(r):
            for clause in range(r + 3):
                for piece in (0, 1, 2, 256):
                    for relation, sign in ((1, -1), (2, -1), (4, 1), (1, 1)):
                        own = line(0, 0, clause, piece, relation, 0, 0, [0] * figure + [sign], 0)
                        name = f"book: figure {figure} of {r} as clause {clause}, piece {piece}, relation {relation}, {sign}"
                        yield naming(2, Input(name, "B", given, own))
        yield naming(2, Input(f"book: an empty line as clause {r + 1}", "B", given, line(0, 0, r + 1, 0)))
        # one figure or two about 0
        for first in range(r):
            for second in range(first, r):
                for value in (-1, 0):
                    numerators = [value if i in (first, second) else 1 for i in range(r)]
                    for clauses in ([], [alone(1, [1] * r, 9)], [alone(4, [1] * r, 9)]):
                        name = f"sheet: {r} figures, {len(clauses)} clauses, {numerators}"
                        yield naming(2, Input(name, "M", question(0, r, clauses), b"", sheet([], 2, numerators)))


# ---- carried over to edition 2, and back

def of_conversion(folder):
    for name, asked, length, *_ in rows(f"{folder}/convert.txt"):
        yield over(name, bytes.fromhex(asked), int(length))
    for name, asked, given, length, *_ in rows(f"{folder}/carry_back.txt"):
        yield back(name, bytes.fromhex(asked), bytes.fromhex(given), int(length))


def about_figures():
    """Clauses of one mark and two figures that keep a figure, or nearly do: with each relation, sign, bound and factor, beside a literal or
    another condition."""
    rows = [[-1], [0, -1], [1], [-1, 1], [1, -1], [-7], [], [-1, -1]]
    for row, relation, bound in product(rows, (1, 2, 3, 4), (-1, 0, 1)):
        yield f"{row} {relation} {bound}", alone(relation, row, bound)
    own, true, false = (1, [-1], 0), (1, [], 0), (1, [], -1)
    for literals in ([0], [128], [0, 128], [0, 0]):
        yield f"literals {literals}", (literals, [own])
    for conditions in ([own, own], [own, (1, [-1], -1)], [own, false], [false, own], [own, true], [own, (1, [1], -9)], [(1, [1], -9), own]):
        yield f"conditions {conditions}", ([], conditions)
    yield "an empty clause", ([], [])


def long_question(r, length):
    """Figures that are all split, in clauses that tidying drops, whose literals make up the length of the result."""
    clauses = [([1, 129], [(1 + j % 2, [i - 128 + f for f in range(r)], j - i) for j in range(3)]) for i in range(256)]
    rest = length - 4 - 256 * (4 + 3 * (5 + 8 * r))
    for literals, _ in clauses:
        more = min(rest, 30)
        literals += [2] * more
        rest -= more
    return question(16, r, clauses)


def conversion():
    """Each of those clauses, alone and before or behind another; figures kept and split of every count, with sheets of every count; halves
    about their range at each figure; targets and sheets of every length about their own; results about the limit."""
    others = {"": [], "; x + 3y <= 5": [alone(1, [1, 3], 5)], "; -y <= 0": [alone(1, [0, -1], 0)], "; a": [([0], [])]}
    for (i, clause), (j, other) in product(about_figures(), others.items()):
        marks = [2] if not any(literals for literals, _ in (clause, *other)) else [1]
        for order, clauses in (("", [clause, *other]), (", turned round", [*other, clause])):
            asked = question(1, 2, clauses)
            yield over(f"{i}{j}{order}", asked)
            for count in (2, 3, 4):
                yield back(f"{i}{j}{order}, {count} figures", asked, sheet(marks, 6, [3, 10, 2, 4][:count]))
    # each set of figures kept, by a clause for each, with a sum of all before them
    for r in range(1, 9):
        for kept in range(2 ** r):
            if r > 4 and (kept * 2654435761 >> 7) % 8:
                continue
            own = [alone(1 + i % 2, [0] * i + [-1 - i], -i) for i in range(r) if kept >> i & 1]
            asked = question(2, r, [([1], [(4, list(range(1, r + 1)), -7)])] + own)
            name = f"{r} figures, {[i for i in range(r) if kept >> i & 1]} kept"
            yield over(name, asked)
            for count in {r, min(8, 2 * r - len(own)), 8}:
                yield back(f"{name}, {count} figures", asked, sheet([2, 1], 9, [5, 100, 3, 1000, 20, 300, 4, 7][:count]))
    # lengths
    asked = question(0, 2, [alone(1, [1, 1], -5), alone(1, [-1], 0)])
    for length in range(64):
        yield over(f"x + y <= -5; -x <= 0, a target of {length}", asked, length)
    given = sheet([], 4, [2, 6, 8])
    for lent, to in product((0, 17, 18, 62, 63, 64, 65, 80), repeat=2):
        yield back(f"a sheet of {lent}, a target of {to}", asked, (given[:18] + bytes([7]) * 62)[:lent], to)
    for r, length in ((4, QUESTION - 1), (4, QUESTION), (4, QUESTION + 1), (5, QUESTION + 4000)):
        for target in (length - 1, length, QUESTION, BOOK):
            yield over(f"{r} figures, {length} bytes, a target of {target}", long_question(r, length), target)
        yield back(f"{r} figures, {length} bytes", long_question(r, length), sheet([2, 1, 1] + [2] * 13, 1, [9, 1, 8, 2, 7, 3, 6, 4]))
    # halves about their range
    pairs = [(MOST, 0), (0, MOST), (MOST, -1), (-1, MOST), (-MOST, 1), (-MOST, -MOST), (MOST, -MOST), (MOST + 1, 0), (0, -MOST - 1)]
    for own in ([], [alone(1, [0, -1], 0)]):
        asked = question(1, 4, own)
        for first, second in product(range(4), repeat=2):
            for one, other in product(pairs, repeat=2):
                figures = [one if i == first else other if i == second else (7, 3) for i in range(4)]
                numerators = [amount for i, pair in enumerate(figures) for amount in (pair[:1] if own and i == 1 else pair)]
                yield back(f"figures {figures}, {len(own)} kept", asked, sheet([2], 3, numerators))
    # a sheet with every byte changed
    asked = question(3, 3, [([0, 130], [(1, [1, 1, 1], 5)]), alone(1, [0, -1], 0)])
    right = sheet([1, 2, 0], 6, [4, 2, 8, 10, 12])
    for place, value in product(range(SHEET), (0, 1, 2, 3, 5, 127, 128, 255)):
        changed = bytearray(right)
        changed[place] = value
        yield back(f"byte {place} is {value}", asked, bytes(changed))
    # faults of the question come first, with 20, 21, 2 and 17 behind
    fine = question(0, 5, [alone(1, [1], 5), ([], [(3, [1], 1), (4, [1], 2)])])
    for length in range(len(fine) + 1):
        yield over(f"five figures, {length} bytes", fine[:length], 9)
        yield back(f"five figures, {length} bytes", fine[:length], b"", 9)
    for place, value in product(range(len(fine)), (3, 9, 33, 255)):
        changed = bytearray(fine)
        changed[place] = value
        yield over(f"five figures, byte {place} is {value}", bytes(changed), 9)
        yield back(f"five figures, byte {place} is {value}", bytes(changed), bytes(64), 9)
    for name, random in (("question", Random(3)), ("question of four relations", Stated(4))):
        for i in range(300):
            asked = random.problem()
            yield over(f"random {name} {i}", asked)
            yield over(f"random {name} {i}, damaged", random.damaged(asked), random.between(0, 200))


# ---- short books

def of_shortening(folder):
    for name, asked, book, edition, length, *_ in rows(f"{folder}/shorten_book.txt"):
        yield short(name, bytes.fromhex(asked), bytes.fromhex(book), int(length), int(edition))


def chain(count, needed, turned):
    """A question and a book of so many lines, of which those at these places, at least seven and the last among them, are needed: four
    clauses, and results that each come from the one before as first parent, or if turned as second. All others repeat a clause."""
    steps, sign = len(needed) - 6, -1 if turned else 1
    conditions = [([sign], steps), ([-sign, sign], -1), ([sign, -sign], -1), ([-sign], 0), ([0, -sign], 0)]

    def clause(i):
        return line(0, 0, i, 0, 1, 0, 0, *conditions[i])

    used = [0, 1, 2, 3 + (steps + 1) % 2]
    book = [clause(i % 5) for i in range(count)]
    for k, place in enumerate(needed):
        if k < 4:
            book[place] = clause(used[k])
            continue
        last = k == len(needed) - 1
        parents = [needed[0 if k == 4 else k - 1], needed[3 if last else 1 + k % 2]]
        # y <= steps - 1, x <= steps - 2 and so on; the last is empty
        row = [0, sign] if k % 2 == 0 else [sign]
        rest = (0, 0, 0) if last else (1, 0, 0, row, steps - k + 3)
        book[place] = line(1, k % 2, *(parents[::-1] if turned else parents), *rest)
    return question(0, 2, [alone(1, *condition) for condition in conditions]), b"".join(book)


def choices(marks, before=0, behind=0):
    """A clause for each choice of so many marks, which fails for that alone: all lines of its book are needed, but for so many that repeat
    the first one before them, and in front of each level of results."""
    def literals(mark, choice):
        sides = [sum(1 << i for i in range(mark) if choice >> i & 1 == side) for side in (0, 1)]
        return sides

    asked = question(marks, 0, [([i + 128 * (choice >> i & 1) for i in range(marks)], []) for choice in range(2 ** marks)])
    first = line(0, 0, 0, 0, 0, *literals(marks, 0))
    book = [first] * before
    level = list(range(before, before + 2 ** marks))
    book += [line(0, 0, choice, 0, 0, *literals(marks, choice)) for choice in range(2 ** marks)]
    for mark in range(marks - 1, -1, -1):
        book += [first] * behind
        start, half = len(book), 2 ** mark
        book += [line(2, mark, level[i], level[i + half], 0, *literals(mark, i)) for i in range(half)]
        level = list(range(start, start + half))
    return asked, b"".join(book)


def places(count):
    """Places in a book of so many lines, the last among them: all, about the ends of words and bytes, and others."""
    about = {0, 31, 32, 33, 63, 64, 65, 95, 96, 255, 256, 257, 511, 512, 1022}
    yield "all", range(count)
    yield "odd", range(1, count, 2)
    yield "about ends of words", (i for i in range(count) if i in about)
    yield "not about ends of words", (i for i in range(count) if i not in about)
    yield "last of each word", range(31, count, 32)
    yield "first of each word", range(0, count, 32)
    yield "the first", range(min(count, 40))
    yield "the last", range(max(count - 40, 0), count)
    yield "one in three", (i for i in range(count) if (i * 2654435761 >> 9) % 3 == 0)


def shortening():
    """Chains and trees of every length about the ends of words, of which some lines are needed; ends that are loaded, that come twice, or
    of which each has lines of its own; targets, editions and faults, each before the others; and a book with every byte changed."""
    for count in (7, 8, 31, 32, 33, 34, 64, 65, 66, 97, 255, 256, 257, 300, 513, 1023, 1024):
        for name, some in places(count):
            needed = {*some, count - 1}
            needed |= set(range(count)) if len(needed) < 7 and count < 14 else set(range(7 - len(needed)))
            while len(needed) < 7:
                needed.add(max(set(range(count)) - needed))
            for turned in (False, True):
                yield short(f"{count} lines, {name}{', turned' * turned}", *chain(count, sorted(needed), turned))
    for marks in range(1, 9):
        for before, behind in ((0, 0), (1, 0), (0, 1), (33, 3), (200, 30)):
            yield short(f"all choices of {marks} marks, {before} before, {behind} behind", *choices(marks, before, behind))
    # so many clauses, of which one is empty, by each of its copies and behind other lines
    for clauses in (1, 2, 5, 40, 256):
        for empty in sorted({0, 1, clauses // 2, clauses - 1} & set(range(clauses))):
            asked = question(0, 1, [([], []) if i == empty else alone(1, [1], i) for i in range(clauses)])
            loaded = [line(0, 0, i, 0, *((0,) if i == empty else (1, 0, 0, [1], i))) for i in range(clauses)]
            for before in (0, 1, clauses):
                book = b"".join(loaded[:before]) + loaded[empty]
                yield short(f"{clauses} clauses, {empty} is empty, {before} lines before", asked, book)
                yield short(f"{clauses} clauses, {empty} is empty, {before} lines before, twice", asked, book + book)
    # x < 5; -x <= -5; a; not a: every two copies of each, and ends by either
    asked = question(1, 1, [alone(2, [1], 5), alone(1, [-1], -5), ([0], []), ([128], [])])
    by = [line(0, 0, 0, 0, 2, 0, 0, [1], 5), line(0, 0, 1, 0, 1, 0, 0, [-1], -5), line(0, 0, 2, 0, 0, 1), line(0, 0, 3, 0, 0, 0, 1)]
    for copies in product((1, 2), repeat=4):
        lines = [own for own, count in zip(by, copies) for _ in range(count)]
        starts = [sum(copies[:i]) for i in range(4)]
        for x, y, a, b in product(*(range(start, start + count) for start, count in zip(starts, copies))):
            ends = [line(1, 0, x, y), line(2, 0, a, b)]
            for order in ((0,), (1,), (0, 1), (1, 0), (0, 1, 0)):
                book = b"".join(lines + [ends[i] for i in order])
                yield short(f"copies {copies}, from {x} and {y}, {a} and {b}, ends {order}", asked, book)
    book = b"".join([by[2], *by, line(1, 0, 1, 2), line(2, 0, 3, 4)])
    for target in (0, 1, 63, 64, 16384, BOOK - 64, BOOK - 1, BOOK, BOOK + 1, BOOK + 64, 2 * BOOK):
        for edition in (1, 2, 3):
            for name, given in (("", book), (", no end", book[:-64]), (", empty", b""), (", a byte short", book[:-1])):
                yield short(f"a target of {target}, edition {edition}{name}", asked, given, target, edition)
                yield short(f"a target of {target}, edition {edition}{name}, a fault", asked + b"\0", given, target, edition)
    for edition in EDITIONS:
        yield short(f"edition {edition}", asked, book, BOOK, edition)
    for place, change in product(range(len(book)), (1, 255)):
        changed = bytearray(book)
        changed[place] = (book[place] + change) % 256
        yield short(f"byte {place} is {changed[place]}", asked, changed, BOOK)
    # the end needs a clause of edition 2, and not
    asked = question(0, 2, [alone(1, [1, 1], -1), alone(2, [1], 0)])
    lines = [line(0, 0, 3, 0, 1, 0, 0, [0, -1], 0), line(0, 0, 2, 0, 1, 0, 0, [-1], 0), line(0, 0, 1, 0, 2, 0, 0, [1], 0), line(1, 0, 2, 1)]
    for edition in (1, 2):
        yield short(f"a clause of edition 2, edition {edition}", asked, b"".join(lines), BOOK, edition)


def shortened(left):
    """Books that solving left, in their edition; the first of many lines, too."""
    long = 6
    for given, number, book, _ in left:
        if number == 65:
            lines = len(book) // LINE
            long -= lines > 64
            if lines <= 64 or long >= 0:
                yield short(f"of {given.name}", given.question, book, BOOK + 16, given.number if given.call == "T" else 1)


# ---- by the preview's calls

def previews(folder):
    """The vectors of the preview; questions with open marks; and what reads the number of lines, about both numbers."""
    for given in (*questions_and_books(f"{folder}/preview"), *buffers_and_parts(f"{folder}/preview")):
        yield preview(given)
    for name, asked in with_open_marks():
        yield preview(solving(f"open marks: {name}", asked))
    contradiction = question(0, 1, [alone(2, [1], 5), alone(1, [-1], -5)])
    empty = question(0, 0, [([], [])])
    for bound in (PREVIEW, BOOK):
        for length in (bound - LINE, bound - 1, bound, bound + 1, bound + LINE):
            for given in (SHEET - 1, SHEET):
                yield preview(solving(f"x < 5; -x <= -5, buffers of {length} and {given}", contradiction, length, given))
                for number, lines in ((64, 1), (65, 1), (66, 1)):
                    name = f"handing back: {number} {lines}, buffers of {length} and {given}"
                    yield preview(Input(name, "H", b"", length, given, number, lines))
            yield preview(Input(f"book: {length} zeros", "B", empty, bytes(length)))
        for lines in (bound // LINE - 1, bound // LINE, bound // LINE + 1):
            for number in (64, 65, 66, 15):
                yield preview(Input(f"handing back: {number} {lines}, a whole book", "H", b"", BOOK, SHEET, number, lines))


# ---- at random

class Random:
    """splitmix64, with the problems of tests/questions."""

    def __init__(self, seed):
        self.state = seed

    def word(self):
        mask = (1 << 64) - 1
        self.state = (self.state + 0x9E3779B97F4A7C15) & mask
        z = self.state
        z = (z ^ (z >> 30)) * 0xBF58476D1CE4E5B9 & mask
        z = (z ^ (z >> 27)) * 0x94D049BB133111EB & mask
        return z ^ (z >> 31)

    def between(self, first, last):
        return first + self.word() % (last - first + 1)

    def once_in(self, times):
        return self.between(1, times) == 1

    def literal(self, b):
        return self.between(0, b - 1) + 128 * self.between(0, 1)

    def amount(self, size):
        return 0 if self.once_in(3) else self.between(-size, size)

    def constraint(self, r, size):
        bound = max(-MOST, min(MOST, self.between(-2 * size, 2 * size)))
        return (2 if self.once_in(3) else 1, [self.amount(size) for _ in range(r)], bound)

    def few(self):
        return min(self.between(0, 3), self.between(0, 3))

    def problem(self):
        b, r = self.between(0, 3), self.between(0, 3)
        size = {0: 40_000, 1: MOST}.get(self.between(0, 15), 3)
        clauses = []
        for _ in range(self.between(0, 9)):
            literals = [self.literal(b) for _ in range(self.few())] if b else []
            count = max(self.few(), int(not literals and not self.once_in(40)))
            clauses.append((literals, [self.constraint(r, size) for _ in range(count)]))
        return question(b, r, clauses)

    # one or two bytes changed, or the end cut or lengthened
    def damaged(self, right):
        out = bytearray(right)
        for _ in range(self.between(1, 2)):
            out[self.between(0, len(out) - 1)] = self.word() % 256 if self.once_in(2) else self.between(0, 9)
        if self.once_in(4):
            return bytes(out + b"\0\0\0")[:self.between(0, len(out) + 1)]
        return bytes(out)


class Stated(Random):
    """The same with all four relations, a second = in a clause now and then."""

    def constraint(self, r, size):
        _, row, bound = super().constraint(r, size)
        return (self.between(1, 4), row, bound)


def at_random(count):
    for name, random in (("question", Random(1)), ("question of four relations", Stated(2))):
        for i in range(count):
            asked = random.problem()
            yield solving(f"random {name} {i}", asked)
            yield solving(f"random {name} {i}, damaged", random.damaged(asked))


# ---- books and sheets that solving left, right and damaged

def left_by(solved, data):
    """The inputs that were solved, each with its number, its book's used lines and its sheet."""
    at = 0
    for given in solved:
        number, lines = unpack_from("<QQ", data, at)
        at += 16
        book, at = data[at:at + LINE * lines], at + LINE * lines
        yield given, number, book, data[at:at + SHEET]
        at += SHEET


# the checks of a book and of a sheet, in the edition of what was solved
CHECKS = {"S": ("B", "M"), "T": ("C", "N")}


def books(given, book):
    """A right book; its lines one by one left out, cut behind, their parents exchanged; and every byte one more and one less."""
    def checks(what, changed):
        return Input(f"book of {given.name}{what}", CHECKS[given.call][0], given.question, bytes(changed), b"", given.number)

    yield checks("", book)
    yield checks(", a byte short", book[:-1])
    for start in range(0, len(book), LINE):
        i = start // LINE
        yield checks(f" to line {i}", book[:start])
        yield checks(f", line {i} left out", book[:start] + book[start + LINE:])
        swapped = bytearray(book)
        swapped[start + 2:start + 6] = book[start + 4:start + 6] + book[start + 2:start + 4]
        yield checks(f", parents of line {i} exchanged", swapped)
    for place in range(len(book)):
        for change in (1, 255):
            changed = bytearray(book)
            changed[place] = (book[place] + change) % 256
            yield checks(f", byte {place} is {changed[place]}", changed)


def sheets(given, right):
    def checks(what, changed):
        return Input(f"sheet of {given.name}{what}", CHECKS[given.call][1], given.question, b"", bytes(changed), given.number)

    yield checks("", right)
    yield checks(", a byte short", right[:-1])
    for place in range(SHEET):
        for change in (1, 255):
            changed = bytearray(right)
            changed[place] = (right[place] + change) % 256
            yield checks(f", byte {place} is {changed[place]}", changed)


def damaged(left):
    """Of short books, and of sheets after "agrees": the first of the vectors, of those with = and >=, of those with open marks, and in
    edition 2."""
    most_books = {"": 30, "(i)": 15, "(iv)": 0, "edition 2:": 15, "edition 1:": 0}
    most_sheets = {"": 40, "(i)": 10, "(iv)": 10, "edition 2:": 15, "edition 1:": 0}
    for given, number, book, right in left:
        kind = next((kind for kind in most_books if given.name.startswith(f"{kind} ")), "")
        if number == 65 and 3 * LINE <= len(book) <= 12 * LINE and most_books[kind]:
            most_books[kind] -= 1
            yield from books(given, book)
        if number in (64, 66) and 2 * LINE <= len(book) <= 8 * LINE:
            yield Input(f"book of {given.name}", CHECKS[given.call][0], given.question, book, b"", given.number)
        if number == 64 and most_sheets[kind]:
            most_sheets[kind] -= 1
            yield from sheets(given, right)
