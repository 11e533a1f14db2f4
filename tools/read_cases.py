"""Readings of types and imports, whole and damaged, with the answers that document 01 gives them: a list for the program vectors.

The first half is a model of document 01's reader. It follows document 01 and, where that is silent, the reading decisions of
docs/DECISIONS.md (a V of one byte, fixed bytes, the kinds of import options), so that agreement says nothing of those decisions. It
was written from these, without the reader's definitions and code but for the table of lead bytes and their grades in crate types, the
calls of crates types and imports, and the enums of crate fields. Numbers may be padded, as wish 4 says. The model is tried on document
01's bench table before anything else, and on each case: an item that is read and written again, by the model of the writer (rows.py),
gives the same item in no more bytes than were taken, and exactly these bytes where no number was padded.
The second half makes the inputs; the model answers each. Items are written by the model of the writer.

An input above 1,073,741,824 bytes, which is LIMIT, cannot be stored. Of document 01's numbers a reading can get 0, 1, 6, 8 and 11 to
14; the others are the writer's and the sheet's.
"""
import itertools
import struct

from cases import IMPORTS, LARGEST_ROOM, TYPES, Case
from rows import *

# ---------------------------------------------------------------------------------------------------------------- the model

INPUT_LIMIT = 1073741824


class Start(int):
    """The word of a name's start."""


class Reader:
    """Reads an input from its front. Each step answers with its words; the first fault that is met is the leftmost."""

    def __init__(self, data, grade):
        self.data, self.grade, self.at = data, grade, 0
        # Where each number stands, from and to; and whether one has more bytes than it needs.
        self.numbers, self.padded = [], False

    def byte(self):
        """The next byte."""
        if self.at == len(self.data):
            raise Refused(CUT, len(self.data))
        self.at += 1
        return self.data[self.at - 1]

    def one_of(self, table):
        """What a table has for the next byte."""
        found = self.byte()
        if found not in table:
            raise Refused(CODE, self.at - 1)
        return table[found]

    def graded(self, grade):
        """The byte that was just read marks a form of this grade."""
        if grade > self.grade:
            raise Refused(NEWER, self.at - 1)

    def carried(self):
        """The bytes of a number: up to the first that does not carry on."""
        start = self.at
        while self.byte() >= 0x80:
            if self.at == start + 5:
                raise Refused(NUMBER, start)
        return self.data[start:self.at]

    def noted(self, start, number, shortest):
        """The number that ends here, and has this shortest form."""
        self.numbers.append((start, self.at))
        self.padded |= self.at - start > len(shortest)
        return number

    def unsigned(self):
        """A count, a length or an index."""
        start, number = self.at, digits(self.carried())
        if number > MOST:
            raise Refused(NUMBER, start)
        return self.noted(start, number, unsigned(number))

    def index(self):
        return [self.unsigned()]

    def primitive(self):
        """p, by its byte."""
        found = self.one_of(PRIMITIVE_BYTES)
        self.graded(2 if found == 13 else 1)
        return [found]

    def value(self):
        """V: below 80 a byte for itself; from there on a signed number that must not be below 0."""
        start, first = self.at, self.byte()
        self.at = start
        if 0x40 <= first < 0x80:
            return [0] + self.primitive()
        taken = self.carried()
        number, below_zero = digits(taken), taken[-1] >= 0x40
        if below_zero or number > MOST:
            raise Refused(NUMBER, start)
        return [1, self.noted(start, number, signed(number))]

    def optional(self):
        """O."""
        return self.one_of({0: lambda: [2, 0], 1: self.value})()

    def case_end(self):
        """The 00 that ends a variant's case."""
        return self.one_of({0: []})

    def result(self):
        """A function's result."""
        return self.one_of({0: self.value, 1: lambda: self.one_of({0: [2, 0]})})()

    def name(self):
        """N: its start and length in the input."""
        length = self.unsigned()
        start = self.at
        if length > len(self.data) - start:
            raise Refused(CUT, len(self.data))
        self.at += length
        judge_text(self.data[start:self.at], start)
        return [Start(start), length]

    def many(self, *fields):
        """A count, and so many times the fields."""
        words = self.index()
        for _ in range(words[0]):
            for field in fields:
                words += field()
        return words

    def destructor(self):
        """The d and index of a resource."""
        return self.one_of({0: lambda: [0, 0], 1: lambda: [1] + self.index()})()

    def type(self):
        """An item of kind 0 to 16."""
        lead = self.byte()
        if lead in PRIMITIVE_BYTES:
            self.at = 0
            return [0] + self.primitive()
        if lead not in TYPE_LEADS:
            raise Refused(CODE, 0)
        kind, grade, fields = TYPE_LEADS[lead]
        self.graded(grade)
        return [kind] + fields(self)

    def options(self):
        """The options of an import: their count, and the kinds rising."""
        place, total = self.at, self.unsigned()
        if total not in (1, 2, 3):
            raise Refused(CODE, place)
        words, least = [[0, 0, 0], [0, 0, 0], [0, 0, 0]], 0
        for _ in range(total):
            kind = self.one_of({k: k for k in range(least, 3)})
            words[kind] = [1] + self.name()
            least = kind + 1
        return words[0] + words[1] + words[2]

    def extern_name(self):
        """The name and the three options of an import."""
        lead = self.one_of({0: 0, 2: 2})
        self.graded(3 if lead == 2 else 1)
        return self.name() + (self.options() if lead == 2 else [0] * 9)

    def reference(self):
        """The reference of an import."""
        sort = self.one_of({s: s for s in range(6)})
        if sort == 0:
            self.one_of({0x11: 0})
        if sort == 2:
            return [2] + self.value()
        if sort == 3:
            return [3] + self.one_of({0: lambda: [0] + self.index(), 1: lambda: [1, 0]})()
        return [sort] + self.index() + [0]

    def import_(self):
        """An item of kind 17."""
        return [17] + self.extern_name() + self.reference()


def digits(taken):
    """The number in the low seven bits of each byte."""
    return sum((byte & 0x7f) << 7 * k for k, byte in enumerate(taken))


PRIMITIVE_BYTES = {0x64: 13} | {0x7f - p: p for p in range(13)}
REPS = {0x7f: [0], 0x7e: [1]}
# Lead: kind, grade, and what follows.
TYPE_LEADS = {
    0x72: (1, 1, lambda r: r.many(r.name, r.value)),
    0x71: (2, 1, lambda r: r.many(r.name, r.optional, r.case_end)),
    0x70: (3, 1, lambda r: r.value()),
    0x63: (4, 3, lambda r: r.value() + r.value()),
    0x67: (5, 3, lambda r: r.value() + r.index()),
    0x6f: (6, 1, lambda r: r.many(r.value)),
    0x6e: (7, 1, lambda r: r.many(r.name)),
    0x6d: (8, 1, lambda r: r.many(r.name)),
    0x6b: (9, 1, lambda r: r.value()),
    0x6a: (10, 1, lambda r: r.optional() + r.optional()),
    0x69: (11, 1, lambda r: r.index()),
    0x68: (12, 1, lambda r: r.index()),
    0x65: (13, 2, lambda r: r.optional()),
    0x66: (14, 2, lambda r: r.optional()),
    0x40: (15, 1, lambda r: [0] + r.many(r.name, r.value) + r.result()),
    0x43: (15, 2, lambda r: [1] + r.many(r.name, r.value) + r.result()),
    0x3f: (16, 1, lambda r: r.one_of(REPS) + r.destructor()),
}


def read(sort, data, grade):
    """A reader that has read an item, and the item's words."""
    reader = Reader(data, grade)
    return reader, reader.type() if sort == TYPES else reader.import_()


def answer(sort, data, grade, room):
    """Number, value, also and words of a reading with room for so many words."""
    if len(data) > INPUT_LIMIT or grade not in (1, 2, 3):
        return LIMIT, 0, 0, []
    try:
        reader, words = read(sort, data, grade)
    except Refused as refusal:
        return refusal.number, refusal.value, refusal.also, []
    if len(words) > min(room, ROW_LIMIT):
        return ROOM, len(words), 0, []
    return OK, reader.at, len(words), words


def content(words, data):
    """What makes an item that was read the same as another: its words, with the bytes of a name in the place of its start."""
    return [data[word:word + words[k + 1]] if isinstance(word, Start) else word for k, word in enumerate(words)]


def try_again(sort, data, words):
    """An item that was read from all of these bytes is written again as the same item in fewer; in these where no number is padded."""
    again = written(words, data)
    number, taken, _, same = answer(sort, again, 3, ROW_LIMIT)
    assert (number, taken, content(same, again)) == (OK, len(again), content(words, data)), data.hex()
    assert len(again) < len(data) if read(sort, data, 3)[0].padded else again == data, data.hex()


def try_reader():
    """The model on document 01's bench table: what is written there is read back, and the readings."""
    for label, _, row, made in BENCH:
        data = bytes.fromhex(made)
        number, taken, also, words = answer(sort_of(row), data, 3, len(row))
        assert (number, taken, also, words[0]) == (OK, len(data), len(row), row[0]), label
        assert written(words, data) == data, label
    for sort, made, grade, told in ((TYPES, '72 01 01 78 64', 1, (NEWER, 4)), (TYPES, '63 73 79', 2, (NEWER, 0)),
                                    (IMPORTS, '01 00 01 00', 3, (CODE, 0))):
        assert answer(sort, bytes.fromhex(made), grade, 40)[:2] == told, made
    assert answer(TYPES, bytes.fromhex('69 80 00'), 3, 2) == (OK, 3, 2, [11, 0])


def sort_of(row):
    return IMPORTS if row[0] == 17 else TYPES


def written(row, pool):
    """The bytes of a row, by the model of the writer."""
    return item(row, pool, family_of(row[0]))


# ---------------------------------------------------------------------------------------------------------- the readings

PLENTY = LARGEST_ROOM // 4
GRADES = (1, 2, 3)
dice = Dice(0x9e3779b97f4a7c15)
cases = []
# The inputs that are already there, with sort and grade.
seen = set()


def put(label, sort, data, grade, room):
    """One case, answered by the model. What is read and not too long for a pool is written again."""
    number, value, also, words = answer(sort, data, grade, room)
    if number == OK and value <= POOL_LIMIT:
        try_again(sort, data[:value], words)
    seen.add((sort, data, grade))
    cases.append(Case(label, sort, data, grade, 0, 4 * room, number, value, also, struct.pack('>%dI' % len(words), *words), 0))


def put_roomy(label, sort, data, grade):
    """A case with room enough, exact or with some to spare; where the input is refused, for all of it, a part or nothing."""
    if (sort, data, grade) not in seen:
        number, _, _, words = answer(sort, data, grade, PLENTY)
        put(label, sort, data, grade, len(words) + dice.pick([0, 0, 1, 5]) if number == OK else dice.pick([0, 0, 1, 15, 40]))


def put_hex(label, sort, text, grade=3):
    put_roomy(label, sort, bytes.fromhex(text), grade)


INDICES = [0, 63, 64, 115, 127, 128, 8192, 1 << 21, 1 << 28, 1 << 31, MOST]
ITEM_POOL = 'amin-baré€😀'.encode('utf-8')
NAME_FORMS = [[0, 0], [0, 1], [1, 7], [8, 2], [10, 7]]
VALUE_FORMS = [[0, p] for p in range(14)] + [[1, i] for i in INDICES]
OPTIONAL_FORMS = [[2, 0]] + VALUE_FORMS
# Every form of a field, by its letter in the table of shapes.
FIELD_FORMS = {
    'p': [[p] for p in range(14)], 'i': [[i] for i in INDICES], 'r': [[0], [1]], 'a': [[0], [1]], 'Z': [[]],
    'V': VALUE_FORMS, 'O': OPTIONAL_FORMS, 'Y': OPTIONAL_FORMS, 'N': NAME_FORMS, 'D': [[0, 0]] + [[1, i] for i in INDICES],
    'R': [[s, i, 0] for s in (0, 1, 4, 5) for i in INDICES] + [[2] + v for v in VALUE_FORMS] +
         [[3, 0, i] for i in INDICES] + [[3, 1, 0]],
    'E': [n + sum(([1] + dice.pick(NAME_FORMS) if there else [0, 0, 0] for there in options), [])
          for options in itertools.product((0, 1), repeat=3) for n in NAME_FORMS],
}


def item_of(kind, count, place=None, form=None):
    """A row of a kind, with so many entries if it is counted; its field at that place has that form, the others one by the dice."""
    shape = SHAPES[kind]
    fields = shape[1] if len(shape) == 2 else shape[1] + shape[2] * count + shape[3]
    parts = [form if k == place else dice.pick(FIELD_FORMS[field]) for k, field in enumerate(fields)]
    if len(shape) == 4:
        parts.insert(len(shape[1]), [count])
    return [kind] + sum(parts, [])


def items():
    """Rows of every kind: each form of each field, and counts 0 to 3."""
    for kind in range(18):
        shape = SHAPES[kind]
        counted = len(shape) == 4
        fields = shape[1] + shape[2] if counted else shape[1]
        for place, field in enumerate(fields):
            for form in FIELD_FORMS[field]:
                yield item_of(kind, 1, place, form)
        if counted and shape[3]:
            for form in FIELD_FORMS[shape[3]]:
                yield item_of(kind, 0, len(shape[1]), form)
        for count in (0, 0, 2, 2, 3, 3) if counted else ():
            yield item_of(kind, count)


def whole_readings(sort, data, words):
    """An item alone and followed by other bytes, at each grade, with room exact, a word short, none and plenty."""
    for follower in (b'', dice.pick([b'\0', b'\x80', b'\xff\xff', b'\1\0\1', b'\x73', data])):
        for grade in GRADES:
            number, taken, _, _ = answer(sort, data, grade, words)
            assert (number, taken) == (OK, len(data)) or number == NEWER and grade < 3
            for room in (0, words) if number == NEWER else (words, words - 1, 0, words + 1 + dice.below(9)):
                put('whole', sort, data + follower, grade, room)


def cut_readings(sort, data):
    """Every prefix at each grade."""
    for length in range(len(data)):
        for grade in GRADES:
            put_roomy('cut to %d' % length, sort, data[:length], grade)


STAND_INS = bytes.fromhex('00 01 02 03 3f 40 64 73 7f 80 ff')


def changed_readings(sort, data, one_in):
    """Each byte changed, at grade 3 and at a lower one: each change of a byte, or one in so many by the dice."""
    for place, byte in enumerate(data):
        for other in sorted((set(STAND_INS) | {byte ^ 1, byte ^ 0x80}) - {byte}):
            if dice.below(one_in) == 0:
                changed = data[:place] + bytes([other]) + data[place + 1:] + dice.pick([b'', b'\0\0', b'\x7f'])
                put_roomy('byte %d is %02x' % (place, other), sort, changed, 3)
                put_roomy('byte %d is %02x' % (place, other), sort, changed, 1 + dice.below(2))


def item_readings():
    """The items and what is made of them; of each kind and length of bytes the first item has every change."""
    changed = set()
    for row in items():
        sort, data = sort_of(row), written(row, ITEM_POOL)
        whole_readings(sort, data, len(row))
        cut_readings(sort, data)
        first = (row[0], len(data)) not in changed and len(data) < 10
        changed.add((row[0], len(data)))
        changed_readings(sort, data, 1 if first else 20)


def bench_readings():
    for label, _, row, made in BENCH:
        for grade in GRADES:
            put('bench: ' + label, sort_of(row), bytes.fromhex(made), grade, len(row))
    for sort, made in ((TYPES, '69 80 00'), (IMPORTS, '01 01 66 01 00')):
        for grade in GRADES:
            put_hex('bench: reading', sort, made, grade)


def limit_readings():
    """Grades that are none, before everything else."""
    for grade in (0, 4, 5, 255, 256, 257, 1 << 31, MOST - 1, MOST):
        for sort, texts in ((TYPES, ('', '73', '70 f3 00', '69 80 00', '00', '63 73 79', '72 01')),
                            (IMPORTS, ('', '00 01 66 01 00', '01', '02 00 01 01 00 01 00', '00 01 ff 01 00'))):
            for text in texts:
                for room in (0, 40):
                    put('grade %d' % grade, sort, bytes.fromhex(text), grade, room)


def tuple_of(count):
    return b'\x6f' + unsigned(count) + b'\x7f' * count


def wide_readings():
    """Items of 16,384 words, of a little more and of very many; room is told after every fault."""
    for room in (16384, PLENTY, 16383):
        put('16,384 words', TYPES, tuple_of(8191), 1, room)
    for room in (16386, PLENTY):
        put('16,386 words', TYPES, tuple_of(8192), 2, room)
    for room in (16385, 16384):
        put('16,385 words', TYPES, b'\x40' + unsigned(4095) + b'\0\x7f' * 4095 + b'\1\0', 3, room)
    put('120,002 words', TYPES, b'\x6e' + unsigned(60000) + bytes(60000), 1, PLENTY)
    for label, last in (('wrong', b'\x62'), ('newer', b'\x64'), ('cut', b'')):
        put('16,386 words, the last ' + label, TYPES, tuple_of(8192)[:-1] + last, 1, PLENTY)


def long_readings():
    """Long names: longer than a pool may be, and at the ends of the lengths of their length."""
    name = b'n' * 65537
    put('a name of 65,537 bytes', TYPES, b'\x6d\1' + unsigned(len(name)) + name, 1, 4)
    put('a name of 65,537 bytes', IMPORTS, b'\0' + unsigned(len(name)) + name + b'\5\0', 1, 15)
    put('a name of 65,537 bytes, wrong', IMPORTS, b'\0' + unsigned(len(name)) + name[1:] + b'\xc3\1\0', 1, 0)
    for length in (126, 127, 128, 129, 16383, 16384):
        whole = b'\x6e\1' + unsigned(length) + b'n' * length
        put_roomy('a name of %d bytes' % length, TYPES, whole, 1)
        put_roomy('a name of %d bytes, cut' % length, TYPES, whole[:-1], 1)


# Places for a name, for a number and for a V: sort, the bytes before, the bytes after.
NAME_PLACES = [(TYPES, '72 01', '73'), (TYPES, '71 01', '00 00'), (TYPES, '6e 01', ''), (TYPES, '6d 02 00', ''),
               (TYPES, '40 01', '7f 01 00'), (IMPORTS, '00', '01 00'), (IMPORTS, '02', '01 01 01 31 01 00'),
               (IMPORTS, '02 00 01 00', '01 00'), (IMPORTS, '02 00 01 01', '05 00'), (IMPORTS, '02 00 03 00 00 01 00 02', '03 01')]
NUMBER_PLACES = [(TYPES, '69', ''), (TYPES, '68', ''), (TYPES, '67 7f', ''), (TYPES, '3f 7e 01', ''), (TYPES, '72', ''),
                 (TYPES, '71', ''), (TYPES, '6f', ''), (TYPES, '6e', ''), (TYPES, '6d', ''), (TYPES, '40', ''), (TYPES, '43', ''),
                 (TYPES, '6e 01', ''), (TYPES, '40 01', ''), (IMPORTS, '00', ''), (IMPORTS, '02', ''), (IMPORTS, '02 00', ''),
                 (IMPORTS, '02 00 01 00', ''), (IMPORTS, '00 00 00 11', ''), (IMPORTS, '00 00 01', ''),
                 (IMPORTS, '00 00 03 00', ''), (IMPORTS, '00 00 04', ''), (IMPORTS, '02 00 01 02 00 05', '')]
VALUE_PLACES = [(TYPES, '70', ''), (TYPES, '6b', ''), (TYPES, '63', '7f'), (TYPES, '63 7f', ''), (TYPES, '67', '05'),
                (TYPES, '72 01 00', ''), (TYPES, '71 01 00 01', '00'), (TYPES, '6f 02 00', ''), (TYPES, '6a 01', '00'),
                (TYPES, '6a 00 01', ''), (TYPES, '65 01', ''), (TYPES, '66 01', ''), (TYPES, '40 01 00', '01 00'),
                (TYPES, '43 00 00', ''), (IMPORTS, '00 00 02', ''), (IMPORTS, '02 00 01 01 00 02', '')]
# Numbers at the ends of their lengths, padded, past 32 bits, carrying on too long, or cut where nothing follows.
NUMBERS = ['00', '7f', '80 01', 'ff 7f', '80 80 01', 'ff ff ff ff 0f', '80 80 80 80 08', '80 80 80 80 01', '80 00', 'ff 00', '80 80 00',
           'ff ff 00', '80 80 80 00', '80 80 80 80 00', 'ff ff ff ff 10', '80 80 80 80 10', 'ff ff ff ff 7f', '80 80 80 80 40',
           '80 80 80 80 80', 'ff ff ff ff ff', '80 80 80 80 80 00', 'ff ff ff ff 8f 00', '80', 'ff ff', '80 80 80', 'ff ff ff ff']
# The same for a V, with those below 0: -1, -64, -65, -8192, -8193, -2^31, -2^32 and others, short and long.
VALUES = ['00', '3f', '40', '62', '63', '64', '65', '72', '73', '7e', '7f', 'c0 00', 'ff 00', '80 01', 'ff 3f', '80 c0 00',
          'ff ff ff ff 0f', '80 80 80 80 08', 'ff ff ff ff 07', '80 00', 'bf 00', '80 80 00', 'ff bf 00', '80 80 80 80 00',
          'ff ff ff ff 00', 'ff ff ff bf 00', 'ff ff ff ff 10', '80 80 80 80 10', 'ff ff ff ff 3f', 'ff 7f', 'c0 7f', 'bf 7f', '80 40',
          'ff bf 7f', '80 80 80 80 78', '80 80 80 80 70', '80 80 80 80 40', 'ff ff ff ff 7f', '80 80 80 80 80', 'ff ff ff ff ff 0f',
          '80', 'c0', 'ff', 'ff ff ff', 'ff ff ff ff', 'c0 80 80 80']


def number_readings():
    """Every number at every place, with nothing, the place's own bytes and zeros behind it."""
    for places, numbers in ((NUMBER_PLACES, NUMBERS), (VALUE_PLACES, VALUES)):
        for sort, before, after in places:
            for number in numbers:
                for behind in sorted({'', after, '00 00 00'}):
                    put_hex('number ' + number, sort, before + number + behind)
                put_hex('number ' + number, sort, before + number + after, dice.pick([1, 2]))


def pad(number, size):
    """A number's bytes, with zeros behind its digits up to so many bytes."""
    more = size - len(number)
    return number[:-1] + bytes([number[-1] | 0x80]) + b'\x80' * (more - 1) + b'\0' if more > 0 else number


def with_numbers(sort, data, changed):
    """An item of which each number's bytes are changed; changed is given the number's place among them, and its bytes."""
    parts, at = [], 0
    for k, (start, end) in enumerate(read(sort, data, 3)[0].numbers):
        parts += [data[at:start], changed(k, data[start:end])]
        at = end
    return b''.join(parts) + data[at:]


def padded_numbers():
    """Every number of the bounds in each length that it can have, at every place for a number, and for a V."""
    for places, form in ((NUMBER_PLACES, unsigned), (VALUE_PLACES, signed)):
        for sort, before, after in places:
            for number in [1, 2, 3] + BOUNDS:
                for size in range(len(form(number)) + 1, 6):
                    put_hex('%d in %d bytes' % (number, size), sort, before + pad(form(number), size).hex() + after, 1 + dice.below(3))


def padded_readings():
    """Items with every number in five bytes, whole and cut, or padded by the dice; and with one number of them spoilt."""
    for row in items():
        sort, data = sort_of(row), written(row, ITEM_POOL)
        in_five = with_numbers(sort, data, lambda k, number: pad(number, 5))
        if in_five == data:
            continue
        put_roomy('in five bytes', sort, in_five + dice.pick([b'', b'\0', b'\x80\x80']), 3)
        put_roomy('in five bytes', sort, in_five, 1 + dice.below(2))
        by_dice = with_numbers(sort, data, lambda k, number: pad(number, dice.below(6)))
        put_roomy('padded', sort, by_dice + dice.pick([b'', b'\0', data]), 3)
        if dice.below(6) == 0:
            for length in range(len(in_five)):
                put_roomy('in five bytes, cut to %d' % length, sort, in_five[:length], 3)
        if dice.below(3) == 0:
            spoilt_numbers(sort, by_dice)


# What becomes of a number's bytes: too many, five that carry on, each bit of the fifth past the 32, the sign's bit, or below 0.
SPOILT = [lambda number: pad(number, 6), lambda number: pad(number, 8), lambda number: pad(number, 6)[:-1],
          lambda number: pad(number, 5)[:4] + b'\x10', lambda number: pad(number, 5)[:4] + b'\x20',
          lambda number: pad(number, 5)[:4] + b'\x40', lambda number: number[:-1] + bytes([number[-1] | 0x40]),
          lambda number: (pad(number, 6)[:len(number)] + b'\xff' * 4)[:4] + b'\x7f', lambda number: pad(number, 6)[:len(number)] + b'\x7f']


def spoilt_numbers(sort, data):
    """An item with one of its numbers spoilt in each way."""
    one = dice.below(len(read(sort, data, 3)[0].numbers))
    for spoil in SPOILT:
        put_roomy('a spoilt number', sort, with_numbers(sort, data, lambda k, number: spoil(number) if k == one else number), 3)


def name_bytes(before, text, after):
    return bytes.fromhex(before) + unsigned(len(text)) + text + bytes.fromhex(after)


def text_readings():
    """Names right and wrong at every place; a character that the name cuts and the bytes behind it would end."""
    for sort, before, after in NAME_PLACES:
        for text in GOOD_TEXT + WRONG_TEXT:
            if dice.below(3) == 0:
                put_roomy('name', sort, name_bytes(before, text, after), 3)
            if dice.below(6) == 0:
                within = b'a' * dice.below(20) + text + b'z' * dice.below(20)
                put_roomy('name within', sort, name_bytes(before, within, after), 3)
        for text in (b'\xc3', b'\xe2\x82', b'\xf0\x9f\x98', b'\xed\xa0\x80', b'\xc0\x80', b'\xf4\x90\x80\x80', b'\xf0\x80\x80\x80'):
            put_roomy('name', sort, name_bytes(before, text, after), 3)
            put_roomy('name', sort, name_bytes(before, text, after), dice.pick([1, 2]))
            put_roomy('name cut and wrong', sort, name_bytes(before, text + b'a', '')[:-1], 3)
            put_roomy('name ends inside a character', sort, name_bytes(before, text, 'a9' + after), 3)
        for length in (1, 2, 127, 128, 65537, MOST):
            for there in (b'', b'\xff'):
                put_roomy('name of %d, %d there' % (length, len(there)), sort, bytes.fromhex(before) + unsigned(length) + there, 3)


def spoilt_readings():
    """Names that stop at each place of each line of the table of sequences: alone, within a longer name, at its end."""
    for text in WRONG_TEXT + spoilt_texts():
        for ahead, behind in ((0, 0), (dice.below(200), 1 + dice.below(40)), (dice.below(200), 0)):
            sort, before, after = dice.pick(NAME_PLACES)
            name = b''.join(dice.pick(GOOD_TEXT + [b'x'] * 20) for _ in range(ahead)) + text + b'z' * behind
            put_roomy('name with ' + text.hex(), sort, name_bytes(before, name, dice.pick(['', 'bf']) + after), 3)


def option_readings():
    """Every row of kinds for one to three options, and counts that are none."""
    for total in (1, 2, 3):
        for kinds in itertools.product((0, 1, 2, 3, 255), repeat=total):
            options = ''.join('%02x %s' % (kind, dice.pick(['00', '01 61', '02 c3 a9'])) for kind in kinds)
            put_hex('options', IMPORTS, '02 01 66 %02x' % total + options + '01 05')
            put_hex('options, cut', IMPORTS, '02 01 66 %02x' % total + options)
            if total < 3 and dice.below(4) == 0:
                put_hex('options, too few', IMPORTS, '02 01 66 %02x' % (total + 1) + options + '01 05')
    for count in ('00', '04', '05', '7f', '80 01', '81 01', '83 02', 'ff ff ff ff 0f', '80 00', '81 00', '83 00', '84 00',
                  '81 80 80 80 10', '83 80 80 80 80', '83 80 80 80 80 00', '80', '81', 'ff ff ff ff'):
        for behind in ('', '00', '00 00 01 00 02 00 03 00 01 05'):
            for grade in GRADES:
                put_hex('option count ' + count, IMPORTS, '02 00' + count + behind, grade)


# A byte that takes every value.
SWEEPS = {
    TYPES: ['??', '?? 01 01 61 7f 00 00 00', '70 ??', '70 ?? 00', '70 80 ??', '70 ff ff ff ff ??', '69 ??', '69 80 ??',
            '69 ff ff ff ff ??', '3f ?? 00', '3f 7f ?? 05', '65 ?? 7f', '6a 00 ?? 05', '40 00 ?? 7f', '40 00 01 ??',
            '71 01 00 00 ??', '71 01 00 ?? 00 00', '6d 01 01 ??', '6d 01 02 c3 ??', '72 01 00 ??'],
    IMPORTS: ['??', '?? 00 01 00', '?? 00 01 00 00 01 00', '00 00 ??', '00 00 ?? 11 00', '00 00 00 ?? 05', '00 00 03 ?? 05',
              '00 00 02 ??', '02 00 ?? 00 00 01 00 02 00 01 00', '02 00 01 ?? 00 01 00', '02 00 02 00 00 ?? 00 01 00'],
}


def sweep_readings():
    """Every byte where leads, flags, sorts, fixed bytes, counts, kinds and numbers stand; leads and V at each grade."""
    for sort, templates in SWEEPS.items():
        for template in templates:
            every = template.startswith('??') or template == '70 ??'
            for byte in range(256):
                for grade in GRADES if every else (dice.pick([1, 2, 3, 3]), ):
                    put_hex('every byte', sort, template.replace('??', '%02x' % byte), grade)


def fault_readings():
    """Two faults, of which the left one is told, and ROOM, which is told after both."""
    entries = ['01 61 7f', '01 ff 7f', '01 61 62', '81 00 61 80 00', '01 61 80 40', '01 61 64', '80 80 80 80 10 7f', '05 61 7f']
    for one, two in itertools.product(entries, repeat=2):
        for lead, result in (('72', ''), ('40', '02 7f'), ('43', '01 01'), ('40', '00 64')):
            for grade in (1, 3):
                put('two faults', TYPES, bytes.fromhex(lead + '02' + one + two + result), grade, dice.pick([0, 40]))
    names = ['00 00', '02 00 01 00 00', '02 01 ff 01 00 00', '02 00 04 00 00', '02 00 02 01 00 00 00', '01 00', '00 01 ff', '00 80 00', '00 ff ff ff ff 1f']
    references = ['01 00', '06 00', '00 10 00', '02 64', '02 80 40', '03 02', '04 80 00', '04 80 80 80 80 10', '05', '01 80 80']
    for head, tail in itertools.product(names, references):
        for grade in (1, 3):
            put('two faults', IMPORTS, bytes.fromhex(head + tail), grade, dice.pick([0, 40]))


def damaged(data):
    """A byte changed, left out or put in."""
    at, byte = dice.below(len(data) + 1), dice.pick([dice.pick(STAND_INS), dice.below(256)])
    return data[:at] + dice.pick([b'', bytes([byte]), bytes([byte])]) + data[at + dice.pick([0, 1, 1]):]


def some_readings(count):
    """Rows by the dice, written, with bytes behind; half of them are damaged, some twice."""
    while count:
        pool = dice.pool()
        row = dice.row(dice.pick([7, 7, 10]), pool)
        try:
            data = written(row, pool)
        except Refused:
            continue
        for _ in range(dice.pick([0, 0, 0, 1, 1, 2])):
            data = damaged(data)
        put_roomy('dice', sort_of(row), data + dice.pick([b'', b'\0', b'\x80\x80']), dice.pick([1, 2, 3, 3]))
        count -= 1


def readings():
    """The cases of the list."""
    try_writer()
    try_reader()
    bench_readings()
    item_readings()
    limit_readings()
    number_readings()
    text_readings()
    option_readings()
    sweep_readings()
    fault_readings()
    some_readings(1500)
    wide_readings()
    long_readings()
    spoilt_readings()
    padded_numbers()
    padded_readings()
    return cases
