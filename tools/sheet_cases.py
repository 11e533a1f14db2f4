"""Sheets, good and damaged, with the answers that document 01 gives them: a list for the program vectors.

The first half is a model of document 01's sheet over the rows of rows.py: framing, the family, the room in body and output, and
finishing. It follows document 01 and, where that is silent, docs/DECISIONS.md, and was written before the code was read, some of the
cases after. The second half makes the sheets; the model answers each. It is tried on document 01's whole case before anything else.

Of document 01's numbers a sheet can get 0 to 6, 8 and 15. TOO_BIG would need more than 65,536 bytes, ORDER an open entry, COUNT
4,294,967,295 rows, and the others are the reader's.
"""
import struct

from cases import LARGEST_ROOM, SHEETS, Case
from rows import *

SHEET_LIMIT = 65536

# ---------------------------------------------------------------------------------------------------------------- the model


def frame_of(sheet):
    """The pool and the rows of a sheet, or SHEET."""
    if sheet[:1] != b'\1' or len(sheet) < 5:
        raise Refused(SHEET)
    at = 5 + int.from_bytes(sheet[1:5], 'big')
    pool, rows = sheet[5:at], []
    if at >= len(sheet):
        raise Refused(SHEET)
    while at < len(sheet):
        if len(sheet) - at < 4:
            raise Refused(SHEET)
        words = int.from_bytes(sheet[at:at + 4], 'big')
        at += 4
        if len(sheet) - at < 4 * words:
            raise Refused(SHEET)
        rows.append(struct.unpack_from('>%dI' % words, sheet, at))
        at += 4 * words
    return pool, rows


def section_of(sheet, body_room, out_room):
    """The section of a sheet, and its body."""
    if len(sheet) > SHEET_LIMIT:
        raise Refused(LIMIT)
    pool, rows = frame_of(sheet)
    family = family_of(rows[0][0]) if rows[0] else None
    parts, used = [], 0
    for at, row in enumerate(rows):
        try:
            made = item(row, pool, family)
        except Refused as refusal:
            raise Refused(refusal.number, at, refusal.also) from None
        if used + len(made) > body_room:
            raise Refused(ROOM, at)
        parts.append(made)
        used += len(made)
    body = b''.join(parts)
    counted = unsigned(len(rows)) + body
    if len(counted) > MOST:
        raise Refused(TOO_BIG, len(rows))
    section = bytes([family]) + unsigned(len(counted)) + counted
    if len(section) > out_room:
        raise Refused(ROOM, len(rows))
    return section, body


def answer(sheet, body_room, out_room):
    """Number, value, also, section and body."""
    try:
        section, body = section_of(sheet, body_room, out_room)
        return OK, len(section), 0, section, body
    except Refused as refusal:
        return refusal.number, refusal.value, refusal.also, b'', b''


def sheet_of(pool, *rows):
    """A sheet from its pool and its rows."""
    parts = [b'\1', struct.pack('>I', len(pool)), pool]
    for row in rows:
        parts.append(struct.pack('>%dI' % (len(row) + 1), len(row), *row))
    return b''.join(parts)


def try_sheets():
    """The model on document 01's whole case."""
    whole = answer(bytes.fromhex('01 00000000 00000002 00000000 0000000c'), 32768, 65536)
    assert whole == (OK, 4, 0, bytes.fromhex('07020173'), b'\x73')


# ------------------------------------------------------------------------------------------------------------ the sheets

dice = Dice(0x2545f4914f6cdd1d)
cases = []


def put(label, sheet, body_room, out_room):
    """One case, answered by the model."""
    number, value, also, section, body = answer(sheet, body_room, out_room)
    cases.append(Case(label, SHEETS, sheet, 0, body_room, out_room, number, value, also, section, len(body)))


def put_roomy(label, sheet):
    """A case with room enough, exact or with some to spare; where a row is refused, for the rows before it at least."""
    number, at, _, section, body = answer(sheet, LARGEST_ROOM, LARGEST_ROOM)
    if number == OK:
        put(label, sheet, len(body) + dice.pick([0, 0, 1, 7]), len(section) + dice.pick([0, 0, 1, 9]))
    elif at == 0:
        put(label, sheet, dice.pick([0, 1, 40]), dice.pick([0, 3, 50]))
    else:
        pool, rows = frame_of(sheet)
        *_, before = answer(sheet_of(pool, *rows[:at]), LARGEST_ROOM, LARGEST_ROOM)
        put(label, sheet, len(before) + dice.pick([0, 0, 3, 60]), dice.pick([0, 5, 90]))


def bench_sheets(bench):
    for label, pool, row, _ in bench:
        put_roomy('bench: ' + label, sheet_of(pool, row))


def whole_sheet():
    put('whole case', bytes.fromhex('01 00000000 00000002 00000000 0000000c'), 32768, 65536)


def bound_sheets(forms):
    """Every form at every boundary index; all bounds as the rows of one sheet."""
    for form in forms:
        for i in BOUNDS if set(form.split()) & set('ipf') else [0]:
            put_roomy('bound %d' % i, sheet_of(POOL, row_of(form, i)))
        put_roomy('all bounds', sheet_of(POOL, *[row_of(form, i) for i in BOUNDS]))


def primitive_sheets():
    for p in range(14):
        put_roomy('primitive %d' % p, sheet_of(b'', [0, p], [3, 0, p], [10, 0, p, 0, 13 - p], [15, 0, 0, 0, p]))
        put_roomy('value import %d' % p, sheet_of(b'n', [17] + PLAIN + [2, 0, p]))


def wrong_word_sheets(forms, numbers):
    """Every word of every form replaced: wrong tags, flags, p, reps, options, sorts, unused words, names out of range, counts."""
    for form in forms:
        row = row_of(form, 9)
        for place in range(1, len(row)):
            old = row[place]
            words = (numbers | {MOST, old + 1, old + 256, 1 << dice.below(32)}) - {old}
            for word in sorted(words):
                changed = row[:place] + [word] + row[place + 1:]
                before = [row_of(form, dice.pick(BOUNDS))] * dice.pick([0, 0, 0, 1, 2])
                put_roomy('word %d is %d' % (place, word), sheet_of(POOL, *before, changed))


def length_sheets(forms, shapes):
    """Rows too long and too short, counts that do not fit, and counts whose words wrap 32 bits."""
    for form in forms:
        row = row_of(form, 64)
        for changed in (row + [0], row + [0, 0], row[:-1], row[:1]):
            put_roomy('%d words for %d' % (len(changed), len(row)), sheet_of(POOL, changed))
    for kind, shape in shapes.items():
        if len(shape) == 4:
            head, tail = [0] * width(shape[1]), [0] * width(shape[3])
            for n in [1, 2, 1 << 28, 1 << 29, 1 << 30, 1 << 31, 3 << 30, MOST]:
                put_roomy('count %d of none' % n, sheet_of(POOL, [kind] + head + [n] + tail))
            put_roomy('no entries', sheet_of(POOL, [kind] + head + [0] + tail))
            put_roomy('ends before the count', sheet_of(POOL, [kind] + head))


def empty_row_sheets(sheets):
    for rows in sheets:
        put_roomy('an empty row', sheet_of(POOL, *rows))


def kind_sheets():
    """Kinds that are none but for 18, and every lead that is none."""
    none = list(range(18, 256, 9)) + [18, 254, 255] + [256 + lead for lead in range(256) if 256 + lead not in SHAPES]
    none += [512, 513, 512 + 5, 65536, 65536 + 3, 1 << 31, (1 << 31) + 11, MOST - 255, MOST]
    for kind in none:
        put_roomy('kind %d' % kind, sheet_of(b'', [kind] + [0] * dice.below(3)))


def later_kind_sheets(rows, kinds):
    """A kind that is none, or another family's, behind a row that set the family."""
    for first in rows:
        for kind in kinds:
            put_roomy('kind %d later' % kind, sheet_of(POOL, first, [kind], first))


def family_sheets(families, forms, seen):
    """A row of another family after rows of the first row's, its length right or wrong, its fields right or wrong. Of families that
    were seen there are no pairs."""
    by_family = {family: [] for family in families}
    for row in (row_of(form, 64) for form in forms):
        by_family[family_of(row[0])].append(row)
    for mine in by_family:
        for other in by_family:
            if mine in seen and other in seen:
                continue
            for row in by_family[other]:
                before = [dice.pick(by_family[mine]) for _ in range(1 + dice.below(3))]
                changed = dice.pick([row, row, row + [0], row[:-1] or row, [row[0]] + [w + 3 for w in row[1:]]])
                if other != mine or changed == row:
                    put_roomy('family %d after %d' % (other, mine), sheet_of(POOL, *before, changed))


def text_sheets(named):
    """Names of every length of character, whole, cut, wrong, alone and within a longer name, beside bytes that are no text."""
    for text in GOOD_TEXT + WRONG_TEXT:
        for row in named(0, len(text)):
            if dice.below(3) == 0:
                put_roomy('name', sheet_of(text, row))
        ahead, after = b'a' * dice.below(20), b'z' * dice.below(20)
        pool = b'\xff\xc3' + ahead + text + after + b'\x80\xe2'
        put_roomy('name within', sheet_of(pool, dice.pick(named(2, len(ahead + text + after)))))
    for text in GOOD_TEXT:
        for cut in range(1, len(text)):
            put_roomy('name begins inside a character', sheet_of(text, named(cut, len(text) - cut)[2]))
            put_roomy('name ends inside a character', sheet_of(b'abc' + text, dice.pick(named(0, 3 + cut))))
    for length in list(range(0, 42)) + [63, 64, 126, 127, 128, 129, 255, 256]:
        put_roomy('name of %d bytes' % length, sheet_of(b'n' * length, dice.pick(named(0, length))))
        if length:
            at = dice.below(length)
            pool = b'n' * at + dice.pick([b'\x80', b'\xc3', b'\xff', b'\xf0']) + b'n' * (length - at - 1)
            put_roomy('name of %d bytes, wrong at %d' % (length, at), sheet_of(pool, dice.pick(named(0, length))))
        mixed = b''.join(dice.pick(GOOD_TEXT) for _ in range(length // 3))
        put_roomy('mixed name', sheet_of(mixed, dice.pick(named(0, len(mixed)))))


# A row of each family, without a name or with an empty one.
NAMELESS = {7: [0, 12], 10: [17] + [0] * 11 + [1, 0, 0], 2: [18, 0, 0], 5: [19, 0, 0]}


def spoilt_sheets():
    """Names that stop at each place of each line of the table of sequences: alone, within a longer name, at its end; in the first row
    or a later one."""
    for text in WRONG_TEXT + spoilt_texts():
        for ahead, behind in ((0, 0), (dice.below(200), 1 + dice.below(40)), (dice.below(200), 0)):
            name = b''.join(dice.pick(GOOD_TEXT + [b'x'] * 20) for _ in range(ahead)) + text + b'z' * behind
            start = dice.below(3)
            row = dice.pick(dice.pick([named_rows, named_instances])(start, len(name)))
            rows = [NAMELESS[family_of(row[0])]] * dice.below(3) + [row]
            put_roomy('name with ' + text.hex(), sheet_of(b'\xff\xc3'[:start] + name + b'\xbf\x80', *rows))


def range_sheets(named):
    """Names that end at the pool's end or past it, start past it, or whose end wraps 32 bits."""
    for pool in (b'', b'x', b'abcdef', b'\xff\xff\xff'):
        n = len(pool)
        m = max(n, 1)
        places = [(0, n), (n, 0), (n, 1), (n + 1, 0), (0, n + 1), (m - 1, 1), (m - 1, 2), (MOST, 0), (MOST, 1), (0, MOST),
                  (1, MOST), (MOST, MOST), (1 << 31, 1 << 31), (MOST + 1 - m, m)]
        for start, length in places:
            for row in named(start, length):
                if dice.below(4) == 0:
                    put_roomy('name %d %d of %d' % (start, length, n), sheet_of(pool, row))


BAD_MEMBERS = [0, 1, 0, 1], [9, 1, 0, 1], [1, 1, 3, 0]
# An extern name's parts, the first of each right.
NAME_PARTS = [([1, 2], [0, 1], [9, 1])] + [([0, 0, 0], [1, 0, 1], [1, 9, 1], [2, 0, 0], [0, 0, 1])] * 3


def two_fault_sheets():
    """Two faults in one row, or in two."""
    for first in BAD_MEMBERS:
        for second in BAD_MEMBERS:
            put_roomy('two faults in a record', sheet_of(b'\xffok', [1, 2] + first + second))
            put_roomy('two faults in a function', sheet_of(b'\xffok', [15, 0, 2] + first + second + [3, 0]))
            put_roomy('faults in two rows', sheet_of(b'\xffok', [1, 1] + first, [1, 1] + second))
            put_roomy('a fault and a wrong length', sheet_of(b'\xffok', [1, 2] + first + second + [0]))
    for words in two_faults(NAME_PARTS + [([1, 0, 0], [6, 0, 0], [2, 0, 14])]):
        put_roomy('two faults in an import', sheet_of(b'\xffok', [17] + words))


def two_faults(parts):
    """Words of all parts, two of them wrong."""
    for one in range(len(parts)):
        for two in range(one):
            for first in parts[one][1:]:
                for second in parts[two][1:]:
                    yield sum((first if k == one else second if k == two else parts[k][0] for k in range(len(parts))), [])


def frame_sheets():
    """Wrong versions, every prefix of two sheets, sheets with bytes added, wrong pool lengths and word counts, no rows."""
    good = sheet_of(b'hello', [7, 2, 0, 2, 1, 3], [11, 300], [3, 0, 12])
    other = sheet_of(b'', [256 + 5], [256 + 0x11, 5, 1])
    for version in (0, 2, 3, 127, 128, 129, 254, 255):
        put_roomy('version %d' % version, bytes([version]) + good[1:])
    broken_frames(good)
    broken_frames(other)
    for pool in (b'', b'x', b'\xff', b'pool' * 9):
        put_roomy('no row', sheet_of(pool))
        put_roomy('no row, other version', b'\2' + sheet_of(pool)[1:])
    put_roomy('rows before a broken row', sheet_of(b'', [99], [3, 9, 9]) + b'\0\0\0\2\0\0\0\0')


def broken_frames(sheet):
    """Every prefix of a sheet, bytes added, wrong pool lengths and word counts."""
    for length in range(len(sheet) + 1):
        put_roomy('cut to %d' % length, sheet[:length])
    for more in '00 0000 000000 00000000 00000001 0000000000 0000000000000000 0000000100000000 01010101 ffffffff'.split():
        put_roomy('lengthened', sheet + bytes.fromhex(more))
    put_roomy('without its first byte', sheet[1:])
    put_roomy('a byte more in front', b'\1' + sheet)
    pool = int.from_bytes(sheet[1:5], 'big')
    all_of_it = len(sheet) - 5
    for length in (0, 1, 4, pool + 1, pool + 4, all_of_it, all_of_it + 1, all_of_it - 4, 1 << 24, 1 << 31, MOST, MOST - 4):
        put_roomy('pool length %d' % length, sheet[:1] + struct.pack('>I', length) + sheet[5:])
    at = 5 + pool
    while at < len(sheet):
        words = int.from_bytes(sheet[at:at + 4], 'big')
        for count in (0, words - 1, words + 1, words + (1 << 30), 1 << 30, 1 << 31, (len(sheet) - at - 4) // 4, MOST):
            put_roomy('word count %d' % count, sheet[:at] + struct.pack('>I', count) + sheet[at + 4:])
        at += 4 + 4 * words


def room_sheets(rows, wrong):
    """Body and output room at, below and above what is needed, for each row; faults before and after the room is used up."""
    sheet = sheet_of(b'hello', *rows)
    _, size, _, _, body = answer(sheet, LARGEST_ROOM, LARGEST_ROOM)
    for room in range(len(body) + 3):
        put('body room %d' % room, sheet, room, size)
        put('body room %d, output short' % room, sheet, room, size - 1)
    for room in range(size + 3):
        put('output room %d' % room, sheet, len(body), room)
    for label, row in wrong.items():
        for at in range(len(rows) + 1):
            changed = sheet_of(b'hello', *rows[:at], row, *rows[at:])
            *_, before = answer(sheet_of(b'hello', *rows[:at]), LARGEST_ROOM, LARGEST_ROOM)
            for room in sorted({0, max(len(before), 1) - 1, len(before), len(body)}):
                put('%s at row %d, body room %d' % (label, at, room), changed, room, dice.pick([0, size]))


def short_room_sheets():
    for row in ([256 + 5], [17, 0, 5] + [0] * 9 + [1, 0, 0], [256, 1, 128, 1, 3, 16384]):
        sheet = sheet_of(b'hello', row)
        _, size, _, _, body = answer(sheet, 99, 99)
        for less_body, less_out in ((0, 0), (1, 0), (0, 1), (1, 1), (len(body), size)):
            put('room short by %d and %d' % (less_body, less_out), sheet, len(body) - less_body, size - less_out)


def size_sheets():
    """Counts and sizes at which the section's numbers become longer, with exact room and one less; much room."""
    for count in (126, 127, 128, 129, 300):
        put_roomy('%d rows' % count, sheet_of(b'', *[[256 + 5]] * count))
        put_roomy('%d rows, the last empty' % count, sheet_of(b'', *[[256 + 5]] * (count - 1), []))
    for total in (126, 127, 128, 129, 16382, 16383, 16384, 16385):
        row = [7, 1, 0, total - 4] if total < 130 else [7, 16] + [0, 1024] * 15 + [0, total - 15395]
        sheet = sheet_of(b'0123456789abcdef' * 64, row)
        _, size, _, _, body = answer(sheet, LARGEST_ROOM, LARGEST_ROOM)
        assert 1 + len(body) == total
        for less_body, less_out in ((0, 0), (0, 1), (1, 0)):
            put('count and body %d bytes' % total, sheet, len(body) - less_body, size - less_out)
    for length in (16383, 16384):
        put_roomy('name of %d bytes' % length, sheet_of(b'0123456789abcdef' * 1024, [8, 1, 0, length]))
    small = sheet_of(b'n', [8, 1, 0, 1])
    put('much room', small, LARGEST_ROOM, LARGEST_ROOM)
    put('much body', small, LARGEST_ROOM, 0)
    put('many long names, over all room', sheet_of(b'n' * 20000, [7, 900] + [0, 20000] * 900), LARGEST_ROOM, LARGEST_ROOM)


def long_sheets():
    """Sheets of exactly 65,536 bytes, and of one more: whole but for that, and broken too."""
    row = [6, 8187] + [1, 115] * 8187
    spare = SHEET_LIMIT - len(sheet_of(b'', row))
    put_roomy('65,536 bytes: a tuple', sheet_of(b'p' * spare, row))
    put('65,537 bytes: a tuple', sheet_of(b'p' * (spare + 1), row), LARGEST_ROOM, LARGEST_ROOM)
    put('65,537 bytes, broken', b'\7' * (SHEET_LIMIT + 1), LARGEST_ROOM, LARGEST_ROOM)
    length = SHEET_LIMIT - len(sheet_of(b'', [17] + PLAIN + [1, 0, 0]))
    put_roomy('65,536 bytes: an import', sheet_of(b'm' * length, [17, 0, length] + [0] * 9 + [1, 0, 0]))
    put_roomy('65,536 bytes: 8,191 rows', sheet_of(b'abc', *[[256 + 5]] * 8191))
    assert [len(case.input) - SHEET_LIMIT for case in cases[-5:]] == [0, 1, 1, 0, 0]


def some_sheets(count, families, others):
    """Rows by the dice; half of the sheets have one word, one byte or the length of one row changed, or too little room."""
    for _ in range(count):
        pool = dice.pool()
        family = dice.pick(families)
        rows = [dice.row(family, pool) for _ in range(1 + dice.pick([0, 0, 1, 2, 3, 6]))]
        change = dice.below(10)
        at = dice.below(len(rows))
        if change == 0:
            rows[at][dice.below(len(rows[at]))] = dice.pick([dice.below(16), dice.index(), 256 + dice.below(80)])
        elif change == 1:
            rows[at] = dice.pick([rows[at][:-1], rows[at] + [0], [], dice.row(dice.pick(others), pool)])
        sheet = bytearray(sheet_of(pool, *rows))
        if change == 2:
            sheet[dice.below(len(sheet))] ^= 1 << dice.below(8)
        elif change == 3 and pool:
            sheet[5 + dice.below(len(pool))] = dice.below(256)
        number, size, _, _, body = answer(bytes(sheet), LARGEST_ROOM, LARGEST_ROOM)
        if change == 4 and number == OK:
            put('dice, less room', bytes(sheet), dice.below(len(body) + 1), size - dice.below(2))
        else:
            put_roomy('dice', bytes(sheet))


def long_instances():
    """Sheets of exactly 65,536 bytes whose one row is of instances."""
    for row in ([18, 300] + [5455] + [0, 1, 128] * 5455, [21, 1259] + ([0, 1] + [1, 0, 1] * 3 + [5, 300]) * 1259):
        spare = SHEET_LIMIT - len(sheet_of(b'', row))
        put_roomy('65,536 bytes: kind %d' % row[0], sheet_of(b'p' * spare, row))
        assert len(cases[-1].input) == SHEET_LIMIT


def first_sheets():
    """Sheets of types, imports and canonicals."""
    import_row = [17] + PLAIN + [1, 0, 0]
    bench_sheets(BENCH)
    whole_sheet()
    bound_sheets(FORMS)
    primitive_sheets()
    wrong_word_sheets(FORMS, {0, 1, 2, 3, 4, 6, 10, 14})
    length_sheets(FORMS, FIRST_SHAPES)
    empty_row_sheets([[[]], [[], [0, 1]], [[0, 1], []], [[0, 1], [], [99]], [[256 + 5], []], [import_row, []]])
    kind_sheets()
    later_kind_sheets([[0, 1], [256 + 5], import_row], [18, 255, 256 + 9, 256 + 0x50, 512, MOST])
    family_sheets((7, 8, 10), FORMS, ())
    text_sheets(named_rows)
    range_sheets(named_rows)
    two_fault_sheets()
    frame_sheets()
    room_sheets([[7, 2, 0, 2, 1, 3], [11, 300], [0, 12], [15, 1, 1, 0, 3, 1, 64, 2, 0], [6, 3, 1, 63, 1, 64, 0, 13]],
                {'TAG': [3, 2, 0], 'ROW': [3, 0], 'KIND': import_row, 'RANGE': [7, 1, 5, 1], 'empty': []})
    short_room_sheets()
    size_sheets()
    some_sheets(1000, [7, 7, 8, 8, 10], [7, 8, 10])
    long_sheets()


def instance_sheets():
    """Sheets of instances, core ones and others."""
    core, other = [18, 0, 0], [19, 0, 0]
    bench_sheets(INSTANCES)
    bound_sheets(INSTANCE_FORMS)
    wrong_word_sheets(INSTANCE_FORMS[:20] + INSTANCE_FORMS[20::3], {0, 1, 2, 5, 6})
    length_sheets(INSTANCE_FORMS, INSTANCE_SHAPES)
    empty_row_sheets([[core, []], [other, []], [[], core]])
    later_kind_sheets([core, other, [20, 0], [21, 0]], [24, 255, 256 + 9, 512 + 18, MOST])
    family_sheets((2, 5, 7, 8, 10), INSTANCE_FORMS + FORMS[::2], (7, 8, 10))
    text_sheets(named_instances)
    range_sheets(named_instances)
    for kind in (20, 19):
        parts = [([kind] + [7] * (kind == 19) + [2],)] + [([1, 2], [0, 1], [9, 1]), ([0, 7], [6, 7])] * 2
        for words in two_faults(parts):
            put_roomy('two faults in kind %d' % kind, sheet_of(b'\xffok', words))
    for words in two_faults(NAME_PARTS + [([1, 7], [6, 7])]):
        put_roomy('two faults in an item', sheet_of(b'\xffok', [21, 1] + words))
    broken_frames(sheet_of(b'he', [18, 7, 1, 0, 2, 3], [20, 0]))
    room_sheets([[18, 7, 1, 0, 2, 300], [20, 2, 0, 3, 0, 1, 1, 4, 4, 2], [18, 0, 0]],
                {'TAG': [20, 1, 0, 1, 5, 0], 'ROW': [18, 0], 'KIND': other, 'RANGE': [18, 0, 1, 5, 1, 0], 'empty': []})
    room_sheets([[19, 7, 1, 0, 2, 0, 300], [21, 1, 0, 5, 0, 0, 0, 1, 1, 2, 0, 0, 0, 1, 4], [21, 0]],
                {'TAG': [19, 0, 1, 0, 1, 6, 0], 'ROW': [21, 1], 'KIND': core, 'RANGE': [21, 1, 5, 1] + [0] * 9 + [1, 0], 'empty': []})
    some_sheets(300, [2, 5], [2, 5, 7])
    long_instances()


def sheets():
    """The cases of the list."""
    try_writer()
    try_sheets()
    first_sheets()
    instance_sheets()
    spoilt_sheets()
    return cases
