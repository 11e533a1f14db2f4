"""Document 01's rows: a model of the writer, which makes the bytes of a row, and rows to make lists of.

The model follows document 01 and, where that is silent, docs/DECISIONS.md (an empty row is ROW, RANGE also at length 0, leads that are
not listed are KIND), so that agreement says nothing of those decisions. Its table of shapes is laid out as the product's is. The
model was written before the code was read. Python 3.9 or newer; only its standard library is used.
"""

# ---------------------------------------------------------------------------------------------------------------- the model

NAMES = 'OK LIMIT KIND ROW TAG RANGE TEXT TOO_BIG ROOM ORDER COUNT CUT CODE NUMBER NEWER SHEET'.split()
OK, LIMIT, KIND, ROW, TAG, RANGE, TEXT, TOO_BIG, ROOM, ORDER, COUNT, CUT, CODE, NUMBER, NEWER, SHEET = range(16)
MOST = 4294967295
ROW_LIMIT, POOL_LIMIT = 16384, 65536


class Refused(Exception):
    """A refusal: its number, what document 01 returns with it, and after TEXT the byte of the name, else 0."""

    def __init__(self, number, value=0, also=0):
        super().__init__(NAMES[number])
        self.number, self.value, self.also = number, value, also


def unsigned(n):
    """Shortest unsigned LEB128."""
    out = bytearray()
    while n > 127:
        out.append(n % 128 + 128)
        n //= 128
    return bytes(out) + bytes([n])


def signed(n):
    """Shortest signed LEB128 of a number that is not negative: the last byte's bit 6, its sign, is 0."""
    out = bytearray()
    while n > 63:
        out.append(n % 128 + 128)
        n //= 128
    return bytes(out) + bytes([n])


def one_of(word, table):
    """The bytes that a table gives for a word, or TAG."""
    if word not in table:
        raise Refused(TAG)
    return table[word]


def zero(*words):
    """Unused words are 0."""
    if any(words):
        raise Refused(TAG)
    return b''


PRIMITIVE = {p: bytes([0x7f - p]) for p in range(13)} | {13: b'\x64'}
FLAG = {0: b'\0', 1: b'\1'}
REP = {0: b'\x7f', 1: b'\x7e'}
ASYNC = {0: b'\x40', 1: b'\x43'}


def value(tag, x):
    """V."""
    if tag == 1:
        return signed(x)
    one_of(tag, {0: b''})
    return one_of(x, PRIMITIVE)


def optional(tag, x, absent=b'\0', present=b'\1'):
    """O."""
    return absent + zero(x) if tag == 2 else present + value(tag, x)


def result(tag, x):
    """A function's result."""
    return optional(tag, x, b'\1\0', b'\0')


def destructor(d, index):
    """The d and index of a resource."""
    return one_of(d, FLAG) + (unsigned(index) if d else zero(index))


# The Unicode Standard's table 3-7, well-formed UTF-8 byte sequences: the first and last of each byte's range, by lines.
WELL_FORMED = [[(int(part[:2], 16), int(part[-2:], 16)) for part in line.split()] for line in """
    00..7f
    c2..df 80..bf
    e0..e0 a0..bf 80..bf
    e1..ec 80..bf 80..bf
    ed..ed 80..9f 80..bf
    ee..ef 80..bf 80..bf
    f0..f0 90..bf 80..bf 80..bf
    f1..f3 80..bf 80..bf 80..bf
    f4..f4 80..8f 80..bf 80..bf""".split('\n')[1:]]


def stop(text):
    """The byte at which no valid reading of a name can go on: one that begins no line of the table, or one outside its line's range;
    the length of a name that ends inside a sequence. None: the name is UTF-8."""
    at = 0
    while at < len(text):
        line = [line for line in WELL_FORMED if line[0][0] <= text[at] <= line[0][1]]
        if not line:
            return at
        for least, most in line[0]:
            if at == len(text) or not least <= text[at] <= most:
                return at
            at += 1
    return None


def judge_text(text, value=0):
    """TEXT with the value and the byte, unless a name is UTF-8."""
    at = stop(text)
    if at is not None:
        raise Refused(TEXT, value, at)


def name(pool, start, length):
    """N: its range before its text."""
    if start + length > len(pool):
        raise Refused(RANGE)
    text = pool[start:start + length]
    judge_text(text)
    return unsigned(length) + text


def extern_name(pool, words):
    """A name and its three options."""
    plain = name(pool, words[0], words[1])
    options = []
    for k in range(3):
        present, start, length = words[2 + 3 * k:5 + 3 * k]
        one_of(present, FLAG)
        if present:
            options.append(bytes([k]) + name(pool, start, length))
        else:
            zero(start, length)
    if options:
        return b'\2' + plain + unsigned(len(options)) + b''.join(options)
    return b'\0' + plain


def reference(sort, x, y):
    """The reference of an import."""
    if sort == 0:
        return b'\0\x11' + unsigned(x) + zero(y)
    if sort == 2:
        return b'\2' + value(x, y)
    if sort == 3:
        return b'\3' + one_of(x, FLAG) + (zero(y) if x else unsigned(y))
    one_of(sort, {1: b'', 4: b'', 5: b''})
    return bytes([sort]) + unsigned(x) + zero(y)


def core_item(kind, index):
    """The kind and the index of a core item."""
    one_of(kind, range(5))
    return bytes([kind]) + unsigned(index)


def sorted_index(sort, index):
    """A sort and an index: a core module's sort is 00 11, another's its byte."""
    one_of(sort, range(6))
    return (bytes([sort]) if sort else b'\0\x11') + unsigned(index)


def option(k, x):
    """An option of a canonical."""
    one_of(k, range(10))
    return bytes([k]) + (unsigned(x) if k in (3, 4, 5, 7, 8) else zero(x))


# A field by its letter: how many words, and their bytes. A Z is no word, and the byte 00.
FIELDS = {
    'p': (1, lambda pool, w: one_of(w[0], PRIMITIVE)),
    'i': (1, lambda pool, w: unsigned(w[0])),
    'f': (1, lambda pool, w: one_of(w[0], FLAG)),
    'r': (1, lambda pool, w: one_of(w[0], REP)),
    'a': (1, lambda pool, w: one_of(w[0], ASYNC)),
    'V': (2, lambda pool, w: value(*w)),
    'O': (2, lambda pool, w: optional(*w)),
    'Y': (2, lambda pool, w: result(*w)),
    'D': (2, lambda pool, w: destructor(*w)),
    'N': (2, lambda pool, w: name(pool, *w)),
    'K': (2, lambda pool, w: option(*w)),
    'A': (1, lambda pool, w: b'\x12' + unsigned(w[0])),
    'C': (2, lambda pool, w: core_item(*w)),
    'S': (2, lambda pool, w: sorted_index(*w)),
    'R': (3, lambda pool, w: reference(*w)),
    'E': (11, lambda pool, w: extern_name(pool, w)),
    'Z': (0, lambda pool, w: b'\0'),
}

# Kind: lead bytes, the fields; where there is a count, those before it, those of each entry, those after.
SHAPES = {
    0: ('', 'p'), 1: ('72', '', 'NV', ''), 2: ('71', '', 'NOZ', ''), 3: ('70', 'V'), 4: ('63', 'VV'), 5: ('67', 'Vi'),
    6: ('6f', '', 'V', ''), 7: ('6e', '', 'N', ''), 8: ('6d', '', 'N', ''), 9: ('6b', 'V'), 10: ('6a', 'OO'), 11: ('69', 'i'),
    12: ('68', 'i'), 13: ('65', 'O'), 14: ('66', 'O'), 15: ('', 'a', 'NV', 'Y'), 16: ('3f', 'rD'), 17: ('', 'ER'),
}
LEADS = {
    'i': '02 03 04 40 0e 13 14 15 1a 1b 2e 2f', 'ii': '41 27', '': '05 0d 1e 1f 22 23 24 25 26', 'f': '06', 'if': '11 12 18 19',
    'ri': '0a 0b', 'Z': '0c 29 2a 2b 2c 2d', 'Zi': '20 21',
}
for fields, leads in LEADS.items():
    SHAPES.update({256 + int(lead, 16): (lead, fields) for lead in leads.split()})
SHAPES |= {256 + 0x0f: ('0f', 'i', 'K', ''), 256 + 0x16: ('16', 'i', 'K', ''), 256 + 0x01: ('01', 'Zi', 'K', ''),
           256: ('00', 'Zii', 'K', '')}
LIFT = 256
# Core and component instantiation, core and component items.
INSTANCE_SHAPES = {18: ('00', 'i', 'NA', ''), 19: ('00', 'i', 'NS', ''), 20: ('01', '', 'NC', ''), 21: ('01', '', 'ES', '')}
FIRST_SHAPES = dict(SHAPES)
SHAPES |= INSTANCE_SHAPES


def family_of(kind):
    return 7 if kind < 17 else {17: 10, 18: 2, 19: 5, 20: 2, 21: 5}.get(kind, 8)


def width(fields):
    return sum(FIELDS[f][0] for f in fields)


def judge_length(row, shape):
    """ROW unless the row is as long as kind and count need."""
    need = 1 + width(shape[1])
    if len(shape) == 4:
        if len(row) <= need:
            raise Refused(ROW)
        need += 1 + row[need] * width(shape[2]) + width(shape[3])
    if len(row) != need:
        raise Refused(ROW)


def pieces(row, pool, shape):
    """The bytes of each field in the row's order, the count's among them."""
    plan = shape[1]
    if len(shape) == 4:
        plan += '#' + shape[2] * row[1 + width(shape[1])] + shape[3]
    at, out = 1, []
    for field in plan:
        words, made = (1, lambda pool, w: unsigned(w[0])) if field == '#' else FIELDS[field]
        out.append(made(pool, row[at:at + words]))
        at += words
    return out


def item(row, pool, family):
    """The bytes of a row in a section of a family."""
    if len(row) > ROW_LIMIT or len(pool) > POOL_LIMIT:
        raise Refused(LIMIT)
    if not row:
        raise Refused(ROW)
    kind = row[0]
    if kind not in SHAPES or family_of(kind) != family:
        raise Refused(KIND)
    shape = SHAPES[kind]
    judge_length(row, shape)
    parts = pieces(row, pool, shape)
    if kind == LIFT:
        parts.append(parts.pop(2))
    return bytes.fromhex(shape[0]) + b''.join(parts)


# Document 01's bench table, the items that are written: pool, row, bytes.
BENCH = [
    ('primitive string', b'', [0, 12], '73'),
    ('list of index 115', b'', [3, 1, 115], '70 f3 00'),
    ('own 115', b'', [11, 115], '69 73'),
    ('option of 63', b'', [9, 1, 63], '6b 3f'),
    ('option of 64', b'', [9, 1, 64], '6b c0 00'),
    ('tuple of 4294967295', b'', [6, 1, 1, 4294967295], '6f 01 ff ff ff ff 0f'),
    ('own 128', b'', [11, 128], '69 80 01'),
    ('result, both absent', b'', [10, 2, 0, 2, 0], '6a 00 00'),
    ('variant, case a empty', b'a', [2, 1, 0, 1, 2, 0], '71 01 01 61 00 00'),
    ('function, nothing at all', b'', [15, 0, 0, 2, 0], '40 00 01 00'),
    ('function a, b string to string', b'ab', [15, 0, 2, 0, 1, 0, 12, 1, 1, 0, 12, 0, 12], '40 02 01 61 73 01 62 73 00 73'),
    ('import f, function 0', b'f', [17, 0, 1] + [0] * 9 + [1, 0, 0], '00 01 66 01 00'),
    ('same, version suffix 1', b'f1', [17, 0, 1, 0, 0, 0, 1, 1, 1, 0, 0, 0, 1, 0, 0], '02 01 66 01 01 01 31 01 00'),
    ('record x error-context', b'x', [1, 1, 0, 1, 0, 13], '72 01 01 78 64'),
    ('map string to u32', b'', [4, 0, 12, 0, 6], '63 73 79'),
]
# Rows of instances in the words of wish 1's layouts.
INSTANCES = [
    ('module 1 with a, instance 0', b'a', [18, 1, 1, 0, 1, 0], '00 01 01 01 61 12 00'),
    ('component 1 with a, module 115', b'a', [19, 1, 1, 0, 1, 0, 115], '00 01 01 01 61 00 11 73'),
    ('core item a, tag 128', b'a', [20, 1, 0, 1, 4, 128], '01 01 01 61 04 80 01'),
    ('item a, instance 0', b'a', [21, 1, 0, 1] + [0] * 9 + [5, 0], '01 01 00 01 61 05 00'),
    ('same, external id b', b'ab', [21, 1, 0, 1] + [0] * 6 + [1, 1, 1, 5, 0], '01 01 02 01 61 01 02 01 62 05 00'),
    ('nothing given to module 0', b'', [18, 0, 0], '00 00 00'), ('nor to component 0', b'', [19, 0, 0], '00 00 00'),
    ('no core items', b'', [20, 0], '01 00'), ('no items', b'', [21, 0], '01 00'),
]


def try_writer():
    """The model on document 01's bench table, on instances, and its bytes of names on those that follow from Python's decoder."""
    for label, pool, row, made in BENCH + INSTANCES:
        assert item(row, pool, family_of(row[0])) == bytes.fromhex(made), label
    for text in GOOD_TEXT + WRONG_TEXT + spoilt_texts():
        for name in (text, b'ab' + text, text + b'z', 'é€😀'.encode('utf-8') + text + b'zz'):
            assert stop(name) == decoders_stop(name), name.hex()


def decoders_stop(text):
    """The byte by Python's decoder: the name's length if it ends early; else that behind what was right of the sequence."""
    try:
        text.decode('utf-8')
        return None
    except UnicodeDecodeError as fault:
        return {'unexpected end of data': len(text), 'invalid start byte': fault.start,
                'invalid continuation byte': fault.end}[fault.reason]


# ------------------------------------------------------------------------------------------------------------------ rows

BOUNDS = [0, 63, 64, 115, 127, 128, 8191, 8192, 16383, 16384, 1 << 21, 1 << 28, 1 << 31, MOST]
POOL = b'abc'
PLAIN = [0, 1] + [0] * 9
# Rows of every form beside that pool. i stands for an index, p for i mod 14, f for i mod 2, plain and full for an import's words before
# its reference, without options and with all three.
FORMS = """0 p; 1 2 0 1 1 i 1 2 0 4; 2 2 0 1 1 i 2 1 2 0; 3 1 i; 4 0 0 1 i; 4 1 i 0 3; 5 1 i 0; 5 0 1 i; 6 2 0 13 1 i; 7 2 0 3 2 1;
    8 2 3 0 1 1; 9 1 i; 10 1 i 2 0; 10 0 2 1 i; 11 i; 12 i; 13 1 i; 13 2 0; 14 0 p; 14 1 i; 15 0 0 1 i; 15 1 1 0 2 1 i 2 0;
    15 1 0 0 p; 16 0 1 i; 16 1 1 i; 16 1 0 0; 17 plain 0 i 0; 17 full 0 i 0; 17 plain 1 i 0; 17 plain 2 1 i; 17 full 2 0 p;
    17 plain 3 0 i; 17 plain 3 1 0; 17 plain 4 i 0; 17 1 2 0 0 0 1 0 1 0 0 0 5 i 0; 0x141 7 i; 0x127 7 i; 0x10f i 0;
    0x116 i 1 0 0; 0x101 i 2 3 i 9 0; 0x100 i 1 1 6 0; 0x100 2 i 0; 0x100 1 2 2 2 0 3 i; 0x100 1 2 2 2 0 8 i""".split(';')
FORMS += ['0x1%s %s' % (lead, {'i': 'i', 'ii': 'i 7', 'f': 'f', 'if': 'i f', 'ri': 'f i', 'Zi': 'i'}.get(fields, ''))
          for fields, leads in LEADS.items() for lead in leads.split()]
FORMS += ['0x10f 1 1 %d %s' % (k, 'i' if k in (3, 4, 5, 7, 8) else '0') for k in range(10)]
# Instances: each kind and sort alone, names with each choice of options, and rows of two entries.
INSTANCE_FORMS = ['18 i 0', '18 7 1 0 3 i', '18 i 2 0 1 i 1 2 9', '19 i 0', '19 i 2 0 1 5 i 1 2 0 9', '20 0', '20 2 0 3 4 i 3 0 0 9',
                  '21 0', '21 2 plain 1 i full 0 9']
INSTANCE_FORMS += ['19 7 1 0 3 %d i' % sort for sort in range(6)] + ['20 1 0 3 %d i' % kind for kind in range(5)]
INSTANCE_FORMS += ['21 1 0 2 %s %d i' % (' '.join('1 %d 1' % k if which >> k & 1 else '0 0 0' for k in range(3)), which % 6)
                   for which in range(8)]


def row_of(form, i):
    """The row of a form for an index."""
    words = {'i': [i], 'p': [i % 14], 'f': [i % 2], 'plain': PLAIN, 'full': [0, 1, 1, 1, 2, 1, 0, 3, 1, 2, 0]}
    return sum((words.get(word) or [int(word, 0)] for word in form.split()), [])


GOOD_TEXT = [chr(c).encode('utf-8') for c in (
    0, 0x61, 0x7f, 0x80, 0x7ff, 0x800, 0xfff, 0x1000, 0xcfff, 0xd000, 0xd7ff, 0xe000, 0xfffd, 0xffff, 0x10000, 0x3ffff, 0x40000,
    0xfffff, 0x100000, 0x10ffff)]
WRONG_TEXT = [bytes.fromhex(h) for h in """
    80 bf 8080 c0 c080 c1bf c2 c200 c27f c2c0 c2c2 df dfff e0 e080 e08080 e09fbf e0a0 e0a07f e0a0c0 e18080e1 e180 e1c080 ecbfc0
    ed ed9f ed9fc0 eda080 edadbf edb080 edbfbf ee7f80 eebf ef ef80 efbf7f f0 f08080 f0808080 f08fbfbf f090 f09080 f0908041
    f09080c0 f1 f180 f18080 f1c08080 f3bfbf f3bf7fbf f4 f48f f48fbf f4908080 f4bfbfbf f5808080 f5 f7bfbfbf f8888080 f888808080
    fb fcbfbfbfbfbf fe ff feff fffe""".split()]


def spoilt_texts():
    """Of each line of the table of sequences and each place in it: right bytes up to there, then nothing or a byte out of range."""
    texts = []
    for line in WELL_FORMED:
        for place, (least, most) in enumerate(line):
            for end in (0, 1):
                front = bytes(part[end] for part in line[:place])
                texts += [front] + [front + bytes([byte]) for byte in (max(least, 1) - 1, most + 1, 0x41, 0x80, 0xc3, 0xff)]
    return sorted({text for text in texts if stop(text) is not None})


def named_rows(start, length):
    """Rows with a name in each place that takes one."""
    return [[1, 1, start, length, 0, 12], [2, 1, start, length, 2, 0], [7, 1, start, length], [8, 2, 0, 0, start, length],
            [15, 0, 1, start, length, 0, 1, 2, 0], [17, start, length] + [0] * 9 + [1, 0, 0],
            [17, 0, 0, 1, start, length] + [0] * 6 + [1, 0, 0], [17, 0, 0] + [0] * 3 + [1, start, length] + [0] * 3 + [1, 0, 0],
            [17, 0, 0] + [0] * 6 + [1, start, length, 1, 0, 0]]


def named_instances(start, length):
    """The same of instances."""
    name, none = [start, length], [0, 0, 0]
    return [[18, 1, 1] + name + [7], [18, 1, 2, 0, 0, 7] + name + [7], [19, 1, 1] + name + [0, 7], [20, 1] + name + [2, 7],
            [21, 1] + name + none * 3 + [1, 7], [21, 1, 0, 0, 1] + name + none * 2 + [1, 7],
            [21, 1, 0, 0] + none + [1] + name + none + [1, 7], [21, 1, 0, 0] + none * 2 + [1] + name + [1, 7],
            [21, 2, 0, 0] + none * 3 + [5, 7] + name + none * 3 + [1, 7]]


class Dice:
    """Seeded numbers (xorshift64), the same on every Python, and rows made by them."""

    def __init__(self, seed):
        self.state = seed

    def below(self, n):
        x = self.state
        x ^= (x << 13) & 0xffffffffffffffff
        x ^= x >> 7
        x ^= (x << 17) & 0xffffffffffffffff
        self.state = x
        return (x >> 11) % n

    def pick(self, things):
        return things[self.below(len(things))]

    def index(self):
        bound = self.pick(BOUNDS)
        return self.pick([bound, bound, self.below(200), self.below(1 << 32), (1 << 7 * (1 + self.below(4))) - 1])

    def value(self):
        return [0, self.below(14)] if self.below(2) else [1, self.index()]

    def optional(self):
        return [2, 0] if self.below(3) == 0 else self.value()

    def name(self, pool):
        """A name within the pool; now and then its ends fall inside a character."""
        start = self.below(len(pool) + 1)
        length = self.below(min(len(pool) - start, 12) + 1)
        while self.below(12) and start and start < len(pool) and 0x80 <= pool[start] < 0xc0:
            start, length = start - 1, length + 1
        while self.below(12) and start + length < len(pool) and 0x80 <= pool[start + length] < 0xc0:
            length += 1
        return [start, length]

    def reference(self):
        sort = self.below(6)
        if sort == 2:
            return [2] + self.value()
        return self.pick([[3, 0, self.index()], [3, 1, 0]]) if sort == 3 else [sort, self.index(), 0]

    def option(self):
        k = self.below(10)
        return [k, self.index() if k in (3, 4, 5, 7, 8) else 0]

    def field(self, field, pool):
        """Words for a field of the table of shapes."""
        if field == 'E':
            return self.name(pool) + sum(([1] + self.name(pool) if self.below(3) == 0 else [0, 0, 0] for _ in range(3)), [])
        made = {'p': lambda: [self.below(14)], 'i': lambda: [self.index()], 'V': self.value, 'O': self.optional, 'Y': self.optional,
                'N': lambda: self.name(pool), 'D': lambda: self.pick([[0, 0], [1, self.index()]]), 'Z': lambda: [],
                'R': self.reference, 'K': self.option, 'A': lambda: [self.index()], 'C': lambda: [self.below(5), self.index()],
                'S': lambda: [self.below(6), self.index()]}
        return made[field]() if field in made else [self.below(2)]

    def row(self, family, pool):
        kind = self.pick([k for k in sorted(SHAPES) if family_of(k) == family])
        shape = SHAPES[kind]
        row = [kind] + sum((self.field(f, pool) for f in shape[1]), [])
        if len(shape) == 4:
            n = self.pick([0, 1, 1, 2, 3, 5])
            row += [n] + sum((self.field(f, pool) for f in shape[2] * n + shape[3]), [])
        return row

    def pool(self):
        """Text of characters of every length, most of them x."""
        return b''.join(self.pick(GOOD_TEXT + [b'x'] * 20) for _ in range(self.below(24)))
