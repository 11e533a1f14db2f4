"""The lists of stored cases that the program vectors replays: a case, a list as the program reads it, and what it prints of it.

A list, every number in 4 bytes, big-endian: the number of cases, the length of the title, the title, and then for each case
    sort, input length, grade, body room, room, number, value, also, made length, body length, the input, what is made
A sheet's case has the input, the sheet; body room and room, those of body and output; and made, the section, whose last bytes, so
many as the body length says, are the body. A reading's case has grade and room, that of the row; and made, the row's words. A word
counts 4 bytes, as room, as made and in the list. What a sort does not have is 0. Number, value and also are the answer; value is the
size of the section, the bytes taken, or what document 01 returns with a refusal; also is the words of an item that is read, the byte of
a name after TEXT, else 0. A refusal makes nothing.
"""
import struct
import typing

from rows import NAMES, OK

SORTS = ('sheets', 'types', 'imports')
SHEETS, TYPES, IMPORTS = range(3)
# The program's own buffers.
LARGEST_ROOM = 131072


class Case(typing.NamedTuple):
    """A case; the label says why it is there."""
    label: str
    sort: int
    input: bytes
    grade: int
    body_room: int
    room: int
    number: int
    value: int
    also: int
    made: bytes
    body: int


def packed(title, cases):
    """A list, as the program reads it."""
    name = title.encode('ascii')
    parts = [struct.pack('>2I', len(cases), len(name)), name]
    for case in cases:
        assert max(len(case.input), len(case.made), case.body_room, case.room) <= LARGEST_ROOM
        parts.append(struct.pack('>10I', case.sort, len(case.input), case.grade, case.body_room, case.room, case.number, case.value,
                                 case.also, len(case.made), case.body) + case.input + case.made)
    return b''.join(parts)


def unpacked(stored):
    """Titles and cases of lists that were packed, one behind the other; the labels are empty."""
    lists, at = [], 0
    while at < len(stored):
        title, cases, at = one_unpacked(stored, at)
        lists.append((title, cases))
    return lists


def one_unpacked(stored, at):
    """Title and cases of the list at a place, and where it ends."""
    total, size = struct.unpack_from('>2I', stored, at)
    title, at, cases = stored[at + 8:at + 8 + size].decode('ascii'), at + 8 + size, []
    for _ in range(total):
        sort, given, grade, body_room, room, number, value, also, made, body = struct.unpack_from('>10I', stored, at)
        start, middle, end = at + 40, at + 40 + given, at + 40 + given + made
        cases.append(Case('', sort, stored[start:middle], grade, body_room, room, number, value, also, stored[middle:end], body))
        at = end
    return title, cases, at


def told(title, cases):
    """What the program prints of a list where nothing differs: a tally for each sort that is in it."""
    lines = [title]
    for sort, word in enumerate(SORTS):
        numbers = [case.number for case in cases if case.sort == sort]
        ok = numbers.count(OK)
        if numbers:
            lines.append('%d %s: %d ok, %d refused, 0 differ' % (len(numbers), word, ok, len(numbers) - ok))
            lines += ['%d %s %d' % (number, name, numbers.count(number)) for number, name in enumerate(NAMES)]
    return '\n'.join(lines) + '\n'


def shown(case):
    """A case, to be read."""
    return '\n'.join([
        '%s: %s' % (SORTS[case.sort], case.label),
        'input (%d bytes) %s' % (len(case.input), case.input[:2000].hex()),
        'grade %d, body room %d, room %d' % (case.grade, case.body_room, case.room),
        '%s %d, also %d' % (NAMES[case.number], case.value, case.also),
        'body of %d bytes, made %s' % (case.body, case.made[:2000].hex())])
