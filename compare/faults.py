"""Which test of docs/RULES.md an input fails first. compare/places, compare/why and compare/texts share it.

`packet`, `section` and `entry` give the row of an input, the place, and the answer's two values. A row is the answer and the
test, `4/5.3`, with `.second` where of two bytes the second alone is wrong, and `.behind` where bytes follow the footer; it is
`0` where the input passes every test.
"""
# Every way in which an input can be refused.
IN_ENTRY = ('4/E1', '8/E2a', '4/E2b', '4/E3', '4/E4')
IN_SECTION = ('4/S3', '4/S5', '4/S6', *IN_ENTRY, '7/S8')
IN_PACKET = ('1/2.1', '2/2.2', '2/2.2.second', '1/2.3', '3/3.1', '1/5.1', '2/5.2', '4/5.3', '4/5.4', '4/5.5', '1/6.1', '2/6.2',
             '4/6.3', '1/6.4', '1/7.1', '2/7.2', '1/7.3', *IN_SECTION, '9/7.4', '1/8.1', '2/8.2', '1/8.3', '1/8.4', '1/9.1',
             '6/9.2', '6/9.2.second', '5/9.3', '5/9.3.behind')


def test_of(row):
    """The number of a row's test."""
    return row.partition('/')[2].removesuffix('.second').removesuffix('.behind')


# A part that passes all of its tests gives None.

def entry_fault(data, at):
    """E1 to E4, of the six bytes from a place on."""
    kind = data[at + 3]
    if not kind & 0x40:
        return '4/E1', at + 3, 0, 0
    if kind & 0x80:
        if not kind & 0x3F:
            return '8/E2a', at + 3, 0, 0
    elif kind & 0x3E != 0x3E:
        return '4/E2b', at + 3, 0, 0
    if data[at + 4] & 0x3F != 0x3F:
        return '4/E3', at + 4, 0, 0
    if data[at + 5] != 0xFF:
        return '4/E4', at + 5, 0, 0
    return None


def entries_fault(data, at, count):
    """S5 to S8, of so many entries, the first of whose header bytes stands at a place."""
    for header in range(at, at + 7 * count, 7):
        named = data[header]
        if not named & 0x80:
            return '4/S5', header, 0, 0
        if named & 0x40 and not named & 0x20:
            return '4/S6', header, 0, 0
        fault = entry_fault(data, header + 1)
        if fault:
            return fault
        kind = data[header + 4]
        if named & (0x1F if named & 0x40 else 0x3F) != (kind & 0x3F if kind & 0x80 else 0):
            return '7/S8', header, 0, 0
    return None


def time_fault(data, i):
    """Rule 5."""
    n = len(data)
    if n < i + 5:
        return '1/5.1', n, i + 5, n
    if data[i] != 0x71:
        return '2/5.2', i, 0, 0
    if data[i + 1] & 0xC0 != 0xC0:
        return '4/5.3', i + 1, 0, 0
    if not data[i + 2] & 0x80:
        return '4/5.4', i + 2, 0, 0
    if data[i + 4] & 0x40:
        return '4/5.5', i + 4, 0, 0
    return None


def captions_fault(data, i):
    """Rule 6."""
    n = len(data)
    if n < i + 2:
        return '1/6.1', n, i + 2, n
    if data[i] != 0x72:
        return '2/6.2', i, 0, 0
    if data[i + 1] & 0xE0 != 0xE0:
        return '4/6.3', i + 1, 0, 0
    end = i + 2 + 3 * (data[i + 1] & 0x1F)
    return ('1/6.4', n, end, n) if n < end else None


def services_fault(data, i):
    """Rule 7."""
    n = len(data)
    if n < i + 2:
        return '1/7.1', n, i + 2, n
    if data[i] != 0x73:
        return '2/7.2', i, 0, 0
    second = data[i + 1]
    end = i + 2 + 7 * (second & 0x0F)
    if n < end:
        return '1/7.3', n, end, n
    if not second & 0x80:
        return '4/S3', i + 1, 0, 0
    fault = entries_fault(data, i + 2, second & 0x0F)
    if fault:
        return fault
    return ('9/7.4', 4, 0, 0) if second >> 4 & 7 != data[4] >> 2 & 7 else None


def closing_fault(data, i):
    """Rules 8 and 9."""
    n = len(data)
    if n < i + 2:
        return '1/8.1', n, i + 2, n
    while data[i] != 0x74:
        length = data[i + 1]
        if not 0x75 <= data[i] <= 0xEF:
            return '2/8.2', i, 0, 0
        if n < i + 1 + length:
            return '1/8.3', n, i + 1 + length, n
        if n < i + 4 + length:
            return '1/8.4', n, i + 4 + length, n
        i += 2 + length
    if n < i + 4:
        return '1/9.1', n, i + 4, n
    if data[i + 1:i + 3] != data[5:7]:
        return '6/9.2.second' if data[i + 1] == data[5] else '6/9.2', i + 1, 0, 0
    if (sum(data[:-1]) + data[i + 3]) % 256:
        return '5/9.3.behind' if n > i + 4 else '5/9.3', i + 3, 0, 0
    return None


def packet(data):
    """Rules 2 to 9."""
    n, captions = len(data), 0
    if n < 11:
        return '1/2.1', n, 11, n
    if data[0] != 0x96 or data[1] != 0x69:
        return '2/2.2.second' if data[0] == 0x96 else '2/2.2', 0, 0, 0
    if data[2] != n:
        return '1/2.3', n, data[2], n
    if not 1 <= data[3] >> 4 <= 8:
        return '3/3.1', 3, 0, 0
    flags, i, fault = data[4], 7, None
    if flags & 0x80:
        fault = time_fault(data, i)
        i += 5
    if flags & 0x40 and not fault:
        fault = captions_fault(data, i)
        if not fault:
            captions = 2 + 3 * (data[i + 1] & 0x1F)
            i += captions
    if flags & 0x20 and not fault:
        fault = services_fault(data, i)
        if not fault:
            i += 2 + 7 * (data[i + 1] & 0x0F)
    return fault or closing_fault(data, i) or ('0', 0, captions, 0)


def section(data):
    """S1 to S8."""
    size = len(data)
    if size < 2:
        return '1/S1', size, 2, size
    if data[0] != 0x73:
        return '2/S2', 0, 0, 0
    if not data[1] & 0x80:
        return '4/S3', 1, 0, 0
    count = data[1] & 0x0F
    if size != 2 + 7 * count:
        return '1/S4', size, 2 + 7 * count, size
    return entries_fault(data, 2, count) or ('0', 0, 0, 0)


def entry(data):
    """E1 to E4."""
    return entry_fault(data, 0) or ('0', 0, 0, 0)
