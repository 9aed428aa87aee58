"""What has to be told of a refused packet. compare/why and compare/texts share it.

Which test fails, and where, is `faults`. The values allowed are those with which the packet keeps that test, and
what else the byte is tested for by itself: they are worked out by asking all 256 what docs/RULES.md says of the byte. What
comes out is tried on the first packet of each test and each row of values: with each of the 256 in its place, but for those
that would move the packet's other parts, it has to keep the test or fail it. Where bytes follow the footer, the checksum
byte is part of its own sum, and none is tried.
"""
import collections
import functools
import sys

import faults

Reason = collections.namedtuple('Reason', 'test rule answer first second place found allowed')
# The tests that look at two bytes together.
TWO = ('2.2', '9.2')
# What has been tried: the tests with their values.
seen = set()


def has(mask):
    return lambda byte: byte & mask == mask


def is_value(value):
    return lambda byte: byte == value


def good_header(byte):
    """An entry's header byte: 80, and 20 where it has 40."""
    return byte & 0x80 and (byte & 0x20 or not byte & 0x40)


def named(byte):
    """The number that an entry's header byte names."""
    return byte & 0x1F if byte & 0x40 else byte & 0x3F


def number_of(byte):
    """The number that an entry has by its byte 3, 0 for a field."""
    return byte & 0x3F if byte & 0x80 else 0


def good_kind(byte):
    """An entry's byte 3: 40, and a number that is not 0 or, of a field, 3E."""
    return byte & 0x40 and (number_of(byte) if byte & 0x80 else byte & 0x3E == 0x3E)


# Whether a byte keeps its tests, by the test that it failed. What S8 and 7.4 allow rests on other bytes too.
KEEPS = {
    '3.1': lambda byte: byte >> 4 in range(1, 9),
    '5.2': is_value(0x71),
    '5.3': has(0xC0),
    '5.4': has(0x80),
    '5.5': lambda byte: not byte & 0x40,
    '6.2': is_value(0x72),
    '6.3': has(0xE0),
    '7.2': is_value(0x73),
    'S3': has(0x80),
    **dict.fromkeys(('S5', 'S6'), good_header),
    **dict.fromkeys(('E1', 'E2a', 'E2b'), good_kind),
    'E3': has(0x3F),
    'E4': is_value(0xFF),
    # The footer's id, or that of a future section.
    '8.2': lambda byte: byte == 0x74 or byte in range(0x75, 0xF0),
}
# The tests that are made of one byte, where they are more than one; of a header byte S8 only where it is what failed.
TOGETHER = {
    **dict.fromkeys(('S5', 'S6'), ('S5', 'S6')),
    'S8': ('S5', 'S6', 'S8'),
    **dict.fromkeys(('E1', 'E2a', 'E2b'), ('E1', 'E2a', 'E2b')),
}
# Bits that say which other parts a packet has, and so where they are; they stay where values are tried.
STAY = {'S3': 0x0F, '7.4': 0xE0}


def listed(keeps):
    """The values that keep a test, ranges joined where they touch."""
    kept = [False, *(bool(keeps(byte)) for byte in range(256)), False]
    firsts = (byte for byte in range(256) if kept[byte + 1] and not kept[byte])
    lasts = (byte for byte in range(256) if kept[byte + 1] and not kept[byte + 2])
    return ','.join(f'{a:02x}' if a == b else f'{a:02x}-{b:02x}' for a, b in zip(firsts, lasts, strict=True))


@functools.cache
def alone(test):
    return listed(KEEPS[test])


@functools.cache
def naming(number):
    """The header bytes of an entry that has a number."""
    return listed(lambda byte: good_header(byte) and named(byte) == number)


@functools.cache
def flagging(flags, second):
    """What a packet's byte 4 may be, beside byte 1 of its service section: start, change and complete as there."""
    return listed(lambda byte: byte & 0xE0 == flags & 0xE0 and byte & 0x1C == second >> 2 & 0x1C)


def services_at(data):
    """Where the service section of a packet begins."""
    at = 12 if data[4] & 0x80 else 7
    return at + 2 + 3 * (data[at + 1] & 0x1F) if data[4] & 0x40 else at


def values(test, data, place, size):
    """The values that a packet refused by a test at a place may have there; beside 1, the size that was expected."""
    if place == len(data):
        return f'size {size}' if test == '2.3' else f'size {size} or more'
    if test == '2.2':
        return '96 69'
    if test == '9.2':
        return data[5:7].hex(' ')
    if test == '9.3':
        return f'{-sum(data[:-1]) % 256:02x}'
    if test == 'S8':
        return naming(number_of(data[place + 4]))
    if test == '7.4':
        return flagging(data[4], data[services_at(data) + 1])
    return alone(test)


def refused(test, data, place, new):
    """Whether a packet with new bytes at a place is refused there, by a test or another of the same byte."""
    row, at, _, _ = faults.packet(data[:place] + new + data[place + len(new):])
    return at == place and faults.test_of(row) in TOGETHER.get(test, (test,))


def spelled(text):
    """The values of a text, one by one."""
    pairs = (each.partition('-') for each in text.split(','))
    return {byte for first, _, last in pairs for byte in range(int(first, 16), int(last or first, 16) + 1)}


def tried(test, data, place, wanted):
    """Stops where the values are others than those with which the packet itself keeps the test."""
    if ' ' in wanted:
        wrong = refused(test, data, place, bytes.fromhex(wanted))
    else:
        bytes_tried = (byte for byte in range(256) if not (byte ^ data[place]) & STAY.get(test, 0))
        kept = spelled(wanted)
        wrong = any((byte in kept) == refused(test, data, place, bytes([byte])) for byte in bytes_tried)
    if wrong:
        sys.exit(f'{test} at {place} of {data.hex()}: not {wanted}')


def reason(data, fault):
    """What has to be told of a packet that is refused, of its bytes and what `faults` gives for them."""
    row, place, first, second = fault
    test = faults.test_of(row)
    rule = '7' if test[0] in 'SE' else test[0]
    found = data[place:place + (2 if test in TWO else 1)].hex(' ') or 'none'
    allowed = values(test, data, place, first)
    if found != 'none' and (test, allowed) not in seen and not row.endswith('.behind'):
        seen.add((test, allowed))
        tried(test, data, place, allowed)
    return Reason(test, rule, row.partition('/')[0], first, second, place, found, allowed)
