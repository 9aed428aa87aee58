"""How compare/places and compare/why hold a program: to the rules, and to the oracle where it has the answer."""
import itertools
import subprocess
import tempfile

from report import Report

MALFORMED, SKIPPED = b'?\n', b'skip\n'


def bytes_of(word):
    return bytes.fromhex(word.decode()) if word != b'-' else b''


def taken(tape, oracle, turned):
    """The lines of a tape of which the program is given something: what it is given, the line, and the oracle's line."""
    with open(tape, 'rb') as asked, open(oracle, 'rb') as known:
        for line, theirs in itertools.zip_longest(asked, known, fillvalue=b''):
            given = turned(line.rstrip(b'\n'), theirs)
            if given is not None:
                yield given + b'\n', line, theirs


def hold(tape, oracle, program, turned, demanded, rows):
    """Runs the program on what is made of a tape's lines, holds what it prints, prints the counts, and gives the status.

    turned(line, theirs) is what the program is given for a line of the tape and the oracle's line, or None for nothing.
    demanded(line) is the row of a well-formed line, its letter in front, what the program has to print, and what the
    oracle's line has to begin with. Counts the rows; all lines by letter, `A.held`; and those on which the oracle has
    the answer too, `A.known`. A malformed line has to be answered `?`. Fails where a line differs, where the program
    prints more or fewer lines, and where one of the rows did not happen.
    """
    report = Report(*rows)
    with tempfile.TemporaryFile() as given:
        given.writelines(line for line, _, _ in taken(tape, oracle, turned))
        given.seek(0)
        port = subprocess.Popen(program, stdin=given, stdout=subprocess.PIPE)
    pairs = itertools.zip_longest(taken(tape, oracle, turned), port.stdout)
    for number, (asked, found) in enumerate(pairs, 1):
        given, line, theirs = asked or (None, None, None)
        if line is None:
            report.differs(number, port=found)
            continue
        row, wanted, known = demanded(line) if theirs != MALFORMED else ('?', MALFORMED, MALFORMED)
        if found != wanted or not theirs.startswith(known):
            report.differs(number, line=given, oracle=theirs, demanded=wanted, port=found)
            continue
        letter = row[0]
        report.counts[letter + '.held'] += 1
        if row != '?':
            report.counts[row] += 1
            report.counts[letter + '.known'] += theirs != SKIPPED
    return report.end(port.wait() == 0 and all(report.counts[row] for row in rows))
