"""What every comparison prints: the first lines that differ, and at its end one line of counts.

A line of counts is the word `counts` and words WHAT=NUMBER, with one space before each; the last is `different`.
"""
import collections

SHOWN = 5


class Report:
    """What a comparison has found so far. Counts that are named at the start are printed where they stay 0 too."""

    def __init__(self, *named):
        self.counts = collections.Counter(dict.fromkeys(named, 0))
        self.different = 0

    def differs(self, number, **lines):
        """The line of that number differs: the first few such lines are shown, what stands there under each name."""
        self.different += 1
        if self.different <= SHOWN:
            width = max(map(len, lines))
            print(f'line {number}', *(f'  {name:{width}} {line!r}' for name, line in lines.items()), sep='\n')

    def end(self, enough):
        """Prints the counts, and gives the status: 0 where enough was compared and nothing differs."""
        print('counts', *(f'{what}={count}' for what, count in sorted(self.counts.items())), f'different={self.different}')
        return 0 if enough and not self.different else 1


def read(text):
    """The counts that stand in a text, added up by their names."""
    found = collections.Counter()
    for line in text.split('\n'):
        first, *words = line.split(' ')
        for word in words if first == 'counts' else ():
            what, _, count = word.rpartition('=')
            found[what] += int(count)
    return found
