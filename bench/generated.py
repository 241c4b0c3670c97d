#!/usr/bin/env python3
"""Writes the chart and the event file of a generated case: regions side by side, with a broadcast from each to the next.

    python3 bench/generated.py N FOLDER

Case N has 2 to 5 regions of 3 to 62 states each, and 20,000 events; case 0 has 105 states. FOLDER gets `N.chart` and
`N.events`. The generator is that of checks/reference/generated_cases.py."""
import sys

from measuring import write             # which finds the modules of checks too

from generated_cases import EVENT_LINES as EVENTS, Draws, is_number, regions_of, texts_of


def regions(number):
    """What is drawn for the chart of the case."""
    return regions_of(Draws(number))


def main(words):
    if len(words) != 2 or not is_number(words[0]):
        sys.stderr.write(__doc__ + '\n')
        return 2
    for end, text in zip(('chart', 'events'), texts_of(int(words[0]))):
        write(words[1], '%s.%s' % (words[0], end), text.decode('ascii'))
    return 0


if __name__ == '__main__':
    sys.exit(main(sys.argv[1:]))
