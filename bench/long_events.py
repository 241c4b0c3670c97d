#!/usr/bin/env python3
"""Writes a long event file for a chart of examples to standard output: events and readings as they might come, drawn from a seed.

    python3 bench/long_events.py CHART        CHART is stopwatch, spacecraft or motor

The files of the examples show each thing once or twice. These have EVENTS lines, most of which are what comes again and again."""
import random
import sys

EVENTS = 5_000


def number(mantissa, fraction):
    """A number of so many units of 2^-fraction, as event files have it."""
    text = '%.*f' % (fraction, mantissa / 2 ** fraction)
    return text.rstrip('0').rstrip('.')


def stopwatch(draws):
    """Runs with up to three lap times, each of which is shown for some while, and pauses, at whose end the time is set to zero."""
    def some(least):
        return ['TIC'] * draws.randrange(least, 3 * least) + ['tick']
    while True:
        yield from ['START', *some(100)]
        for _ in range(draws.randrange(4)):
            yield from ['LAP', *some(20), 'LAP', *some(50)]
        yield from draws.choice([['START'], ['LAP', *some(10), 'START', *some(10), 'LAP']])
        yield from [*some(20), 'LAP']


def spacecraft(draws):
    """A minute with a command now and then. In one minute of four the voltage or the rate is bad for some seconds."""
    while True:
        commands = {draws.randrange(60): draws.choice(['OBSERVE', 'PASS', 'RESUME']) for _ in range(6)}
        kind, begin = draws.choice(['none', 'none', 'none', 'none', 'none', 'none', 'volts', 'rate']), draws.randrange(50)
        locked = draws.choice(['true', 'true', 'false'])
        for second in range(60):
            if second in commands:
                yield commands[second]
            is_bad = begin <= second < begin + 8
            volts = draws.randrange(22 * 256, 25 * 256) if kind == 'volts' and is_bad else draws.randrange(25 * 256, 29 * 256)
            rate = draws.randrange(600, 1000) if kind == 'rate' and is_bad else draws.randrange(-120, 120)
            yield 'SAMPLE volts=%s rate=%s locked=%s' % (number(volts, 8), number(rate, 8), locked)


def motor(draws):
    """Runs of the motor, which comes near the speed that is wanted. In one run of four something blocks it for some samples."""
    counter = 0
    while True:
        yield 'START'
        speed, block = 0.0, draws.choice([None, None, None, draws.randrange(200)])
        for sample in range(200):
            if sample % 50 == 0:
                target = draws.randrange(-100 * 256, 100 * 256)
            speed += (target / 256 - speed) * 0.2 + draws.uniform(-1, 1)
            if block is not None and block <= sample < block + 30:
                speed = 0.0
            counter = (counter + round(speed)) % 256
            yield 'SAMPLE counter=%d target=%s' % (counter, number(target, 8))
        yield 'STOP'


CHARTS = {each.__name__: each for each in (stopwatch, spacecraft, motor)}


def text_of(chart):
    """The event file of a chart."""
    lines = CHARTS[chart](random.Random(chart))
    return ''.join(next(lines) + '\n' for _ in range(EVENTS))


if __name__ == '__main__':
    if len(sys.argv) != 2 or sys.argv[1] not in CHARTS:
        sys.exit(__doc__)
    sys.stdout.write(text_of(sys.argv[1]))
