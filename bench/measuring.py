"""What the scripts that measure a program share: running it under a limit of time with what it used, counting its machine
instructions, and writing files and numbers."""
import os
import shutil
import subprocess
import sys
import time
from typing import NamedTuple

HERE = os.path.dirname(os.path.abspath(__file__))
sys.path += [os.path.join(HERE, os.pardir, 'checks', folder) for folder in ('reference', 'tables')]

from programs import waited

MIB = 1 << 20
LONGEST = 600               # seconds for one run
LONGEST_COUNTED = 6 * LONGEST


class Used(NamedTuple):
    """What a run used: seconds from its beginning to its end, seconds of processor time, and MiB of memory at its peak; and its
    status. The peak is at least that of the process that measures, with which each command begins."""
    wall: float
    processor: float
    peak: float
    status: int


def measure(words, folder, output=os.devnull):
    """What a run uses in a folder. A run that takes too long ends the script."""
    with open(os.path.join(folder, output), 'wb') as out:
        before = time.perf_counter()
        process = subprocess.Popen(words, cwd=folder, stdin=subprocess.DEVNULL, stdout=out, stderr=subprocess.DEVNULL)
        status, used, late = waited(process, LONGEST)
        wall = time.perf_counter() - before
    if late:
        sys.exit('%s has no end in %d seconds' % (' '.join(words), LONGEST))
    return Used(wall, used.ru_utime + used.ru_stime, used.ru_maxrss / 1024, status)


def measure_right(words, folder, output=os.devnull):
    """What a run uses. One that doesn't end with status 0 ends the script."""
    used = measure(words, folder, output)
    if used.status != 0:
        sys.exit('%s ended with status %d' % (' '.join(words), used.status))
    return used


def has_callgrind():
    return shutil.which('valgrind') is not None


def count(words, folder, *options):
    """The file in which callgrind, a tool of valgrind, has counted the machine instructions of a run, with these options."""
    counts = os.path.join(folder, 'counts')
    if os.path.exists(counts):
        os.unlink(counts)
    subprocess.run(['valgrind', '--tool=callgrind', '--callgrind-out-file=' + counts, *options, *words], cwd=folder,
                   stdin=subprocess.DEVNULL, stdout=subprocess.DEVNULL, stderr=subprocess.DEVNULL, timeout=LONGEST_COUNTED)
    return counts


def instructions(words, folder):
    """The machine instructions of a run, or None without callgrind."""
    if not has_callgrind():
        return None
    with open(count(words, folder), encoding='latin-1') as file:
        return total_of(file)


def total_of(lines):
    """The machine instructions of the run that callgrind counted in these lines."""
    return next(int(line.split()[1]) for line in lines if line.startswith(('summary:', 'totals:')))


def instructions_in(words, folder, function):
    """The machine instructions of a run, and those between each call of a function, which doesn't call itself, and its return; None
    without callgrind."""
    if not has_callgrind():
        return None
    with open(count(words, folder, '--compress-strings=no'), encoding='latin-1') as file:
        lines = file.readlines()
    # Two lines follow the one that names what is called: how often, and the instructions of these calls.
    return total_of(lines), sum(int(lines[place + 2].split()[-1]) for place, line in enumerate(lines)
                                if line == 'cfn=%s\n' % function)


def write(folder, name, text):
    """Writes a file, and gives its length."""
    with open(os.path.join(folder, name), 'w', encoding='ascii', newline='') as file:
        file.write(text)
    return len(text)


def shown(number, form='%.0f', scale=1):
    """A number so many times in a form, and `-` for none."""
    return '-' if number is None else form % (number * scale)


def used_text(used):
    """Processor time and peak memory, and a status other than 0."""
    return '%.2f s, %.0f MiB' % (used.processor, used.peak) + (', status %d' % used.status if used.status else '')


def long_name(first, number):
    """A name of 63 bytes, of which the last six differ."""
    return '%s%s%06d' % (first, 'x' * 56, number)
