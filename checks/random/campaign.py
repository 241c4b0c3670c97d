"""What the random campaigns share with main.py, which tries their cases on many processors and machines.

A campaign is a module of this folder with two functions:

    add_options(reader)         its own options, besides those of main.py
    campaign(options, folder)   a Campaign over these options, which may write to the folder

A case follows from the seed and its number alone, so it may be tried anywhere. `case(number)` prints lines where something is wrong,
keeps the files of that in the folder `options.keep`, and prints nothing else. `counts()` gives what was met, Counters by their
titles."""
import contextlib
import hashlib
import importlib
import io
import os
import socket
import tempfile
import threading
import time
from typing import Callable, NamedTuple

import beside                                # noqa: F401, which finds the other folders of checks
import chart_rules as rules
from programs import keep_files

MEMORY = '/dev/shm'
ALONE = threading.Lock()    # what a case prints is what its process prints


class Campaign(NamedTuple):
    """What tries a case, and what gives the counts of all that were tried."""
    case: Callable
    counts: Callable


class Batch(NamedTuple):
    """What came of some cases: their numbers, where they were tried, the sum of the program that was tried there, how long it took,
    the numbers of those that are wrong, what was printed, the counts, and the files to keep, by their names."""
    first: int
    cases: int
    host: str
    process: int
    program: str
    seconds: float
    wrong: list
    lines: str
    counts: dict
    files: dict


def differ(options, stem, lines, files):
    """Writes what is wrong of a case, where anything is, and keeps its files, which are bytes, by their kinds."""
    if lines:
        keep_files(options.keep, stem, files)
        print('\n'.join(lines))


def temporary_folder():
    """A folder in memory where there is one."""
    return tempfile.TemporaryDirectory(dir=MEMORY if os.path.isdir(MEMORY) else None)


def files_of(folder):
    """The files of a folder and those below it, by their names there."""
    found = {}
    for place, _, names in os.walk(folder):
        for name in names:
            path = os.path.join(place, name)
            with open(path, 'rb') as file:
                found[os.path.relpath(path, folder)] = file.read()
    return found


def sum_of(path):
    """The sum by which a program is told from another one, and nothing where there is none."""
    if not path:
        return ''
    with open(path, 'rb') as file:
        return hashlib.md5(file.read(), usedforsecurity=False).hexdigest()[:8]


def tried(module, options, first, cases):
    """What comes of so many cases from the first on."""
    with ALONE, temporary_folder() as folder, temporary_folder() as keep:
        options.keep, began, printed, wrong = keep, time.time(), io.StringIO(), []
        campaign = importlib.import_module(module).campaign(options, folder)
        with contextlib.redirect_stdout(printed):
            for number in range(first, first + cases):
                before = printed.tell()
                campaign.case(number)
                wrong += [number] if printed.tell() > before else []
        return Batch(first, cases, socket.gethostname(), os.getpid(), sum_of(getattr(options, 'against', None)), time.time() - began,
                     wrong, printed.getvalue(), campaign.counts(), files_of(keep))


def batch(module, options, first, cases):
    """The same, where calls may nest deeply. What ends the work otherwise is told as it is."""
    given = []
    rules.with_deep_calls(lambda: given.append(tried(module, options, first, cases)) or 0)
    threading.stack_size(0)
    if not given:
        raise RuntimeError('cases %d to %d were not tried to their end' % (first, first + cases - 1))
    return given[0]
