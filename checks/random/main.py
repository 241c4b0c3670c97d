#!/usr/bin/env python3
"""Tries random cases, on many processors or on many machines.

    python3 checks/random/main.py CAMPAIGN [--cases N] [--seed S] [--first M] [--jobs J] [--batch B] [--keep FOLDER] [OPTION ..]
    python3 checks/random/main.py CAMPAIGN --scheduler ADDRESS [..]

CAMPAIGN is one of bounds, c, c_runs, chart_c, codes, comments, compiled, nets, shrink, soak and tools, each a module of this folder,
whose head says what a case is and which options it has: `main.py CAMPAIGN --help` writes it. N cases are tried, 1,000 where nothing
is said, from number M on. A case follows from the seed and its own number alone, so `--first M --cases 1` tries case M again.

J processes try them, as many as there are processors where nothing is said, B cases at a time, 100 where nothing is said. With a
scheduler of dask.distributed (Debian's package python3-distributed) its workers try them. Each machine has a checkout of the same
commit and the program at the same paths, and its workers have one thread each:

    dask scheduler                                              on one machine; it writes its address
    dask worker ADDRESS --nworkers 4 --nthreads 1               on each machine

For each wrong case it writes lines, in the order of the cases, and keeps files in FOLDER, which is `differences` where nothing is
said. At the end stand what was met, and a table of what ran where, with the sum of the program there. The status is 1 where a case is
wrong, where a batch wasn't tried to its end, and where no case was tried."""
import argparse
import importlib
import os
import sys
from collections import Counter, defaultdict
from concurrent.futures import ProcessPoolExecutor
from contextlib import contextmanager

import beside                                # noqa: F401, which finds the other folders of checks
from programs import at_least_one, parser, print_counts

HERE = os.path.dirname(os.path.abspath(__file__))
CAMPAIGNS = {name: 'random_' + name for name in 'bounds c c_runs chart_c codes comments compiled nets shrink tools'.split()}
CAMPAIGNS['soak'] = 'soak'
DEBIAN = '/usr/lib/python3/dist-packages'    # where Debian's Python finds its packages, and that of another place doesn't


def tried(folder, module, options, first, cases):
    """What comes of a batch. It stands here, so that it is sent to workers as it is, and finds this folder there."""
    import sys as system
    if folder not in system.path:
        system.path.insert(0, folder)
    from campaign import batch
    return batch(module, options, first, cases)


@contextmanager
def executor_of(options):
    """What tries batches, as long as it is wanted."""
    if not options.scheduler:
        with ProcessPoolExecutor(options.jobs) as executor:
            yield executor
        return
    try:
        import distributed
    except ImportError:
        sys.path.append(DEBIAN)
        import distributed
    with distributed.Client(options.scheduler) as client:
        yield client.get_executor(pure=False)


def batches_of(options):
    """The first number and how many cases, for each batch."""
    end = options.first + options.cases
    return [(first, min(options.batch, end - first)) for first in range(options.first, end, options.batch)]


def results(options, module):
    """What came of each batch, in their order, or the fault by which it wasn't tried to its end."""
    with executor_of(options) as executor:
        waiting = [(first, cases, executor.submit(tried, HERE, module, options, first, cases)) for first, cases in batches_of(options)]
        for first, cases, future in waiting:
            try:
                yield future.result()
            except Exception as fault:                       # of whatever kind: the other batches go on
                yield 'cases %d to %d: %s: %s' % (first, first + cases - 1, type(fault).__name__, fault)


class Sums:
    """What came of all batches."""

    def __init__(self, keep):
        self.keep, self.counts, self.wrong, self.places = keep, defaultdict(Counter), 0, defaultdict(list)

    def add(self, batch):
        """Writes what a batch printed, and keeps its files."""
        sys.stdout.write(batch.lines)
        sys.stdout.flush()
        self.wrong += len(batch.wrong)
        self.places[(batch.host, batch.program)].append(batch)
        for title, counts in batch.counts.items():
            self.counts[title].update(counts)
        for name, content in batch.files.items():
            path = os.path.join(self.keep, name)
            os.makedirs(os.path.dirname(path), exist_ok=True)
            with open(path, 'wb') as file:
                file.write(content)

    def print_table(self, name, options):
        """What was met, and what ran where."""
        for title, counts in self.counts.items():
            print_counts(title, counts)
        print('\n%s, seed %s, cases %d to %d' % (name, options.seed, options.first, options.first + options.cases - 1))
        print('%-24s %-9s %9s %8s %9s %7s %10s' % ('machine', 'program', 'processes', 'batches', 'cases', 'wrong', 'seconds'))
        for (host, program), batches in sorted(self.places.items()):
            print('%-24s %-9s %9d %8d %9d %7d %10.0f' % (host, program or '-', *sums_of(batches)))
        print('%-24s %-9s %9d %8d %9d %7d %10.0f' % ('all', '', *sums_of([b for batches in self.places.values() for b in batches])))


def sums_of(batches):
    """How many processes, batches, cases and wrong cases there were, and the seconds of all processes."""
    return (len({(each.host, each.process) for each in batches}), len(batches), sum(each.cases for each in batches),
            sum(len(each.wrong) for each in batches), sum(each.seconds for each in batches))


def reader_of(name, module):
    """A reader of the words of a campaign."""
    reader = parser(module.__doc__)
    reader.prog = 'main.py ' + name
    reader.add_argument('--cases', metavar='N', type=at_least_one, default=1000)
    reader.add_argument('--seed', metavar='S', default='1')
    reader.add_argument('--first', metavar='M', type=int, default=0)
    reader.add_argument('--jobs', metavar='J', type=at_least_one, default=os.cpu_count())
    reader.add_argument('--batch', metavar='B', type=at_least_one, default=100)
    reader.add_argument('--scheduler', metavar='ADDRESS')
    reader.add_argument('--keep', metavar='FOLDER', default='differences')
    module.add_options(reader)
    return reader


def main(words):
    """Tries the cases that are asked for, and gives the status."""
    reader = argparse.ArgumentParser(description=__doc__, formatter_class=argparse.RawDescriptionHelpFormatter)
    reader.add_argument('campaign', metavar='CAMPAIGN', choices=sorted(CAMPAIGNS))
    name = reader.parse_args(words[:1]).campaign
    module = importlib.import_module(CAMPAIGNS[name])
    options = reader_of(name, module).parse_args(words[1:])
    sums, failed = Sums(options.keep), 0
    for each in results(options, module.__name__):
        if isinstance(each, str):
            failed += 1
            print(each, flush=True)
        else:
            sums.add(each)
    sums.print_table(name, options)
    return 1 if sums.wrong or failed or not sums.places else 0


if __name__ == '__main__':
    sys.exit(main(sys.argv[1:]))
