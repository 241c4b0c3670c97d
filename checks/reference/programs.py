"""What the scripts that run a built program share: their words, running it under a limit of time, comparing what it writes with
what is expected, keeping the files of a case, and printing counts."""
import argparse
import os
import signal
import subprocess
import sys
import tempfile
import threading
from typing import NamedTuple, Optional

LONGEST = 600               # seconds for one call, where nothing else is said


class Ended(NamedTuple):
    """How a call of a program ended: what it wrote, a character for each byte, and its status. A call that took too long has
    nothing of these."""
    out: str
    error: str
    status: Optional[int]
    timed_out: bool = False

    def written(self):
        """Writes what the call wrote, and gives its status."""
        sys.stdout.write(self.out)
        sys.stderr.write(self.error)
        return self.status


LATE = Ended('', '', None, True)


def parser(usage):
    """A reader of words that tells the docstring of the script where help is asked for."""
    return argparse.ArgumentParser(description=usage, formatter_class=argparse.RawDescriptionHelpFormatter, allow_abbrev=False)


def parser_of_charts(usage):
    """Such a reader for a script that looks at the C that a built chart_to_c writes of charts, several at a time."""
    reader = parser(usage)
    reader.add_argument('--against', metavar='CHART_TO_C', type=os.path.abspath, required=True)
    reader.add_argument('--jobs', metavar='J', type=int, default=os.cpu_count())
    reader.add_argument('charts', metavar='CHART', nargs='+')
    return reader


def at_least_one(word):
    """The number of cases that a word asks for. A check that tries none is refused, since it would pass."""
    number = int(word)
    if number < 1:
        raise argparse.ArgumentTypeError('there is nothing to try')
    return number


def print_counts(title, counts):
    """A title, and a line for each count."""
    print('\n%s' % title)
    for what in sorted(counts):
        print('%9d  %s' % (counts[what], what))


def keep_files(folder, stem, contents):
    """Writes what is worth keeping of a case to files STEM.KIND of a folder, which is made where it isn't there. The contents are
    bytes, by their kind."""
    os.makedirs(folder, exist_ok=True)
    for kind, content in contents.items():
        with open(os.path.join(folder, '%s.%s' % (stem, kind)), 'wb') as file:
            file.write(content)


# ---- calls

def ended(command, seconds=LONGEST, **options):
    """How a command ends, which is killed after so many seconds. The options are those of `subprocess.run`; where nothing is
    said, standard input is empty, and both outputs are kept."""
    options = {'stdin': subprocess.DEVNULL, 'stdout': subprocess.PIPE, 'stderr': subprocess.PIPE, **options}
    try:
        done = subprocess.run(command, timeout=seconds, **options)
    except subprocess.TimeoutExpired:
        return LATE
    return Ended((done.stdout or b'').decode('latin-1'), (done.stderr or b'').decode('latin-1'), done.returncode)


def run(program, words, files, seconds=LONGEST):
    """How a program ends that runs in a folder of its own with these files."""
    with tempfile.TemporaryDirectory() as folder:
        for name, data in files.items():
            with open(os.path.join(folder, name), 'wb') as file:
                file.write(data)
        return ended([os.path.abspath(program), *words], seconds, cwd=folder)


def waited(process, seconds):
    """The status of a process, what it used, and whether it was killed after so many seconds. The process is given back to the
    system only when nobody will kill it any more, so no other one can have its number by then."""
    late = threading.Event()

    def stop():
        late.set()
        os.kill(process.pid, signal.SIGKILL)

    timer = threading.Timer(seconds, stop)
    timer.start()
    os.waitid(os.P_PID, process.pid, os.WEXITED | os.WNOWAIT)
    timer.cancel()
    timer.join()
    _, status, used = os.wait4(process.pid, 0)
    process.returncode = os.waitstatus_to_exitcode(status)
    return process.returncode, used, late.is_set() and process.returncode == -signal.SIGKILL


# ---- comparing

def status_text(answer):
    """The status in words."""
    return 'no end in time' if answer.timed_out else 'status %s' % answer.status


def first_difference(name, what, expected, got):
    """Lines that tell where two texts that aren't equal differ first."""
    old, new = expected.split('\n'), got.split('\n')
    at = next((i for i, pair in enumerate(zip(old, new)) if pair[0] != pair[1]), min(len(old), len(new)))
    return ['%s: line %d of %s' % (name, at + 1, what),
            '  expected  %s' % (old[at] if at < len(old) else 'no such line')[:400],
            '  written   %s' % (new[at] if at < len(new) else 'no such line')[:400]]


def differences(name, expected, got):
    """Lines that tell where two answers differ, and none where they are equal."""
    lines = []
    if expected.out != got.out:
        lines += first_difference(name, 'standard output', expected.out, got.out)
    if expected.error != got.error:
        lines += first_difference(name, 'standard error', expected.error, got.error)
    if status_text(expected) != status_text(got):
        lines.append('%s: %s expected, not %s' % (name, status_text(expected), status_text(got)))
    return lines
