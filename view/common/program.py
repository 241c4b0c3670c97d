"""Finds the programs flowc and chart_to_c, runs flowc, and reads the files that a tool is given.

The statuses 1 to 6 are those of flowc. A tool that finds no flowc ends with 127, as a shell does that finds no program."""
import os
import shutil
import subprocess
import sys
from typing import NamedTuple

from common import CHECKOUT

NO_PROGRAM = 127
REFUSED, USAGE, RUN_FAULT, READ_FAULT, MEMORY = 1, 2, 3, 4, 6
class NoProgram(Exception):
    """There is no flowc; the text says where it was looked for, and what to do."""


class Ran(NamedTuple):
    """How flowc ended: its status, what it wrote where that was kept, and its line on standard error, without its end."""
    status: int
    out: bytes
    line: str


class Wanted(NamedTuple):
    """A program of this checkout, the option and the variable that may name another one, and what builds it without its proofs."""
    name: str
    option: str
    variable: str
    trial: str

    def advice(self):
        """How there is such a program."""
        return ('`rt ci` at the top of the checkout proves it and leaves it in crates/%s/out, which takes a while the first time; '
                '`%s` with a command builds it without its proofs in one to two minutes; one that is kept elsewhere is named by '
                '%s PROGRAM or by the variable %s' % (self.name, self.trial, self.option, self.variable))

    def find(self, named, or_none):
        """The path of the named program, that of the variable, the proved one of this checkout, or the unproved one that
        examples/try keeps. Where none is named and none is there, there may be none."""
        for name, whose in ((named, self.option + ' names'),
                            (os.environ.get(self.variable), 'the variable %s names' % self.variable)):
            if name:
                found = shutil.which(name)
                if found is None:
                    raise NoProgram('%s %s, which is no program; %s' % (whose, name, self.advice()))
                return os.path.abspath(found)
        for place in (('crates', self.name, 'out'), ('out', 'unproved')):
            built = os.path.join(CHECKOUT, *place, self.name)
            if os.path.isfile(built):
                return built
        if or_none:
            return None
        raise NoProgram('there is no %s in this checkout; %s' % (self.name, self.advice()))


def find_program(named, or_none=False):
    """The path of flowc, which `--program` may name."""
    return Wanted('flowc', '--program', 'FLOWC', 'examples/try').find(named, or_none)


def find_chart_to_c(named, or_none=False):
    """The path of chart_to_c, which `--chart-to-c` may name."""
    return Wanted('chart_to_c', '--chart-to-c', 'CHART_TO_C', 'examples/try chart_to_c').find(named, or_none)


def run(program, words, out=subprocess.PIPE):
    """Runs flowc. What it writes on standard output is kept, or goes to `out`."""
    done = subprocess.run([program, *words], stdin=subprocess.DEVNULL, stdout=out, stderr=subprocess.PIPE, check=False)
    return Ran(done.returncode, done.stdout or b'', done.stderr.decode('latin-1').rstrip('\n'))


def read_file(name):
    """The text of a file, a character for each byte; `-` is standard input. OSError where it can't be read."""
    if name == '-':
        return sys.stdin.buffer.read().decode('latin-1')
    with open(name, 'rb') as file:
        return file.read().decode('latin-1')


def ended(tool, work):
    """Does the work of a tool, and gives the status with which the tool ends."""
    try:
        return work()
    except NoProgram as fault:
        sys.stderr.write('%s: %s\n' % (tool, fault))
        return NO_PROGRAM
    except BrokenPipeError:
        sys.stdout = None
        return 5
    except OSError as fault:
        sys.stderr.write('%s:1:1: error: ReadFault: %s\n' % (fault.filename, fault.strerror))
        return READ_FAULT
