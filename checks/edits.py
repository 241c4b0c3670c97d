#!/usr/bin/env python3
"""The edits of crates that are dear to prove: that the prover refuses each.

    python3 checks/edits.py                  names the crates whose edits weren't tried on the present texts
    python3 checks/edits.py --try            tries the edits of these crates
    python3 checks/edits.py --try CRATE..    tries the edits of the crates that are named, whether they were tried before or not

`rt ci` tries the edits in `must-fail/` at each run, and so proves the crate once more. An edit in `edits/` has the same form and is
judged by the same code of the kit, but only where something changed: `edits_tried.txt` has a row for each crate with such edits, on
which texts they were all refused. The texts are the files of the crate and its edits, and of all crates below it the definitions
and the public items of the code with their contracts and without their bodies, all less lines that are comments. A row stands for
the logic of the kit that is named in the first line. Trying needs the libraries that `rt ci` leaves, takes as long as a proof of
the crate and some seconds for each edit, and writes the rows anew.

The status is 1 where edits weren't tried on the present texts, where the prover took one, where one can't be applied, or where no
crate has any."""
import functools
import hashlib
import importlib.machinery
import importlib.util
import os
import re
import shutil
import subprocess
import sys
import tempfile
from concurrent.futures import ThreadPoolExecutor

sys.dont_write_bytecode = True

HERE = os.path.dirname(os.path.abspath(__file__))
sys.path.insert(0, os.path.join(HERE, 'reference'))
import tables                                               # noqa: E402, which is a module of that folder

ROOT = os.path.dirname(HERE)
TRIED = os.path.join(ROOT, 'checks', 'edits_tried.txt')
PARTS = ('src', 'specs', 'proofs')
COMMENTS = {'.rt': r'(?m)^ *//.*\n', '.antt': r'(?m)^ *--.*\n'}
# The line on which an item begins, with how public it is and its kind; the one on which the body of a function begins, after
# contracts or behind its type; and an attribute that says nothing to crates above.
ITEM = re.compile(r' *(pub(?:\(\w+\))? |)(?:const |unsafe |ghost )*(fn|impl|trait|struct|enum|mod)\b')
BODY = re.compile(r'( *)(?:(?:pub(?:\(\w+\))? |)(?:const |unsafe )*fn .* |\)(?: -> .*)? |)\{$')
ATTRIBUTE = re.compile(r' *#\[(?!derive)')
MEMORY = 5 * 2 ** 30                                        # bytes that a check of a crate may take
FLAGS = ['--jobs', '1']


def kit():
    """The module of the command `rt`, whose functions find the crates and judge edits."""
    page = subprocess.run(['rt', 'doc'], stdout=subprocess.PIPE, text=True, check=True).stdout.strip()
    loader = importlib.machinery.SourceFileLoader('rt', os.path.join(os.path.dirname(page), 'bin', 'rt'))
    module = importlib.util.module_from_spec(importlib.util.spec_from_loader('rt', loader))
    loader.exec_module(module)
    module.rtlib.Crate = module.Crate
    return module


def logic():
    """What `rt version` says of the logic of the kit."""
    version = subprocess.run(['rt', 'version'], stdout=subprocess.PIPE, text=True, check=True).stdout
    return version[version.index('logic'):].strip()


def files_below(folder):
    return sorted(os.path.join(at, name) for at, _, names in os.walk(folder) for name in names)


def edits_of(crate):
    return [path for path in files_below(os.path.join(crate.folder, 'edits')) if path.endswith('.edit')]


@functools.lru_cache(None)
def plain(path):
    """The text of a file, less comments."""
    with open(path, encoding='utf-8') as file:
        return re.sub(COMMENTS.get(os.path.splitext(path)[1], r'(?!)'), '', file.read())


@functools.lru_cache(None)
def seen_above(path):
    """What crates above see of a file of code: its text, less comments, functions that are private, and bodies of functions."""
    kept, is_of_trait, is_private, closing = [], False, False, None
    for line in plain(path).split('\n'):
        if closing is not None:
            closing = None if line == closing else closing
            continue
        head, opening = ITEM.match(line), BODY.match(line)
        if head:
            is_of_trait = {'impl': ' for ' in line, 'trait': True}.get(head[2], is_of_trait and line[:1] == ' ')
            is_private = head[2] == 'fn' and head[1] != 'pub ' and not is_of_trait
        if line and not is_private and not ATTRIBUTE.match(line):
            kept.append(line)
        if opening:
            closing, is_private = opening[1] + '}', False
    return '\n'.join(kept)


def named(path, text):
    """The name of a file and a text of it."""
    return '%s %d\n%s' % (os.path.relpath(path, ROOT), len(text), text)


def texts_of(crate):
    """The texts on which it depends whether the edits of a crate are refused."""
    for part in (*PARTS, 'edits'):
        yield from (named(path, plain(path)) for path in files_below(os.path.join(crate.folder, part)))
    for library in sorted(crate.below(), key=lambda it: it.name):
        yield from (named(path, plain(path)) for path in files_below(os.path.join(library.folder, 'specs')))
        yield from (named(path, seen_above(path)) for path in files_below(os.path.join(library.folder, 'src')))


@functools.lru_cache(None)
def row_of(crate):
    """The row of a crate whose edits were all refused: its name, their number, and a sum of the texts on which that depends."""
    return '%s %d %s' % (crate.name, len(edits_of(crate)), hashlib.sha256(''.join(texts_of(crate)).encode()).hexdigest())


def kept_rows():
    """The rows that are kept for this logic."""
    if not os.path.exists(TRIED):
        return []
    with open(TRIED, 'rb') as file:
        named, *rows = tables.rows(file)
    return rows if named == logic() else []


def keep(crates, rows):
    """Keeps those of the rows that are of these crates as they are."""
    lines = [logic(), *(row_of(crate) for crate in crates if row_of(crate) in rows)]
    with open(TRIED, 'w', encoding='utf-8') as file:
        file.write('# %d rows\n' % len(lines) + ''.join(line + '\n' for line in lines))


def lanes(rt):
    return max(1, min(rt.processors(), rt.free() // MEMORY))


def tried_over_seed(rt, crate, edit, seed):
    """What came of an edit, tried over what a check of the crate proved, and from nothing where that tells nothing."""
    with tempfile.TemporaryDirectory() as room:
        over = os.path.join(room, 'over')
        rt.linked(seed, over)
        kind, said = rt.must_fail(crate, edit, FLAGS, over)
    return (kind, said) if kind in (rt.REFUSED, rt.AT_LIMIT, rt.BAD) else rt.must_fail(crate, edit, FLAGS)


def tried_by(rt, crate):
    """For each edit of a crate, whether the prover refuses it, and what the kit says of it. Kits differ in how they try edits: those
    before 13f have one call for it, and later ones begin with what an earlier check of the crate left, where it is there."""
    if hasattr(rt, 'must_fail_all'):
        return rt.must_fail_all(crate, edits_of(crate), FLAGS)
    kept = os.path.join(crate.folder, 'out', 'incremental')
    room = rt.seeded(crate, FLAGS, kept if os.path.isdir(kept) else None)
    if room is None:
        return [(False, '%s: the crate is not proved without an edit' % crate.name)]
    try:
        tried = [tried_over_seed(rt, crate, edit, os.path.join(room, 'seed')) for edit in edits_of(crate)]
    finally:
        shutil.rmtree(room, ignore_errors=True)
    return [(kind in (rt.REFUSED, rt.AT_LIMIT), said) for kind, said in tried]


def is_refused(rt, crate):
    """Whether the prover refuses all edits of a crate. What the kit says of each is printed."""
    tried = tried_by(rt, crate)
    for _, said in tried:
        print(said, flush=True)
    return all(was_refused for was_refused, _ in tried)


def refused_of(rt, crates):
    """Those of the crates whose edits are all refused, the largest tried first."""
    rt.rtlib.guarded()                                      # its first call sets a signal's handler, which a thread may not
    crates = sorted(crates, key=lambda crate: -crate.count(rb'\n'))
    with ThreadPoolExecutor(lanes(rt)) as pool:
        return [crate for crate, is_well in zip(crates, pool.map(lambda it: is_refused(rt, it), crates)) if is_well]


def faults_of(rt, crates):
    """What is wrong with edits that can't be applied to the present texts."""
    for crate in crates:
        for edit in edits_of(crate):
            why = rt.read_edit(edit, crate.folder)[1]
            if why:
                yield '%s: %s' % (os.path.relpath(edit, ROOT), why)


def main(arguments):
    rt = kit()
    crates = [crate for crate in rt.rtlib.crates_below(ROOT) if edits_of(crate)]
    named = [crate for crate in crates if crate.name in arguments[1:]]
    if not crates or arguments[:1] not in ([], ['--try']) or len(named) != len(arguments[1:]):
        print('no crate has edits, or the arguments are not those of this program', file=sys.stderr)
        return 1
    faults = list(faults_of(rt, crates))
    if faults:
        print('\n'.join(faults))
        return 1
    rows = kept_rows()
    if arguments:
        tried = named or [crate for crate in crates if row_of(crate) not in rows]
        rows = [row for row in rows if row.split()[0] not in [crate.name for crate in tried]]
        rows += [row_of(crate) for crate in refused_of(rt, tried)]
        keep(crates, rows)
    untried = [crate for crate in named or crates if row_of(crate) not in rows]
    for crate in untried:
        print('%s: its edits are not known to be refused on these texts' % crate.name)
    known = [crate for crate in crates if row_of(crate) in rows]
    print('%d edits of %d crates are recorded as refused on these texts' % (sum(len(edits_of(crate)) for crate in known), len(known)))
    return 1 if untried else 0


if __name__ == '__main__':
    sys.exit(main(sys.argv[1:]))
