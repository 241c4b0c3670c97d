"""The answers to the tables in the folder `tables`, none of which needs Graphviz or a browser. The tables are as those of
`checks/reference/tables.py`, and say themselves what the parts of a block are."""
from itertools import groupby

from chart_syntax import Reader

from picture import coverage, labels, rows, runs, sheet, traces
from picture.chart_model import ChartModel
from picture.sizes import Size


def joined(block, word):
    return ''.join(line + '\n' for line in block.values(word))


def label_answer(block):
    """The lines of the label of a transition, or of the actions of a state."""
    found = []
    for text in block.values('transition'):
        found += labels.label_lines(Reader(text).transition(0))
    for text in block.values('actions'):
        state = Reader('chart C { state S { %s } }' % text).chart().root.states[0]
        found += [' '.join(each for each in line if each) for line in labels.action_lines(state.blocks)]
    return found


def rows_answer(block):
    """The lines in which things stand, and how large they are together."""
    things = [Size(*map(float, rest.split())) for rest in block.values('thing')]
    numbers = list(range(len(things)))
    shape = float((block.values('shape') or ['1.55'])[0])
    ways = {'rows': (True,), 'both': (True, False)}[(block.values('ways') or ['rows'])[0]]
    found = rows.best_lines(numbers, dict(enumerate(things)), float((block.values('gap') or ['16'])[0]), ways, shape)
    word = 'row' if found.across else 'column'
    return ['%s %s' % (word, ' '.join(map(str, line))) for line in found.lines] + ['size %g %g' % (found.width, found.height)]


def coverage_answer(block):
    """The report on a trace or on a run of events, but for the note at its end, or on several, of which a part `and` parts one from the
    next; or why a trace is refused."""
    model = ChartModel(joined(block, 'chart'))
    parts = [each for each in block.parts if each[0] in ('event', 'trace', 'and')]
    try:
        found = [coverage_of(model, list(group)) for is_run, group in groupby(parts, lambda part: part[0] != 'and') if is_run]
    except traces.NotATrace as error:
        return [str(error)]
    told = found[0] if len(found) == 1 else coverage.Suite(model, found)
    return told.text().split('\n')[:-2]


def coverage_of(model, parts):
    """The coverage of one run."""
    data = ''.join(rest + '\n' for _, rest in parts).encode()
    if parts[0][0] == 'trace':
        return coverage.Coverage(model, traces.Trace(model).lines(data))
    lines, _, rules = runs.run_chart(model, data, 8, 10000)
    return coverage.Coverage(model, lines, rules)


def run_answer(block):
    """What the reference tells of each line of a run: what fired, what ended in a junction, and what was entered."""
    model = ChartModel(joined(block, 'chart'))
    texts = {each.id: '%s %s %d' % (model.owner_path(each), each.kind, each.place) for each in model.transitions}
    paths = {model.state_ids[state]: path or model.name for state, path in model.paths.items()}
    found = []
    for line in runs.run_chart(model, joined(block, 'event').encode(), 8, 10000)[0]:
        found += ['%d fired %s' % (line.index, texts[each]) for each in line.fired]
        found += ['%d ended %s' % (line.index, texts[each]) for each in line.ended]
        found += ['%d entered %s' % (line.index, ' '.join(paths[each] for each in line.entered))] if line.entered else []
    return found


def steps_answer(block):
    """For each transition of a drawing the boxes that it runs through, each with where it comes from and leads to there."""
    model = ChartModel(joined(block, 'chart'))
    path = (block.values('state') or [''])[0]
    state = next(each for each in model.chart.states if model.paths[each] == path)
    drawn = sheet.Sheet(model, state, int((block.values('levels') or ['99'])[0]))
    found = []
    for edge in drawn.edges:
        steps = ['%s: %s to %s' % tuple(called(model, each) for each in step) for step in edge.steps]
        words = 'listed' if edge.listed else ', '.join(steps) + (', backwards' if edge.backwards else '')
        found.append('%s %s %d: %s' % (model.owner_path(edge.transition), edge.kind, edge.transition.place, words))
    return found


def called(model, thing):
    if isinstance(thing, str):
        return thing
    if thing.kind == 'state':
        return (thing.path or model.name) + (' closed' if thing.closed else '')
    return '@' + thing.name if thing.kind == 'junction' else thing.kind


ANSWERS = {'labels': label_answer, 'rows': rows_answer, 'coverage': coverage_answer, 'runs': run_answer,
           'steps': steps_answer}
