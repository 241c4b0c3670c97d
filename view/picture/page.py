"""Writes a run as one HTML page, with the drawings and all that it needs."""
import json
import os
from html import escape
from string import Template

from chart_check import Junction
from chart_syntax import scale_text

from needs.page import requirements_in_page
from picture.curves import number
from picture.svg import MARGIN
from picture.svg_style import style_in_page

FOLDER = os.path.join(os.path.dirname(os.path.abspath(__file__)), 'page')
SCRIPTS = 'run.js', 'drawing.js', 'line.js', 'plots.js', 'list.js', 'stepping.js'
MOST_LINES = 100_000                                         # of a longer trace the page shows these


def part(name):
    with open(os.path.join(FOLDER, name), encoding='utf-8') as file:
        return file.read()


def for_script(text):
    """Text that may stand in an element `script`."""
    return text.replace('<', '\\u003c')


def transition_for_page(model, each):
    to = model.destination_id(each)
    is_junction = isinstance(each.destination, Junction)
    return {'id': each.id, 'event': each.event.name if each.event else None,
            'local': bool(each.event) and each.event.kind == 'local',
            'text': each.text, 'from': model.owner_path(each), 'owner': model.id_of(each.owner),
            'state': None if is_junction else to, 'junction': to if is_junction else None,
            'dot': 'd%d' % each.number if each.kind == 'default' else None,
            'lists': sorted([kind, model.state_ids[state]] for kind, state in each.lists)}


def model_for_page(sheets, lines, end, gaps):
    """What the script of the page is told of chart and run."""
    model = sheets.model
    ids = model.state_ids
    return {
        'states': [{'id': ids[state], 'path': model.paths[state], 'name': state.name, 'parent': ids.get(state.parent),
                    'composition': state.composition} for state in model.chart.states],
        'transitions': [transition_for_page(model, each) for each in model.transitions],
        'data': [{'name': each.name, 'kind': each.kind, 'sort': scale_text(each.scale) if each.scale else 'bool',
                  'constant': each in model.constants} for each in model.chart.data],
        'events': [{'name': each.name, 'kind': each.kind} for each in model.chart.events],
        'sheets': [{'id': sheets.name_of(drawn), 'crumbs': crumbs_for_page(sheets, drawn)} for drawn in sheets.all],
        'fired': [line.fired for line in lines] if gaps.exact else None,
        'ended': [line.ended for line in lines] if gaps.exact else None,
        'entered': [line.entered for line in lines] if gaps.exact else None,
        'gaps': gaps.why(), 'end': end}


def crumbs_for_page(sheets, drawn):
    return [[name, sheets.name_of(found) if found else None] for name, found in sheets.crumbs(drawn)]


def drawing_in_page(sheets, drawn, gaps):
    """One drawing of the page."""
    width, height = number(drawn.width), number(drawn.height)
    path = drawn.sheet.root.path
    head = '<div class="sheet" id="%s"><svg class="flowview" viewBox="%s %s %s %s" width="%s" height="%s" role="group" aria-label="%s">'
    values = sheets.name_of(drawn), -MARGIN, -MARGIN, width, height, width, height, 'State ' + path if path else 'Chart'
    return '\n'.join([head % values, sheets.body(drawn, (), gaps.why()), '</svg></div>'])


def page_of(sheets, lines, end, gaps, run):
    """The page of a run: its lines, the line of standard error that ended it, and what it left."""
    shown = lines[:MOST_LINES]
    items = ['<li>%s%s: %s</li>' % (escape(what), ' <code>%s</code>' % escape(text) if text else '', escape(why))
             for what, text, why in gaps.items()]
    return Template(part('page.html')).substitute(
        name=escape(sheets.model.name), run=escape(run), sum=sheets.model.sum,
        style=part('page.css') + style_in_page() + part('run.css') + part('print.css'),
        drawings='\n'.join(drawing_in_page(sheets, drawn, gaps) for drawn in sheets.all),
        summary='Coverage: ' + escape(gaps.head()), gap_items='\n'.join(items) or '<li>nothing is without a sign</li>',
        declarations='\n'.join('<li><code>%s</code></li>' % escape(each) for each in sheets.model.declarations()),
        note=escape(gaps.note()), fired_word='fired' if gaps.exact else 'may have fired',
        ended_word='<span><i class="g"></i>ended in a junction</span>' if gaps.exact else '',
        cut='' if len(lines) == len(shown) else 'the first %d of %d lines' % (len(shown), len(lines)),
        model=for_script(json.dumps(model_for_page(sheets, shown, end, gaps), separators=(',', ':'))),
        trace='\n'.join(line.text for line in shown), requirements=requirements_in_page(sheets.model),
        script='\n'.join(map(part, SCRIPTS)))
