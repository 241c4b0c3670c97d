"""The requirements of a chart on flowview's page of a run."""
from html import escape

from needs.ties import ties_of_model


def requirements_in_page(model):
    """The panel of the requirements and of what has none, or nothing where the chart ties none."""
    ties = ties_of_model(model)
    found = ties.requirements()
    if not found:
        return ''
    none = ties.without()
    items = ['<li><b>%s</b>: %s</li>' % (escape(name), '; '.join(map(in_page, parts))) for name, parts in found.items()]
    said = '; '.join(map(in_page, none)) or 'nothing'
    head = 'Requirements: %d, %d parts without one' % (len(found), len(none))
    return '\n'.join(['<details class="panel coverage"><summary>%s</summary>' % head, '<ul>', *items, '</ul>',
                      '<p>Without one: %s</p>' % said, '</details>'])


def in_page(part):
    return escape('%s %s' % (part.kind, part.name)) + (' <code>%s</code>' % escape(part.text) if part.kind == 'transition' else '')
