"""The look of a drawing: the same rules with colours for light or dark, or with the names of colours that a page sets."""
from string import Template

LIGHT = {'paper': '#ffffff', 'box': '#f3f6fa', 'box1': '#ffffff', 'ink': '#18202b', 'quiet': '#5c6675', 'line': '#66717f',
         'edge': '#3a5f94', 'order': '#a04a06', 'keyword': '#7a3fa0', 'halo': '#ffffffd9', 'never': '#bfc4cb',
         'never-ink': '#8f959e', 'never-box': '#ececee'}
DARK = {'paper': '#1a2029', 'box': '#222a35', 'box1': '#1c232d', 'ink': '#e4e9f0', 'quiet': '#9aa6b5', 'line': '#8592a3',
        'edge': '#86b0ea', 'order': '#f0a35e', 'keyword': '#cba0ec', 'halo': '#1a2029d9', 'never': '#4a525d',
        'never-ink': '#7d8794', 'never-box': '#20262e'}
THEMES = 'auto', 'light', 'dark'

SHAPES = """
.flowview { font: 11px ui-monospace, SFMono-Regular, Menlo, Consolas, "DejaVu Sans Mono", "Liberation Mono", monospace; }
.flowview text { white-space: pre; }
.flowview .name, .flowview .crumb { font: 600 13px system-ui, "Segoe UI", Helvetica, Arial, sans-serif; }
.flowview .chart > .frame { stroke-width: 1; }
.flowview .state > .frame, .flowview .history circle, .flowview .junction circle, .flowview .transition path { stroke-width: 1.3; }
.flowview .region > .frame { stroke-dasharray: 7 4; }
.flowview .history text { font-size: 10px; text-anchor: middle; }
.flowview .junction > .frame { fill: none; stroke-width: .8; stroke-dasharray: 2 2; }
.flowview .junction .name-of { font: italic 10px system-ui, Helvetica, Arial, sans-serif; }
.flowview .transition path { fill: none; }
.flowview .transition .head, .flowview .start-dot { stroke: none; }
.flowview .transition .leader { stroke-width: .8; stroke-dasharray: 1 3; }
.flowview .label text, .flowview .junction .name-of { paint-order: stroke; stroke-width: 2.5px; stroke-linejoin: round; }
.flowview .label .order { font-size: 10px; }
.flowview a { cursor: pointer; text-decoration: none; }
.flowview a:hover .closed, .flowview a:hover .crumb { text-decoration: underline; }
"""
COLOURS = """
.flowview text { fill: $ink; }
.flowview .ground { fill: $paper; }
.flowview .chart > .frame { fill: $paper; stroke: $line; }
.flowview .state > .frame { fill: $box; stroke: $line; }
.flowview .level1 > .frame { fill: $box1; }
.flowview .keyword { fill: $keyword; }
.flowview .region-order { fill: $quiet; }
.flowview .history circle, .flowview .junction circle { fill: $paper; stroke: $line; }
.flowview .junction > .frame { stroke: $line; }
.flowview .junction .name-of { fill: $quiet; }
.flowview .transition path { stroke: $edge; }
.flowview .transition .head, .flowview .start-dot { fill: $edge; }
.flowview .label text, .flowview .junction .name-of { stroke: $halo; }
.flowview .label .order { fill: $order; }
.flowview .listed .to, .flowview .closed, .flowview a .crumb { fill: $edge; }
.flowview .never > .frame { fill: $neverbox; stroke: $never; }
.flowview .never > text, .flowview .never > text .keyword, .flowview .never .label text, .flowview .never .label .order,
.flowview text.never, .flowview text.never tspan { fill: $neverink; }
.flowview .never path { stroke: $never; }
.flowview .never .head, .flowview .never.start-dot { fill: $never; }
.flowview .never.junction circle { stroke: $never; }
"""
PRINT = """
@media print { @page { size: %s; margin: 10mm; } svg.flowview { max-width: 100%%; max-height: 100%%; } }
"""


def coloured(colours):
    return Template(COLOURS).substitute({name.replace('-', ''): value for name, value in colours.items()})


def style_alone(theme, is_wide):
    """The rules of a drawing that stands alone, in colours, since few programs but browsers know names of colours. With `auto`
    it is light or dark as the reader's system is; programs that don't know of it show it light."""
    paper = PRINT % ('landscape' if is_wide else 'portrait')
    if theme == 'auto':
        return SHAPES + coloured(LIGHT) + '@media screen and (prefers-color-scheme: dark) {' + coloured(DARK) + '}' + paper
    return SHAPES + coloured({'light': LIGHT, 'dark': DARK}[theme]) + paper


def style_in_page():
    """The rules of a drawing in a page, and the colours for its themes."""
    def named(colours):
        return ' '.join('--%s: %s;' % each for each in colours.items())

    themes = ':root { %s }\n@media screen { :root[data-theme="dark"] { %s } }\n' % (named(LIGHT), named(DARK))
    return themes + SHAPES + coloured({name: 'var(--%s)' % name for name in LIGHT})
