"""Calls of flowfmt, flowls, flowreq, flownames and flowfmu, as commands.py makes them."""
from checking.commands import LAMP_SUM
from common.version import VERSION

TOOLS = ('flowfmt', 'flowls', 'flowreq', 'flownames', 'flowfmu')
FALSE = '/bin/false'
LAMP_HEADER = '''enum { Lamp_E_GO = 0 };
enum { Lamp_TICK = 1 };
enum { Lamp_FAULT_NONE = 0 };
enum { Lamp_SUM_0 = 0xb682, Lamp_SUM_1 = 0x41c5, Lamp_SUM_2 = 0x5726, Lamp_SUM_3 = 0x0cf0 };
typedef struct {
    uint32_t fault; /* its fault */
    uint16_t child_0; /* the active child of Lamp: 2 Off, 3 On */
} Lamp_chart;
/* Whether Off is active. */
static inline bool Lamp_in_Off(const Lamp_chart *m)
{
    return m->child_0 == (uint16_t)2u;
}
/* Whether On is active. */
static inline bool Lamp_in_On(const Lamp_chart *m)
{
    return m->child_0 == (uint16_t)3u;
}
'''
FILES = {
    'wrong.chart': 'chart C { default -> A; state A { entry { x++; } } }\n',
    'dead.chart': 'chart C { default -> A; state A { outer -> A; outer -> A; } }\n',
    'tied.chart': '// @req R-1\nchart C { // @req R-2 R-3: the start\n default -> A;\n state A { } // @req R-2\n}\n',
    'all.chart': 'chart C { // @req R-2\n default -> A; // @req R-2\n state A { } // @req R-2\n}\n',
    'untied.chart': 'chart C { default -> A; state A { }\n// @req R-2\n}\n',
    'known': 'R-2\nR-4\n',
    'lamp.h': LAMP_HEADER,
    'other.h': LAMP_HEADER.replace('SUM_3 = 0x0cf0', 'SUM_3 = 0x0000'),
    'without.h': LAMP_HEADER.replace('SUM', 'COUNT'),
    'tied.c': '/* entering A */\nstatic uint32_t p7(C_chart *m)\n{\n    return 0;\n}\n',
}
SUM = 'f9bc2fe0b1503b62'                    # of the charts tied.chart and all.chart, which differ in comments alone
MATRIX = 'requirement,chart,sum,kind,part,text,place,functions,tests\n'
# The words, the status, how standard output begins, and how standard error begins.
CALLS = [
    ('flowreq tied.chart --c tied.c', 0, MATRIX + 'R-1,C,%s,chart,C,,tied.chart:2:1,,\n' % SUM,
     '3 requirements, 2 parts tied\ntied.chart:3:2: the transition the chart, default 1 has no requirement\n'),
    ('flowreq tied.chart --c tied.c --strict', 8, MATRIX, '3 requirements, 2 parts tied\n'),
    ('flowreq all.chart --c tied.c --strict', 0, MATRIX + 'R-2,C,%s,chart,C,,all.chart:1:1,,\n' % SUM,
     '1 requirement, 3 parts tied\n'),
    ('flowreq all.chart --c tied.c --requirements known --strict', 8, MATRIX, '1 requirement, 3 parts tied\nR-4: no part has'),
    ('flowreq untied.chart --c tied.c', 1, '', 'untied.chart:2:1: error: TiesNothing: '),
    ('flowreq all.chart --c tied.c --tests .', 4, '', './all.coverage.json:1:1: error: ReadFault: '),
    ('flowreq wrong.chart --c tied.c', 1, '', 'chart 1:44: 3 Expected\nwrong.chart: the chart is refused'),
    ('flowreq all.chart tied.chart --c tied.c', 2, '', 'usage: flowreq'),
    ('flowreq all.chart --chart-to-c nothing', 127, '', 'flowreq: --chart-to-c names nothing'),
    ('flowreq all.chart --chart-to-c /bin/false', 1, '', FALSE + ' source all.chart: '),
    ('flownames LAMPchart --header lamp.h', 0, '{\n  "chart": "Lamp",\n  "sum": "%s",\n  "prefix": "Lamp",\n' % LAMP_SUM, ''),
    ('flownames LAMPchart --header lamp.h --as c', 0, '/* Names of the chart Lamp, sum %s, ' % LAMP_SUM, ''),
    ('flownames LAMPchart --header lamp.h --as a2l', 0, 'ASAP2_VERSION 1 60\n', ''),
    ('flownames dead.chart --header lamp.h', 1, '', 'the header isn\'t the chart\'s: its states are not those of the chart\n'),
    ('flownames LAMPchart --header other.h', 1, '',
     'the header isn\'t the chart\'s: its sum is %s0000, and that of the chart %s\n' % (LAMP_SUM[:12], LAMP_SUM)),
    ('flownames LAMPchart --header without.h', 1, '', 'the header isn\'t the chart\'s: it has no sum of a chart\n'),
    ('flownames dead.chart --header known', 1, '', 'the header isn\'t the chart\'s: it has no struct of a chart\n'),
    ('flownames wrong.chart --header lamp.h', 1, '', 'chart 1:44: 3 Expected\nwrong.chart: the chart is refused'),
    ('flownames LAMPchart --header nothing', 4, '', 'nothing:1:1: error: ReadFault: '),
    ('flownames LAMPchart --as xml', 2, '', 'usage: flownames'),
    ('flownames LAMPchart --symbol 1x', 2, '', 'usage: flownames'),
    ('flowfmu wrong.chart -o made.fmu', 1, '', 'chart 1:44: 3 Expected\nwrong.chart: the chart is refused'),
    ('flowfmu dead.chart -o made.fmu --chart-to-c /bin/false', 1, '', FALSE + ' header dead.chart: '),
    ('flowfmu dead.chart -o made.fmu --chart-to-c nothing', 127, '', 'flowfmu: --chart-to-c names nothing'),
    ('flowfmu dead.chart', 2, '', 'usage: flowfmu'),
    ('flowfmt LAMPchart', 0, 'chart Lamp or {\n  event input GO;\n', ''),
    ('flowfmt dead.chart', 0, 'chart C or {\n  default -> A;\n', ''),
    ('flowfmt --check dead.chart LAMPchart', 8, 'dead.chart: another layout\n', ''),
    ('flowfmt --in-place dead.chart all.chart', 0, '', ''),
    ('flowfmt --check dead.chart all.chart', 0, '', ''),
    ('flowfmt wrong.chart', 1, '', 'chart 1:44: 3 Expected\nwrong.chart: the text is refused'),
    ('flowfmt nothing.chart', 4, '', 'nothing.chart:1:1: error: ReadFault: '),
    ('flowfmt dead.chart --program nothing', 127, '', 'flowfmt: --program names nothing'),
    ('flowfmt dead.chart --program /bin/false', 1, '', 'flowfmt: dead.chart: without its comments it isn\'t what '),
    ('flowfmt dead.chart LAMPchart', 2, '', 'usage: flowfmt'),
    ('flowfmt - --in-place', 2, '', 'usage: flowfmt'),
    *((tool + ' --help', 0, 'usage: ' + tool, '') for tool in TOOLS),
    *((tool + ' --version', 0, '%s %s\n' % (tool, VERSION), '') for tool in TOOLS),
    ('flowls --tcp', 2, '', 'usage: flowls'),
]
