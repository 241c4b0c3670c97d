"""What flowls answers about the texts of server_table.txt.

`text TEXT` is a text in UTF-8, with one mark `^` where the cursor stands. `change L:C L:C TEXT` puts a text in place of what is
between two positions of it, before the question; a line and a unit count from 0. `ask METHOD` or `ask rename NAME` is the question,
and `ask problems` what is told without one. An answer has positions as `L:C-L:C`."""
import json
import os
import subprocess
import sys
from io import BytesIO

import tables
from checking import text_of
from common import VIEW
from server.frame import read_message, write_message
from server.session import BAD_PARAMETERS, WORDS, Session

TABLE = 'server_table.txt'
URI = 'file:///a%20folder/the.chart'
DIDS = 'textDocument/didOpen', 'textDocument/didChange', 'textDocument/didClose'


class Editor:
    """An editor that speaks with a session without a process."""

    def __init__(self, text):
        self.got = []
        self.session = Session(self.got.append, '1')
        self.session.take({'id': 0, 'method': 'initialize', 'params': {}})
        self.session.take({'method': 'initialized', 'params': {}})
        self.session.take({'method': DIDS[0], 'params': {'textDocument': {'uri': URI, 'version': 1, 'text': text}}})

    def ask(self, word, position, **given):
        """The answer to a question at a position."""
        given = {'textDocument': {'uri': URI}, 'position': position, 'context': {'includeDeclaration': True}, **given}
        self.session.take({'id': 1, 'method': 'textDocument/' + word, 'params': given})
        return self.got[-1]

    def problems(self):
        self.session.publish()
        return self.got[-1]['params']['diagnostics']


def position(text):
    line, _, unit = text.partition(':')
    return {'line': int(line), 'character': int(unit)}


def place(found):
    return '-'.join('%d:%d' % (found[word]['line'], found[word]['character']) for word in ('start', 'end'))


def server_answer(block):
    """The lines of a row."""
    text = text_of(block, 'text').encode('latin-1').decode('utf-8')
    before, _, after = text.partition('^')
    editor = Editor(before + after)
    for change in block.values('change'):
        first, end, new = change.split(' ', 2)
        new = tables.unescaped(new).decode('utf-8')
        editor.session.take({'method': DIDS[1], 'params': {'textDocument': {'uri': URI, 'version': 2}, 'contentChanges': [
            {'range': {'start': position(first), 'end': position(end)}, 'text': new}]}})
    word, _, name = block.values('ask')[0].partition(' ')
    if word == 'problems':
        return [problem_line(each) for each in editor.problems()] or ['none']
    line = before.split('\n')[-1]
    at = {'line': before.count('\n'), 'character': len(line.encode('utf-16-le')) // 2}
    answer = editor.ask(word, at, **({'newName': name} if name else {}))
    if 'error' in answer:
        return ['error %d %s' % (answer['error']['code'], answer['error']['message'])]
    return WRITTEN[word](answer['result']) if answer['result'] else ['nothing']


def problem_line(found):
    return '%s %d %s %s: %s' % (place(found['range']), found['severity'], found['source'], found['code'],
                                found['message'].split('\n')[0])


def symbol_lines(symbols, depth=0):
    lines = []
    for each in symbols:
        lines.append('%s%s %d %s %s %s' % ('  ' * depth, each['name'], each['kind'], each['detail'], place(each['range']),
                                          place(each['selectionRange'])))
        lines += symbol_lines(each['children'], depth + 1)
    return lines


def completion_lines(found):
    return ['at %s' % place(found[0]['textEdit']['range']), ' '.join(each['label'] for each in found)]


WRITTEN = {
    'definition': lambda found: [place(found['range'])],
    'references': lambda found: [place(each['range']) for each in found],
    'documentHighlight': lambda found: [place(each['range']) for each in found],
    'prepareRename': lambda found: [place(found)],
    'rename': lambda found: ['%s %s' % (place(each['range']), each['newText']) for each in found['changes'][URI]],
    'documentSymbol': symbol_lines,
    'hover': lambda found: [place(found['range']), *found['contents']['value'].split('\n')],
    'completion': completion_lines,
    'formatting': lambda found: ['%s' % place(found[0]['range']), *found[0]['newText'].split('\n')[:-1]],
}


def words_without_rows(blocks):
    """The questions that no row asks."""
    asked = {block.values('ask')[0].split(' ')[0] for block in blocks}
    return ['no row asks %s' % word for word in (*WORDS, 'problems') if word not in asked]


def wrong_answers(text, choices, most=8):
    """Questions at random places of a text to which the answer is that the question has a defect."""
    editor = Editor(text)
    editor.problems()
    for _ in range(most):
        word, offset = choices.choice(WORDS), choices.randrange(len(text) + 1)
        before = text[:offset].replace('\r\n', '\n').replace('\r', '\n')
        at = {'line': before.count('\n'), 'character': len(before) - before.rfind('\n') - 1}
        answer = editor.ask(word, at, newName='Other')
        if answer.get('error', {}).get('code') == BAD_PARAMETERS:
            yield '%s at %s: %s' % (word, at, answer['error']['message'])


# ---- the process

def spoken(messages):
    """What the process writes where it is sent these messages, each as JSON or as bytes, and the status with which it ends."""
    with subprocess.Popen([sys.executable, os.path.join(VIEW, 'flowls'), '--stdio'], stdin=subprocess.PIPE, stdout=subprocess.PIPE,
                          stderr=subprocess.PIPE) as process:
        for each in messages:
            if isinstance(each, bytes):
                process.stdin.write(each)
            else:
                write_message(process.stdin, each)
        out, _ = process.communicate(timeout=60)
    return replies(out), process.returncode


def replies(out):
    found = []
    source = BytesIO(out)
    while True:
        message = read_message(source)
        if message is None:
            return found
        found.append(message)


def request(number, method, given=None):
    return {'id': number, 'method': method, 'params': given or {}}


def notice(method, given=None):
    return {'method': method, 'params': given or {}}


OPENED = {'textDocument': {'uri': URI, 'version': 7, 'text': 'chart C { default -> B; state A { } }\n'}}
BEGUN = [request(1, 'initialize'), notice('initialized')]
ENDED = [request(9, 'shutdown'), notice('exit')]
# The messages that are sent, the status, and what each answer has in it, in their order.
TALKS = [
    ('a session', [*BEGUN, notice(DIDS[0], OPENED), notice('$/setTrace', {'value': 'off'}), *ENDED], 0,
     ['"serverInfo"', '"id":9,"result":null']),
    ('no end', BEGUN, 1, ['"serverInfo"']),
    ('no shutdown', [*BEGUN, notice('exit')], 1, ['"serverInfo"']),
    ('too early', [request('a', 'textDocument/hover'), *BEGUN, *ENDED], 0,
     ['"id":"a","error":{"code":-32002', '"serverInfo"', '"id":9']),
    ('too late', [*BEGUN, request(2, 'shutdown'), request(3, 'textDocument/hover'), notice('exit')], 0,
     ['"serverInfo"', '"id":2,"result":null', '"id":3,"error":{"code":-32600']),
    ('no method', [*BEGUN, request(2, 'textDocument/codeLens'), *ENDED], 0,
     ['"serverInfo"', '"id":2,"error":{"code":-32601', '"id":9']),
    ('not open', [*BEGUN, request(2, 'textDocument/hover', {'textDocument': {'uri': 'file:///x.chart'}}), *ENDED], 0,
     ['"serverInfo"', '"id":2,"error":{"code":-32803', '"id":9']),
    ('no parameters', [*BEGUN, notice(DIDS[0], OPENED), request(2, 'textDocument/hover', {'textDocument': {'uri': URI}}), *ENDED],
     0, ['"serverInfo"', '"id":2,"error":{"code":-32602', '"id":9']),
    ('no JSON', [*BEGUN, b'Content-Length: 3\r\n\r\n{a}', b'Content-Length: 2\r\nContent-Type: x\r\n\r\n[]', *ENDED], 0,
     ['"serverInfo"', '"id":null,"error":{"code":-32700', '"id":null,"error":{"code":-32600', '"id":9']),
    ('no head', [*BEGUN, b'Content-Length: three\r\n\r\n'], 1, ['"serverInfo"']),
    ('a cut message', [*BEGUN, b'Content-Length: 30\r\n\r\n{'], 1, ['"serverInfo"']),
]


def wrong_talks():
    """The sessions by a process that go otherwise, and how many there are."""
    lines = []
    for name, messages, status, wanted in TALKS:
        got, ended = spoken(messages)
        texts = [json.dumps(each, separators=(',', ':')) for each in got if 'id' in each]
        if ended != status or len(texts) != len(wanted) or not all(part in text for part, text in zip(wanted, texts)):
            lines.append('%s: status %d, %s' % (name, ended, texts))
    return lines + wrong_publishing(), len(TALKS) + 1


def wrong_publishing():
    """What is wrong with what a process tells by itself, of a text that is mended and closed."""
    with subprocess.Popen([sys.executable, os.path.join(VIEW, 'flowls')], stdin=subprocess.PIPE, stdout=subprocess.PIPE,
                          stderr=subprocess.PIPE) as process:
        def told(message):
            write_message(process.stdin, message)
            found = read_message(process.stdout)['params']
            return found.get('version'), [each['code'] for each in found['diagnostics']]
        for each in BEGUN:
            write_message(process.stdin, each)
        read_message(process.stdout)
        mend = [{'range': {'start': {'line': 0, 'character': 21}, 'end': {'line': 0, 'character': 22}}, 'text': 'A'}]
        got = [told(notice(DIDS[0], OPENED)),
               told(notice(DIDS[1], {'textDocument': {'uri': URI, 'version': 8}, 'contentChanges': mend})),
               told(notice(DIDS[2], {'textDocument': {'uri': URI}}))]
        for each in ENDED:
            write_message(process.stdin, each)
        status = process.wait(timeout=60)                    # with its input still open, as editors leave it
        said = process.stderr.read()
    wanted = [(7, ['UnknownName']), (8, []), (None, [])]
    return [] if got == wanted and status == 0 and not said else ['publishing: %s, status %d, %s' % (got, status, said)]
