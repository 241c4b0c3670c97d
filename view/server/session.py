"""A session with an editor: what it opens and changes, and the answers to what it asks for.

A language is a module with SUFFIX, the end of the names of its files, TRIGGERS, and the functions `problems`, `read`, `renamed`,
`outline`, `hover`, `completions` and `layout`; charts.py has them."""
from common.places import token_end
from server import charts
from server.charts import Refused
from server.document import Document

LANGUAGES = (charts,)
SYMBOLS = {'chart': 2, 'event': 24, 'datum': 13, 'state': 5, 'junction': 20}         # the kinds of symbols of the protocol
OFFERS = {'word': 14, 'type': 25, 'event': 23, 'datum': 6, 'state': 7, 'junction': 20, 'chart': 9}
LEVELS = {'error': 1, 'warning': 2}
INCREMENTAL = 2
NOT_BEGUN, NO_METHOD, BAD_PARAMETERS, BAD_REQUEST, FAILED = -32002, -32601, -32602, -32600, -32803
WORDS = ('definition', 'references', 'documentHighlight', 'rename', 'prepareRename', 'documentSymbol', 'hover', 'completion',
         'formatting')


class Error(Exception):
    """An answer that is an error of the protocol."""

    def __init__(self, code, text):
        super().__init__(text)
        self.code = code


class Session:
    """All that is open. `send` writes a message to the editor."""

    def __init__(self, send, version):
        self.send, self.version = send, version
        self.documents, self.changed = {}, []
        self.begun = self.shut = self.over = False

    # -- messages

    def take(self, message):
        """Does what a message asks for, and answers it where it is a request."""
        if not isinstance(message, dict) or not isinstance(message.get('method'), str):
            if isinstance(message, dict) and 'method' not in message and ('result' in message or 'error' in message):
                return
            self.send({'id': None, 'error': {'code': BAD_REQUEST, 'message': 'this is no message of the protocol'}})
            return
        method, given = message['method'], message.get('params') or {}
        if 'id' not in message:
            self.notified(method, given)
            return
        try:
            self.send({'id': message['id'], 'result': self.answer(method, given)})
        except Error as error:
            self.send({'id': message['id'], 'error': {'code': error.code, 'message': str(error)}})
        except Refused as refused:
            self.send({'id': message['id'], 'error': {'code': FAILED, 'message': str(refused)}})
        except (KeyError, TypeError, ValueError, AttributeError) as fault:
            self.send({'id': message['id'], 'error': {'code': BAD_PARAMETERS, 'message': '%s: %r' % (method, fault)}})

    def answer(self, method, given):
        if method == 'initialize':
            self.begun = True
            return {'capabilities': self.capabilities(), 'serverInfo': {'name': 'flowls', 'version': self.version}}
        if not self.begun:
            raise Error(NOT_BEGUN, 'the session has not begun')
        if self.shut:
            raise Error(BAD_REQUEST, 'the session is shut down')
        if method == 'shutdown':
            self.shut = True
            return None
        group, _, word = method.partition('/')
        if group != 'textDocument' or word not in WORDS:
            raise Error(NO_METHOD, 'there is no method %s' % method)
        document = self.documents.get(given.get('textDocument', {}).get('uri'))
        if document is None:
            raise Error(FAILED, 'no such text is open')
        return getattr(self, word)(document, language_of(document.uri), given)

    def notified(self, method, given):
        if method == 'exit':
            self.over = True
        elif method == 'textDocument/didOpen':
            opened = given['textDocument']
            if language_of(opened['uri']):
                self.documents[opened['uri']] = Document(opened['uri'], opened.get('version'), opened['text'])
                self.note_change(opened['uri'])
        elif method == 'textDocument/didChange' and given['textDocument']['uri'] in self.documents:
            self.documents[given['textDocument']['uri']].change(given['contentChanges'], given['textDocument'].get('version'))
            self.note_change(given['textDocument']['uri'])
        elif method == 'textDocument/didClose' and self.documents.pop(given['textDocument']['uri'], None):
            self.send_problems(given['textDocument']['uri'], None, [])

    def note_change(self, uri):
        if uri not in self.changed:
            self.changed.append(uri)

    def publish(self):
        """Tells what is wrong with the texts that changed."""
        for uri in self.changed:
            document = self.documents.get(uri)
            if document:
                found = language_of(uri).problems(document.bytes)
                self.send_problems(uri, document.version, [problem(document, *each) for each in found])
        self.changed = []

    def send_problems(self, uri, version, found):
        given = {'uri': uri, 'diagnostics': found}
        if version is not None:
            given['version'] = version
        self.send({'method': 'textDocument/publishDiagnostics', 'params': given})

    @staticmethod
    def capabilities():
        return {'positionEncoding': 'utf-16', 'textDocumentSync': {'openClose': True, 'change': INCREMENTAL},
                'definitionProvider': True, 'referencesProvider': True, 'documentHighlightProvider': True,
                'renameProvider': {'prepareProvider': True}, 'documentSymbolProvider': True, 'hoverProvider': True,
                'completionProvider': {'triggerCharacters': sorted({each for language in LANGUAGES for each in language.TRIGGERS})},
                'documentFormattingProvider': True}

    # -- requests

    def used(self, document, language, given):
        """The names of a text, and the use at a position, or None."""
        found = language.read(document.bytes)
        use = found.index.at(document.offset(given['position'])) if found else None
        return (found.index, use) if use else None

    def definition(self, document, language, given):
        found = self.used(document, language, given)
        if not found:
            return None
        thing = found[1].thing
        return {'uri': document.uri, 'range': document.range(thing.at, thing.at + len(thing.name))}

    def references(self, document, language, given):
        found = self.used(document, language, given)
        if not found:
            return []
        with_declaration = given.get('context', {}).get('includeDeclaration', True)
        return [{'uri': document.uri, 'range': document.range(each.at, each.end())} for each in found[0].uses_of(found[1].thing)
                if with_declaration or not each.declares]

    def documentHighlight(self, document, language, given):                      # noqa: N802, the word of the protocol
        return [{'range': each['range']} for each in self.references(document, language, given)]

    def prepareRename(self, document, language, given):                          # noqa: N802
        found = self.used(document, language, given)
        return document.range(found[1].at, found[1].end()) if found else None

    def rename(self, document, language, given):
        places = language.renamed(document.bytes, document.offset(given['position']), given['newName'])
        edits = [{'range': document.range(*each), 'newText': given['newName']} for each in places]
        return {'changes': {document.uri: edits}}

    def documentSymbol(self, document, language, given):                         # noqa: N802
        return [symbol(document, each) for each in language.outline(document.bytes)]

    def hover(self, document, language, given):
        found = language.hover(document.bytes, document.offset(given['position']))
        if not found:
            return None
        lines, first, end = found
        return {'contents': {'kind': 'markdown', 'value': '\n'.join(lines)}, 'range': document.range(first, end)}

    def completion(self, document, language, given):
        end = document.offset(given['position'])
        offers, first = language.completions(document.bytes, end)
        return [{'label': each.word, 'kind': OFFERS[each.kind], 'detail': each.detail or each.kind,
                 'textEdit': {'range': document.range(first, end), 'newText': each.word}} for each in offers]

    def formatting(self, document, language, given):
        out = language.layout(document.bytes).encode('latin-1').decode('utf-8')
        return [] if out == document.text else [{'range': document.whole(), 'newText': out}]


def language_of(uri):
    """The language of a file, or None."""
    return next((each for each in LANGUAGES if uri.endswith(each.SUFFIX)), None)


def problem(document, source, level, message):
    """A message as the protocol has it."""
    end = message.end if message.end is not None else token_end(document.bytes, message.offset)
    return {'range': document.range(message.offset, end), 'severity': LEVELS[level], 'code': message.kind, 'source': source,
            'message': '\n'.join([message.text, *message.notes])}


def symbol(document, found):
    """A symbol of an outline as the protocol has it."""
    return {'name': found.name, 'kind': SYMBOLS[found.kind], 'detail': found.detail or found.kind,
            'range': document.range(found.first, found.end),
            'selectionRange': document.range(found.at, found.at + len(found.name)),
            'children': [symbol(document, each) for each in found.inside]}
