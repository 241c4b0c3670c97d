"""The messages of the Language Server Protocol, version 3.17, as they go over standard input and output: a head of lines
`NAME: VALUE`, of which `Content-Length` counts the bytes behind the empty line, and then so many bytes of JSON."""
import json

LONGEST = 64 * 1024 * 1024


class BadFrame(Exception):
    """The bytes aren't those of a message; nothing behind them can be read."""


def read_message(source):
    """The next message, None at the end of the source, or ValueError where what was read isn't JSON."""
    length = None
    while True:
        line = source.readline(1024)
        if not line and length is None:
            return None
        if not line.endswith(b'\r\n'):
            raise BadFrame('a line of a head has no end')
        if line == b'\r\n':
            break
        name, colon, value = line.partition(b':')
        if colon and name.strip().lower() == b'content-length':
            if not value.strip().isdigit() or int(value) > LONGEST:
                raise BadFrame('Content-Length is no number of bytes')
            length = int(value)
    if length is None:
        raise BadFrame('a head has no Content-Length')
    body = source.read(length)
    if len(body) < length:
        raise BadFrame('a message is cut')
    return json.loads(body.decode('utf-8'))


def write_message(target, message):
    """Writes a message at once."""
    body = json.dumps({'jsonrpc': '2.0', **message}, separators=(',', ':')).encode('utf-8')
    target.write(b'Content-Length: %d\r\n\r\n' % len(body) + body)
    target.flush()
