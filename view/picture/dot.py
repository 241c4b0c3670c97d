"""The program `dot` of Graphviz, which finds places for the things of one box after another."""
import json
import subprocess
import threading

TIMEOUT = 120                                                # seconds for one box
MISSING = ('there is no program dot: install Graphviz (Debian and Ubuntu: apt-get install graphviz; Fedora: dnf install graphviz; '
           'macOS: brew install graphviz)')


class NoDot(Exception):
    """There is no `dot`, or it failed."""


class Dot:
    """One process of dot for all boxes: it takes graphs one after another, each with its answer, and so starts once."""

    def __init__(self):
        try:
            self.process = subprocess.Popen(['dot', '-Tjson0'], stdin=subprocess.PIPE, stdout=subprocess.PIPE,
                                            stderr=subprocess.DEVNULL)
        except FileNotFoundError as error:
            raise NoDot(MISSING) from error
        except OSError as error:
            raise NoDot('dot: %s' % error) from error

    def answer(self, text):
        """What dot says of a graph. Where it doesn't answer in time, or not at all, it is ended."""
        watch = threading.Timer(TIMEOUT, self.process.kill)
        watch.start()
        try:
            self.process.stdin.write(text.encode())
            self.process.stdin.flush()
            lines = []
            while not lines or lines[-1].rstrip() != b'}':
                lines.append(self.process.stdout.readline())
                if not lines[-1]:
                    raise NoDot('dot gives no answer')
        except OSError as error:
            raise NoDot('dot: %s' % error) from error
        finally:
            watch.cancel()
        return json.loads(b''.join(lines))

    def end(self):
        """Ends the process, which may have ended by itself."""
        try:
            self.process.stdin.close()
        except OSError:
            pass
        self.process.stdout.close()
        self.process.wait()
