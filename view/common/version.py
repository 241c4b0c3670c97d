"""The version of the tools, which all of them tell by `--version`. It is that of chart_to_c, and is read out of its source."""
import os
import re

from common import CHECKOUT

SOURCE = os.path.join(CHECKOUT, 'crates', 'c_header', 'src', 'identity.rt')


def read_version():
    """What the function `version` gives there."""
    with open(SOURCE, encoding='utf-8') as file:
        return re.search(r'pub fn version\(\).*?\n\{\n *"([^"\n]*)"\n\}', file.read(), re.DOTALL)[1]


VERSION = read_version()


def add_version(parser):
    """Gives a tool the option `--version`, which writes its name and the version, and ends with status 0."""
    parser.add_argument('--version', action='version', version='%s %s' % (parser.prog, VERSION))
