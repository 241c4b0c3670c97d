"""The sum of a chart, by which pages, reports and the C of a chart tell of which chart they are."""
import hashlib

import common                                # noqa: F401, which finds the folder checks
from chart_syntax import canonical_text, read_chart


def sum_of(written):
    """The sum of a chart that was read: the first 64 bits of the MD5 of its canonical text, as 16 hexadecimal digits. The C of the
    chart has it too."""
    return hashlib.md5(canonical_text(written).encode('latin-1'), usedforsecurity=False).hexdigest()[:16]


def sum_of_text(text):
    """The sum of the chart of a text. Fault where the text can't be read."""
    return sum_of(read_chart(text))
