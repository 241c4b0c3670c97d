"""What flowwhy, flowlint and flowtrace share. They use the reader and the rules of the folder checks, which stands beside the
folder view. Whoever imports this finds the modules of its folders."""
import os
import sys

VIEW = os.path.dirname(os.path.dirname(os.path.abspath(__file__)))
CHECKOUT = os.path.dirname(VIEW)
for folder in ('random', 'tables', 'reference'):
    sys.path.insert(0, os.path.join(CHECKOUT, 'checks', folder))
