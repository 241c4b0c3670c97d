"""Finds event files that cover a chart. `worlds.py` runs the rules line by line from any world, `inputs.py` says which values of
inputs are tried, `finder.py` keeps what was found, `walks.py` goes by chance and towards what is missing, `numbers.py`, `paths.py`
and `solving.py` ask z3 for other inputs, `all_worlds.py` tries all worlds where these are few, `reasons.py` says why a goal
doesn't come, `reduction.py` makes few and short files, `report.py` tells what covers what, and `c_branches.py` runs the files
through the C."""
import common                                # noqa: F401, which finds the folder checks
