"""What a run of a chart covers: states, transitions, outcomes of decisions, conditions, clips and faults. `parts.py` says what
there is to cover, `covered.py` runs the rules of the folder checks and notes what comes, `pairs.py` judges conditions by pairs of
evaluations, and `suite.py` merges runs."""
import common                                # noqa: F401, which finds the folder checks
