"""The canonical layout of a chart with its comments, and to which part of the chart a comment belongs."""
