"""flowwhy: what is wrong where flowc refuses, in words."""
