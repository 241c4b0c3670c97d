"""The module z3, or None where it is missing."""
from common.debian import module

z3 = module('z3')
HOW_TO_INSTALL = 'z3 is missing (apt-get install python3-z3), so nothing is solved; runs go by chance and over all worlds alone'
