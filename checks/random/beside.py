"""Finds the modules of the other folders of checks, which stand beside this one."""
import os
import sys

CHECKS = os.path.dirname(os.path.dirname(os.path.abspath(__file__)))
sys.path[1:1] = [os.path.join(CHECKS, folder) for folder in ('reference', 'tables')]
