"""Puts `plain/` on the path. Each check imports this module first."""
import os
import sys

TOP = os.path.dirname(os.path.dirname(os.path.abspath(__file__)))
sys.path.append(os.path.join(TOP, "plain"))
