#!/usr/bin/env python3
"""Draws graphs of a planar_code file: `svg.py --help`."""
import os
import sys

sys.path.insert(0, os.path.join(os.path.dirname(os.path.realpath(__file__)), "../python"))
from planarbend.tools.svg import run

sys.exit(run())
