#!/usr/bin/env python3
"""Draws a graph from a file: `draw.py --help`."""
import os
import sys

sys.path.insert(0, os.path.join(os.path.dirname(os.path.realpath(__file__)), "../python"))
from planarbend.command import run

sys.exit(run())
