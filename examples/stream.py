#!/usr/bin/env python3
"""Lays out a stream of planar_code of any length: `stream.py --help`."""
import os
import sys

sys.path.insert(0, os.path.join(os.path.dirname(os.path.realpath(__file__)), "../python"))
from planarbend.tools.stream import run

sys.exit(run())
