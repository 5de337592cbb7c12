#!/usr/bin/env python3
"""Draws how boxes cover a drawing: `cover.py --help`."""
import os
import sys

sys.path.insert(0, os.path.join(os.path.dirname(os.path.realpath(__file__)), "../python"))
from planarbend.tools.box_cover import main

sys.exit(main())
