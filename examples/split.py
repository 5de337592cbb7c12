#!/usr/bin/env python3
"""Cuts a planar_code file into parts: `split.py --help`."""
import os
import sys

sys.path.insert(0, os.path.join(os.path.dirname(os.path.realpath(__file__)), "../python"))
from planarbend.tools.split import main

sys.exit(main())
