#!/usr/bin/env python3
"""Makes one table of many reports: `collect.py --help`."""
import os
import sys

sys.path.insert(0, os.path.join(os.path.dirname(os.path.realpath(__file__)), "../../python"))
from planarbend.tools.collect import main

sys.exit(main())
