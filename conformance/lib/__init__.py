"""What conformance/random, conformance/run and conformance/full_tester.py are made of. README.md of the folder above says how they are used."""

import os
import sys

CONFORMANCE = os.path.dirname(os.path.dirname(os.path.realpath(__file__)))
TOP = os.path.dirname(CONFORMANCE)
SCRIPTS = os.path.join(TOP, "scripts")

if SCRIPTS not in sys.path:
    sys.path.insert(0, SCRIPTS)
