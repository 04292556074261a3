"""Imported by each script here that takes a module of tools/, before that module: Python then looks there, too."""

import pathlib
import sys

sys.path.insert(0, str(pathlib.Path(__file__).resolve().parent.parent / 'tools'))
