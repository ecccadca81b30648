#!/usr/bin/python3
"""Runs the command dbc2plan of the package j39plan."""

import sys

from j39plan.cli.dbc2plan import main

if __name__ == "__main__":
    sys.exit(main())
