#!/usr/bin/python3
"""Runs the command plot of the package j39plan."""

import sys

from j39plan.cli.plot import main

if __name__ == "__main__":
    sys.exit(main())
