#!/usr/bin/python3
"""Runs the command plan2dbc of the package j39plan."""

import sys

from j39plan.cli.plan2dbc import main

if __name__ == "__main__":
    sys.exit(main())
