#!/usr/bin/python3
"""Runs the command cut of the package j39plan."""

import sys

from j39plan.cli.cut import main

if __name__ == "__main__":
    sys.exit(main())
