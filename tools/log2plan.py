#!/usr/bin/python3
"""Runs the command log2plan of the package j39plan."""

import sys

from j39plan.cli.log2plan import main

if __name__ == "__main__":
    sys.exit(main())
