#!/usr/bin/python3
"""Runs the command probe of the package j39plan."""

import sys

from j39plan.cli.probe import main

if __name__ == "__main__":
    sys.exit(main())
