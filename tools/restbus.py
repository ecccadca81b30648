#!/usr/bin/python3
"""Runs the command restbus of the package j39plan."""

import sys

from j39plan.cli.restbus import main

if __name__ == "__main__":
    sys.exit(main())
