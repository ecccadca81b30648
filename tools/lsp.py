#!/usr/bin/python3
"""Runs the command lsp of the package j39plan."""

import sys

from j39plan.cli.lsp import main

if __name__ == "__main__":
    sys.exit(main())
