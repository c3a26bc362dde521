"""Runs the command: python3 -m hocsimbur."""
import sys

from .command.cli import main

sys.exit(main())
