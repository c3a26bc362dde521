"""The separate calculator, the reader of what the programs print, and their own tests."""
