"""Tests of the package; they need the library, which `make` builds or HOCSIMBUR_LIBRARY names.

    python3 -m unittest discover -s python/tests -t python"""
