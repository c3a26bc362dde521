"""The library for programs in C."""
