"""The documentation and the files that scripts write."""
