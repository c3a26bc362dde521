"""Tests against a separately written calculator; README.md says what each folder asks."""
