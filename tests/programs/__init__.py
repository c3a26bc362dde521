"""The built programs at their limits and on the example sheets."""
