"""Whole sheets: rows, verdicts, the station summary, release and conversion; the stored batches and random sheets."""
