"""Sheets as people write them: names and ranges, refusals in words, amounts, and what spreadsheets and sites hand over."""
