"""The report of a portfolio as one HTML file."""
