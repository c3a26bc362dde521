"""Stations and licences: what the library answers of them, in which words, and what to change next."""
