"""Rows of docs/VALIDATION.md: tcpsim beside other simulators, Linux's CoDel, RFC pseudocode and laws of papers. Each module
that is named after a row has its `measure`, which answers what is stored, and its `tables`, which writes what is stored.
"""
