"""The program a second time, in Python: what it says of trees, schedules, datagrams and rows.

It is written down from docs/FORMATS.md and docs/PROTOCOL.md and shares nothing with the program, so that
tests/differences.py can compare the two.
"""
