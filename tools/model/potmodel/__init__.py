"""A second program of potshards: what the archive, its sessions and its files are, in plain Python.

It was written from docs/FORMATS.md and docs/ARCHITECTURE.md and shares no code, and no number, with the crates. Where
both tell the same of an input, either is right or both were misled by the same page.
"""
