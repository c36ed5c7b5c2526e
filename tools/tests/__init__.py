"""Tests of the tools: `python3 -m unittest discover --start-directory tests --top-level-directory .` in tools/."""
