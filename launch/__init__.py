"""Finds the program that is to answer a call of `./cise`, and runs it. `start.py` is where it
begins; `prove` and what the gate uses are here too."""
