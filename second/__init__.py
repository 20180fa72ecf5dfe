"""A second verifier of reports, written after the documents; it shares no code with the program."""
