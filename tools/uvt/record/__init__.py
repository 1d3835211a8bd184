"""Recordings of real programs: the recorder in C, the hooks in interpreters, and what makes a recording of a log."""
