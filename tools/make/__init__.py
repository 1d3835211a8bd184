"""For who changes the repository."""
