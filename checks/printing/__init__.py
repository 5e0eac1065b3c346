"""The commands that print what the sources have: definitions, clauses, and the files that name something."""
