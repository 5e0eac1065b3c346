"""Reads the sources of this repository: definitions, the types and contracts of the program, and what each cites."""
