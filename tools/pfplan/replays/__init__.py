"""Runs of the programs: here, on other machines, and beside a capture that still comes."""
