"""The command line: a module for each command with its words, `add_arguments`, and what it does, `run`."""
