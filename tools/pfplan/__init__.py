"""pfplan: from a pf.conf and a capture, or a scenario, to an answer that one can look at. Tested, not proved."""

# That of pfsrc and pfstrace too.
VERSION = "0.1.0"
# The packages, in their order: a module imports from its own package and from those before it (tests/test_packages.py).
PACKAGES = ("common", "traces", "pf", "replays", "plays", "answers", "pages", "commands")
