"""The words that say how a scenario is played: with how many seeds, and how many records it may have."""

import argparse

from pfplan.commands.words import number
from pfplan.plays.expecting import MOST

SEEDS = 100
RECORDS = 10_000_000_000 - 1


def add_seeds(parser: argparse.ArgumentParser) -> None:
    """How often a scenario is played."""
    parser.add_argument(
        "--seeds", type=number(1, SEEDS), default=1, metavar="N",
        help="plays N times, with the seed of the scenario and those behind it: the table gives median and range (1)",
    )  # fmt: skip


def add_most(parser: argparse.ArgumentParser) -> None:
    """How large a play may be."""
    parser.add_argument(
        "--most", type=number(1, RECORDS), default=MOST, metavar="N",
        help=f"refuses a scenario of which more than N records are expected ({MOST:,})",
    )  # fmt: skip
