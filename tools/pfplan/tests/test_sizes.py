"""Which values are tried, and what is said of the curve."""

import re
import unittest
from collections.abc import Callable, Sequence
from fractions import Fraction

from pfplan.answers import grids, maps
from pfplan.answers.changed_rules import Number
from pfplan.answers.measures import Measure
from pfplan.answers.sizes import Sizing, Vary, search
from pfplan.commands.size import vary_word
from pfplan.commands.words import share_word
from pfplan.common.errors import Trouble
from pfplan.pages import map_texts, size_texts


def measure(served: int, connections: int = 1000, refused: str = "") -> Measure:
    """A measure in which so many connections were served."""
    return Measure(outcomes={"served": served, "refused": connections - served}, most_held=served, refused=refused)


class Grids(unittest.TestCase):
    """Values to try."""

    def test_first_grid(self) -> None:
        self.assertEqual(grids.first_grid(10, 50, 5), [10, 20, 30, 40, 50])
        self.assertEqual(grids.first_grid(1, 1000, 4), [1, 10, 100, 1000])
        self.assertEqual(grids.first_grid(0, 3, 9), [0, 1, 2, 3])

    def test_refined(self) -> None:
        self.assertEqual(grids.refined({10: False, 20: True, 30: True}, 3), [12, 15, 17])
        self.assertEqual(grids.refined({10: False, 11: True}, 3), [])
        self.assertEqual(grids.refined({1000: False, 1004: True}, 3), [])
        self.assertEqual(grids.refined({10: True, 20: True}, 3), [])

    def test_intervals(self) -> None:
        self.assertEqual(grids.intervals({1: False, 2: True, 3: True, 4: False, 5: True}), [(2, 3), (5, 5)])
        self.assertEqual(grids.intervals({}), [])

    def test_valleys(self) -> None:
        rows: tuple[tuple[list[float], list[tuple[int, int, int]]], ...] = (
            ([1, 2, 3, 2, 1], []), ([1, 1, 1], []), ([3, 2, 2, 3], [(0, 2, 3)]),
            ([1, 3, 2, 4, 3, 5], [(1, 2, 3), (3, 4, 5)]), ([], []), ([5], []), ([5, 4, 3], []),
            ([1, 2, 1, 2], [(1, 2, 3)]),
        )  # fmt: skip
        for shares, wanted in rows:
            found = grids.valleys(dict(enumerate(shares)))
            self.assertEqual([(it.top, it.bottom, it.again) for it in found], wanted, shares)


class Searching(unittest.TestCase):
    """The values that `size` comes to."""

    def test_edge_is_found_exactly(self) -> None:
        found, is_cut = search(
            Vary("states", 10, 2000),
            50,
            Fraction(99, 100),
            9,
            60,
            lambda values: [measure(1000 if it >= 137 else 10) for it in values],
        )
        self.assertIn(136, found)
        self.assertIn(137, found)
        self.assertIn(50, found)
        self.assertFalse(is_cut)

    def test_runs_are_bounded(self) -> None:
        found, is_cut = search(
            Vary("states", 1, 4000000),
            7,
            Fraction(99, 100),
            9,
            12,
            lambda values: [measure(1000 if it >= 1234567 else 10) for it in values],
        )
        self.assertEqual(len(found), 12)
        self.assertTrue(is_cut)

    def test_peak_between_values(self) -> None:
        found, _ = search(
            Vary("max", 10, 90),
            10,
            Fraction(99, 100),
            5,
            60,
            lambda values: [measure(1000 if 42 <= it <= 46 else 500 - abs(it - 44)) for it in values],
        )
        self.assertTrue(any(42 <= it <= 46 for it in found))


class Maps(unittest.TestCase):
    """Maps of two numbers."""

    def map_of(self, served: Callable[[int, int], bool], now: tuple[int, int], runs: int = 60) -> maps.Map:
        """A map of numbers from 1 to 100, with the present values."""
        varies = Vary("max", 1, 100), Vary("bots.rate", 1, 10)
        grid = maps.grids_of(varies, now, 5, runs)

        def measured(pairs: Sequence[maps.Pair]) -> list[Measure]:
            return [measure(1000 if served(*it) else 700) for it in pairs]

        found, is_cut = maps.search(grid, Fraction(99, 100), runs, measured)
        varied = Number("max", now[0], (1,)), Number("bots.rate", now[1], ())
        return maps.Map("s.toml", "homes", varied, Fraction(99, 100), found, grid, is_cut)

    def test_runs_are_bounded(self) -> None:
        for runs in (4, 7, 20, 60):
            found = self.map_of(lambda first, second: first * second < 200, (40, 5), runs)
            self.assertLessEqual(len(found.measures), runs)
            self.assertTrue(found.is_cut or runs == 60)
        with self.assertRaises(Trouble):
            self.map_of(lambda first, second: True, (40, 5), 3)

    def test_the_border_is_between_two_values(self) -> None:
        found = self.map_of(lambda first, second: first <= 37, (40, 5))
        upper, lower = map_texts.edges(found)
        self.assertEqual((len(upper), lower), (len(found.grid[1]), []))
        for second, height in upper:
            self.assertTrue(37 <= height <= 38, (second, height))

    def test_the_present_values(self) -> None:
        for now, said, mood in (
            ((40, 5), "serve 70.0 % of the users, which is too few: 99 % are wanted.", "answer bad"),
            ((30, 5), "serve 100 % of the users, which is enough.", "answer good"),
            ((400, 5), "were not tried.", 'answer"'),
        ):
            found = self.map_of(lambda first, second: first <= 37, now)
            place = f"The present values, max {now[0]} and bots.rate 5, "
            self.assertIn(place + said, map_texts.text_of(found))
            page = map_texts.page_of(found)
            self.assertIn(mood, page)
            self.assertIn(place + said, page)

    def test_colours(self) -> None:
        """Each pair of the grid has one, and the present one a frame."""
        found = self.map_of(lambda first, second: first <= 37, (40, 5))
        page = map_texts.page_of(found)
        cells = len(found.grid[0]) * len(found.grid[1])
        self.assertEqual(len(re.findall(r'class="share (?:served|failed)', page)), cells)
        self.assertEqual(page.count('class="share failed now" style="--lack: 30%">70<'), 1)


class Words(unittest.TestCase):
    """The words of the command line."""

    def test_vary(self) -> None:
        self.assertEqual(vary_word("@5.max-src-conn=1..20"), Vary("@5.max-src-conn", 1, 20))
        for text in ("states", "states=5", "states=9..5", "states=1..2;x", "$(x)=1..2", "states=1..99999999999"):
            with self.assertRaises(Exception):
                vary_word(text)

    def test_share(self) -> None:
        self.assertEqual(share_word("99.5%"), Fraction(199, 200))
        self.assertEqual(share_word("99"), Fraction(99, 100))
        for text in ("101%", "x", "-1", ""):
            with self.assertRaises(Exception):
                share_word(text)


class Texts(unittest.TestCase):
    """What is told of the values."""

    def sizing(self, shares: dict[int, int]) -> Sizing:
        """Values with how many of 1,000 connections each served."""
        measures = {value: measure(served) for value, served in shares.items()}
        return Sizing("trace<b>", "198.51.100.0/24", Number("max", 40, (3,)), Fraction(99, 100), measures, 4, False)

    def test_one_edge(self) -> None:
        text = size_texts.text_of(self.sizing({10: 500, 40: 989, 41: 995, 90: 1000}))
        self.assertIn("At least 99 % are served from 41 to 90; at 40 it is 98.9 %.", text)
        self.assertIn("rises and falls no more than once", text)
        self.assertIn("| now", text)
        self.assertEqual([it[0] for it in text.splitlines()[4:8]], [" ", " ", "*", "*"])

    def test_the_present_value_fails(self) -> None:
        failing = self.sizing({10: 500, 40: 989, 41: 995, 90: 1000})
        self.assertIn("The present value, 40, fails: it serves 98.9 %.", size_texts.text_of(failing))
        self.assertIn("answer bad", size_texts.page_of(failing))
        self.assertNotIn("fails", size_texts.text_of(self.sizing({10: 500, 40: 995})))

    def test_not_once(self) -> None:
        text = size_texts.text_of(self.sizing({10: 995, 40: 900, 90: 1000}))
        self.assertIn(
            "The share does not rise and fall once: from 99.5 % at 10 it falls to 90.0 % at 40, and is 100 % at 90.",
            text,
        )

    def test_none(self) -> None:
        text = size_texts.text_of(self.sizing({10: 500, 90: 400}))
        self.assertIn("No value that was tried serves 99 %; the best is 50.0 % at 10.", text)

    def test_refused_rules(self) -> None:
        found = Sizing(
            "t",
            "u",
            Number("states", 9),
            Fraction(1),
            {1: measure(0, 0, "line 0: TooManyEntries"), 9: measure(5, 5)},
            0,
            False,
        )
        text = size_texts.text_of(found)
        self.assertIn("the rules are refused: line 0: TooManyEntries", text)
        self.assertIn("At least 100 % are served at 9; at 1 the rules are refused.", text)


if __name__ == "__main__":
    unittest.main()
