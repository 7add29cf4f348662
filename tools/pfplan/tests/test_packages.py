"""Imports go one way: down the order of the packages, and in no circle."""

import ast
import unittest
from collections.abc import Iterator
from functools import cache
from pathlib import Path

from pfplan import PACKAGES

TOP = Path(__file__).resolve().parent.parent
# What runs the commands, and what tests all.
ABOVE = ("__main__", "tests")


@cache
def sources() -> dict[str, ast.Module]:
    """Each module of pfplan, by its name."""
    found = {}
    for path in sorted(TOP.rglob("*.py")):
        parts = path.relative_to(TOP).with_suffix("").parts
        found[".".join(parts).removesuffix(".__init__")] = ast.parse(path.read_text("utf-8"))
    return found


def imported(tree: ast.Module) -> Iterator[tuple[int, str]]:
    """What a module imports, wherever in it, by its line and full name. A relative import begins with a dot."""
    for node in ast.walk(tree):
        if isinstance(node, ast.Import):
            yield from ((node.lineno, it.name) for it in node.names)
        elif isinstance(node, ast.ImportFrom):
            name = "." * node.level + (node.module or "")
            yield from ((node.lineno, f"{name}.{it.name}") for it in node.names)


def place_of(module: str) -> int:
    """The place of a module's package in the order."""
    name = module.partition(".")[0]
    return len(PACKAGES) if name in ABOVE else PACKAGES.index(name)


class Packages(unittest.TestCase):
    def setUp(self) -> None:
        self.sources = sources()
        # the module that an import names, or whose name it takes
        self.imports: dict[str, list[tuple[int, str]]] = {}
        for module, tree in self.sources.items():
            names = [(line, it.removeprefix("pfplan.")) for line, it in imported(tree) if it.startswith("pfplan.")]
            self.imports[module] = [(line, it if it in self.sources else it.rpartition(".")[0]) for line, it in names]

    def test_every_module_is_in_a_package(self) -> None:
        folders = {it.name for it in TOP.iterdir() if (it / "__init__.py").exists()}
        self.assertEqual(folders, {*PACKAGES, "tests"})
        self.assertEqual({it.stem for it in TOP.glob("*.py")}, {"__init__", "__main__"})

    def test_imports_go_down(self) -> None:
        for module, found in self.imports.items():
            for line, name in found:
                if name:  # of pfplan itself, the order
                    self.assertLessEqual(place_of(name), place_of(module), f"{module}: line {line}: imports {name}")

    def test_no_circles(self) -> None:
        done: set[str] = set()

        def walk(module: str, way: tuple[str, ...]) -> None:
            self.assertNotIn(module, way, " imports ".join((*way, module)))
            if module not in done:
                for _, name in self.imports.get(module, ()):
                    walk(name, (*way, module))
                done.add(module)

        for module in self.imports:
            walk(module, ())

    def test_imports_are_absolute_and_for_running(self) -> None:
        for module, tree in self.sources.items():
            for line, name in imported(tree):
                self.assertFalse(name.startswith("."), f"{module}: line {line}: a relative import")
                self.assertNotEqual(name, "typing.TYPE_CHECKING", f"{module}: line {line}")


if __name__ == "__main__":
    unittest.main()
