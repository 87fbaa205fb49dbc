"""The map of the clients in clients/README.md: what it names is there, and of the smaller clients each module is named."""
import os
import re
import unittest

CLIENTS = os.path.dirname(os.path.dirname(os.path.dirname(os.path.realpath(__file__))))
ROW = re.compile(r"^\| (\w+) \| (`.*) \|$", re.MULTILINE)
NAME = re.compile(r"`([\w/-]+\.(?:py|js|el))`")
WHOLE = ("python", "fences", "weave", "suite", "repl")


def modules(client: str) -> "set[str]":
    folder = os.path.join(CLIENTS, client, "tmhost" if client == "python" else f"tmhost_{client}")
    return {name for name in os.listdir(folder) if name.endswith(".py") and name != "__init__.py"}


class Map(unittest.TestCase):
    def setUp(self) -> None:
        with open(os.path.join(CLIENTS, "README.md"), encoding="utf-8") as file:
            self.page = file.read()
        self.rows = dict(ROW.findall(self.page))

    def test_what_it_names_is_there(self) -> None:
        self.assertEqual(set(self.rows), {"python", "fences", "weave", "suite", "import", "repl", "notebook", "jupyter", "texmacs"})
        for client, row in self.rows.items():
            named = {name for name in NAME.findall(row) if "/" not in name}
            self.assertEqual(named - modules(client), set(), client)
        for path in NAME.findall(self.page):
            if "/" in path and path.split("/")[0] in self.rows:
                self.assertTrue(os.path.exists(os.path.join(CLIENTS, path)), path)

    def test_each_module_is_named(self) -> None:
        for client in WHOLE:
            unnamed = {name for name in modules(client) if f"`{name}`" not in self.page and f"/{name}`" not in self.page}
            self.assertEqual(unnamed, set(), client)
