"""Each tool says that it isn't proved, and its functions stay short."""
from __future__ import annotations

import ast
import unittest

import common

NAMES = ("from-capture", "to-capture", "to-script", "picture")


class Style(unittest.TestCase):
    def test_each_tool_says_that_it_isnt_proved(self) -> None:
        for name in NAMES:
            done = common.run_tool(name, "--help")
            self.assertEqual((done.returncode, done.stderr), (0, b""))
            self.assertIn("This tool isn't proved. Every verdict on a transfer is that of the usbnet program", " ".join(done.stdout.decode().split()))
            self.assertIn("Not proved.", (common.TOOLS / name).read_text())

    def test_functions_have_fewer_than_forty_lines(self) -> None:
        for path in common.TOOLS.rglob("*.py"):
            text = path.read_text()
            self.assertIn("from __future__ import annotations", text if path.name != "__init__.py" else "from __future__ import annotations")
            for node in ast.walk(ast.parse(text)):
                if isinstance(node, ast.FunctionDef):
                    self.assertLess(node.end_lineno - node.lineno + 1, 40, f"{path.name}: {node.name}")


if __name__ == "__main__":
    unittest.main()
