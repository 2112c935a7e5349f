import ast
import pathlib
import unittest

import tsvd

PACKAGE = pathlib.Path(tsvd.__file__).parent
MODULES = sorted(PACKAGE.glob("*.py"))


def functions(tree):
    """Yields the functions and classes of a module."""
    return [node for node in ast.walk(tree) if isinstance(node, (ast.FunctionDef, ast.ClassDef))]


class Package(unittest.TestCase):
    def test_the_version_stands_once_for_all(self):
        project = (PACKAGE.parent / "pyproject.toml").read_text()
        self.assertIn('dynamic = ["version"]', project)
        self.assertNotIn(tsvd.__version__, project)
        self.assertTrue((PACKAGE / "py.typed").is_file())

    def test_modules_are_of_python_3_8(self):
        for path in MODULES:
            ast.parse(path.read_text(encoding="utf-8"), feature_version=(3, 8))

    def test_functions_are_short_and_told(self):
        for path in MODULES:
            for node in functions(ast.parse(path.read_text(encoding="utf-8"))):
                if isinstance(node, ast.FunctionDef):
                    self.assertLess(node.end_lineno - node.lineno, 30, f"{path.name}: {node.name}")
                if not node.name.startswith("__") and node.name != "complete":
                    self.assertRegex(ast.get_docstring(node) or "", r"\A[A-Z].*\.", f"{path.name}: {node.name}")

    def test_standard_library_alone(self):
        names = set()
        for path in MODULES:
            for node in ast.walk(ast.parse(path.read_text(encoding="utf-8"))):
                if isinstance(node, ast.Import):
                    names |= {name.name for name in node.names}
                elif isinstance(node, ast.ImportFrom) and node.level == 0:
                    names.add(node.module)
        self.assertLessEqual(names, {
            "__future__", "argparse", "atexit", "bisect", "collections", "contextlib", "copy", "csv", "datetime", "decimal",
            "fcntl", "filecmp", "heapq", "html", "itertools", "json", "numbers", "operator", "os", "pathlib", "re", "readline",
            "select", "shutil", "signal", "socket", "subprocess", "sys", "tempfile", "threading", "time", "typing",
            "unicodedata", "uuid"})
