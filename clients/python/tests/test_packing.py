"""Tests of what is packed."""

import importlib
import os
import tarfile
import tempfile
import tomllib
import unittest
import zipfile

import wheel_of

import crsm

HERE = os.path.dirname(os.path.dirname(os.path.abspath(__file__)))


class PackingTest(unittest.TestCase):
    def setUp(self):
        folder = tempfile.TemporaryDirectory()
        self.addCleanup(folder.cleanup)
        self.folder = folder.name
        with open(f"{HERE}/pyproject.toml", "rb") as file:
            self.project = tomllib.load(file)["project"]

    def test_version(self):
        self.assertEqual(crsm.__version__, self.project["version"])

    def test_commands(self):
        for function in self.project["scripts"].values():
            module, name = function.split(":")
            self.assertTrue(callable(getattr(importlib.import_module(module), name)))

    def test_wheel(self):
        name = wheel_of.build_wheel(self.folder)
        with zipfile.ZipFile(f"{self.folder}/{name}") as wheel:
            info = f"crsm-{crsm.__version__}.dist-info"
            paths = {"METADATA", "WHEEL", "RECORD", "entry_points.txt"}
            sources = {file for file in os.listdir(f"{HERE}/crsm") if not file.startswith("__pycache__")}
            self.assertEqual(
                set(wheel.namelist()),
                {f"{info}/{path}" for path in paths} | {f"crsm/{file}" for file in sources},
            )
            self.assertEqual(len(wheel.read(f"{info}/RECORD").splitlines()), len(wheel.namelist()))
            self.assertIn(b"\n\n# The Python client\n", wheel.read(f"{info}/METADATA"))
            self.assertIn(b"crsm-client = crsm.commands:main\n", wheel.read(f"{info}/entry_points.txt"))

    def test_sources(self):
        name = wheel_of.build_sdist(self.folder)
        with open(f"{self.folder}/{name}", "rb") as file:
            packed = file.read()
        with tarfile.open(f"{self.folder}/{name}") as sources:
            files = {entry.name.partition("/")[2] for entry in sources}
        for path in ("PKG-INFO", "README.md", "wheel_of.py", "crsm/py.typed", "tests/__init__.py", "tests/small.py"):
            self.assertIn(path, files)
        # Packed again, they have the same bytes.
        wheel_of.build_sdist(self.folder)
        with open(f"{self.folder}/{name}", "rb") as file:
            self.assertEqual(file.read(), packed)


if __name__ == "__main__":
    unittest.main()
