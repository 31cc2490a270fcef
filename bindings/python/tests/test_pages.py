"""The examples of docs/PYTHON.md and of the modules are run."""

import doctest
import importlib
import inspect
import os
import pkgutil
import unittest
from pathlib import Path

import khuyurek

ROOT = Path(__file__).resolve().parents[3]


def modules():
    """The package's modules; the shared library beside them is none."""
    found = pkgutil.iter_modules(khuyurek.__path__, "khuyurek.")
    names = [module.name for module in found if module.name != "khuyurek.libkhuyurek"]
    return [khuyurek] + [importlib.import_module(name) for name in names]


class Examples(unittest.TestCase):
    def test_page(self):
        before = os.getcwd()
        os.chdir(ROOT)
        try:
            page = str(ROOT / "docs" / "PYTHON.md")
            failed, tried = doctest.testfile(page, module_relative=False, encoding="utf-8")
        finally:
            os.chdir(before)
        self.assertEqual(failed, 0)
        self.assertGreater(tried, 60)

    def test_modules(self):
        tried = 0
        for module in modules():
            failed, examples = doctest.testmod(module, extraglobs={"Kind": khuyurek.Kind})
            self.assertEqual(failed, 0, module.__name__)
            tried += examples
        self.assertGreater(tried, 5)


class Documented(unittest.TestCase):
    def test_every_public_name_says_what_it_is(self):
        asked = 0
        for module in modules():
            self.assertTrue(module.__doc__, module.__name__)
            public = [getattr(module, name) for name in getattr(module, "__all__", [])]
            for value in filter(inspect.isroutine, public + methods(public)):
                self.assertTrue(value.__doc__, f"{module.__name__}: {value.__qualname__}")
                # Every parameter and every answer has a type.
                hints = inspect.signature(value)
                parameters = [one for one in hints.parameters.values() if one.name != "self"]
                said = [one.annotation for one in parameters] + [hints.return_annotation]
                self.assertNotIn(inspect.Signature.empty, said, value.__qualname__)
                asked += 1
            for value in filter(inspect.isclass, public):
                # What a NamedTuple without words says of itself.
                said = value.__doc__ or f"{value.__name__}("
                self.assertFalse(said.startswith(f"{value.__name__}("), value.__qualname__)
                asked += 1
        self.assertGreater(asked, 100)


def methods(values):
    """The methods that the package's classes have besides those of their bases."""
    classes = [value for value in values if inspect.isclass(value)]
    found = [member for value in classes for member in vars(value).values()]
    return [
        member
        for member in found
        if inspect.isfunction(member)
        and member.__module__.startswith("khuyurek")
        and not member.__name__.startswith("_")
        and member.__qualname__.count(".") == 1
        and not hasattr(tuple, member.__name__)
        and "namedtuple" not in member.__code__.co_filename
    ]


if __name__ == "__main__":
    unittest.main()
