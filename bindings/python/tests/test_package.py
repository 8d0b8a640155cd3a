"""The package itself: what is public, documented and typed, and what becomes of it where the library isn't found."""

import doctest
import inspect
import os
import pydoc
import re
import shutil
import subprocess
import sys
import tempfile
import unittest
from pathlib import Path

import yazgult

PACKAGE = Path(yazgult.__file__).parent
ROOT = PACKAGE.parents[2]
MODULES = [f"yazgult.{it.stem}" for it in PACKAGE.glob("*.py") if it.stem != "__init__"]
# What `import yazgult` gave before it was a package of modules.
NAMES = "render render_sheets answer_json version Refused NotDrawable Group Title Level Message Cause Suggestion Origin Padding Annotation Patch "
NAMES += "NoGroup NoTitle SpanReversed SpanPastEnd SpanOffBoundary PatchesOverlap LineNumberTooLarge"
# Draws, and prints the exception that comes.
DRAWS = """
import yazgult
try:
    yazgult.render([])
except ImportError as error:
    print(type(error).__name__, isinstance(error, yazgult.Error), error)
"""


def public():
    """What the package names, without its modules."""
    return {name: it for name, it in vars(yazgult).items() if not name.startswith("_") and not inspect.ismodule(it)}


class Package(unittest.TestCase):
    def test_the_version_is_that_of_the_library_and_of_the_project(self):
        project = (PACKAGE.parent / "pyproject.toml").read_text(encoding="utf-8")
        self.assertEqual(yazgult.__version__, yazgult.version())
        self.assertEqual(re.findall(r'^version = "(.*)"$', project, re.M), [yazgult.__version__])

    def test_each_module_is_packed_and_typed(self):
        self.assertTrue((PACKAGE / "py.typed").is_file())
        project = (PACKAGE.parent / "pyproject.toml").read_text(encoding="utf-8")
        self.assertIn('packages = ["yazgult"]', project)
        self.assertEqual([it for it in PACKAGE.iterdir() if it.is_dir() and it.name != "__pycache__"], [])

    def test_all_functions_have_hints_and_docstrings(self):
        for module in MODULES:
            for name, it in vars(sys.modules[module]).items():
                if getattr(it, "__module__", None) == module and (inspect.isfunction(it) or inspect.isclass(it)):
                    self.assert_told(f"{module}.{name}", it)

    def assert_told(self, name, it):
        self.assertTrue(it.__doc__, f"{name} has no docstring")
        if inspect.isclass(it):
            for method, function in vars(it).items():
                # What Python knows by its name needs no words.
                if inspect.isfunction(function) and not method.startswith("__"):
                    self.assert_told(f"{name}.{method}", function)
        else:
            parameters = [parameter for parameter in inspect.signature(it).parameters if parameter not in ("self", "cls")]
            self.assertEqual([parameter for parameter in [*parameters, "return"] if parameter not in it.__annotations__], [], name)

    def test_help_is_a_page_that_names_all_that_is_public(self):
        page = pydoc.render_doc(yazgult, renderer=pydoc.plaintext)
        self.assertLess(len(page.splitlines()), 90)
        self.assertEqual([name for name in public() if not re.search(rf"\b{name}\b", yazgult.__doc__)], [])

    def test_names_that_were_public_are(self):
        self.assertEqual([name for name in NAMES.split() if name not in public()], [])

    def test_examples_of_docstrings_print_what_they_say(self):
        for module in (yazgult, sys.modules["yazgult.linting"], sys.modules["yazgult.source"]):
            found = doctest.testmod(module)
            self.assertGreater(found.attempted, 0)
            self.assertEqual(found.failed, 0)

    def test_the_colours_of_html_are_those_of_the_library(self):
        source = (ROOT / "crates" / "annotate_snippets" / "src" / "renderer" / "html_stylesheet.rt").read_text(encoding="utf-8")
        self.assertIn(f'pub const HTML_STYLESHEET: &str = "{yazgult.HTML_STYLESHEET}";', source)
        self.assertIn(f'pub const HTML_PAGE_STYLESHEET: &str = "{yazgult.HTML_PAGE_STYLESHEET}";', source)


class Library(unittest.TestCase):
    """Where it is looked for, by another Python that has the package alone."""

    def setUp(self):
        folder = tempfile.TemporaryDirectory(prefix="yazgult-")
        self.addCleanup(folder.cleanup)
        self.folder = Path(folder.name, "lib", "python")
        shutil.copytree(PACKAGE, self.folder / "yazgult", ignore=shutil.ignore_patterns("__pycache__", "*.so*"))
        self.library = os.environ["YAZGULT_LIBRARY"]

    def run_python(self, code, **variables):
        env = {name: it for name, it in os.environ.items() if name not in ("YAZGULT_LIBRARY", "LD_LIBRARY_PATH")}
        env.update(PYTHONPATH=str(self.folder), PYTHONDONTWRITEBYTECODE="1", **variables)
        ran = subprocess.run([sys.executable, "-c", code], env=env, cwd=self.folder, stdout=subprocess.PIPE, stderr=subprocess.PIPE)
        self.assertEqual((ran.returncode, ran.stderr.decode()), (0, ""))
        return ran.stdout.decode()

    def test_an_import_succeeds_without_it_and_the_first_call_says_how_to_get_it(self):
        self.assertEqual(self.run_python("import yazgult; print(yazgult.Report())"), "Report(groups=[], sources=())\n")
        for variables in ({"YAZGULT_LIBRARY": "/nowhere/libyazgult.so.1"}, {"YAZGULT_LIBRARY": str(PACKAGE / "py.typed")}):
            told = self.run_python(DRAWS, **variables)
            self.assertTrue(told.startswith("LibraryNotFound True The library of yazgult can't be loaded: "), told)
            self.assertIn("Install the wheel", told)
            self.assertIn("YAZGULT_LIBRARY", told)

    def test_a_library_that_isnt_installed_is_told_by_the_systems_words(self):
        if self.run_python(FINDS) == "True\n":
            self.skipTest("the system has a libyazgult of its own")
        self.assertIn("libyazgult.so.1: cannot open shared object file", self.run_python(DRAWS))

    def test_another_library_is_told(self):
        told = self.run_python(DRAWS, YAZGULT_LIBRARY="libc.so.6")
        self.assertIn("libc.so.6 is another library: it has no yazgult_draw", told)

    def test_it_stands_beside_the_package_or_in_the_lib_folder_of_its_prefix(self):
        for place in (self.folder / "yazgult" / "libyazgult.so.1", self.folder.parent / "libyazgult.so.1", self.folder.parent / "libyazgult.so"):
            shutil.copy(self.library, place)
            self.assertEqual(self.run_python("import yazgult; print(yazgult.version())"), f"{yazgult.__version__}\n")
            place.unlink()

    def test_the_system_finds_it(self):
        shutil.copy(self.library, self.folder.parent.parent / "libyazgult.so.1")
        told = self.run_python("import yazgult; print(yazgult.version())", LD_LIBRARY_PATH=str(self.folder.parent.parent))
        self.assertEqual(told, f"{yazgult.__version__}\n")

    def test_the_variable_stands_before_all_other_places(self):
        (self.folder / "yazgult" / "libyazgult.so.1").write_text("no library")
        self.assertEqual(self.run_python("import yazgult; print(yazgult.version())", YAZGULT_LIBRARY=self.library), f"{yazgult.__version__}\n")
        self.assertIn("yazgult/libyazgult.so.1: ", self.run_python(DRAWS))


# Whether the system's loader finds the library.
FINDS = """
import ctypes
found = False
for name in ("libyazgult.so.1", "libyazgult.so"):
    try:
        ctypes.CDLL(name)
        found = True
    except OSError:
        pass
print(found)
"""


if __name__ == "__main__":
    unittest.main()
