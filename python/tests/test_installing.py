"""Where the library is found, and what `pip install ./python` leaves."""

from __future__ import annotations

import importlib.util
import os
import shutil
import subprocess
import sys
import tempfile
import unittest
import venv
import zipfile
from pathlib import Path

import camplot
from camplot import library
from support import TOP, needs_library

PYTHON = TOP / "python"
needs_pip = unittest.skipUnless(importlib.util.find_spec("pip"), "there is no pip")
TELL = "import camplot; s = camplot.Station(); print(s.apply('list')); print(s._session._library._name); print(camplot.__file__)"


def is_installed() -> bool:
    """Whether this system has the library itself; its loader is asked by a process that has loaded none."""
    asked = subprocess.run([sys.executable, "-c", f"import ctypes; ctypes.CDLL('{library.SONAME}')"], capture_output=True)
    return asked.returncode == 0 or any(Path(it, library.NAME).exists() for it in library.FOLDERS)


class InFolder(unittest.TestCase):
    def setUp(self) -> None:
        held = tempfile.TemporaryDirectory()
        self.addCleanup(held.cleanup)
        self.folder = Path(held.name)

    def told(self, path: Path, python: str = sys.executable, **variables: str) -> list[str]:
        """What TELL prints with a package in a folder, and these variables alone."""
        kept = {name: value for name, value in os.environ.items() if not name.startswith(("CAMPLOT", "PYTHON", "PIP"))}
        kept |= {"PYTHONPATH": str(path), "PYTHONDONTWRITEBYTECODE": "1", **variables}
        ran = subprocess.run([python, "-c", TELL], cwd=self.folder, env=kept, capture_output=True, text=True)
        return (ran.stdout or ran.stderr).strip().splitlines()

    def package(self, *below: str) -> Path:
        """A copy of the package below the folder; the folder that Python has to look at."""
        there = self.folder.joinpath(*below)
        shutil.copytree(PYTHON / "camplot", there / "camplot", ignore=shutil.ignore_patterns("__pycache__", "*.so"))
        return there


class Missing(InFolder):
    def test_a_named_library_that_is_not_there(self) -> None:
        said = self.told(self.package("a"), CAMPLOT_LIBRARY="/nowhere/libcamplot.so")
        self.assertRegex(said[-1], "LibraryNotFound: /nowhere/libcamplot.so cannot be loaded")

    def test_what_is_no_library(self) -> None:
        (self.folder / "none.so").write_text("no library")
        with self.assertRaises(camplot.LibraryNotFound):
            library.load(self.folder / "none.so")
        with self.assertRaises(ImportError):
            camplot.Station(library=str(self.folder))

    @unittest.skipUnless(shutil.which("gcc"), "there is no gcc")
    def test_an_older_library(self) -> None:
        (self.folder / "old.c").write_text("int camplot_open(void) { return 0; }")
        old = self.folder / "old.so"
        subprocess.run(["gcc", "-shared", "-fPIC", "-o", old, self.folder / "old.c"], check=True)
        with self.assertRaisesRegex(camplot.LibraryNotFound, "is not the library of this version"):
            library.load(old)

    @unittest.skipIf(is_installed(), "a library is installed on this system")
    def test_none_anywhere(self) -> None:
        # (what lies in the folder where a program runs is not loaded, nor what lies in lib of any folder above the package)
        (self.folder / "lib").mkdir()
        for name in (library.SONAME, library.NAME, f"lib/{library.NAME}"):
            (self.folder / name).write_text("another's")
        said = self.told(self.package("a"))
        self.assertRegex(said[-1], f"LibraryNotFound: {library.NAME} is in none of .*: run ./demo, or set CAMPLOT_LIBRARY")


@needs_library
class Found(InFolder):
    def setUp(self) -> None:
        super().setUp()
        self.built = str(library.load()._name)

    def test_by_the_variable(self) -> None:
        self.assertEqual(self.told(self.package("a"), CAMPLOT_LIBRARY=self.built)[:2], ["(0, 0, 0)", self.built])

    def test_by_a_name_without_a_folder(self) -> None:
        shutil.copy(self.built, self.folder / "mine.so")
        self.assertEqual(self.told(self.package("a"), CAMPLOT_LIBRARY="mine.so")[:1], ["(0, 0, 0)"])

    def test_next_to_the_package(self) -> None:
        there = self.package("a")
        shutil.copy(self.built, there / "camplot" / library.NAME)
        self.assertEqual(self.told(there)[1], str((there / "camplot" / library.NAME).resolve()))

    def test_below_the_prefix_of_an_installation(self) -> None:
        for packages in ("lib/python3/dist-packages", "lib/python3.11/site-packages"):
            there = self.package(packages)
            shutil.copy(self.built, self.folder / "lib" / library.NAME)
            self.assertEqual(self.told(there)[1], str((self.folder / "lib" / library.NAME).resolve()))

    def test_where_the_demo_leaves_it(self) -> None:
        there = self.package("python")
        out = self.folder / "crates" / "camplot" / "out"
        out.mkdir(parents=True)
        shutil.copy(self.built, out / library.NAME)
        self.assertEqual(self.told(there)[1], str((out / library.NAME).resolve()))

    @unittest.skipIf(is_installed(), "a library is installed on this system")
    def test_by_the_loader_of_the_system(self) -> None:
        shutil.copy(self.built, self.folder / library.SONAME)
        said = self.told(self.package("a"), LD_LIBRARY_PATH=str(self.folder))
        self.assertEqual(said[:2], ["(0, 0, 0)", library.SONAME])


class Wheels(InFolder):
    def setUp(self) -> None:
        super().setUp()
        self.sources = self.folder / "sources" / "python"
        shutil.copytree(PYTHON, self.sources, ignore=shutil.ignore_patterns("__pycache__", "*.so", "tests"))

    def pip(self, *words: str, python: str = sys.executable) -> None:
        ran = subprocess.run(
            [python, "-m", "pip", *words],
            env={**os.environ, "PIP_NO_INDEX": "1", "PIP_DISABLE_PIP_VERSION_CHECK": "1"},
            capture_output=True,
            text=True,
        )
        self.assertEqual(ran.returncode, 0, ran.stderr)

    def is_recorded(self, wheel: Path) -> list[str]:
        """The names in a wheel, all of which its record has."""
        with zipfile.ZipFile(wheel) as archive:
            self.assertIsNone(archive.testzip())
            record = next(name for name in archive.namelist() if name.endswith("RECORD"))
            recorded = [line.split(",")[0] for line in archive.read(record).decode().splitlines()]
            self.assertEqual(sorted(recorded), sorted(archive.namelist()))
            return archive.namelist()

    def test_versions_agree(self) -> None:
        spec = importlib.util.spec_from_file_location("backend", PYTHON / "backend.py")
        assert spec and spec.loader
        backend = importlib.util.module_from_spec(spec)
        spec.loader.exec_module(backend)
        self.assertEqual((backend.NAME, backend.VERSION), ("camplot", camplot.__version__))

    @needs_library
    def test_the_library_has_it_too(self) -> None:
        self.assertEqual(library.version(library.load()), camplot.__version__)

    @needs_pip
    def test_a_wheel_without_the_library(self) -> None:
        self.pip("wheel", "-w", str(self.folder), str(self.sources))
        names = self.is_recorded(self.folder / f"camplot-{camplot.__version__}-py3-none-any.whl")
        self.assertIn("camplot/py.typed", names)
        self.assertEqual({it.name for it in (PYTHON / "camplot").glob("*.py")}, {Path(it).name for it in names if it.endswith(".py")})

    @needs_pip
    @needs_library
    def test_installed_in_an_environment_with_the_library(self) -> None:
        shutil.copy(str(library.load()._name), self.sources / "camplot" / library.NAME)
        there = self.folder / "there"
        venv.create(there, system_site_packages=True)
        python = str(there / "bin" / "python")
        self.pip("install", "--no-user", str(self.sources), python=python)
        (package,) = there.glob("lib/python*/site-packages/camplot")
        self.assertEqual(self.told(self.folder, python)[:2], ["(0, 0, 0)", str((package / library.NAME).resolve())])
        (wheel,) = there.glob(f"lib/python*/site-packages/camplot-{camplot.__version__}.dist-info/WHEEL")
        # (its library asks for the functions of memory alone, which a C library of 2014 has)
        self.assertRegex(wheel.read_text(), r"Root-Is-Purelib: false\nTag: py3-none-manylinux_2_(5|14)_x86_64\n")
        self.pip("uninstall", "-y", "camplot", python=python)
        self.assertEqual(list(there.glob("lib/python*/site-packages/camplot*")), [])

    @needs_pip
    def test_the_folder_that_pip_leaves_in_place(self) -> None:
        there = self.folder / "there"
        self.pip("install", "--target", str(there), "-e", str(self.sources))
        self.assertEqual((there / "camplot.pth").read_text().strip(), str(self.sources.resolve()))


if __name__ == "__main__":
    unittest.main()
