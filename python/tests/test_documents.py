"""The example in a file of its own says what it promises. (.ci/examples runs those of the documents.)"""

from __future__ import annotations

import subprocess
import sys
import unittest

from camplot.library import load
from support import TOP, needs_library


@needs_library
class Examples(unittest.TestCase):
    def test_page_py(self) -> None:
        example = TOP / "examples" / "python" / "page.py"
        ran = subprocess.run([sys.executable, example, load()._name], capture_output=True, text=True)
        self.assertEqual(ran.returncode, 0, ran.stderr)
        self.assertIn("after the move it is another, and taken back the same\n", ran.stdout)


if __name__ == "__main__":
    unittest.main()
