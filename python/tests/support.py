"""What the tests share: the boards, and the library if it is built."""

from __future__ import annotations

import os
import unittest
from pathlib import Path
from typing import Any

import camplot
from camplot.library import VARIABLE, load

TOP = Path(__file__).resolve().parents[2]
CASES = TOP / "black_box" / "cases"
NAMED = os.environ.get("CAMPLOT_PROGRAM")
PROGRAM = Path(NAMED or TOP / "crates" / "camplot" / "out" / "camplot")

ONE_FLASH = b"%FSLAX46Y46*%\n%MOMM*%\n%ADD10C,0.5*%\nD10*\nX1000000Y1000000D03*\nM02*\n"

# Apertures of each template, a block, each kind of item, attributes.
BOARD = b"""%FSLAX46Y46*%
%MOMM*%
%TF.Part,Single*%
%TF.FileFunction,Copper,L1,Top*%
%TFMine*%
%ADD10C,0.5*%
%ADD11R,0.4X0.2X0.1*%
%AMTRI*4,1,3,0,0,1,0,0,1,0,0,0*%
%ADD12TRI*%
%ABD13*%
D10*
X0Y0D03*
%LPC*%
D11*
X1000000Y0D03*
%LPD*%
%AB*%
D10*
X1000000Y2000000D03*
%LPC*%
D11*
%LR90*%
X1000000Y2000000D03*
%LMX*%
%LR270*%
X5000000Y0D03*
%LMN*%
%LR0*%
%LPD*%
D10*
G01*
X0Y0D02*
X3000000Y1000000D01*
G75*
G02*
X5000000Y3000000I2000000J0D01*
G36*
X0Y0D02*
G01*
X4000000Y0D01*
G03*
X0Y4000000I-4000000J0D01*
G01*
X0Y0D01*
G37*
D13*
X9000000Y9000000D03*
%SRX3Y2I1.0J0.5*%
D10*
X0Y0D03*
%SR*%
M02*
"""

DRILL = b"""M48
METRIC
T1C0.800000
T2C1.000000
%
G05
T1
X1.000000Y2.500000
T2
G00X3.000000Y2.500000
M15
G01X3.000000Y4.000000
G01X5.000000Y4.000000
M16
M30
"""

try:
    load()
    MISSING = ""
except camplot.LibraryNotFound as fault:
    if os.environ.get(VARIABLE):
        raise  # (what is named has to be there)
    MISSING = f"the library is not built: {fault}"

needs_library = unittest.skipIf(MISSING, MISSING)
needs_program = unittest.skipUnless(NAMED or PROGRAM.is_file(), f"the program is not built: there is no {PROGRAM}: run ./demo")


class WithStation(unittest.TestCase):
    """Tests that have a station with the board as `top` and the holes as `holes`."""

    def setUp(self) -> None:
        self.station = camplot.Station()
        self.addCleanup(self.station.close)
        self.station.load_gerber("top", BOARD)
        self.station.load_drill("holes", DRILL)

    def refused(self, number: int, call: Any, *given: Any) -> camplot.Refused:
        """The refusal of a call, of this number."""
        with self.assertRaises(camplot.Refused) as caught:
            call(*given)
        self.assertEqual(caught.exception.number, number)
        return caught.exception
