"""The station of camplot in Python: load, edit, plot and take back the layers of a printed circuit board.

    from pathlib import Path

    import camplot

    with camplot.Station() as station:
        station.load_gerber("top", Path("top.gbr").read_bytes())
        station.set_window(119_000_000, -103_000_000, 25_000, 1_280, 960)
        Path("top.pbm").write_bytes(station.plot("top").pbm)
        place = station.item_at("top", 140_500_000, -93_950_000)
        if place is not None:
            station.move("top", place, 500_000, 0)
            Path("moved.pbm").write_bytes(station.plot("top").pbm)
            station.undo()

Lengths are in nm. An item's place counts from 0. A refused call raises `Refused`, which has the number, its name and
what to do about it; the station is then as it was.
"""

from camplot.errors import Closed, Error, LibraryNotFound, Refused, WrongThread
from camplot.items import Arc, ArcTo, Draw, Flash, Hit, Item, LineTo, Point, Region, Repeat, Rout, Turn
from camplot.pictures import Picture, Tile
from camplot.station import Group, Station
from camplot.values import Aperture, Attribute, Block, Box, Entry, History, Layer, Tool, Window

__version__ = "1.1.0"
__all__ = [
    "Aperture",
    "Arc",
    "ArcTo",
    "Attribute",
    "Block",
    "Box",
    "Closed",
    "Draw",
    "Entry",
    "Error",
    "Flash",
    "Group",
    "History",
    "Hit",
    "Item",
    "Layer",
    "LibraryNotFound",
    "LineTo",
    "Picture",
    "Point",
    "Refused",
    "Region",
    "Repeat",
    "Rout",
    "Station",
    "Tile",
    "Tool",
    "Turn",
    "Window",
    "WrongThread",
]
