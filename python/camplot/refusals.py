"""What docs/refusals.md says of each number. Written by .ci/refusals --write."""

# The name of each number, and what to do.
REFUSALS: dict[int, tuple[str, str]] = {
    1: (
        'bad byte',
        'The command holds a byte that it may not hold: a control character, a letter beyond ASCII outside '
        'comments, attributes and names, or a % in a word. At place 0 the file is usually not a plain Gerber '
        'file: a drill file (load it as drill), a packed one, or a text that begins with a byte order mark. '
        'tools/to_gerber leaves that mark out, and control characters between commands and in comments, '
        'attributes and names.',
    ),
    2: (
        'unterminated',
        'The command has no end: a word no *, an extended command no second %, or no * before it. The file '
        'was cut short, or is no Gerber file, as a web page that was saved in its place. Plot or fetch it '
        'again.',
    ),
    3: (
        'unknown command',
        "Letters, order or separators are of no form that is read. tools/to_gerber writes these in today's "
        'form: several commands between two %, as in %FSLAX25Y25*MOIN*%, which Cadence Allegro writes: each '
        'gets its own %; several codes in one word (G01G75*, G54D10X0Y0D03*), Y before X, small letters, line'
        ' numbers (N10); %ICAS*%, as in files of OrCAD and VeriBest, which declares that the file is in '
        'ASCII, and %PF..*%: left out; with --repeat, a coordinate without D01, D02 or D03 (X1Y1*) after a '
        'D02 or a D03, as old plotters took it; the first of a file is then a move. The standard lets it '
        'repeat only a D01: check in a picture whether that is what was meant. It cannot help with these: '
        '%KO, %IF and others that the standard dropped: let the CAD program draw what they stand for. A % '
        'that is missing shows at the command after it. In AD, no name, or a parameter that is no number '
        '(C,1mm); in AM, a name that begins with a digit or holds a comma.',
    ),
    4: (
        'bad number',
        'A number does not fit its grammar, or its range. A coordinate is an optional sign and 1 to 15 '
        'digits, without a point. Sizes, steps and angles may have a point, and are below 1,000,000. '
        'Apertures have numbers from 10 to 2,147,483,647, written in digits alone: in ADD-10C,1 the number is'
        ' missing. C takes at least one parameter, R and O at least two; of R or O with one tools/to_gerber '
        '--nearest makes both sides equal, and leaves one that nothing uses out. A repeat has 1 to '
        '999,999,999 columns and rows.',
    ),
    5: (
        'no format',
        'A coordinate stands before %FS..*%. A file without one is plotter data of the old standard RS-274-D,'
        ' whose apertures stand in a list of their own (it may report 9 first): choose RS-274X, extended '
        "Gerber or X2. If only the line is lost, the board's fabrication notes have its digits: "
        'tools/to_gerber --format 2.4 writes it, with --zeros leading if trailing zeros are left out. If it '
        'stands after a coordinate, the tool names the options that mean the same.',
    ),
    6: (
        'no unit',
        'A coordinate, an aperture or a repeat with parameters stands before %MOMM*% or %MOIN*%. G71 and G70 '
        'mean the same, and must stand before the first aperture too. KiCad, Eagle and Altium write a unit; a'
        ' file without one comes from RS-274-D or was made by hand: write the unit after the format. A known '
        "length shows which one it is: a mounting hole, the board's width. tools/to_gerber --unit inch (or "
        'mm) writes it; it also moves a G70 that stands too late to the front.',
    ),
    7: (
        'set again',
        'Format or unit are set to another value than before: usually two files in one. Load each by itself.',
    ),
    8: (
        'format refused',
        'The forms that are read are %FSLAXidYid*%, i and d from 1 to 6 and the same for X and Y, %MOMM*% and'
        ' %MOIN*%. So leave out leading zeros, and not trailing ones (FST), and choose absolute coordinates, '
        'not incremental ones (FSLI). tools/to_gerber converts files with trailing zeros left out, with '
        "points (FSD), with other digits in X than in Y, and with the N2 of OrCAD's %FSLAN2X34Y34*%, which "
        'announces line numbers, to a form that is read, each coordinate exactly. If it does not tell which '
        'zeros are left out (%FSAX24Y24*%), --format 2.4 and --zeros do.',
    ),
    9: (
        'unknown aperture',
        'Dn selects an aperture that no AD or AB before it defines. The list of apertures is missing, further'
        ' down, or in a file of its own: export with embedded apertures (RS-274X).',
    ),
    10: (
        'redefined',
        "An aperture's number that is in use, or the name of a macro that is, or C, R, O or P as one. "
        'tools/to_gerber leaves out what is defined again the same way, and gives what is defined another way'
        ' a number or a name of its own. It may also be two files in one.',
    ),
    11: (
        'template refused',
        'P, a polygon; a rectangular hole, that is, one parameter too many; or a name that no AM before it '
        'defines. Use round, rectangular, oval or rounded pads, or let the CAD program plot the pad as a '
        'region. tools/to_gerber moves a macro that stands too late before the aperture that names it; with '
        '--nearest it also writes polygons and rectangular holes as outlines, each corner at the nearest nm.',
    ),
    12: (
        'primitive refused',
        'The macro that the aperture names has a primitive other than 1, 2, 4, 20 and 21: a polygon (5, '
        "Eagle's octagonal pads), a moiré (6), a thermal (7) or 22. A macro that no aperture names does no "
        'harm. Choose another shape of pad, and thermals that are drawn or left out of a region. 22 is a '
        "rectangle by its lower left corner; tools/to_gerber writes it by its centre, as 21, and EAGLE's "
        'octagon OC8 as an outline; with --nearest also polygons, moirés and thermals.',
    ),
    13: (
        'rotation refused',
        'LR, or a rotation in a macro, is no multiple of 90 degrees. In KiCad tick Disable aperture macros; '
        'elsewhere plot such pads as regions, or turn them to a quarter. tools/to_gerber --nearest turns the '
        'corners, each to the nearest nm.',
    ),
    14: (
        'scale refused',
        '%LS..*% with anything but 1. Plot without scaling of apertures, or scale them by tools/to_gerber '
        '--nearest.',
    ),
    15: (
        'none selected',
        'A draw or a flash before any Dn that selects an aperture.',
    ),
    16: (
        'wrong aperture',
        'A straight draw with anything but a circle or a rectangle without a hole, or an arc with anything '
        'but a circle without a hole. Fill areas by regions, and draw arcs with a round pen. tools/to_gerber '
        'uses the circle in place of a macro of one disc; with --nearest it drops the hole of a pen, and '
        'flashes what a straight draw with an obround, a polygon or a convex macro covers.',
    ),
    17: (
        'arc mode',
        'An arc that is not under G75. If a file has neither G74 nor G75, and some I or J have a sign, it '
        'only needs the line G75* at its front; tools/to_gerber writes it. Arcs under G74, of one quadrant, '
        'are not read: their offsets have no sign, so that G75 in its place would move their centres. '
        'tools/to_gerber writes them under G75 with the signs that they have. If a file has neither, and its '
        'offsets have no sign, you must choose: --arcs single for arcs as under G74, --arcs multi for others.',
    ),
    18: (
        'zero radius',
        'An arc starts at its centre: I and J are missing or 0. Either G01 is missing before a line, or the '
        'arc is too small for the digits of the format: choose one of more decimals. If it ends at its start,'
        ' tools/to_gerber writes a draw of no length, which paints the same; with --nearest a line if it ends'
        ' up to three steps away.',
    ),
    19: (
        'flash in region',
        'D03 between G36 and G37.',
    ),
    20: (
        'not in region',
        'G37 without G36.',
    ),
    21: (
        'nested repeat',
        'A step and repeat of more than one copy in a block aperture. Take the repeat out of the block, and '
        'repeat its flash.',
    ),
    22: (
        'stray block',
        'AB that closes no block, or opens one inside a repeat; G36 in a region; an extended command other '
        'than an attribute or a name in a region; M02 while a region or a block is open. The %AB*% or G37* is'
        ' missing.',
    ),
    23: (
        'out of board',
        "A point, an arc's centre, or what a block or a repeat places, 1 m or more from (0, 0) along an axis;"
        ' or a step of a repeat of 1 m or more. Usually the format or the unit does not fit the coordinates: '
        'FSLAX24Y24 although they have six decimals, or inches although they are mm. Else set the origin near'
        ' the board (KiCad: Use drill/place file origin). What a repeat places is reported at its close.',
    ),
    24: (
        'size refused',
        'A diameter or side past 200 mm, a negative one, or a side of R or O that is 0, all after rounding to'
        ' 1 nm; in a macro also a coordinate past 200 mm. A diameter of 0 is read and paints nothing. Check '
        'the unit, then look for the pad that has no size.',
    ),
    25: (
        'too much',
        'More than 1,000,000 items in the layer, objects in a block or a repeat, or segments in a contour; '
        'more than 4,000,000 objects with repeats and blocks unfolded; blocks more than 8 deep; or more than '
        '1,000 names of file attributes (%TF..*%). Fill areas by regions in place of lines; give repeats '
        'fewer copies.',
    ),
    26: (
        'no end',
        'The file ends without M02*. It was cut short: plot it again. If nothing else is missing, add the '
        'line.',
    ),
    28: (
        'old refused',
        'M00, M01, G55, G91, or an old command that would change the image: IP other than IPPOS, AS other '
        'than ASAXBY, IR, MI and OF other than 0, SF other than 1. Plot positive, with no offset, mirror, '
        'rotation or scale, and in absolute coordinates. tools/to_gerber writes M02 for M00, and leaves M01 '
        'and G55 out, which do nothing, and image commands that change nothing by value, as %SFA01.0*%.',
    ),
    29: (
        'macro fault',
        'At AM: a part is outside the grammar, for example letters or an operator in place of a number, or '
        "parentheses that do not match. At AD: the macro's first faulty part has too few or too many fields "
        '(a * between two parts may be missing), an exposure other than 0 and 1, an outline of no or of more '
        'than 5,000 points, a division by 0, or a value of 1,000,000 or more. Compare the macro with the '
        'parameters that AD gives it.',
    ),
    30: (
        'no memory',
        'The machine refused memory; no layer and no file changed. Close other programs, set a smaller '
        'window.',
    ),
    40: (
        'no header',
        'The first line that is neither blank nor a comment is not M48. It is no drill file: a Gerber file is'
        " loaded as gerber. If a drill file begins with %, as EAGLE's, or has no header, with its tools among"
        ' the holes, tools/to_xnc writes one. At place 0 of a file of M30 alone, it is a drill file without '
        'holes, as pcb-rnd writes one for a board that has none of a kind: tools/to_xnc makes an empty layer '
        'of it.',
    ),
    41: (
        'unknown line',
        'A line that this part of the file may not have. Only the forms that docs/formats.md lists for XNC '
        'files are read. tools/to_xnc converts these to them: feeds and speeds, as T1F00S00C0.8, tools in the'
        ' body, and line numbers; M71 and M72, digits after METRIC and INCH (METRIC,LZ,000.000), FMAT,1; M95 '
        "in place of the header's %, M00 of M30, M17 of M16, G81 and G5 of G05, and settings of the machine. "
        'A G85 has a coordinate on each side in its line and no other word there (X1.0Y1.0G85X3.0Y1.0 is '
        'read). The tool names and refuses lines that stand for more than they show: repeats (R3X1.0), '
        'patterns (M25), incremental coordinates (G91, ICI), mirrors, G93 of a point other than (0, 0). Let '
        'the CAD program write each hole, in absolute coordinates.',
    ),
    42: (
        'unknown tool',
        'Tn of a tool that the header lacks.',
    ),
    43: (
        'tool again',
        'A number that the header has twice (T01 is T1).',
    ),
    44: (
        'no tool selected',
        'A hit or a slot before any Tn, or after T0.',
    ),
    45: (
        'no point',
        'A coordinate without a decimal point, whose digits do not show where the point belongs. In KiCad '
        'choose Decimal format. Else tools/to_xnc holes.drl writes holes.xnc, with points, if the file, a '
        'report next to it or options give the unit, the digits and which zeros are left out. It prints what '
        "it took from where: compare the size that it prints with the board's. Then plot the holes, and check"
        ' that they lie in their pads.',
    ),
    46: (
        'rout arc',
        'G02 and G03 in a slot are not read, nor written by tools/to_xnc: rout it in straight lines.',
    ),
    47: (
        'rout state',
        'A line that does not fit the mode: a bare coordinate or a slot by G85 after G00 and before G05, G01 '
        'or M16 while the tool is up, M15 with no G00 before it, or G00, M15, Tn, G05 or M30 while it is '
        'down. Usually an M16 is missing, or a G05 after it.',
    ),
    48: (
        'no end',
        'The file ends without M30. It was cut short: write it again.',
    ),
    50: (
        'out of limits',
        "A side outside 1 to 32,768 pixels, a pitch outside 1 nm to 100 mm, or a pixel's centre 1 m or more "
        'from (0, 0). All lengths are in nm: 50 µm is 50000.',
    ),
    51: (
        'still dirty',
        'To a caller of the library alone, by its crate cam_tiles: some tile of the picture is still to be '
        'drawn. Redraw first.',
    ),
    60: (
        'no layer',
        'No layer has this name. Look for the reply of its load above; upper and lower case differ.',
    ),
    61: (
        'no item',
        'The layer has no item at this place, or an insertion is past the end. Places count from 0; list NAME'
        ' prints how many items there are.',
    ),
    62: (
        'no aperture',
        "The layer defines no aperture or block of this number. The %ADD and %AB of the layer's text, as "
        'write shows it.',
    ),
    63: (
        'wrong aperture',
        'A draw with anything but a circle or a rectangle without a hole, or an arc with anything but a '
        'circle without a hole. Use a circle, for a draw also a rectangle, or flash the shape.',
    ),
    64: (
        'has none',
        'A region or a repeat has no aperture, and a repeat no polarity. Delete the item, and insert another.',
    ),
    65: (
        'out of board',
        'A point of the item, or of what it paints, would lie 1 m or more from (0, 0). Lengths are in nm.',
    ),
    66: (
        'no tool',
        "The drill layer has no tool of this number. The T lines of the layer's text, as write shows it.",
    ),
    67: (
        'size refused',
        'An arc that starts at its centre, or a diameter outside 1 nm to 200 mm. Lengths are in nm.',
    ),
    68: (
        'wrong kind',
        'An edit or an item of Gerber layers on a drill layer, or the other way round. hit, rout, tool and '
        'diameter go with drill layers, the other items, aperture, polarity, setattr and dropattr with Gerber'
        ' layers.',
    ),
    69: (
        'too much',
        'More than 1,000,000 items of a layer, more than 4,000,000 objects with all copies and blocks, or '
        'more than 1,000 attributes. Delete items or drop attributes first, flash a smaller block, or load '
        'the rest as another layer.',
    ),
    70: (
        'nothing to undo',
        'No edit is left: none was made, a load came after it, or more were made than --depth keeps. Load '
        'first, then edit; 100 edits and groups are kept, or up to 1,000 by --depth.',
    ),
    71: (
        'nothing to redo',
        'Nothing was undone, or an edit or a load came after it. redo right after the undo; else give the '
        'edit once more.',
    ),
    72: (
        'group open',
        'A load, begin, undo or redo while a group is open. end or abort first.',
    ),
    73: (
        'no group',
        'An end or an abort with no begin before it. Look for the reply of its begin above.',
    ),
    74: (
        'no attribute',
        "A dropattr of a name that the layer's attributes do not have. The %TF lines of the layer's text, as "
        'write shows it; upper and lower case differ, and names of the standard begin with a point: .Part.',
    ),
    75: (
        'attribute refused',
        'To a caller of the library alone: a key or fields that no line of a script can write, which is 80 '
        'there. Keys: 1 to 255 bytes of ASCII without blanks, comma, % and *; fields: none, or a comma and 1 '
        'to 4,096 bytes of ASCII without blanks, % and *.',
    ),
    80: (
        'bad line',
        'The words are no command: unknown, too few or too many, a name or a number that does not fit. Names:'
        ' 1 to 32 letters, digits, _, - and .; paths: no blanks, 255 bytes of ASCII; lengths: whole nm, at '
        'most 4 m; keys and fields of attributes: no blanks, % and *, and no comma in a key. At the first '
        'line alone it is usually a byte order mark: save the script as UTF-8 without one.',
    ),
    81: (
        'line too long',
        'The line has more than 65,536 bytes. Load so long a region or slot from a file.',
    ),
    82: (
        'file fault',
        'The file cannot be read or written, or is longer than 268,435,456 bytes; or it would replace the '
        "script, or a file that was loaded, by anything but its own layer's text. Paths are as seen from the "
        'folder where the program runs, and no shell reads them: write /home/me/a.gbr for ~/a.gbr, and no '
        'quotes.',
    ),
    83: (
        'name taken',
        'A layer has this name. Take another name: layers and their names stay until the run ends.',
    ),
    84: (
        'no window',
        'No window was accepted before this plot or redraw. Look for its reply above.',
    ),
    85: (
        'too many layers',
        'There are 32 layers. Load the others in a run of their own.',
    ),
    90: (
        'no pointer',
        'To a caller of the library alone: a pointer is null that may not be, or a length is past 2^63 - 1. '
        'include/camplot.h lists which may be null.',
    ),
    91: (
        'not clean',
        'To a caller of the library alone: the tile is dirty, or there is no such tile, layer or window. '
        'Redraw, or plot the layer.',
    ),
}

# What to do where a drill file is refused with a number that Gerber files have too.
DRILL: dict[int, str] = {
    1: (
        'A byte outside comments that is not plain ASCII, or a byte order mark, which tools/to_xnc leaves '
        'out.'
    ),
    4: (
        'A number does not fit its grammar, or its range. A coordinate is an optional sign and 1 to 15 '
        'digits, without a point. Sizes, steps and angles may have a point, and are below 1,000,000. '
        'Apertures have numbers from 10 to 2,147,483,647, written in digits alone: in ADD-10C,1 the number is'
        ' missing. C takes at least one parameter, R and O at least two; of R or O with one tools/to_gerber '
        '--nearest makes both sides equal, and leaves one that nothing uses out. A repeat has 1 to '
        "999,999,999 columns and rows. In a drill file also: a tool's number 0 or past 9,999 in the header, "
        'or past it in the body.'
    ),
    6: (
        'A tool, or the % that ends the header, before METRIC or INCH.'
    ),
    24: (
        "A tool's diameter below 1 nm or past 200 mm."
    ),
    25: (
        'More than 1,000,000 items in the layer, objects in a block or a repeat, or segments in a contour; '
        'more than 4,000,000 objects with repeats and blocks unfolded; blocks more than 8 deep; or more than '
        '1,000 names of file attributes (%TF..*%). Fill areas by regions in place of lines; give repeats '
        'fewer copies. In a drill file also: more than 1,000,000 points in a slot.'
    ),
}
