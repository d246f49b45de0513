/* camplot.h: a CAM station for printed circuit boards, as a library for C.
 *
 * A station has a board of named layers, a window with tiles of 64 by 64 pixels of each layer in it, and the history
 * of what was done to the board. A caller applies the lines of a script of the program `camplot`, and the station
 * answers each as the program does. It touches no file: the caller passes the bytes of a file, and copies out those
 * of a plot or a text. The station answers questions too, such as which item lies at a point. docs/library.md shows
 * how to build against it, docs/refusals.md explains the numbers of refusals, and docs/questions.md the questions.
 *
 * What each call does is proved, if the caller keeps these promises. Nothing can check them:
 *
 *  - A pointer is null, or points to as many bytes as this page says, which nobody else writes while the call runs.
 *    Bytes that are read have values; a room that is written may be fresh, such as an array that was only declared.
 *    Rooms overlap nothing else that is passed. A handle is one that camplot_open returned and camplot_close was not
 *    given.
 *  - All calls for a station come from the thread that opened it, one after another. Calls for two stations may run
 *    at once, each in its thread.
 *  - No call is made from a signal handler, or in a child that a process with threads has forked.
 *  - A thread that calls has 64 KiB of stack left: 20 KiB were used on boards, and 32 KiB for blocks eight deep.
 *    Floating point exceptions do not trap, as in a C program that has not asked for it.
 *  - `malloc`, `realloc` and `free` belong to one allocator, which aligns a block as the C standard requires.
 *
 * The library keeps no pointer of the caller's after a call, and has no state but its stations. Each function checks
 * for null: if a pointer is null that may not be, nothing is done. camplot_open, camplot_apply, camplot_ask,
 * camplot_redraw and camplot_tile then answer 90, and so do camplot_apply and camplot_ask if a length is past
 * 2^63 - 1. camplot_reply, camplot_file and camplot_version answer no number of a refusal: 0 for a station that is null,
 * and otherwise the length, whatever the room is. That closing a station frees all of its memory is the one promise here that is tested
 * and not proved. */
#ifndef CAMPLOT_H
#define CAMPLOT_H

#include <stddef.h>
#include <stdint.h>

#ifdef __cplusplus
extern "C" {
#endif

/* A station. What it points to belongs to the library alone. */
typedef struct camplot_station camplot_station;

/* The version of this page. camplot_version answers that of the library. */
#define CAMPLOT_VERSION "1.1.0"

/* Numbers that these functions answer in addition to those of docs/refusals.md. */
#define CAMPLOT_OK 0         /* accepted */
#define CAMPLOT_NO_POINTER 90 /* a pointer is null that may not be, or a length is past 2^63 - 1 */
#define CAMPLOT_NOT_CLEAN 91  /* the tile is dirty, or there is no such tile, layer or window */

/* Opens a station that can undo `depth` edits and groups, from 1 to 1,000, and stores its handle in *station. If it
 * fails, *station is null, and the answer is 50 for another depth, or 30 if memory was refused. The caller owns the
 * station until it gives it to camplot_close. `station` may not be null; what *station was does not matter. */
uint32_t camplot_open(uint32_t depth, camplot_station **station);

/* Closes a station and frees all of its memory: tests check that, and no proof. Null is no station, and nothing is
 * done. */
void camplot_close(camplot_station *station);

/* Applies one line of a script, of `line_length` bytes, without the line feed, or carriage return and line feed, at
 * its end. For a `load` the caller passes the bytes of its file: `file` points to `file_length` of them. For any
 * other line `file` is ignored, and may be null; a `load` whose `file` is null, or longer than 268,435,456 bytes, is
 * refused 82, as a file that cannot be read. The path in a `load`, a `plot` or a `write` must be a path by the
 * grammar, but is ignored.
 *
 * Answers 0 if the line was accepted, and also if it has no reply, such as a comment; otherwise the number of the
 * refusal. The reply, and the bytes of a plot or a text, can be read until the next line is applied, a question is
 * asked or tiles are redrawn. A line that is refused changes nothing, except that a plot keeps the tiles that it
 * drew. `station` and `line` may not be null; neither is kept. A `line_length` past 2^63 - 1 is answered 90, and so
 * is a `file_length` past it if `file` is not null, whatever the line is. */
uint32_t camplot_apply(camplot_station *station, const uint8_t *line, size_t line_length, const uint8_t *file,
                       size_t file_length);

/* Answers a question of docs/questions.md, of `question_length` bytes, without a line end: the layers, the topmost
 * item at a point, the items in a box, an item in the words that insert it, boxes, definitions, attributes, the
 * history. The answer is a text of lines, each with a line feed, or of none if nothing is found, as at every point off
 * the board; camplot_file copies it, and the reply is `ok`. Nothing else of the station changes.
 *
 * Answers 0, or the number of the refusal, and then there is no text: 60 if there is no such layer, 61 if it has no
 * item, aperture, block or tool at a place that the question names, or fewer items than the place from which they are
 * asked for, 80 if the line is no question, 81 if it has more than 65,536 bytes, 30 if memory was refused.
 * `station` and `question` may not be null; neither is kept. A `question_length` past 2^63 - 1 is answered 90. */
uint32_t camplot_ask(camplot_station *station, const uint8_t *question, size_t question_length);

/* Draws at most `at_most` dirty tiles, by layer and then by number, as the line `redraw` does. Its reply gives how
 * many were drawn. Answers 0, or 84 if no window was set. `station` may not be null. */
uint32_t camplot_redraw(camplot_station *station, uint32_t at_most);

/* Returns how many bytes the line of the last reply has, such as `ok 1` with a line feed, and copies it into `room`,
 * which has `capacity` bytes, if it fits; otherwise `room` stays as it is, and may be null. It has no zero byte at
 * its end. 0 before the first line, if the last line had no reply, and if `station` is null. 160 bytes always
 * suffice. If `capacity` is past 2^63 - 1, the length is returned and nothing is copied. */
size_t camplot_reply(camplot_station *station, uint8_t *room, size_t capacity);

/* The same for the bytes that the last line or question had for a file: a PBM image after a `plot` that was accepted,
 * the canonical text after such a `write`, and the answer after a question that was answered. 0 before the first line
 * and after any other. Once copied, they belong to the caller. */
size_t camplot_file(camplot_station *station, uint8_t *room, size_t capacity);

/* Copies the 512 bytes of a clean tile: `rows` has room for 64 rows from the top, and bit i of a row, counted from
 * the least, is the pixel in column i of the tile, 1 for black. Layers are counted from 0 in the order of their
 * loads, tiles from 0 at the top left of the window, row by row; a window of W by H pixels has (W + 63) / 64 of them
 * side by side. Bits past the window's edge are 0. Answers 0, or 91 if the tile is dirty, or there is no such
 * tile, layer or window; then `rows` stays as it is. Neither pointer may be null. */
uint32_t camplot_tile(camplot_station *station, uint32_t layer, uint32_t tile, uint64_t *rows);

/* Returns how many bytes the version of the library has, such as `1.1.0`, and copies it into `room`, which has `capacity`
 * bytes, if it fits, as camplot_reply does: no zero byte ends it, `room` may be null, and 16 bytes suffice. It is the
 * CAMPLOT_VERSION of the page that the library was built with. */
size_t camplot_version(uint8_t *room, size_t capacity);

#ifdef __cplusplus
}
#endif

#endif
