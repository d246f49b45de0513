/* Loads a board from memory, picks the item at a point, plots a tile after a move of it, takes the move back, and
 * compares. It says what it did, and ends with 0 where the tile came back bit for bit.
 *
 *     gcc -std=c11 -I include -o page examples/c/page.c crates/camplot/out/libcamplot.a
 *
 * The demo leaves the library there. */
#include <camplot.h>
#include <stdio.h>
#include <stdlib.h>
#include <string.h>

static const char BOARD[] = "%FSLAX46Y46*%\n%MOMM*%\n%ADD10C,0.5*%\nD10*\nX5000000Y5000000D03*\n"
                            "X1000000Y1000000D03*\nM02*\n";

/* Applies a line, says its reply, and answers its number. */
static uint32_t apply(camplot_station *station, const char *line, const char *file) {
    uint32_t code = camplot_apply(station, (const uint8_t *)line, strlen(line), (const uint8_t *)file,
                                  file ? strlen(file) : 0);
    uint8_t reply[160];
    size_t length = camplot_reply(station, reply, sizeof reply);
    printf("%-32s %.*s", line, (int)length, (const char *)reply);
    return code;
}

/* Asks a question, says its answer, and puts it into `answer` as a string; 0 where there is none or it does not fit. */
static int ask(camplot_station *station, const char *question, char *answer, size_t size) {
    *answer = 0;
    if (camplot_ask(station, (const uint8_t *)question, strlen(question)) != 0) return 0;
    size_t length = camplot_file(station, (uint8_t *)answer, size - 1);
    if (length >= size) return 0;
    answer[length] = 0;
    printf("%-32s %s", question, answer);
    return 1;
}

/* How many pixels of a tile are black. */
static int black(const uint64_t *rows) {
    int count = 0;
    for (int row = 0; row < 64; row++)
        for (uint64_t left = rows[row]; left; left &= left - 1) count++;
    return count;
}

int main(void) {
    camplot_station *station;
    uint32_t code = camplot_open(100, &station);
    if (code != CAMPLOT_OK) {
        printf("no station: %u\n", (unsigned)code);
        return 1;
    }
    uint64_t before[64], moved[64], after[64];
    int well = apply(station, "load top gerber board.gbr", BOARD) == 0;
    well &= apply(station, "window 0 0 31250 64 64", NULL) == 0;
    well &= camplot_tile(station, 0, 0, before) == CAMPLOT_NOT_CLEAN;
    well &= camplot_redraw(station, 1) == 0 && camplot_tile(station, 0, 0, before) == 0;
    char found[32], move[64];
    well &= ask(station, "at top 1000000 1000000", found, sizeof found) && *found;
    snprintf(move, sizeof move, "move top %lu 400000 0", strtoul(found, NULL, 10));
    well &= apply(station, move, NULL) == 0;
    well &= camplot_tile(station, 0, 0, moved) == CAMPLOT_NOT_CLEAN;
    well &= camplot_redraw(station, 1) == 0 && camplot_tile(station, 0, 0, moved) == 0;
    well &= apply(station, "undo", NULL) == 0;
    well &= camplot_redraw(station, 1) == 0 && camplot_tile(station, 0, 0, after) == 0;
    well &= apply(station, "write top board.gbr", NULL) == 0;
    size_t length = camplot_file(station, NULL, 0);
    uint8_t *text = malloc(length + 1);
    well &= text && camplot_file(station, text, length) == length;
    if (well) {
        printf("the tile has %d, then %d, then %d black pixels\n", black(before), black(moved), black(after));
        printf("after the move it is %s, and taken back %s\n", memcmp(before, moved, sizeof before) ? "another" : "the same",
               memcmp(before, after, sizeof before) ? "another" : "the same");
        printf("its text has %zu bytes\n", length);
        well = memcmp(before, moved, sizeof before) != 0 && memcmp(before, after, sizeof before) == 0;
    }
    free(text);
    camplot_close(station);
    return well ? 0 : 1;
}
