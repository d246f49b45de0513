/* What the C library answers to pointers that are null, to lengths past 2^63 - 1, to rooms that are too small, and where
 * there is no tile: .ci/library builds and runs it. It says each answer that is not the wanted one, and ends with 1. */
#include <camplot.h>
#include <stdio.h>
#include <string.h>

static const uint8_t LOAD[] = "load top gerber a.gbr", LIST[] = "list", REDRAW[] = "redraw 1", LAYERS[] = "layers";
static const uint8_t BOARD[] = "%FSLAX46Y46*%%MOMM*%%ADD10C,0.5*%D10*X0Y0D03*M02*";
static int wrong;

static void wants(const char *what, unsigned long long answer, unsigned long long wanted) {
    if (answer == wanted) return;
    printf("%s: %llu, and not %llu\n", what, answer, wanted);
    wrong = 1;
}

/* No station. */
static void without_a_station(void) {
    uint8_t room[8] = "as it is";
    uint64_t rows[64] = {7};
    wants("apply", camplot_apply(NULL, LIST, 4, NULL, 0), CAMPLOT_NO_POINTER);
    wants("ask", camplot_ask(NULL, LAYERS, 6), CAMPLOT_NO_POINTER);
    wants("redraw", camplot_redraw(NULL, 1), CAMPLOT_NO_POINTER);
    wants("tile", camplot_tile(NULL, 0, 0, rows), CAMPLOT_NO_POINTER);
    wants("reply", camplot_reply(NULL, room, sizeof room), 0);
    wants("file", camplot_file(NULL, room, sizeof room), 0);
    wants("the room", memcmp(room, "as it is", sizeof room), 0);
    wants("the rows", rows[0], 7);
    camplot_close(NULL);
}

/* A station, and other pointers and lengths that cannot be used; its last reply stays. */
static void with_a_station(camplot_station *station) {
    uint8_t room[2] = "as";
    wants("list", camplot_apply(station, LIST, 4, NULL, 0), CAMPLOT_OK);
    wants("no line", camplot_apply(station, NULL, 4, NULL, 0), CAMPLOT_NO_POINTER);
    wants("a long line", camplot_apply(station, LIST, SIZE_MAX, NULL, 0), CAMPLOT_NO_POINTER);
    wants("a long file", camplot_apply(station, LOAD, sizeof LOAD - 1, BOARD, SIZE_MAX), CAMPLOT_NO_POINTER);
    wants("no question", camplot_ask(station, NULL, 6), CAMPLOT_NO_POINTER);
    wants("a long question", camplot_ask(station, LAYERS, SIZE_MAX), CAMPLOT_NO_POINTER);
    wants("no rows", camplot_tile(station, 0, 0, NULL), CAMPLOT_NO_POINTER);
    wants("a small room", camplot_reply(station, room, sizeof room), sizeof "ok 0 0 0");
    wants("its bytes", memcmp(room, "as", sizeof room), 0);
    wants("no room", camplot_reply(station, NULL, 0), sizeof "ok 0 0 0");
}

/* Lines that want a file or a window, and tiles that are not there. */
static void without_a_window(camplot_station *station) {
    uint64_t rows[64] = {7};
    wants("a load without a file", camplot_apply(station, LOAD, sizeof LOAD - 1, NULL, 0), 82);
    wants("a load", camplot_apply(station, LOAD, sizeof LOAD - 1, BOARD, sizeof BOARD - 1), CAMPLOT_OK);
    wants("a redraw without a window", camplot_redraw(station, 1), 84);
    wants("the same as a line", camplot_apply(station, REDRAW, sizeof REDRAW - 1, NULL, 0), 84);
    wants("a tile without a window", camplot_tile(station, 0, 0, rows), CAMPLOT_NOT_CLEAN);
    wants("a layer too far", camplot_tile(station, 1, 0, rows), CAMPLOT_NOT_CLEAN);
    wants("the rows", rows[0], 7);
}

/* The version, into rooms of each size. */
static void version(void) {
    const size_t length = sizeof CAMPLOT_VERSION - 1;
    uint8_t room[16] = "as it is", fresh[sizeof CAMPLOT_VERSION - 1];
    wants("no room for the version", camplot_version(NULL, 16), length);
    wants("a room past all", camplot_version(room, SIZE_MAX), length);
    wants("a small room for the version", camplot_version(room, length - 1), length);
    wants("its bytes", memcmp(room, "as it is", 8), 0);
    wants("a room that just holds it", camplot_version(fresh, length), length);
    wants("the version", memcmp(fresh, CAMPLOT_VERSION, length), 0);
    wants("a larger room", camplot_version(room, sizeof room), length);
    wants("the version there", memcmp(room, CAMPLOT_VERSION " is", length + 3), 0);
}

int main(void) {
    camplot_station *station;
    version();
    wants("no place for a station", camplot_open(1, NULL), CAMPLOT_NO_POINTER);
    wants("depth 0", camplot_open(0, &station), 50);
    wants("its station", station != NULL, 0);
    wants("depth 1,001", camplot_open(1001, &station), 50);
    without_a_station();
    wants("depth 1", camplot_open(1, &station), CAMPLOT_OK);
    with_a_station(station);
    without_a_window(station);
    camplot_close(station);
    return wrong;
}
