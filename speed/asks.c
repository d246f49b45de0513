/* Opens a station, loads a layer as `top`, asks one question so many times, and says the last answer.
 *
 *     asks FILE TIMES QUESTION */
#include <camplot.h>
#include <stdio.h>
#include <stdlib.h>
#include <string.h>

static const char LOAD[] = "load top gerber layer";

/* The bytes of a file, and how many they are; null where it cannot be read. */
static uint8_t *bytes_of(const char *path, size_t *length) {
    FILE *file = fopen(path, "rb");
    uint8_t *bytes = NULL;
    if (file && fseek(file, 0, SEEK_END) == 0) {
        long end = ftell(file);
        rewind(file);
        bytes = malloc((size_t)end + 1);
        *length = bytes ? fread(bytes, 1, (size_t)end, file) : 0;
    }
    if (file) fclose(file);
    return bytes;
}

int main(int count, char **words) {
    camplot_station *station;
    if (count != 4 || camplot_open(1, &station) != CAMPLOT_OK) return 2;
    size_t length = 0;
    uint8_t *file = bytes_of(words[1], &length);
    if (!file || camplot_apply(station, (const uint8_t *)LOAD, strlen(LOAD), file, length) != CAMPLOT_OK) return 2;
    free(file);
    long times = atol(words[2]);
    for (long k = 0; k < times; k++)
        if (camplot_ask(station, (const uint8_t *)words[3], strlen(words[3])) != CAMPLOT_OK) return 1;
    uint8_t answer[64];
    size_t told = camplot_file(station, answer, sizeof answer);
    if (times > 0 && told <= sizeof answer) fwrite(answer, 1, told, stdout);
    camplot_close(station);
    return 0;
}
