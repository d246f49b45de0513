// Which wrong body is on in a program that has them all, and which of them a run meets. .ci/shown builds it in.
#include <fcntl.h>
#include <stdbool.h>
#include <stdint.h>
#include <stdlib.h>
#include <string.h>
#include <unistd.h>

enum { MOST = 4096 };

static uint32_t chosen;
static const char *path;
static unsigned char met[MOST];

__attribute__((constructor)) static void begin(void) {
  const char *number = getenv("EDIT_ON");
  if (number == NULL)
    // the run that `rt try` makes itself: while it waits, .ci/shown takes the program
    sleep(2);
  else
    chosen = (uint32_t)strtoul(number, NULL, 10);
  path = getenv("EDITS_MET");
}

__attribute__((destructor)) static void end(void) {
  int file = path == NULL ? -1 : open(path, O_WRONLY | O_CREAT | O_TRUNC, 0600);
  if (file >= 0 && write(file, met, sizeof met) == (ssize_t)sizeof met)
    close(file);
}

bool edit_is_on(uint32_t edit) {
  if (path != NULL && edit < MOST)
    met[edit] = 1;
  return edit == chosen;
}
