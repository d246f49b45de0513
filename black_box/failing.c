/* Counts a process's calls on files, and lets one of them fail, or ends the process there.
 *
 * It is preloaded. AT_CALL is the number of the call, from 1 on; without it, or past the last one, none. FAILS_BY is the
 * number of the error (errno); without it the process is killed before the call. Of a write that is killed half is written
 * first. CALLS_TO names a file that gets the count of all calls when the process ends. Reads and writes of the standard
 * streams are not counted. */

#define _GNU_SOURCE
#include <dlfcn.h>
#include <errno.h>
#include <fcntl.h>
#include <signal.h>
#include <stdarg.h>
#include <stdio.h>
#include <stdlib.h>
#include <sys/stat.h>
#include <unistd.h>

static unsigned long calls, at;
static int error;

__attribute__((constructor)) static void begin(void) {
  const char *number = getenv("AT_CALL"), *by = getenv("FAILS_BY");
  at = number == NULL ? 0 : strtoul(number, NULL, 10);
  error = by == NULL ? 0 : atoi(by);
  calls = 0;
}

__attribute__((destructor)) static void end(void) {
  const char *path = getenv("CALLS_TO");
  if (path == NULL) return;
  FILE *file = fopen(path, "w");
  if (file == NULL) return;
  fprintf(file, "%lu\n", calls);
  fclose(file);
}

/* Counts a call, and tells whether it is the one. */
static int is_it(void) { return ++calls == at; }

/* The call fails, or the process ends. */
static int fails(void) {
  if (error == 0) kill(getpid(), SIGKILL);
  errno = error;
  return -1;
}

#define REAL(name) ((__typeof__(&name))dlsym(RTLD_NEXT, #name))

int open(const char *path, int flags, ...) {
  va_list more;
  va_start(more, flags);
  mode_t mode = va_arg(more, mode_t);
  va_end(more);
  return is_it() ? fails() : REAL(open)(path, flags, mode);
}

int open64(const char *path, int flags, ...) {
  va_list more;
  va_start(more, flags);
  mode_t mode = va_arg(more, mode_t);
  va_end(more);
  return is_it() ? fails() : REAL(open64)(path, flags, mode);
}

ssize_t read(int file, void *bytes, size_t count) {
  if (file > 2 && is_it()) return fails();
  return REAL(read)(file, bytes, count);
}

ssize_t write(int file, const void *bytes, size_t count) {
  if (file > 2 && is_it()) {
    if (error == 0) (void)!REAL(write)(file, bytes, count / 2);
    return fails();
  }
  return REAL(write)(file, bytes, count);
}

char *realpath(const char *path, char *resolved) {
  if (!is_it()) return REAL(realpath)(path, resolved);
  fails();
  return NULL;
}

int statx(int folder, const char *path, int flags, unsigned mask, struct statx *about) {
  return is_it() ? fails() : REAL(statx)(folder, path, flags, mask, about);
}

int fsync(int file) { return is_it() ? fails() : REAL(fsync)(file); }

int fchmod(int file, mode_t mode) { return is_it() ? fails() : REAL(fchmod)(file, mode); }

int chown(const char *path, uid_t user, gid_t group) { return is_it() ? fails() : REAL(chown)(path, user, group); }

int rename(const char *from, const char *to) { return is_it() ? fails() : REAL(rename)(from, to); }

int unlink(const char *path) { return is_it() ? fails() : REAL(unlink)(path); }
