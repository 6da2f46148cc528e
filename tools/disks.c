/* Preloaded into `flightd serve` (LD_PRELOAD), makes a disk of it that counts its syncs, loses one, or is full for a while.
 *
 * Each call of fsync and fdatasync of a file of records, whose name ends in `.rec`, is one, of whichever thread, and they have numbers from
 * 1 on. That of the number DISK_FAILS fails with EIO; where DISK_FAILS is 0 or not there, none does. DISK_TOLD is a file of at least 16
 * bytes: how many have been counted, and how many writes came to a file of records while an earlier one there was not synced, stand in it
 * at any time, each as eight bytes.
 *
 * DISK_FULL has words with colons between them, as in `node-1:node-2`. While there is a file named DISK_FULL_WHILE, a write to a file whose
 * name has one of these words fails with ENOSPC. */
#define _GNU_SOURCE
#include <dlfcn.h>
#include <errno.h>
#include <fcntl.h>
#include <limits.h>
#include <stdatomic.h>
#include <stdio.h>
#include <stdlib.h>
#include <string.h>
#include <sys/mman.h>
#include <unistd.h>

struct told {
  atomic_ulong synced, hasty;
};

static struct told own, *told = &own;
static unsigned long fails_at;
static const char *full, *full_while;
/* Whether the file of this descriptor was written to since it was synced last. */
static atomic_char written[1024];

#define NEXT(name) ((__typeof__(&name))dlsym(RTLD_NEXT, #name))

__attribute__((constructor)) static void begin(void) {
  const char *name = getenv("DISK_TOLD"), *number = getenv("DISK_FAILS");
  int file = name ? open(name, O_RDWR | O_CLOEXEC) : -1;
  if (file >= 0) {
    void *at = mmap(NULL, sizeof own, PROT_READ | PROT_WRITE, MAP_SHARED, file, 0);
    close(file);
    if (at != MAP_FAILED)
      told = at;
  }
  fails_at = number ? strtoul(number, NULL, 10) : 0;
  full = getenv("DISK_FULL");
  full_while = getenv("DISK_FULL_WHILE");
}

/* The name of an open file, or nothing. */
static void name_of(int file, char name[PATH_MAX]) {
  char link[64];
  snprintf(link, sizeof link, "/proc/self/fd/%d", file);
  ssize_t length = readlink(link, name, PATH_MAX - 1);
  name[length < 0 ? 0 : length] = 0;
}

static int has_records(int file) {
  char name[PATH_MAX];
  name_of(file, name);
  size_t length = strlen(name);
  return file < (int)sizeof written && length > 4 && !strcmp(name + length - 4, ".rec");
}

static int is_full(int file) {
  char name[PATH_MAX];
  if (!full || !full_while || access(full_while, F_OK))
    return 0;
  name_of(file, name);
  for (const char *word = full; *word; word += *word == ':') {
    size_t length = strcspn(word, ":");
    if (length && memmem(name, strlen(name), word, length))
      return 1;
    word += length;
  }
  return 0;
}

/* Whether a write fails. */
static int is_refused(int file) {
  if (is_full(file)) {
    errno = ENOSPC;
    return 1;
  }
  if (has_records(file) && atomic_exchange(&written[file], 1))
    atomic_fetch_add(&told->hasty, 1);
  return 0;
}

/* Whether a sync fails. */
static int is_lost(int file) {
  if (!has_records(file))
    return 0;
  if (atomic_fetch_add(&told->synced, 1) + 1 == fails_at) {
    errno = EIO;
    return 1;
  }
  atomic_store(&written[file], 0);
  return 0;
}

ssize_t write(int file, const void *from, size_t count) { return is_refused(file) ? -1 : NEXT(write)(file, from, count); }

ssize_t pwrite(int file, const void *from, size_t count, off_t at) { return is_refused(file) ? -1 : NEXT(pwrite)(file, from, count, at); }

int fsync(int file) { return is_lost(file) ? -1 : NEXT(fsync)(file); }

int fdatasync(int file) { return is_lost(file) ? -1 : NEXT(fdatasync)(file); }
