/* Preloaded into a program (LD_PRELOAD), counts the calls by which the program changes or reads files and folders, and kills it at one of these.
 *
 * Each call of open, mkdir, rename, fchmod, flock, ftruncate, fsync and fdatasync is one, and each read, pread, write and pwrite of a file, of
 * whichever thread; they have numbers from 1 on. Before that of the number KILLED_AT the process is killed (SIGKILL); where KILLED_PART is 1
 * and it writes, once the first half was written. Where KILLED_AT is 0 or not there, it is not. KILLED_TOLD is a file of at least eight bytes,
 * in which stands at any time how many have been counted. */
#define _GNU_SOURCE
#include <dlfcn.h>
#include <fcntl.h>
#include <signal.h>
#include <stdarg.h>
#include <stdatomic.h>
#include <stdlib.h>
#include <sys/mman.h>
#include <sys/stat.h>
#include <unistd.h>

static atomic_ulong own, *told = &own;
static unsigned long killed_at, killed_part;

#define NEXT(name) ((__typeof__(&name))dlsym(RTLD_NEXT, #name))

static unsigned long number_in(const char *name) {
  const char *text = getenv(name);
  return text ? strtoul(text, NULL, 10) : 0;
}

__attribute__((constructor)) static void begin(void) {
  const char *name = getenv("KILLED_TOLD");
  int file = name ? NEXT(open)(name, O_RDWR | O_CLOEXEC) : -1;
  if (file >= 0) {
    void *at = mmap(NULL, sizeof own, PROT_READ | PROT_WRITE, MAP_SHARED, file, 0);
    NEXT(close)(file);
    if (at != MAP_FAILED) {
      told = at;
      atomic_store(told, 0);
    }
  }
  killed_at = number_in("KILLED_AT");
  killed_part = number_in("KILLED_PART");
}

static int is_the_one(void) { return atomic_fetch_add(told, 1) + 1 == killed_at; }

static void end(void) { kill(getpid(), SIGKILL); }

static void pass(void) {
  if (is_the_one())
    end();
}

/* Files and folders, and no sockets, pipes or terminals. */
static int is_file(int file) {
  struct stat found;
  return fstat(file, &found) == 0 && (S_ISREG(found.st_mode) || S_ISDIR(found.st_mode));
}

int open(const char *name, int flags, ...) {
  va_list rest;
  va_start(rest, flags);
  mode_t mode = va_arg(rest, mode_t);
  va_end(rest);
  pass();
  return NEXT(open)(name, flags, mode);
}

int mkdir(const char *name, mode_t mode) {
  pass();
  return NEXT(mkdir)(name, mode);
}

int rename(const char *old, const char *new) {
  pass();
  return NEXT(rename)(old, new);
}

int fchmod(int file, mode_t mode) {
  pass();
  return NEXT(fchmod)(file, mode);
}

int flock(int file, int what) {
  pass();
  return NEXT(flock)(file, what);
}

int ftruncate(int file, off_t length) {
  pass();
  return NEXT(ftruncate)(file, length);
}

int fsync(int file) {
  pass();
  return NEXT(fsync)(file);
}

int fdatasync(int file) {
  pass();
  return NEXT(fdatasync)(file);
}

ssize_t read(int file, void *to, size_t count) {
  if (is_file(file))
    pass();
  return NEXT(read)(file, to, count);
}

ssize_t pread(int file, void *to, size_t count, off_t at) {
  pass();
  return NEXT(pread)(file, to, count, at);
}

ssize_t write(int file, const void *from, size_t count) {
  if (is_file(file) && is_the_one()) {
    if (killed_part)
      NEXT(write)(file, from, count / 2);
    end();
  }
  return NEXT(write)(file, from, count);
}

ssize_t pwrite(int file, const void *from, size_t count, off_t at) {
  if (is_the_one()) {
    if (killed_part)
      NEXT(pwrite)(file, from, count / 2, at);
    end();
  }
  return NEXT(pwrite)(file, from, count, at);
}
