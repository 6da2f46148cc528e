/* Preloaded into a program (LD_PRELOAD), counts what the program asks of the system to hold, memory and threads, and refuses one of these.
 *
 * Each call of malloc, calloc, realloc, memalign, aligned_alloc, posix_memalign and pthread_create is one, of whichever thread, and they have
 * numbers from 1 on. That of the number REFUSED_AT fails, as where the system has nothing left; where REFUSED_AT is 0 or not there, none does.
 * REFUSED_TOLD is a file of at least 16 bytes: how many have been counted, and whether one was refused, stand in it at any time, each as
 * eight bytes. It is read where the process has been killed too. Where CONNECT_TO is a port, each connection of the process is made to that
 * one instead. */
#define _GNU_SOURCE
#include <dlfcn.h>
#include <errno.h>
#include <fcntl.h>
#include <netinet/in.h>
#include <pthread.h>
#include <stdatomic.h>
#include <stdlib.h>
#include <sys/mman.h>
#include <sys/socket.h>
#include <unistd.h>

struct told {
  atomic_ulong counted, refused;
};

static struct told own, *told = &own;
static unsigned long refused_at;

/* Those of glibc, behind the names that a program may define anew. */
extern void *__libc_malloc(size_t);
extern void *__libc_calloc(size_t, size_t);
extern void *__libc_realloc(void *, size_t);
extern void *__libc_memalign(size_t, size_t);

static unsigned long number_in(const char *name) {
  const char *text = getenv(name);
  return text ? strtoul(text, NULL, 10) : 0;
}

__attribute__((constructor)) static void begin(void) {
  const char *name = getenv("REFUSED_TOLD");
  int file = name ? open(name, O_RDWR | O_CLOEXEC) : -1;
  if (file >= 0) {
    void *at = mmap(NULL, sizeof own, PROT_READ | PROT_WRITE, MAP_SHARED, file, 0);
    close(file);
    if (at != MAP_FAILED) {
      told = at;
      atomic_store(&told->counted, 0);
      atomic_store(&told->refused, 0);
    }
  }
  refused_at = number_in("REFUSED_AT");
}

/* A place for a debugger to stop at. */
__attribute__((noinline)) static void refuse(void) { atomic_store(&told->refused, 1); }

static int is_refused(void) {
  if (atomic_fetch_add(&told->counted, 1) + 1 != refused_at)
    return 0;
  refuse();
  errno = ENOMEM;
  return 1;
}

void *malloc(size_t size) { return is_refused() ? NULL : __libc_malloc(size); }

void *calloc(size_t count, size_t size) { return is_refused() ? NULL : __libc_calloc(count, size); }

void *realloc(void *block, size_t size) { return is_refused() ? NULL : __libc_realloc(block, size); }

void *memalign(size_t alignment, size_t size) { return is_refused() ? NULL : __libc_memalign(alignment, size); }

void *aligned_alloc(size_t alignment, size_t size) { return is_refused() ? NULL : __libc_memalign(alignment, size); }

int posix_memalign(void **block, size_t alignment, size_t size) {
  if (is_refused())
    return ENOMEM;
  void *found = __libc_memalign(alignment, size);
  if (!found)
    return ENOMEM;
  *block = found;
  return 0;
}

int pthread_create(pthread_t *thread, const pthread_attr_t *attributes, void *(*start)(void *), void *given) {
  if (is_refused())
    return EAGAIN;
  int (*create)(pthread_t *, const pthread_attr_t *, void *(*)(void *), void *) = dlsym(RTLD_NEXT, "pthread_create");
  return create(thread, attributes, start, given);
}

int connect(int socket, const struct sockaddr *address, socklen_t size) {
  int (*connects)(int, const struct sockaddr *, socklen_t) = dlsym(RTLD_NEXT, "connect");
  unsigned long port = number_in("CONNECT_TO");
  if (!port || address->sa_family != AF_INET)
    return connects(socket, address, size);
  struct sockaddr_in other = *(const struct sockaddr_in *)address;
  other.sin_port = htons(port);
  return connects(socket, (struct sockaddr *)&other, sizeof other);
}
