/* Stands between a program and its C library, by LD_PRELOAD, and refuses one growth of memory or one thread, as if none
   were left: the growth with the number that the variable REFUSED_GROWTH names, counted from 1, or the thread that
   REFUSED_THREAD names. When it does so it makes the file that REFUSAL names. memory.sh uses it. */
#define _GNU_SOURCE
#include <dlfcn.h>
#include <errno.h>
#include <fcntl.h>
#include <pthread.h>
#include <stdatomic.h>
#include <stdlib.h>
#include <unistd.h>

static atomic_ulong growths, threads;

/* Counts one more, and tells whether it is the one that the variable names. */
static int is_refused(atomic_ulong *count, const char *variable) {
  unsigned long number = atomic_fetch_add(count, 1) + 1;
  const char *wanted = getenv(variable), *file = getenv("REFUSAL");
  if (!wanted || !file || strtoul(wanted, NULL, 10) != number) return 0;
  close(creat(file, 0600));
  return 1;
}

void *malloc(size_t size) {
  static void *(*next)(size_t);
  if (!next) next = (void *(*)(size_t))dlsym(RTLD_NEXT, "malloc");
  if (!is_refused(&growths, "REFUSED_GROWTH")) return next(size);
  errno = ENOMEM;
  return NULL;
}

void *realloc(void *place, size_t size) {
  static void *(*next)(void *, size_t);
  if (!next) next = (void *(*)(void *, size_t))dlsym(RTLD_NEXT, "realloc");
  if (!is_refused(&growths, "REFUSED_GROWTH")) return next(place, size);
  errno = ENOMEM;
  return NULL;
}

typedef int start_of_threads(pthread_t *, const pthread_attr_t *, void *(*)(void *), void *);

int pthread_create(pthread_t *thread, const pthread_attr_t *how, void *(*work)(void *), void *with) {
  static start_of_threads *next;
  if (!next) next = (start_of_threads *)dlsym(RTLD_NEXT, "pthread_create");
  return is_refused(&threads, "REFUSED_THREAD") ? EAGAIN : next(thread, how, work, with);
}
