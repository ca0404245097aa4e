/* Counts the threads that a program starts, and its writes: a library for LD_PRELOAD. Each thread that is started
   adds a t to the file that THREADS names, each that is waited for a j, and each write to standard output a w.
   With THREADS_LATE a thread waits for that many microseconds before it works, as on a machine whose processors
   have other work. dev/test_threads.py builds it. */
#define _GNU_SOURCE
#include <dlfcn.h>
#include <fcntl.h>
#include <pthread.h>
#include <stdlib.h>
#include <unistd.h>

typedef int create(pthread_t *, const pthread_attr_t *, void *(*)(void *), void *);
typedef int join(pthread_t, void **);
typedef ssize_t put(int, const void *, size_t);

static void tell(const char *mark) {
  int file = open(getenv("THREADS"), O_WRONLY | O_APPEND | O_CREAT, 0600);
  if (file < 0) return;
  if (write(file, mark, 1) != 1) abort();
  close(file);
}

/* What a thread that comes late is to run. */
struct late {
  void *(*run)(void *);
  void *with;
  useconds_t time;
};

static void *run_late(void *given) {
  struct late late = *(struct late *)given;
  free(given);
  usleep(late.time);
  return late.run(late.with);
}

int pthread_create(pthread_t *thread, const pthread_attr_t *how, void *(*run)(void *), void *with) {
  create *real = (create *)dlsym(RTLD_NEXT, "pthread_create");
  const char *time = getenv("THREADS_LATE");
  struct late *late = time ? malloc(sizeof *late) : NULL;
  if (time && !late) abort();
  if (late) *late = (struct late){run, with, (useconds_t)atoi(time)};
  int status = late ? real(thread, how, run_late, late) : real(thread, how, run, with);
  if (!status) tell("t");
  return status;
}

int pthread_join(pthread_t thread, void **back) {
  join *real = (join *)dlsym(RTLD_NEXT, "pthread_join");
  int status = real(thread, back);
  if (!status) tell("j");
  return status;
}

ssize_t write(int file, const void *bytes, size_t count) {
  put *real = (put *)dlsym(RTLD_NEXT, "write");
  if (file == STDOUT_FILENO) tell("w");
  return real(file, bytes, count);
}
