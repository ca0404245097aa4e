/* Refuses the request for memory of the number that REFUSE gives, where it is preloaded (LD_PRELOAD). As the program
   ends, it writes how many requests were made to the file that REQUESTS names, and how many of the blocks that were
   given are still held to the one that HELD names. With KEEP the call to `free` of that number does nothing, as a
   leak. A program with threads ends by `_exit`, which runs no destructor: so it tells there too. */
#define _GNU_SOURCE
#include <dlfcn.h>
#include <errno.h>
#include <fcntl.h>
#include <stdatomic.h>
#include <stdint.h>
#include <stdio.h>
#include <stdlib.h>
#include <sys/syscall.h>
#include <unistd.h>
#define MOST_HELD (1 << 20)
static _Atomic long count, frees, nth = -1, kept = -1;

/* The blocks that are held, by their addresses; a place that was left is marked, so that those behind it are found. */
static void *held[MOST_HELD];
static long held_count;
static atomic_flag busy = ATOMIC_FLAG_INIT;
static char left;
static void **place_of(void *wanted, void *from) {
  size_t at = ((uintptr_t)from >> 4) * 0x9e3779b97f4a7c15 >> 44;
  for (size_t n = 0; n < MOST_HELD; n++, at = (at + 1) % MOST_HELD)
    if (held[at] == wanted || !held[at] || (!wanted && held[at] == &left)) return &held[at];
  abort();
}
static void change(void *given, void *freed) {
  while (atomic_flag_test_and_set(&busy)) {}
  void **place = freed ? place_of(freed, freed) : 0;
  if (place && *place) { *place = &left; held_count--; }
  if (given) { *place_of(0, given) = given; held_count++; }
  atomic_flag_clear(&busy);
}

static long number(const char *name) {
  char *text = getenv(name);
  return text ? atol(text) : 0;
}
static int refused(void) {
  if (nth < 0) nth = number("REFUSE");
  return ++count == nth;
}
#define REAL(name) (real ? real : (real = dlsym(RTLD_NEXT, name)))
void *malloc(size_t n) {
  static void *(*real)(size_t);
  if (refused()) { errno = ENOMEM; return 0; }
  void *given = REAL("malloc")(n);
  change(given, 0);
  return given;
}
void *realloc(void *p, size_t n) {
  static void *(*real)(void *, size_t);
  if (refused()) { errno = ENOMEM; return 0; }
  change(0, p);
  void *given = REAL("realloc")(p, n);
  change(given ? given : p, 0);
  return given;
}
int posix_memalign(void **p, size_t a, size_t n) {
  static int (*real)(void **, size_t, size_t);
  int status = refused() ? ENOMEM : REAL("posix_memalign")(p, a, n);
  if (!status) change(*p, 0);
  return status;
}
void *aligned_alloc(size_t a, size_t n) {
  static void *(*real)(size_t, size_t);
  if (refused()) { errno = ENOMEM; return 0; }
  void *given = REAL("aligned_alloc")(a, n);
  change(given, 0);
  return given;
}
void free(void *p) {
  static void (*real)(void *);
  if (kept < 0) kept = number("KEEP");
  if (!p || ++frees == kept) return;
  change(0, p);
  REAL("free")(p);
}

/* By calls that ask for no memory. */
static void write_number(const char *name, long value) {
  char *path = getenv(name), text[24];
  int file = path ? open(path, O_WRONLY | O_CREAT | O_TRUNC, 0600) : -1;
  if (file < 0) return;
  int length = snprintf(text, sizeof text, "%ld\n", value);
  if (write(file, text, (size_t)length) != length) abort();
  close(file);
}
__attribute__((destructor)) static void tell(void) {
  write_number("REQUESTS", count);
  write_number("HELD", held_count);
}
void _exit(int status) {
  tell();
  syscall(SYS_exit_group, status);
  __builtin_unreachable();
}
