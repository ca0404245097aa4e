/* Tells Helgrind of a program's atomic instructions: a library for LD_PRELOAD under valgrind. Helgrind knows the
   order that pthread calls make, and none that a lock prefix makes. A breakpoint replaces the first byte of each
   instruction that is listed. Its signal goes on at that site's stub, which runs the instruction, reports the
   operand's address before and after it, and jumps behind the site. dev/test_helgrind.py lists the sites and writes
   the stubs; without valgrind nothing is replaced. */
#define _GNU_SOURCE
#include <link.h>
#include <signal.h>
#include <stdint.h>
#include <stdlib.h>
#include <sys/mman.h>
#include <ucontext.h>
#include <unistd.h>
#include <valgrind/helgrind.h>

enum { BREAKPOINT = 0xcc };

struct site {
  uint64_t from;    /* the instruction, from the program's beginning */
  uint64_t length;
  uint64_t stub;
  uint64_t *behind; /* where the stub finds the address behind the instruction */
};
extern struct site sites[];
extern uint64_t site_count;

/* What a stub asks of Helgrind: what this thread did happens before what a thread does that asks for the other with
   the same address later. */
uint64_t happens_before = _VG_USERREQ__HG_USERSO_SEND_PRE, happens_after = _VG_USERREQ__HG_USERSO_RECV_POST;

static uint64_t base;

/* The first of the objects is the program. */
static int load_address(struct dl_phdr_info *info, size_t size, void *unused) {
  (void)size, (void)unused;
  base = info->dlpi_addr;
  return 1;
}

static void go_to_stub(int number, siginfo_t *info, void *context) {
  greg_t *at = &((ucontext_t *)context)->uc_mcontext.gregs[REG_RIP];
  (void)number, (void)info;
  for (uint64_t n = 0; n < site_count; n++)
    if (base + sites[n].from + 1 == (uint64_t)*at) {
      *at = (greg_t)sites[n].stub;
      return;
    }
  abort();
}

static void replace(const struct site *site) {
  uint64_t at = base + site->from, page = (uint64_t)sysconf(_SC_PAGESIZE), first = at & ~(page - 1);
  if (mprotect((void *)first, at + 1 - first, PROT_READ | PROT_WRITE | PROT_EXEC)) abort();
  *(uint8_t *)at = BREAKPOINT;
  VALGRIND_DISCARD_TRANSLATIONS(at, 1);
  *site->behind = at + site->length;
}

__attribute__((constructor)) static void replace_all(void) {
  struct sigaction action = {.sa_sigaction = go_to_stub, .sa_flags = SA_SIGINFO | SA_NODEFER};
  if (!RUNNING_ON_VALGRIND) return;
  dl_iterate_phdr(load_address, NULL);
  if (sigaction(SIGTRAP, &action, NULL)) abort();
  for (uint64_t n = 0; n < site_count; n++) replace(&sites[n]);
}
