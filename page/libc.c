// What the program asks of the C library, for WebAssembly with 64-bit memory: a heap, and what the page gives in the place
// of files, words and a process. Compiled by the toolchain's clang and linked with the program's module (dev/page_module.py).
// There are no threads: a run by workers is done by the thread that asks for them.

typedef unsigned char u8;
typedef unsigned int u32;
typedef unsigned long long u64;
typedef long long i64;
typedef unsigned __int128 u128;
typedef __int128 i128;

#define IMPORT(name) __attribute__((import_module("page"), import_name(name)))
#define EXPORT(name) __attribute__((export_name(name)))

// ---- the page

// Word `i` of the command line, from 0: its length, -1 past the last, -2 where `room` bytes do not hold it.
IMPORT("arg") i64 page_arg(u64 i, u8 *at, u64 room);
// Opens a file by its name of so many bytes: its number, or -1 where there is none.
IMPORT("open") int page_open(const u8 *name, u64 length);
IMPORT("read") i64 page_read(int file, u8 *at, u64 room);
IMPORT("write") i64 page_write(int file, const u8 *at, u64 length);
IMPORT("exit") _Noreturn void page_exit(int status);

enum { ENOENT = 2, EBADF = 9, EAGAIN = 11, ENOSYS = 38 };

static int error_number;
int rattle_errno(void) { return error_number; }
void rattle_set_errno(int number) { error_number = number; }
static i64 fails(int number) { error_number = number; return -1; }

i64 rattle_arg(u64 i, u8 *at, u64 room) { return page_arg(i, at, room); }
i64 rattle_env(const u8 *name, u8 *at, u64 room) { return -1; }
i64 rattle_env_at(u64 i, u8 *at, u64 room) { return -1; }

int open(const u8 *name, int how, ...) {
  u64 length = 0;
  while (name[length]) length += 1;
  int file = page_open(name, length);
  return file < 0 ? (int)fails(ENOENT) : file;
}
i64 read(int file, u8 *at, u64 room) {
  i64 got = page_read(file, at, room);
  return got < 0 ? fails(EBADF) : got;
}
i64 write(int file, const u8 *at, u64 length) {
  i64 put = page_write(file, at, length);
  return put < 0 ? fails(EBADF) : put;
}
i64 __write(int file, const u8 *at, u64 length) { return write(file, at, length); }
int close(int file) { return 0; }
int isatty(int file) { return 0; }
_Noreturn void _exit(int status) { page_exit(status); }
_Noreturn void abort(void) { __builtin_trap(); }
i64 __sysv_signal(int number, i64 does) { return 0; }

// ---- processors and threads: one, and none beside it

enum { SC_PAGESIZE = 30, SC_NPROCESSORS_CONF = 83, SC_NPROCESSORS_ONLN = 84 };

i64 sysconf(int name) {
  return name == SC_PAGESIZE ? 65536 : name == SC_NPROCESSORS_CONF || name == SC_NPROCESSORS_ONLN ? 1 : -1;
}
int sched_getaffinity(int process, u64 size, void *set) { return (int)fails(ENOSYS); }
i64 syscall(i64 number, void *a, i64 b, i64 c, void *d, ...) { return fails(ENOSYS); }
int sched_yield(void) { return 0; }
int pthread_create(void *thread, void *how, void *does, void *with) { return EAGAIN; }
int pthread_join(u64 thread, void *result) { return EAGAIN; }
int pthread_detach(u64 thread) { return EAGAIN; }
u64 pthread_self(void) { return 1; }
int pthread_attr_init(void *how) { return 0; }
int pthread_attr_destroy(void *how) { return 0; }
int pthread_attr_setstacksize(void *how, u64 size) { return 0; }
int pthread_attr_setguardsize(void *how, u64 size) { return 0; }

// What an x86-64 processor can do: nothing is asked of it here, and ones are the answer that asks for no other code.
static const u32 leaf[8] = {~0u, ~0u, ~0u, ~0u, ~0u, ~0u, ~0u, ~0u};
const void *__x86_get_cpuid_feature_leaf(u32 which) { return leaf; }

// ---- the heap: blocks side by side, each with its size and that of the one before it; those that are free are in lists by
// size, four lists for each doubling, and two free blocks are never neighbours.

struct block {
  u64 before;           // the size of the block before it, 0 for the first
  u64 size;             // a multiple of 16, its head included; and 1 where it is in use
  struct block *next, *last;    // its neighbours in the list of free blocks
};
enum { HEAD = 16, LEAST = 32, LISTS = 236, PAGE = 65536, STEP = 1 << 20 };

extern u8 __heap_base;
static struct block *lists[LISTS];
static u64 used_lists[(LISTS + 63) / 64];       // a bit for each list that is not empty
static struct block *end;                       // behind the last block; a head alone, always in use

static u64 size_of(const struct block *it) { return it->size & ~1ULL; }
static int is_free(const struct block *it) { return !(it->size & 1); }
static struct block *at(void *place, u64 far) { return (struct block *)((u8 *)place + far); }
static struct block *after(struct block *it) { return at(it, size_of(it)); }
static struct block *head_of(void *place) { return (struct block *)((u8 *)place - HEAD); }

// The list of blocks of this size.
static u32 list_of(u64 size) {
  u32 doubling = 63 - (u32)__builtin_clzll(size);
  return (doubling - 5) * 4 + (u32)(size >> (doubling - 2) & 3);
}
static void unlink_block(struct block *it) {
  u32 list = list_of(it->size);
  if (it->next) it->next->last = it->last;
  if (it->last) it->last->next = it->next;
  else if (!(lists[list] = it->next)) used_lists[list / 64] &= ~(1ULL << list % 64);
}
static void link_block(struct block *it) {
  u32 list = list_of(it->size);
  it->last = 0;
  it->next = lists[list];
  if (it->next) it->next->last = it;
  lists[list] = it;
  used_lists[list / 64] |= 1ULL << list % 64;
}

// Makes a block of what is in no list free, together with its free neighbours.
static void release(struct block *it) {
  u64 size = size_of(it);
  struct block *behind = at(it, size);
  if (is_free(behind)) { unlink_block(behind); size += behind->size; }
  if (it->before) {
    struct block *front = (struct block *)((u8 *)it - it->before);
    if (is_free(front)) { unlink_block(front); size += front->size; it = front; }
  }
  it->size = size;
  at(it, size)->before = size;
  link_block(it);
}
// Cuts a block in use to `size`, and frees the rest where that can be a block.
static void cut(struct block *it, u64 size) {
  u64 whole = size_of(it);
  if (whole - size < LEAST) return;
  struct block *rest = at(it, size);
  it->size = size | 1;
  rest->before = size;
  rest->size = (whole - size) | 1;
  at(rest, whole - size)->before = whole - size;
  release(rest);
}

static int grow_pages(u64 pages) { return __builtin_wasm_memory_grow(0, pages) != ~0UL; }
// Makes room behind the last block for at least `size` more bytes: 1, or 0 where the page has no more memory.
static int grow(u64 size) {
  if (!end) {
    u8 *base = (u8 *)(((u64)&__heap_base + 15) & ~15ULL);
    u64 room = __builtin_wasm_memory_size(0) * PAGE - (u64)base;
    if (room < HEAD + LEAST) {
      if (!grow_pages(1)) return 0;
      room += PAGE;
    }
    struct block *first = (struct block *)base;
    end = at(first, (room - HEAD) & ~15ULL);
    first->before = 0;
    first->size = (u64)((u8 *)end - base) | 1;
    end->before = size_of(first);
    end->size = HEAD | 1;
    release(first);
    return 1;
  }
  u64 least = (size + PAGE - 1) / PAGE, more = size > STEP ? least : STEP / PAGE;
  if (!grow_pages(more)) {
    more = least;
    if (!grow_pages(more)) return 0;
  }
  struct block *new = end;
  new->size = more * PAGE | 1;
  end = at(new, more * PAGE);
  end->before = more * PAGE;
  end->size = HEAD | 1;
  release(new);
  return 1;
}

// The first free block of a list in which each has at least `size` bytes, or 0.
static struct block *fitting(u64 size) {
  u32 doubling = 63 - (u32)__builtin_clzll(size);
  u32 list = list_of(size + (1ULL << (doubling - 2)) - 1);
  for (u32 word = list / 64; word < sizeof used_lists / 8; word++) {
    u64 bits = used_lists[word] & (word == list / 64 ? ~0ULL << list % 64 : ~0ULL);
    if (bits) return lists[word * 64 + (u32)__builtin_ctzll(bits)];
  }
  return 0;
}
// A block in use of at least `size` bytes, its head included, or 0.
static struct block *take(u64 size) {
  struct block *it = fitting(size);
  while (!it) {
    // The last block is as good, once it has grown.
    u64 last = end && end->before ? end->before : 0;
    struct block *tail = last ? (struct block *)((u8 *)end - last) : 0;
    u64 there = tail && is_free(tail) ? last : 0;
    if (there >= size) { it = tail; break; }
    if (!grow(size - there)) return 0;
  }
  unlink_block(it);
  it->size |= 1;
  cut(it, size);
  return it;
}
static u64 whole_size(u64 size) {
  u64 whole = (size + HEAD + 15) & ~15ULL;
  return whole < LEAST ? LEAST : whole;
}

struct answer { u64 given; void *place; };     // 1 and the place, or 0

struct answer rattle_alloc(u64 size, u64 align) {
  struct answer none = {0, 0};
  if (size > 1ULL << 46 || align > 1ULL << 30) return none;
  u64 more = align > 16 ? align + LEAST : 0;
  struct block *it = take(whole_size(size + more));
  if (!it) return none;
  u8 *place = (u8 *)it + HEAD;
  if (more && (u64)place % align) {
    // What lies before the aligned place is a block of its own, and free again.
    u8 *aligned = (u8 *)(((u64)place + LEAST + align - 1) & ~(align - 1));
    u64 skipped = (u64)(aligned - place), whole = size_of(it);
    struct block *behind = at(it, skipped);
    it->size = skipped | 1;
    behind->before = skipped;
    behind->size = (whole - skipped) | 1;
    at(it, whole)->before = whole - skipped;
    release(it);
    it = behind;
    place = aligned;
  }
  if (more) cut(it, whole_size(size));
  return (struct answer){1, place};
}
void rattle_dealloc(void *place) {
  if (place) release(head_of(place));
}
struct answer rattle_realloc(void *place, u64 old, u64 size, u64 align) {
  struct answer none = {0, 0};
  if (size > 1ULL << 46) return none;
  struct block *it = head_of(place), *behind = after(it);
  u64 need = whole_size(size);
  if (need > size_of(it) && is_free(behind) && size_of(it) + behind->size >= need) {
    unlink_block(behind);
    it->size = (size_of(it) + behind->size) | 1;
    after(it)->before = size_of(it);
  }
  if (need <= size_of(it)) {
    cut(it, need);
    return (struct answer){1, place};
  }
  struct answer made = rattle_alloc(size, align);
  if (!made.given) return none;
  __builtin_memcpy(made.place, place, old < size ? old : size);
  rattle_dealloc(place);
  return made;
}
void *malloc(u64 size) { return rattle_alloc(size, 16).place; }
void free(void *place) { rattle_dealloc(place); }

// ---- numbers of 128 bits, which clang leaves to its run-time library

union wide { u128 all; struct { u64 low, high; } part; };

u128 __multi3(u128 a, u128 b) {
  union wide x = {a}, y = {b}, z;
  u64 mask = 0xffffffff, x0 = x.part.low & mask, x1 = x.part.low >> 32, y0 = y.part.low & mask, y1 = y.part.low >> 32;
  u64 least = x0 * y0, mid = x1 * y0 + (least >> 32), other = x0 * y1 + (mid & mask);
  z.part.low = (other << 32) | (least & mask);
  z.part.high = x1 * y1 + (mid >> 32) + (other >> 32) + x.part.high * y.part.low + x.part.low * y.part.high;
  return z.all;
}
u128 __ashlti3(u128 a, int by) {
  union wide x = {a};
  if (by & 64) { x.part.high = x.part.low << (by & 63); x.part.low = 0; }
  else if (by) { x.part.high = x.part.high << by | x.part.low >> (64 - by); x.part.low <<= by; }
  return x.all;
}
u128 __lshrti3(u128 a, int by) {
  union wide x = {a};
  if (by & 64) { x.part.low = x.part.high >> (by & 63); x.part.high = 0; }
  else if (by) { x.part.low = x.part.low >> by | x.part.high << (64 - by); x.part.high >>= by; }
  return x.all;
}
i128 __ashrti3(i128 a, int by) {
  union wide x = {(u128)a};
  u64 sign = (u64)((i64)x.part.high >> 63);
  if (by & 64) { x.part.low = (u64)((i64)x.part.high >> (by & 63)); x.part.high = sign; }
  else if (by) { x.part.low = x.part.low >> by | x.part.high << (64 - by); x.part.high = (u64)((i64)x.part.high >> by); }
  return (i128)x.all;
}
// Of high * 2^64 + low by `b`, which is above high: the quotient, in two digits of 32 bits (Knuth, volume 2, 4.3.1,
// algorithm D); the rest is left in `rest`.
static u64 divide_long(u64 high, u64 low, u64 b, u64 *rest) {
  int shift = __builtin_clzll(b);
  u64 digit = 1ULL << 32, quotient = 0;
  b <<= shift;
  if (shift) high = high << shift | low >> (64 - shift);
  low <<= shift;
  u64 b1 = b >> 32, b0 = b & (digit - 1);
  for (int k = 1; k >= 0; k--) {
    u64 next = k ? low >> 32 : low & (digit - 1), q = high / b1, left = high % b1;
    while (q >= digit || q * b0 > (left << 32 | next)) {
      q -= 1;
      left += b1;
      if (left >= digit) break;
    }
    high = (high << 32 | next) - q * b;
    quotient = quotient << 32 | q;
  }
  *rest = high >> shift;
  return quotient;
}
// Division: by a number of 64 bits in one or two steps, else a bit at a time; the rest is left in `rest`.
static u128 divide(u128 a, u128 b, u128 *rest) {
  union wide x = {a}, y = {b}, quotient = {0}, left = {0};
  if (!y.part.high) {
    quotient.part.high = x.part.high / y.part.low;
    x.part.high %= y.part.low;
    if (x.part.high) quotient.part.low = divide_long(x.part.high, x.part.low, y.part.low, &left.part.low);
    else {
      quotient.part.low = x.part.low / y.part.low;
      left.part.low = x.part.low % y.part.low;
    }
    *rest = left.all;
    return quotient.all;
  }
  int bit = x.part.high ? 127 - __builtin_clzll(x.part.high) : 63 - __builtin_clzll(x.part.low);
  for (; bit >= 0; bit--) {
    left.part.high = left.part.high << 1 | left.part.low >> 63;
    left.part.low = left.part.low << 1 | ((bit > 63 ? x.part.high >> (bit - 64) : x.part.low >> bit) & 1);
    if (left.part.high > y.part.high || (left.part.high == y.part.high && left.part.low >= y.part.low)) {
      left.part.high -= y.part.high + (left.part.low < y.part.low);
      left.part.low -= y.part.low;
      if (bit > 63) quotient.part.high |= 1ULL << (bit - 64); else quotient.part.low |= 1ULL << bit;
    }
  }
  *rest = left.all;
  return quotient.all;
}
u128 __udivti3(u128 a, u128 b) { u128 rest; return divide(a, b, &rest); }
u128 __umodti3(u128 a, u128 b) { u128 rest; divide(a, b, &rest); return rest; }

// ---- the beginning

int program_main(void) __asm__("main");
EXPORT("main") int run_program(void) { return program_main(); }
