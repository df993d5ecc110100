/* uqbt.h: what a C text that uqbt writes needs around it.

   The text includes this file first and defines uq_machine, uq_seg_0, uq_seg_1, .., uq_segs, its functions and uq_main. This file has the
   memory of the machine, its services, its stops, and main. Compile the text alone, with this file where the compiler looks for headers:

     gcc -std=c99 -O2 -I FOLDER text.c -o text

   gcc and clang, -std=c99 and newer, -O0 to -O3, on a system with POSIX. The program reads its standard input whole before it begins, and
   ends as `uqbt run` does: with the line `uqbt: ran STOP` on standard error, and the status of that stop. */
#ifndef UQBT_H
#define UQBT_H

/* -std=c99 hides what POSIX and the C library add. */
#ifndef _DEFAULT_SOURCE
#define _DEFAULT_SOURCE 1
#endif
#ifndef _XOPEN_SOURCE
#define _XOPEN_SOURCE 700
#endif

#include <signal.h>
#include <stdio.h>
#include <stdlib.h>
#include <string.h>
#include <sys/mman.h>
#include <ucontext.h>

/* What the form of a text can't avoid: a variable, a parameter or a label that is not used, parentheses, a call of itself without end. */
#ifdef __clang__
#pragma GCC diagnostic ignored "-Wunknown-warning-option"
#pragma GCC diagnostic ignored "-Wparentheses-equality"
#pragma GCC diagnostic ignored "-Wself-assign"
#pragma GCC diagnostic ignored "-Wsometimes-uninitialized"
#pragma GCC diagnostic ignored "-Wtautological-compare"
#pragma GCC diagnostic ignored "-Wxor-used-as-pow"
#else
#pragma GCC diagnostic ignored "-Wpragmas"
#pragma GCC diagnostic ignored "-Wmaybe-uninitialized"
#pragma GCC diagnostic ignored "-Wmisleading-indentation"
#endif
#pragma GCC diagnostic ignored "-Wunused-variable"
#pragma GCC diagnostic ignored "-Wunused-parameter"
#pragma GCC diagnostic ignored "-Wunused-label"
#pragma GCC diagnostic ignored "-Wunused-function"
#pragma GCC diagnostic ignored "-Wunused-but-set-variable"
#pragma GCC diagnostic ignored "-Wunused-but-set-parameter"
#pragma GCC diagnostic ignored "-Winfinite-recursion"
#pragma GCC diagnostic ignored "-Wtype-limits"
#pragma GCC diagnostic ignored "-Warray-bounds"

typedef unsigned char u8;
typedef unsigned long long u64;

/* ---- What the text defines */

/* order (1: the first byte is the highest), whether addresses must be multiples of the size, base and size of heap and stack, the numbers
   of the services exit, read, write, brk and of the errors fault, descriptor, unknown, and whether an error has a flag of its own */
extern const u64 uq_machine[14];
#define UQ_BIG uq_machine[0]
#define UQ_ALIGNS uq_machine[1]
#define UQ_HEAP_BASE uq_machine[2]
#define UQ_HEAP_SIZE uq_machine[3]
#define UQ_STACK_BASE uq_machine[4]
#define UQ_STACK_SIZE uq_machine[5]
#define UQ_EXIT uq_machine[6]
#define UQ_READ uq_machine[7]
#define UQ_WRITE uq_machine[8]
#define UQ_BRK uq_machine[9]
#define UQ_FAULT uq_machine[10]
#define UQ_DESCRIPTOR uq_machine[11]
#define UQ_UNKNOWN uq_machine[12]
#define UQ_CARRY uq_machine[13]

/* base, whether it may be written, length in the file, length in memory, of each segment */
extern const u64 uq_segs[];

void uq_main(void);

/* The bytes of each segment. A text defines those that it has; the others are weak and so at no address. */
#define UQ_NAMES1(m, a) m(a##0) m(a##1) m(a##2) m(a##3) m(a##4) m(a##5) m(a##6) m(a##7) m(a##8) m(a##9)
#define UQ_NAMES10(m, a) UQ_NAMES1(m, a##1) UQ_NAMES1(m, a##2) UQ_NAMES1(m, a##3) UQ_NAMES1(m, a##4) UQ_NAMES1(m, a##5) \
  UQ_NAMES1(m, a##6) UQ_NAMES1(m, a##7) UQ_NAMES1(m, a##8) UQ_NAMES1(m, a##9)
#define UQ_NAMES(m) UQ_NAMES1(m, uq_seg_) UQ_NAMES10(m, uq_seg_) UQ_NAMES1(m, uq_seg_10) UQ_NAMES10(m, uq_seg_1) \
  UQ_NAMES1(m, uq_seg_20) UQ_NAMES1(m, uq_seg_21) UQ_NAMES1(m, uq_seg_22) UQ_NAMES1(m, uq_seg_23) UQ_NAMES1(m, uq_seg_24) \
  m(uq_seg_250) m(uq_seg_251) m(uq_seg_252) m(uq_seg_253) m(uq_seg_254) m(uq_seg_255) m(uq_seg_256)
#define UQ_DECLARED(name) extern const u8 name[] __attribute__((weak));
#define UQ_LISTED(name) name,
UQ_NAMES(UQ_DECLARED)

/* ---- The globals of a text: results of procedures, saved windows, open calls, the answer of a service */

#define UQ_RESULTS(a) static u64 q##a##0, q##a##1, q##a##2, q##a##3, q##a##4, q##a##5, q##a##6, q##a##7, q##a##8, q##a##9;
UQ_RESULTS() UQ_RESULTS(1) UQ_RESULTS(2) UQ_RESULTS(3) UQ_RESULTS(4) UQ_RESULTS(5) UQ_RESULTS(6) UQ_RESULTS(7) UQ_RESULTS(8)
UQ_RESULTS(9) UQ_RESULTS(10) UQ_RESULTS(11)
static u64 uq_wn, uq_w[1048576], uq_depth, uq_r, uq_e;

/* ---- The end of a run: a line on standard error, and a status */

#define UQ_SLOW __attribute__((noinline, cold))
#define UQ_LAST __attribute__((noinline, cold, noreturn))

UQ_LAST static void uq_leave(int status, const char *answer)
{
  fprintf(stderr, "uqbt: %s\n", answer);
  exit(status);
}

/* Stops are numbered from 0, as their words stand here. Any number over 11 is one that no text of uqbt has. */
UQ_LAST static void uq_end(u64 number, u64 value)
{
  static const char *const words[13] = {
    "exit", "illegal", "memory", "misaligned", "divide", "trap", "window-full", "window-empty", "undiscovered", "return-mismatch",
    "call-depth", "couple", "undefined",
  };
  unsigned stop = number < 12 ? (unsigned)number : 12;
  unsigned told = (unsigned)(value & 0xFFFFFFFF);
  char answer[48];
  switch (stop) {
  case 6: case 7: case 10:
    snprintf(answer, sizeof answer, "ran %s", words[stop]);
    break;
  case 0: case 5: case 12:
    snprintf(answer, sizeof answer, "ran %s %u", words[stop], told);
    break;
  default:
    snprintf(answer, sizeof answer, "ran %s 0x%08X", words[stop], told);
  }
  uq_leave(stop == 0 ? (int)(told & 0xFF) : (int)(32 + stop), answer);
}

UQ_SLOW static void uq_stop(u64 number, u64 value) { uq_end(number, value); }

/* ---- Memory: the segments one behind the other, the heap, the stack. Zeros that are never touched take no memory. */

#define UQ_ROUND(length) (((length) + 7) & ~7ull)
static u8 uq_image[16777216 + 8 * 256], uq_heap[16777216], uq_stack[8388608];

/* The areas: segments in their order, then heap and stack. uq_page has 1 + the least number of an area that lies on a page of 4,096 bytes. */
static struct uq_area {
  u64 base, length;
  u8 *bytes;
  int write;
} uq_areas[258];
static unsigned uq_count;
static unsigned short uq_page[1048576];

static void uq_area_add(u64 base, u64 length, u8 *bytes, int write)
{
  struct uq_area *area = &uq_areas[uq_count++];
  if (base + length > 0x100000000)
    uq_leave(71, "an area past 2^32");
  area->base = base;
  area->length = length;
  area->bytes = bytes;
  area->write = write;
  if (length != 0)
    for (u64 page = base >> 12; page <= (base + length - 1) >> 12; page++)
      if (uq_page[page] == 0)
        uq_page[page] = (unsigned short)uq_count;
}

/* The place of one byte, or NULL where none is mapped, or none that may be written. */
static u8 *uq_byte(u64 a, int write)
{
  for (unsigned k = 0; k < uq_count; k++) {
    struct uq_area *area = &uq_areas[k];
    if (a - area->base < area->length)
      return area->write || !write ? area->bytes + (a - area->base) : NULL;
  }
  return NULL;
}

/* A number at a place, in the byte order of the machine; memcpy, since the place is aligned to nothing. */
#ifdef __OPTIMIZE__
#define UQ_FAST static inline __attribute__((always_inline))
#else
#define UQ_FAST static
#endif
#define UQ_SWAPS (UQ_BIG != (__BYTE_ORDER__ == __ORDER_BIG_ENDIAN__))

UQ_FAST u64 uq_get(u64 size, const u8 *place)
{
  unsigned short two;
  unsigned four;
  u64 eight;
  switch (size) {
  case 1:
    return *place;
  case 2:
    memcpy(&two, place, 2);
    return UQ_SWAPS ? __builtin_bswap16(two) : two;
  case 4:
    memcpy(&four, place, 4);
    return UQ_SWAPS ? __builtin_bswap32(four) : four;
  default:
    memcpy(&eight, place, 8);
    return UQ_SWAPS ? __builtin_bswap64(eight) : eight;
  }
}

UQ_FAST void uq_put(u64 size, u8 *place, u64 value)
{
  unsigned short two = (unsigned short)value;
  unsigned four = (unsigned)value;
  switch (size) {
  case 1:
    *place = (u8)value;
    break;
  case 2:
    two = UQ_SWAPS ? __builtin_bswap16(two) : two;
    memcpy(place, &two, 2);
    break;
  case 4:
    four = UQ_SWAPS ? __builtin_bswap32(four) : four;
    memcpy(place, &four, 4);
    break;
  default:
    value = UQ_SWAPS ? __builtin_bswap64(value) : value;
    memcpy(place, &value, 8);
  }
}

/* The slowest way: byte by byte, for what lies over two areas, and for what stops the machine. */
UQ_SLOW static void uq_check(u64 size, u64 a, int write, u8 **places)
{
  if (UQ_ALIGNS && a % size != 0)
    uq_end(3, a);
  for (u64 i = 0; i < size; i++) {
    places[i] = a < 0x100000000 ? uq_byte(a + i, write) : NULL;
    if (places[i] == NULL)
      uq_end(2, a + i);
  }
}

UQ_SLOW static u64 uq_load_bytes(u64 size, u64 a)
{
  u8 *places[8], bytes[8];
  uq_check(size, a, 0, places);
  for (u64 i = 0; i < size; i++)
    bytes[i] = *places[i];
  return uq_get(size, bytes);
}

UQ_SLOW static void uq_store_bytes(u64 size, u64 a, u64 value)
{
  u8 *places[8], bytes[8];
  uq_check(size, a, 1, places);
  uq_put(size, bytes, value);
  for (u64 i = 0; i < size; i++)
    *places[i] = bytes[i];
}

/* The slow way: by the page. */
UQ_FAST u8 *uq_on_page(u64 size, u64 a, int write)
{
  unsigned k = a < 0x100000000 ? uq_page[a >> 12] : 0;
  if (k == 0 || (UQ_ALIGNS && a % size != 0))
    return NULL;
  struct uq_area *area = &uq_areas[k - 1];
  if (a - area->base >= area->length || area->length - (a - area->base) < size || (write && !area->write))
    return NULL;
  return area->bytes + (a - area->base);
}

static __attribute__((noinline)) u64 uq_load_page(u64 size, u64 a)
{
  const u8 *place = uq_on_page(size, a, 0);
  return place != NULL ? uq_get(size, place) : uq_load_bytes(size, a);
}

static __attribute__((noinline)) void uq_store_page(u64 size, u64 a, u64 value)
{
  u8 *place = uq_on_page(size, a, 1);
  if (place != NULL)
    uq_put(size, place, value);
  else
    uq_store_bytes(size, a, value);
}

/* The fast way: by ranges that are constants, since uq_machine and uq_segs are. It serves the first segment that may be written, the stack,
   the heap and the first segment that may not, of the first five. How long uq_segs is, __builtin_object_size knows once the text is read;
   where it does not, segments are served by the page. */
#define UQ_HAS(k) (__builtin_object_size(uq_segs, 0) != (size_t)-1 && __builtin_object_size(uq_segs, 0) >= 32 * (k) + 32)
#define UQ_IS(k, write) (UQ_HAS(k) && uq_segs[4 * (k) + 3] != 0 && (uq_segs[4 * (k) + 1] != 0) == (write))
#define UQ_FIRST(write) \
  (UQ_IS(0, write) ? 0 : UQ_IS(1, write) ? 1 : UQ_IS(2, write) ? 2 : UQ_IS(3, write) ? 3 : UQ_IS(4, write) ? 4 : -1)
#define UQ_BASE(k) ((k) < 0 ? 0 : uq_segs[4 * (k)])
#define UQ_LENGTH(k) ((k) < 0 ? 0 : uq_segs[4 * (k) + 3])
#define UQ_ROOM(j, k) ((j) < (k) ? UQ_ROUND(uq_segs[4 * (j) + 3]) : 0)
#define UQ_PLACE(k) (uq_image + UQ_ROOM(0, k) + UQ_ROOM(1, k) + UQ_ROOM(2, k) + UQ_ROOM(3, k))

/* Whether an access lies in a range: one comparison. Where addresses have to be aligned, a rotation brings the bits that must be 0 to the
   top, where they make the number too large. */
UQ_FAST int uq_within(u64 base, u64 length, u64 size, u64 a)
{
  u64 at = a - base;
  if (UQ_ALIGNS && size > 1 && base % size == 0) {
    unsigned bits = size == 2 ? 1 : size == 4 ? 2 : 3;
    return (at >> bits | at << (64 - bits)) < length / size;
  }
  return length >= size && at < length - (size - 1) && !(UQ_ALIGNS && a % size != 0);
}

UQ_FAST u64 uq_load(u64 size, u64 a)
{
#ifdef __OPTIMIZE__
  int data = UQ_FIRST(1), text = UQ_FIRST(0);
  if (__builtin_expect(uq_within(UQ_BASE(data), UQ_LENGTH(data), size, a), 1))
    return uq_get(size, UQ_PLACE(data) + (a - UQ_BASE(data)));
  if (__builtin_expect(uq_within(UQ_STACK_BASE, UQ_STACK_SIZE, size, a), 1))
    return uq_get(size, uq_stack + (a - UQ_STACK_BASE));
  if (__builtin_expect(uq_within(UQ_HEAP_BASE, UQ_HEAP_SIZE, size, a), 1))
    return uq_get(size, uq_heap + (a - UQ_HEAP_BASE));
  if (__builtin_expect(uq_within(UQ_BASE(text), UQ_LENGTH(text), size, a), 1))
    return uq_get(size, UQ_PLACE(text) + (a - UQ_BASE(text)));
#endif
  return uq_load_page(size, a);
}

UQ_FAST void uq_store(u64 size, u64 a, u64 value)
{
#ifdef __OPTIMIZE__
  int data = UQ_FIRST(1);
  if (__builtin_expect(uq_within(UQ_BASE(data), UQ_LENGTH(data), size, a), 1))
    uq_put(size, UQ_PLACE(data) + (a - UQ_BASE(data)), value);
  else if (__builtin_expect(uq_within(UQ_STACK_BASE, UQ_STACK_SIZE, size, a), 1))
    uq_put(size, uq_stack + (a - UQ_STACK_BASE), value);
  else if (__builtin_expect(uq_within(UQ_HEAP_BASE, UQ_HEAP_SIZE, size, a), 1))
    uq_put(size, uq_heap + (a - UQ_HEAP_BASE), value);
  else
#endif
    uq_store_page(size, a, value);
}

/* ---- Services */

#define UQ_INPUT 16777216
static u8 uq_input[UQ_INPUT + 1];
static size_t uq_taken, uq_left;
static u64 uq_break;

static int uq_range(u64 a, u64 length, int write)
{
  for (u64 i = 0; i < length; i++)
    if (uq_byte(a + i, write) == NULL)
      return 0;
  return 1;
}

static void uq_answer(u64 error, u64 value)
{
  uq_e = error;
  uq_r = (error && !UQ_CARRY ? 0 - value : value) & 0xFFFFFFFF;
}

static __attribute__((noinline)) void uq_serve(u64 number, u64 x, u64 y, u64 z)
{
  number &= 0xFFFFFFFF, x &= 0xFFFFFFFF, y &= 0xFFFFFFFF, z &= 0xFFFFFFFF;
  if (number == UQ_EXIT)
    uq_end(0, x);
  if (number == UQ_READ) {
    u64 length = z < uq_left ? z : uq_left;
    if (x != 0)
      uq_answer(1, UQ_DESCRIPTOR);
    else if (!uq_range(y, length, 1))
      uq_answer(1, UQ_FAULT);
    else {
      for (u64 i = 0; i < length; i++)
        *uq_byte(y + i, 1) = uq_input[uq_taken + i];
      uq_taken += length;
      uq_left -= length;
      uq_answer(0, length);
    }
  } else if (number == UQ_WRITE) {
    static u8 piece[65536];
    u64 length = z < sizeof piece ? z : sizeof piece;
    if (x != 1 && x != 2)
      uq_answer(1, UQ_DESCRIPTOR);
    else if (!uq_range(y, length, 0))
      uq_answer(1, UQ_FAULT);
    else {
      for (u64 i = 0; i < length; i++)
        piece[i] = *uq_byte(y + i, 0);
      if (fwrite(piece, 1, length, stdout) != length || fflush(stdout) != 0)
        uq_leave(73, "write-fault");
      uq_answer(0, length);
    }
  } else if (number == UQ_BRK) {
    if (x >= UQ_HEAP_BASE && x <= UQ_HEAP_BASE + UQ_HEAP_SIZE)
      uq_break = x;
    uq_answer(0, uq_break);
  } else
    uq_answer(1, UQ_UNKNOWN);
}

/* ---- The beginning */

static void uq_build(void)
{
  static const u8 *const pieces[] = {UQ_NAMES(UQ_LISTED)};
  u64 used = 0;
  unsigned segments = 0;
  while (segments < 257 && pieces[segments] != NULL)
    segments++;
  if (segments == 257)
    uq_leave(71, "more than 256 segments");
  for (unsigned k = 0; k < segments; k++) {
    u64 file = uq_segs[4 * k + 2], length = uq_segs[4 * k + 3];
    if (file > length || length > sizeof uq_image - used)
      uq_leave(71, "segments of more than 16 MiB");
    memcpy(uq_image + used, pieces[k], (size_t)file);
    uq_area_add(uq_segs[4 * k], length, uq_image + used, uq_segs[4 * k + 1] != 0);
    used += UQ_ROUND(length);
  }
  if (UQ_HEAP_SIZE > sizeof uq_heap || UQ_STACK_SIZE > sizeof uq_stack)
    uq_leave(71, "a heap of more than 16 MiB, or a stack of more than 8");
  uq_area_add(UQ_HEAP_BASE, UQ_HEAP_SIZE, uq_heap, 1);
  uq_area_add(UQ_STACK_BASE, UQ_STACK_SIZE, uq_stack, 1);
  uq_break = UQ_HEAP_BASE;
}

static void uq_input_read(void)
{
  uq_left = fread(uq_input, 1, sizeof uq_input, stdin);
  if (uq_left > UQ_INPUT)
    uq_leave(68, "input-too-long");
  if (ferror(stdin))
    uq_leave(74, "read-fault");
}

/* Calls of a text nest 65,536 deep at most, and a frame has some KB where nothing is optimised. So uq_main has a stack of its own: 4 GiB, of
   which only what is touched takes memory, or the half of it, and so on, that the system grants. */
static void uq_stack_made(ucontext_t *context)
{
  size_t room = (size_t)1 << (sizeof room > 4 ? 32 : 30);
  void *stack;
  while ((stack = mmap(NULL, room, PROT_READ | PROT_WRITE, MAP_PRIVATE | MAP_ANONYMOUS | MAP_NORESERVE, -1, 0)) == MAP_FAILED)
    if ((room /= 2) < 1048576)
      uq_leave(71, "no-memory");
  context->uc_stack.ss_sp = stack;
  context->uc_stack.ss_size = room;
}

int main(void)
{
  static ucontext_t here, there;
  uq_build();
  uq_input_read();
  signal(SIGPIPE, SIG_IGN); /* a pipe that nobody reads is a write fault */
  if (getcontext(&there) != 0)
    uq_leave(71, "no-memory");
  uq_stack_made(&there);
  there.uc_link = &here;
  makecontext(&there, uq_main, 0);
  if (swapcontext(&here, &there) != 0)
    uq_leave(71, "no-memory");
  uq_end(12, 0); /* the first function returned, which no text of uqbt does */
}

#endif
