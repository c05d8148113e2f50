/* Refuses one request for memory of a program, or fails one of its reads at an offset (pread): a library to be loaded
 * before the C library (LD_PRELOAD).
 *
 * A proved program takes all its memory by malloc and realloc. The request of the number REFUSE, counted from 1,
 * is answered by a null pointer; without REFUSE none is. With REFUSE_MARKED only requests between a write of "+"
 * alone to standard error and one of "-" alone are counted, and those two writes aren't made.
 *
 * The read of the number REFUSE_READ, counted from 1, fails with EIO; without it none does.
 *
 * The descriptor REFUSE_REPORT gets, of the request that was refused, how many bytes were asked for and the return
 * addresses in the program, innermost first, as offsets in its file; and at the end in how many spans requests were
 * counted, 1 without REFUSE_MARKED, and how many there were; then how many reads there were.
 */
#define _GNU_SOURCE
#include <dlfcn.h>
#include <errno.h>
#include <link.h>
#include <stdint.h>
#include <stdio.h>
#include <stdlib.h>
#include <unistd.h>

enum { LEVELS = 32 };

static void *(*real_malloc)(size_t);
static void *(*real_realloc)(void *, size_t);
static ssize_t (*real_write)(int, const void *, size_t);
static ssize_t (*real_pread)(int, void *, size_t, off_t);
static long count, spans, refused = -1, reads, failing = -1;
static int report = -1, is_marked, is_counting = 1;
static uintptr_t base;

static int find_base(struct dl_phdr_info *info, size_t size, void *data) {
  (void)size, (void)data;
  base = info->dlpi_addr; /* the first one is the program */
  return 1;
}

__attribute__((constructor)) static void begin(void) {
  const char *number = getenv("REFUSE"), *read = getenv("REFUSE_READ"), *to = getenv("REFUSE_REPORT");
  real_malloc = (void *(*)(size_t))dlsym(RTLD_NEXT, "malloc");
  real_realloc = (void *(*)(void *, size_t))dlsym(RTLD_NEXT, "realloc");
  real_write = (ssize_t(*)(int, const void *, size_t))dlsym(RTLD_NEXT, "write");
  real_pread = (ssize_t(*)(int, void *, size_t, off_t))dlsym(RTLD_NEXT, "pread");
  dl_iterate_phdr(find_base, NULL);
  if (read) failing = atol(read);
  if (number) refused = atol(number);
  if (to) report = atoi(to);
  is_marked = getenv("REFUSE_MARKED") != NULL;
  is_counting = !is_marked;
  spans = is_counting;
  count = 0;
}

__attribute__((destructor)) static void end(void) { dprintf(report, "requests %ld %ld\nreads %ld\n", spans, count, reads); }

/* Tells of the refused request. The frames are followed by their base pointers, upward only. */
static void tell(size_t size, void *frame) {
  char line[64 + LEVELS * 20];
  int length = snprintf(line, sizeof line, "refused %zu", size);
  uintptr_t *at = frame;
  for (int level = 0; level < LEVELS; level++) {
    uintptr_t *above = (uintptr_t *)at[0];
    length += snprintf(line + length, sizeof line - length, " %zx", (size_t)(at[1] - base));
    if (above <= at || above > at + (1 << 20)) break;
    at = above;
  }
  line[length++] = '\n';
  real_write(report, line, length);
}

static int is_refused(size_t size, void *frame) {
  if (!is_counting || ++count != refused) return 0;
  tell(size, frame);
  return 1;
}

void *malloc(size_t size) {
  if (!real_malloc) begin();
  return is_refused(size, __builtin_frame_address(0)) ? NULL : real_malloc(size);
}

void *realloc(void *block, size_t size) {
  if (!real_realloc) begin();
  return is_refused(size, __builtin_frame_address(0)) ? NULL : real_realloc(block, size);
}

ssize_t write(int file, const void *bytes, size_t length) {
  char first = length == 1 ? *(const char *)bytes : 0;
  if (!real_write) begin();
  if (is_marked && file == STDERR_FILENO && (first == '+' || first == '-')) {
    is_counting = first == '+';
    spans += is_counting;
    return 1;
  }
  return real_write(file, bytes, length);
}

ssize_t pread(int file, void *bytes, size_t length, off_t offset) {
  if (!real_pread) begin();
  if (++reads == failing) {
    errno = EIO;
    return -1;
  }
  return real_pread(file, bytes, length, offset);
}

ssize_t pread64(int file, void *bytes, size_t length, off_t offset) { return pread(file, bytes, length, offset); }
