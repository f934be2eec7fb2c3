/* Preloaded into the program (LD_PRELOAD): refuses allocations, starts of threads, reads or writes.
 *
 * REFUSED_MEMORY   the number, from 1, of the call of malloc, calloc or realloc that finds no memory, or two, as in 7,9;
 *                  0 or nothing: none
 * REFUSED_THREAD   the number, from 1, of the thread that isn't made, or two; 0 or nothing: none; all: no thread is made
 * REFUSED_READ     the number, from 1, of the read of standard input that fails, or two; 0 or nothing: none
 * REFUSED_WRITE    the number, from 1, of the write to standard output that fails, or two; 0 or nothing: none
 * REFUSED_PIECE    the most bytes of a read or a write of these; 0 or nothing: as many as are asked for
 * REFUSED_TOLD     the number of an open file, at whose start five numbers are written at the end: the allocations that
 *                  were asked for, the threads, the reads and the writes, and the blocks of memory that the program
 *                  didn't give back; nothing: they aren't written
 *
 * Several of these may be given. The program takes memory by malloc and realloc. The C library takes some for each thread by calloc: where that is
 * refused it makes no thread, and what it keeps of it isn't counted among the blocks.
 */
#define _GNU_SOURCE
#include <dlfcn.h>
#include <errno.h>
#include <pthread.h>
#include <stdio.h>
#include <stdlib.h>
#include <string.h>
#include <sys/syscall.h>
#include <unistd.h>

extern void *__libc_malloc(size_t size);
extern void *__libc_calloc(size_t count, size_t size);
extern void *__libc_realloc(void *block, size_t size);
extern void __libc_free(void *block);

enum { KEPT = 1024 };

typedef int create(pthread_t *, const pthread_attr_t *, void *(*)(void *), void *);

typedef struct {
  long first, second;
} numbers;

static numbers refused_memory, refused_thread, refused_read, refused_write;
static long all_threads, piece;
static long allocations, threads, reads, writes, blocks;
static void *kept[KEPT]; /* what was taken by calloc */
static long most_kept;   /* how many places of these were ever used */
static create *real_create;

static numbers numbers_in(const char *name) {
  const char *word = getenv(name);
  const char *comma = word == NULL ? NULL : strchr(word, ',');
  numbers given = {word == NULL ? 0 : atol(word), comma == NULL ? 0 : atol(comma + 1)};
  return given;
}

static int is_among(long number, numbers refused) { return number == refused.first || number == refused.second; }

__attribute__((constructor)) static void start(void) {
  const char *word = getenv("REFUSED_THREAD");
  real_create = (create *)dlsym(RTLD_NEXT, "pthread_create");
  all_threads = word != NULL && strcmp(word, "all") == 0;
  refused_thread = numbers_in("REFUSED_THREAD");
  refused_memory = numbers_in("REFUSED_MEMORY");
  refused_read = numbers_in("REFUSED_READ");
  refused_write = numbers_in("REFUSED_WRITE");
  piece = numbers_in("REFUSED_PIECE").first;
  __atomic_store_n(&allocations, 0, __ATOMIC_SEQ_CST);
  __atomic_store_n(&blocks, 0, __ATOMIC_SEQ_CST);
}

static int is_refused(void) {
  long number = __atomic_add_fetch(&allocations, 1, __ATOMIC_SEQ_CST);
  if (!is_among(number, refused_memory))
    return 0;
  errno = ENOMEM;
  return 1;
}

static void *counted(void *block) {
  if (block != NULL)
    __atomic_add_fetch(&blocks, 1, __ATOMIC_SEQ_CST);
  return block;
}

void *malloc(size_t size) { return is_refused() ? NULL : counted(__libc_malloc(size)); }

static void keep(void *block) {
  for (long i = 0; i < KEPT; i++) {
    void *none = NULL;
    if (__atomic_compare_exchange_n(&kept[i], &none, block, 0, __ATOMIC_SEQ_CST, __ATOMIC_SEQ_CST)) {
      long most = __atomic_load_n(&most_kept, __ATOMIC_SEQ_CST);
      while (most <= i && !__atomic_compare_exchange_n(&most_kept, &most, i + 1, 0, __ATOMIC_SEQ_CST, __ATOMIC_SEQ_CST))
        ;
      return;
    }
  }
  abort();
}

static int is_let_go(void *block) {
  long most = __atomic_load_n(&most_kept, __ATOMIC_SEQ_CST);
  for (long i = 0; i < most; i++)
    if (__atomic_load_n(&kept[i], __ATOMIC_SEQ_CST) == block) {
      __atomic_store_n(&kept[i], NULL, __ATOMIC_SEQ_CST);
      return 1;
    }
  return 0;
}

void *calloc(size_t count, size_t size) {
  void *block = is_refused() ? NULL : __libc_calloc(count, size);
  if (block != NULL)
    keep(block);
  return block;
}

void *realloc(void *block, size_t size) {
  if (is_refused())
    return NULL;
  return block == NULL ? counted(__libc_realloc(block, size)) : __libc_realloc(block, size);
}

void free(void *block) {
  if (block != NULL && !is_let_go(block))
    __atomic_sub_fetch(&blocks, 1, __ATOMIC_SEQ_CST);
  __libc_free(block);
}

int pthread_create(pthread_t *thread, const pthread_attr_t *how, void *(*work)(void *), void *on) {
  long number = __atomic_add_fetch(&threads, 1, __ATOMIC_SEQ_CST);
  return all_threads || is_among(number, refused_thread) ? EAGAIN : real_create(thread, how, work, on);
}

/* How many bytes a call moves, or none where it is refused. */
static size_t granted(long number, numbers refused, size_t count) {
  errno = EIO;
  return is_among(number, refused) ? 0 : piece > 0 && count > (size_t)piece ? (size_t)piece : count;
}

ssize_t read(int file, void *into, size_t count) {
  size_t most = file == 0 ? granted(++reads, refused_read, count) : count;
  return most == 0 && count > 0 ? -1 : syscall(SYS_read, file, into, most);
}

ssize_t write(int file, const void *from, size_t count) {
  size_t most = file == 1 ? granted(++writes, refused_write, count) : count;
  return most == 0 && count > 0 ? -1 : syscall(SYS_write, file, from, most);
}

__attribute__((destructor)) static void tell(void) {
  const char *file = getenv("REFUSED_TOLD");
  char line[160];
  int length = snprintf(line, sizeof line, "%ld %ld %ld %ld %ld\n", allocations, threads, reads, writes, blocks);
  if (file != NULL && pwrite(atoi(file), line, length, 0) != length)
    abort();
}

void _exit(int status) {
  tell();
  syscall(SYS_exit_group, status);
  __builtin_unreachable();
}
