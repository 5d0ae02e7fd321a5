/* Loaded before a program, this makes the program's own calls of the allocator, of pthread_create, of read on
   standard input and of write on standard output fail or come in pieces. Calls that the C library makes for itself
   are left alone. bench/faults compiles it and says in the environment what is to be done:

     FAULTS_TELL   a file of five 64-bit numbers: how many calls of each kind there were, and how many of them failed
     FAULTS_REST   a file that takes the bytes that a failing write was handed
     FAULTS_CALL   the kind of call that fails: alloc, thread, read or write
     FAULTS_AT     which call of this kind fails, counted from 1; 0 for none
     FAULTS_ON     1 where all calls from there on fail
     FAULTS_ERROR  the error number; 0: the call answers 0 in place of an error
     FAULTS_PIECE  the most bytes that a read gives or a write takes; 0 for as many as were asked */
#define _GNU_SOURCE
#include <dlfcn.h>
#include <errno.h>
#include <fcntl.h>
#include <link.h>
#include <pthread.h>
#include <stdint.h>
#include <stdlib.h>
#include <string.h>
#include <sys/mman.h>
#include <unistd.h>

enum kind { ALLOC, THREAD, READ, WRITE, KINDS };

static const char *const names[KINDS] = {"alloc", "thread", "read", "write"};
static uint64_t nowhere[KINDS + 1];
static uint64_t *calls = nowhere; /* of each kind; behind them, how many failed */
static int failing = KINDS, on, error, rest = -1;
static uint64_t at, piece;
static uintptr_t first, end; /* where the program's own code lies */

extern void *__libc_malloc(size_t);
extern void *__libc_calloc(size_t, size_t);
extern void *__libc_realloc(void *, size_t);

static int program(struct dl_phdr_info *object, size_t size, void *unused) {
  (void)size, (void)unused;
  first = UINTPTR_MAX;
  for (int i = 0; i < object->dlpi_phnum; i++) {
    const ElfW(Phdr) *part = &object->dlpi_phdr[i];
    uintptr_t begin = object->dlpi_addr + part->p_vaddr;
    if (part->p_type != PT_LOAD) continue;
    if (begin < first) first = begin;
    if (begin + part->p_memsz > end) end = begin + part->p_memsz;
  }
  return 1; /* The first object is the program. */
}

static uint64_t number(const char *name) {
  const char *text = getenv(name);
  return text ? strtoull(text, NULL, 10) : 0;
}

__attribute__((constructor)) static void begin(void) {
  const char *tell = getenv("FAULTS_TELL"), *left = getenv("FAULTS_REST"), *call = getenv("FAULTS_CALL");
  int file = tell ? open(tell, O_RDWR | O_CLOEXEC) : -1;
  if (file < 0) return;
  void *told = mmap(NULL, sizeof nowhere, PROT_READ | PROT_WRITE, MAP_SHARED, file, 0);
  if (told == MAP_FAILED) return;
  if (left) rest = open(left, O_WRONLY | O_APPEND | O_CLOEXEC);
  for (int kind = 0; call && kind < KINDS; kind++)
    if (!strcmp(call, names[kind])) failing = kind;
  at = number("FAULTS_AT");
  on = number("FAULTS_ON");
  error = number("FAULTS_ERROR");
  piece = number("FAULTS_PIECE");
  dl_iterate_phdr(program, NULL);
  calls = told; /* From here on calls are counted. */
}

/* Counts a call, and says whether it fails. */
static int fails(enum kind kind) {
  uint64_t now = __atomic_add_fetch(&calls[kind], 1, __ATOMIC_RELAXED);
  if ((int)kind != failing || at == 0 || (on ? now < at : now != at)) return 0;
  __atomic_add_fetch(&calls[KINDS], 1, __ATOMIC_RELAXED);
  return 1;
}

static int is_own(void *caller) { return (uintptr_t)caller - first < end - first; }

#define OWN is_own(__builtin_return_address(0))

void *malloc(size_t size) {
  if (OWN && fails(ALLOC)) return errno = ENOMEM, NULL;
  return __libc_malloc(size);
}

void *calloc(size_t count, size_t size) {
  if (OWN && fails(ALLOC)) return errno = ENOMEM, NULL;
  return __libc_calloc(count, size);
}

void *realloc(void *block, size_t size) {
  if (OWN && fails(ALLOC)) return errno = ENOMEM, NULL;
  return __libc_realloc(block, size);
}

int pthread_create(pthread_t *thread, const pthread_attr_t *how, void *(*run)(void *), void *with) {
  static int (*create)(pthread_t *, const pthread_attr_t *, void *(*)(void *), void *);
  if (OWN && fails(THREAD)) return EAGAIN;
  if (!create) *(void **)&create = dlsym(RTLD_NEXT, "pthread_create");
  return create(thread, how, run, with);
}

ssize_t read(int file, void *into, size_t size) {
  static ssize_t (*real)(int, void *, size_t);
  if (!real) *(void **)&real = dlsym(RTLD_NEXT, "read");
  if (file == STDIN_FILENO && OWN) {
    if (fails(READ)) return error ? (errno = error, -1) : 0;
    if (piece && size > piece) size = piece;
  }
  return real(file, into, size);
}

ssize_t write(int file, const void *from, size_t size) {
  static ssize_t (*real)(int, const void *, size_t);
  if (!real) *(void **)&real = dlsym(RTLD_NEXT, "write");
  if (file == STDOUT_FILENO && OWN) {
    if (fails(WRITE)) {
      if (rest >= 0) real(rest, from, size);
      return error ? (errno = error, -1) : 0;
    }
    if (piece && size > piece) size = piece;
  }
  return real(file, from, size);
}
