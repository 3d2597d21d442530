// Stands before the C library's calls where the loader is told to load it first (LD_PRELOAD), and lets some of them
// fail, as words of the environment say. REFUSED=N refuses the N-th request for memory, and REFUSED_FROM=N it and each
// later one. NARROW=N has each read and write move at most N bytes, where N is not 0. FAILED_READ=N and FAILED_WRITE=N
// let the N-th read of standard input or write to standard output fail, with the error of the number ERROR where there
// is one; ENDED_READ=N lets the input end there, and FULL_WRITE=N has the N-th write take nothing. FAILED_CALL=N lets
// the N-th call on another file fail, that by which it is opened among them, and FULL_CALL=N has the N-th write there
// take nothing. Each such failure is marked by a byte in file 3: of memory, a read, a write or a call on another file;
// where the memory is for a thread, by one more in front, and on another file by one that says which call it is.
typedef unsigned long size_t;

extern void *__libc_malloc(size_t size);
extern void *__libc_calloc(size_t count, size_t size);
extern void *__libc_realloc(void *block, size_t size);
extern char *getenv(const char *name);
extern long syscall(long number, ...);
extern int *__errno_location(void);
extern void *dlsym(void *handle, const char *name);

enum { READ = 0, WRITE = 1, PREAD = 17, FLOCK = 73, FSYNC = 74, FDATASYNC = 75, FTRUNCATE = 77, OPENAT = 257, STATX = 332 };
enum { INPUT = 0, OUTPUT = 1, ERRORS = 2, MARKS = 3, IO_ERROR = 5, NO_MEMORY = 12 };

// What was counted so far: of reads and writes, those of the standard streams, of calls those on other files.
static long requests, reads, writes, calls, calls_to_write;

// The place in the program that made the first request, which is where its allocator asks for memory.
static void *allocator;

// Whether this thread is starting another one.
static _Thread_local int is_starting __attribute__((tls_model("initial-exec")));

// The number that the environment has under a name, or 0.
static long number_of(const char *name) {
  const char *text = getenv(name);
  long number = 0;
  while (text && *text >= '0' && *text <= '9') number = 10 * number + (*text++ - '0');
  return number;
}

// The call fails with this error, and this is its mark.
static long fail(int error, const char *mark) {
  syscall(WRITE, MARKS, mark, 1);
  *__errno_location() = error;
  return -1;
}

static long one_more(long *count) { return __atomic_add_fetch(count, 1, __ATOMIC_SEQ_CST); }

// Whether this request is refused, which may be one for a thread.
static int is_refused(int is_for_thread) {
  long place = one_more(&requests), from = number_of("REFUSED_FROM");
  if (place != number_of("REFUSED") && !(from && place >= from)) return 0;
  if (is_for_thread) syscall(WRITE, MARKS, "t", 1);
  return fail(NO_MEMORY, "m");
}

// What does not come from the allocator is the block that a thread is given.
void *malloc(size_t size) {
  void *place = __builtin_return_address(0);
  if (!allocator) allocator = place;
  return is_refused(is_starting || place != allocator) ? 0 : __libc_malloc(size);
}

void *calloc(size_t count, size_t size) { return is_refused(is_starting) ? 0 : __libc_calloc(count, size); }

void *realloc(void *block, size_t size) { return is_refused(is_starting) ? 0 : __libc_realloc(block, size); }

// What the C library asks for while it starts a thread is for that thread.
int pthread_create(void *thread, const void *attributes, void *(*work)(void *), void *given) {
  int (*create)(void *, const void *, void *(*)(void *), void *) = dlsym((void *)-1, "pthread_create");
  is_starting = 1;
  int error = create(thread, attributes, work, given);
  is_starting = 0;
  return error;
}

static size_t narrowed(size_t size) {
  size_t most = number_of("NARROW");
  return most && size > most ? most : size;
}

static int error_told(void) { return number_of("ERROR") ? number_of("ERROR") : IO_ERROR; }

long read(int file, void *bytes, size_t size) {
  if (file != INPUT) return syscall(READ, file, bytes, size);
  long place = one_more(&reads);
  if (place == number_of("FAILED_READ")) return fail(error_told(), "r");
  if (place == number_of("ENDED_READ")) return fail(0, "r") + 1;
  return syscall(READ, file, bytes, narrowed(size));
}

// The mark of a call of this number: it opens, looks, locks, reads, writes, cuts, or waits for the device.
static const char *mark_of(long number) {
  switch (number) {
    case OPENAT: return "O";
    case STATX: return "S";
    case FLOCK: return "L";
    case PREAD: return "R";
    case FTRUNCATE: return "T";
    case FSYNC: return "F";
    case FDATASYNC: return "D";
    default: return "W";
  }
}

// A call on another file fails with this error, or takes nothing where there is none.
static long fail_call(long number, int error) {
  syscall(WRITE, MARKS, mark_of(number), 1);
  return fail(error, "f");
}

// A call on another file than a standard stream, which fails where it is its turn to.
static long call(int file, long number, long a, long b, long c, long d, long e) {
  if (file != ERRORS && file != MARKS && one_more(&calls) == number_of("FAILED_CALL")) {
    return fail_call(number, error_told());
  }
  return syscall(number, a, b, c, d, e);
}

long pread(int file, void *bytes, size_t size, long place) {
  return call(file, PREAD, file, (long)bytes, narrowed(size), place, 0);
}

int openat(int folder, const char *path, int how, unsigned mode) {
  return call(folder, OPENAT, folder, (long)path, how, mode, 0);
}

int statx(int file, const char *path, int how, unsigned mask, void *found) {
  return call(file, STATX, file, (long)path, how, mask, (long)found);
}

int flock(int file, int how) { return call(file, FLOCK, file, how, 0, 0, 0); }

int ftruncate(int file, long size) { return call(file, FTRUNCATE, file, size, 0, 0, 0); }

int fsync(int file) { return call(file, FSYNC, file, 0, 0, 0, 0); }

int fdatasync(int file) { return call(file, FDATASYNC, file, 0, 0, 0, 0); }

static long write_elsewhere(int file, const void *bytes, size_t size) {
  if (file == ERRORS || file == MARKS) return syscall(WRITE, file, bytes, size);
  if (one_more(&calls_to_write) == number_of("FULL_CALL")) return fail_call(WRITE, 0) + 1;
  return call(file, WRITE, file, (long)bytes, narrowed(size), 0, 0);
}

long write(int file, const void *bytes, size_t size) {
  if (file != OUTPUT) return write_elsewhere(file, bytes, size);
  long place = one_more(&writes);
  if (place == number_of("FAILED_WRITE")) return fail(error_told(), "w");
  if (place == number_of("FULL_WRITE")) return fail(0, "w") + 1;
  return syscall(WRITE, file, bytes, narrowed(size));
}

long __write(int file, const void *bytes, size_t size) { return write(file, bytes, size); }
