/*
 * What a turn at a lock costs with a call of some 100 ns under it: with the ticket lock of this repository in the words
 * of C; with one whose holder makes the calls of those who wait behind it, in the order of their tickets; with libck's
 * ticket lock, pthread's mutex and the mutex of Rust's standard library, in the words of C too. Prints, for each number
 * of threads, the nanoseconds of a turn by the clock, the 99th percentile of a call in microseconds, and the processor
 * time of a turn in nanoseconds.
 *
 *     gcc -O2 -o queue_of_calls queue_of_calls.c -lpthread && ./queue_of_calls [MILLISECONDS [BUSY PROCESSES BESIDE]]
 */
#define _GNU_SOURCE
#include <linux/futex.h>
#include <pthread.h>
#include <signal.h>
#include <stdatomic.h>
#include <stdint.h>
#include <stdio.h>
#include <stdlib.h>
#include <string.h>
#include <sys/resource.h>
#include <sys/syscall.h>
#include <sys/wait.h>
#include <time.h>
#include <unistd.h>
#include <x86intrin.h>

#define OWN_LINES __attribute__((aligned(128)))

typedef _Atomic uint64_t word;

enum { SEATS = 64, ENTRIES = 1 << 20, STEPS = 24, MOST_BUSY = 8 };

static double now(void) {
  struct timespec t;
  clock_gettime(CLOCK_MONOTONIC, &t);
  return t.tv_sec + t.tv_nsec * 1e-9;
}

static void sleep_on(void *at, uint32_t value) { syscall(SYS_futex, at, FUTEX_WAIT_PRIVATE, value, NULL, NULL, 0); }
static void wake(void *at) { syscall(SYS_futex, at, FUTEX_WAKE_PRIVATE, 1, NULL, NULL, 0); }

/* The call: some reads and writes of a table, and an entry of 64 bytes to a list. */
static struct { uint64_t fields[8]; } *entries;
static uint64_t count, table[64];

static uint64_t make_call(uint64_t argument) {
  uint64_t x = argument * UINT64_C(0x9e3779b97f4a7c15) + count;
  for (int i = 0; i < STEPS; i++) {
    uint64_t *at = &table[x >> 58];
    *at += x;
    x = x * UINT64_C(6364136223846793005) + *at;
  }
  uint64_t *fields = entries[count++ % ENTRIES].fields;
  for (int i = 0; i < 8; i++) fields[i] = x + i;
  return x;
}

/* The lock as it is: a word of a row for each ticket; whose turn is near looks, whose turn is far sleeps. */
enum { NEAR = 3, FIRST_LOOKS = 16, LOOKS = 4000 };
static struct { word next OWN_LINES; word asleep OWN_LINES; word row[SEATS] OWN_LINES; } turns;

static void open_turns(void) {
  memset(&turns, 0, sizeof turns);
  for (int i = 1; i < SEATS; i++) turns.row[i] = (uint64_t)i - SEATS;
}

static uint64_t call_in_turn(uint64_t argument, int seat) {
  (void)seat;
  uint64_t ticket = atomic_fetch_add(&turns.next, 1), bit = UINT64_C(1) << ticket % SEATS;
  word *mine = &turns.row[ticket % SEATS];
  for (uint32_t looks = 0; atomic_load(mine) != ticket;) {
    int far = looks == FIRST_LOOKS && atomic_load(&turns.row[(ticket - NEAR) % SEATS]) != ticket - NEAR;
    if (far || looks >= LOOKS) {
      atomic_fetch_or(&turns.asleep, bit);
      sleep_on(mine, (uint32_t)(ticket - SEATS));
      atomic_fetch_and(&turns.asleep, ~bit);
      looks = 0;
    } else {
      _mm_pause();
      looks++;
    }
  }
  uint64_t reply = make_call(argument), next = ticket + 1;
  atomic_store(&turns.row[next % SEATS], next);
  if (atomic_load(&turns.asleep) >> next % SEATS & 1) wake(&turns.row[next % SEATS]);
  return reply;
}

/*
 * The holder makes the calls of those who wait behind it. A place of the row has a ticket in its upper bits, and below
 * them SERVED, or the seat whose call lies there. A seat's word is twice the ticket's successor where it holds, and one
 * more where its call was made.
 */
enum { SERVED = 255, MOST_CALLS = 64, LOOKS_FOR_A_REPLY = 1000 };
struct seat { word told; uint64_t argument, reply; } OWN_LINES;
static struct {
  word next OWN_LINES;
  word asleep OWN_LINES;
  word row[SEATS] OWN_LINES;
  struct seat seats[SEATS];
} queue;

static void open_queue(void) {
  memset(&queue, 0, sizeof queue);
  queue.row[0] = SERVED;
}

static int sleeps(int seat) { return atomic_load(&queue.asleep) >> seat & 1; }

/* Waits until the seat's ticket is served or its call was made; which of them. */
static int is_made(uint64_t ticket, int seat) {
  struct seat *mine = &queue.seats[seat];
  uint64_t told, bit = UINT64_C(1) << seat;
  for (int looks = 0; (told = atomic_load(&mine->told)) >> 1 != ticket + 1; looks++) {
    if (looks < LOOKS_FOR_A_REPLY) {
      _mm_pause();
      continue;
    }
    atomic_fetch_or(&queue.asleep, bit);
    sleep_on(&mine->told, (uint32_t)told);
    atomic_fetch_and(&queue.asleep, ~bit);
    looks = -1;
  }
  return told & 1;
}

/* Lays the call down where the ticket is not served yet; whether somebody else makes it. */
static int was_made(uint64_t ticket, int seat, uint64_t argument) {
  word *place = &queue.row[ticket % SEATS];
  if (atomic_load_explicit(place, memory_order_acquire) == (ticket << 8 | SERVED)) return 0;
  queue.seats[seat].argument = argument;
  if (atomic_exchange(place, ticket << 8 | (uint64_t)seat) == (ticket << 8 | SERVED)) return 0;
  return is_made(ticket, seat);
}

/* Makes the calls that lie behind this ticket, and serves the first that does not. Who slept is woken after that. */
static void call_for_others(uint64_t ticket) {
  int woken[MOST_CALLS], sleepers = 0;
  for (int calls = 1;; calls++) {
    ticket++;
    uint64_t was = atomic_exchange(&queue.row[ticket % SEATS], ticket << 8 | SERVED);
    if (was >> 8 != ticket || (was & 255) == SERVED) break;
    int seat = (int)(was & 255);
    struct seat *other = &queue.seats[seat];
    if (calls == MOST_CALLS) {
      atomic_store(&other->told, 2 * (ticket + 1));
      if (sleeps(seat)) wake(&other->told);
      break;
    }
    other->reply = make_call(other->argument);
    atomic_store(&other->told, 2 * (ticket + 1) + 1);
    if (sleeps(seat)) woken[sleepers++] = seat;
  }
  for (int i = 0; i < sleepers; i++) wake(&queue.seats[woken[i]].told);
}

static uint64_t call_in_queue(uint64_t argument, int seat) {
  uint64_t ticket = atomic_fetch_add(&queue.next, 1);
  if (was_made(ticket, seat, argument)) return queue.seats[seat].reply;
  uint64_t reply = make_call(argument);
  call_for_others(ticket);
  return reply;
}

/* libck's ticket lock. */
static struct { _Atomic uint32_t next, served; } ck OWN_LINES;
static void open_ck(void) { memset(&ck, 0, sizeof ck); }
static uint64_t call_under_ck(uint64_t argument, int seat) {
  (void)seat;
  uint32_t ticket = atomic_fetch_add(&ck.next, 1);
  while (atomic_load_explicit(&ck.served, memory_order_acquire) != ticket) _mm_pause();
  uint64_t reply = make_call(argument);
  atomic_store_explicit(&ck.served, ticket + 1, memory_order_release);
  return reply;
}

/* pthread's mutex. */
static pthread_mutex_t mutex OWN_LINES = PTHREAD_MUTEX_INITIALIZER;
static void open_nothing(void) {}
static uint64_t call_under_pthread(uint64_t argument, int seat) {
  (void)seat;
  pthread_mutex_lock(&mutex);
  uint64_t reply = make_call(argument);
  pthread_mutex_unlock(&mutex);
  return reply;
}

/* The mutex of Rust's standard library: 0 free, 1 held, 2 held and somebody sleeps; a hundred looks before a sleep. */
static _Atomic uint32_t state OWN_LINES;
static uint32_t looked_at(void) {
  for (int looks = 100;; looks--) {
    uint32_t found = atomic_load_explicit(&state, memory_order_relaxed);
    if (found != 1 || looks == 0) return found;
    _mm_pause();
  }
}
static void lock_slowly(void) {
  uint32_t found = looked_at(), none = 0;
  if (found == 0 && atomic_compare_exchange_strong(&state, &none, 1)) return;
  while (found == 2 || atomic_exchange(&state, 2) != 0) {
    sleep_on(&state, 2);
    found = looked_at();
  }
}
static uint64_t call_under_std(uint64_t argument, int seat) {
  (void)seat;
  uint32_t none = 0;
  if (!atomic_compare_exchange_strong(&state, &none, 1)) lock_slowly();
  uint64_t reply = make_call(argument);
  if (atomic_exchange(&state, 0) == 2) wake(&state);
  return reply;
}

struct kind { const char *name; void (*open)(void); uint64_t (*call)(uint64_t argument, int seat); };
static const struct kind kinds[] = {
  {"today", open_turns, call_in_turn},
  {"for others", open_queue, call_in_queue},
  {"libck", open_ck, call_under_ck},
  {"pthread", open_nothing, call_under_pthread},
  {"std", open_nothing, call_under_std},
};

/* How long calls took, in steps of one part in 32. */
enum { BUCKETS = 2048 };
struct job { const struct kind *kind; int seat; uint64_t calls, sum; uint32_t took[BUCKETS]; };
static struct job jobs[SEATS];
static atomic_int started, stopped;

static int bucket_of(uint64_t cycles) {
  if (cycles < 64) return (int)cycles;
  int power = 63 - __builtin_clzll(cycles);
  return 64 + (power - 6) * 32 + (int)(cycles >> (power - 5) & 31);
}
static double edge_of(int bucket) {
  if (bucket < 64) return bucket;
  return (double)(UINT64_C(1) << (6 + (bucket - 64) / 32)) * (1 + ((bucket - 64) % 32 + 1) / 32.0);
}

static void *work(void *argument) {
  struct job *job = argument;
  while (!atomic_load(&started)) usleep(100);
  while (!atomic_load_explicit(&stopped, memory_order_relaxed)) {
    uint64_t before = __rdtsc();
    job->sum += job->kind->call(job->calls++, job->seat);
    job->took[bucket_of(__rdtsc() - before)]++;
  }
  return NULL;
}

static double seconds_of(const struct rusage *use) {
  return use->ru_utime.tv_sec + use->ru_stime.tv_sec + (use->ru_utime.tv_usec + use->ru_stime.tv_usec) * 1e-6;
}

static double percentile_99(int threads, uint64_t calls) {
  uint64_t seen = 0;
  int bucket = 0;
  for (; bucket < BUCKETS && seen * 100 < calls * 99; bucket++)
    for (int i = 0; i < threads; i++) seen += jobs[i].took[bucket];
  return edge_of(bucket - 1);
}

/* One kind with so many threads for so long. */
static void measure(const struct kind *kind, int threads, int milliseconds, double cycles_per_us) {
  pthread_t handles[SEATS];
  struct rusage before, after;
  memset(jobs, 0, sizeof jobs);
  count = 0;
  kind->open();
  atomic_store(&started, 0);
  atomic_store(&stopped, 0);
  for (int i = 0; i < threads; i++) {
    jobs[i].kind = kind;
    jobs[i].seat = i;
    pthread_create(&handles[i], NULL, work, &jobs[i]);
  }
  usleep(20000);
  getrusage(RUSAGE_SELF, &before);
  double start = now();
  atomic_store(&started, 1);
  usleep(milliseconds * 1000);
  atomic_store(&stopped, 1);
  double passed = now() - start;
  uint64_t calls = 0;
  for (int i = 0; i < threads; i++) pthread_join(handles[i], NULL);
  for (int i = 0; i < threads; i++) calls += jobs[i].calls;
  getrusage(RUSAGE_SELF, &after);
  if (calls != count) {
    printf("%s: %lu calls were made, and %lu answered\n", kind->name, count, calls);
    exit(1);
  }
  printf("%2d threads  %-10s  %8.0f ns  %9.1f us  %8.0f ns\n", threads, kind->name, passed / calls * 1e9,
    percentile_99(threads, calls) / cycles_per_us, (seconds_of(&after) - seconds_of(&before)) / calls * 1e9);
  fflush(stdout);
}

int main(int arguments, char **texts) {
  static const int threads[] = {1, 2, 4, 8, 16, 64};
  int milliseconds = arguments > 1 ? atoi(texts[1]) : 250, busy = arguments > 2 ? atoi(texts[2]) : 0;
  pid_t children[MOST_BUSY];
  if (busy < 0 || busy > MOST_BUSY || milliseconds < 1) return 2;
  entries = malloc(ENTRIES * sizeof *entries);
  if (!entries) return 1;
  memset(entries, 1, ENTRIES * sizeof *entries);
  uint64_t cycles = __rdtsc();
  double start = now();
  usleep(50000);
  double cycles_per_us = (__rdtsc() - cycles) / (now() - start) / 1e6;
  for (int i = 0; i < busy; i++) {
    children[i] = fork();
    if (children[i] == 0) for (volatile uint64_t x = 0;; x++) {}
  }
  for (size_t i = 0; i < sizeof threads / sizeof *threads; i++)
    for (size_t k = 0; k < sizeof kinds / sizeof *kinds; k++)
      measure(&kinds[k], threads[i], milliseconds, cycles_per_us);
  for (int i = 0; i < busy; i++) {
    kill(children[i], SIGKILL);
    waitpid(children[i], NULL, 0);
  }
}
