/*
 * A scheduler of few entries that goes on without end under threads: some make calls, and one takes what is kept, adds
 * it to a journal and lets it go. `keeper FILE` writes the journal of all calls into FILE, which
 * `mapsched audit --journal < FILE` finds legal, and prints how many entries it has.
 */
#define _POSIX_C_SOURCE 200809L
#include <mapsched.h>
#include <pthread.h>
#include <sched.h>
#include <stdatomic.h>
#include <stdio.h>

enum { THREADS = 4, CALLS = 500, KEPT = 50, LINES = 1 << 20 };

static const struct mapsched_config config = {.ticks = 4,
                                              .bytes_per_slot = 16,
                                              .overhead = 2,
                                              .frame = 40,
                                              .cycle = 20,
                                              .req_slots = 4,
                                              .poll_slots = 2,
                                              .lead = 40,
                                              .short_max = 8,
                                              .quantum = 64,
                                              .grant_cap = 2000,
                                              .calls = KEPT,
                                              .start = 800,
                                              .receivers = 1,
                                              .channel = 3,
                                              .ucd_count = 1};

/* What a thread is given. */
struct work {
  struct mapsched_worker worker;
  FILE *file;
  uint16_t sid;
  int failed;
};

static atomic_int at_work = THREADS, stopped = 0;
static uint8_t lines[LINES];

/* Makes a call, and again for as long as there is no room for it and somebody keeps the journal. */
static uint32_t make(struct mapsched_worker *worker, struct mapsched_call call, struct mapsched_reply *reply) {
  uint32_t status = MAPSCHED_HISTORY_FULL;
  while (status == MAPSCHED_HISTORY_FULL && !atomic_load(&stopped)) {
    sched_yield();
    if ((status = mapsched_draw(worker)) != MAPSCHED_OK) return status;
    while ((status = mapsched_turn(worker, &call, reply)) == MAPSCHED_NOT_SERVED) sched_yield();
  }
  return status;
}

/* The calls of one thread: a flow of its own, then requests and builds at minislots that it reads off replies. */
static void *work(void *argument) {
  struct work *mine = argument;
  uint64_t next = 800;
  struct mapsched_reply reply;
  struct mapsched_call admit = {
      .kind = MAPSCHED_ADMIT, .flow = MAPSCHED_BEST_EFFORT, .sid = mine->sid, .priority = 3};
  mine->failed |= make(&mine->worker, admit, &reply) != MAPSCHED_OK;
  for (int at = 1; at < CALLS; at++) {
    struct mapsched_call ask = {.kind = MAPSCHED_ASK, .sid = mine->sid, .bytes = 200, .minislot = next};
    struct mapsched_call build = {.kind = MAPSCHED_BUILD, .minislot = next - 40};
    mine->failed |= make(&mine->worker, at % 2 ? build : ask, &reply) != MAPSCHED_OK;
    if (reply.kind == MAPSCHED_BUILT || (reply.kind == MAPSCHED_REFUSED && reply.value > next)) next = reply.value;
  }
  mine->failed |= mapsched_leave(&mine->worker) != MAPSCHED_OK;
  atomic_fetch_sub(&at_work, 1);
  return NULL;
}

/* A turn in which what is kept goes to the file, and is let go when it is there. Tells whether something went wrong. */
static int keep_once(struct mapsched_worker *worker, FILE *file) {
  size_t length = 0;
  uint32_t status = mapsched_draw(worker);
  if (status != MAPSCHED_OK) return 1;
  while ((status = mapsched_begin(worker)) == MAPSCHED_NOT_SERVED) sched_yield();
  if (status != MAPSCHED_OK) return 1;
  status = mapsched_turn_lines(worker, lines, LINES, &length);
  if (status == MAPSCHED_OK && fwrite(lines, 1, length, file) == length && fflush(file) == 0)
    return mapsched_turn_forget(worker) != MAPSCHED_OK;
  mapsched_end(worker);
  return 1;
}

/* The thread that keeps the journal, for as long as others are at work. */
static void *keep(void *argument) {
  struct work *mine = argument;
  while (atomic_load(&at_work) != 0 && !mine->failed) {
    mine->failed |= keep_once(&mine->worker, mine->file);
    sched_yield();
  }
  if (mine->failed) atomic_store(&stopped, 1);
  mine->failed |= mapsched_leave(&mine->worker) != MAPSCHED_OK;
  return NULL;
}

/* Hires a worker for each thread, and waits until all have left. */
static int storm(struct mapsched_worker *first, FILE *file) {
  static struct work works[THREADS + 1];
  pthread_t threads[THREADS + 1];
  int failed = 0;
  for (int i = 0; i <= THREADS; i++) {
    works[i].sid = (uint16_t)(100 + i);
    works[i].file = file;
    if (mapsched_hire(first, &works[i].worker) != MAPSCHED_OK) return 1;
    if (pthread_create(&threads[i], NULL, i < THREADS ? work : keep, &works[i])) return 1;
  }
  for (int i = 0; i <= THREADS; i++) {
    pthread_join(threads[i], NULL);
    failed |= works[i].failed;
  }
  return failed;
}

/* The first line of the journal: that of any scheduler of this configuration. */
static int open_journal(FILE *file) {
  struct mapsched_scheduler scheduler = {0};
  size_t length = 0;
  return mapsched_open(&scheduler, &config) != MAPSCHED_OK ||
         mapsched_opening(&scheduler, lines, LINES, &length) != MAPSCHED_OK ||
         fwrite(lines, 1, length, file) != length || mapsched_close(&scheduler) != MAPSCHED_OK;
}

int main(int count, char **words) {
  struct mapsched_worker first = {0};
  struct mapsched_scheduler scheduler = {0};
  size_t entries = 0, length = 0;
  FILE *file = count == 2 ? fopen(words[1], "wb") : NULL;
  if (!file || open_journal(file)) return 1;
  if (mapsched_open_workers_without_end(&first, &config, THREADS + 2) != MAPSCHED_OK || storm(&first, file)) return 1;
  if (mapsched_close_workers(&first, &scheduler) != MAPSCHED_OK) return 1;
  if (mapsched_lines(&scheduler, lines, LINES, &length) != MAPSCHED_OK) return 1;
  if (fwrite(lines, 1, length, file) != length || fclose(file) != 0) return 1;
  if (mapsched_count(&scheduler, &entries) != MAPSCHED_OK || mapsched_close(&scheduler) != MAPSCHED_OK) return 1;
  printf("%zu\n", entries);
  return 0;
}
