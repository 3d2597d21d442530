/*
 * A storm from C: threads make calls on one scheduler, each with a worker of its own, in the order of their tickets;
 * then the workplace is closed, and the text of the history is audited. Prints how many entries it has.
 */
#define _POSIX_C_SOURCE 200809L
#include <mapsched.h>
#include <pthread.h>
#include <sched.h>
#include <stdio.h>
#include <stdlib.h>

enum { THREADS = 4, TURNS = 500 };

static const struct mapsched_config config = {.ticks = 4,
                                              .bytes_per_slot = 16,
                                              .overhead = 2,
                                              .frame = 40,
                                              .cycle = 20,
                                              .req_slots = 4,
                                              .poll_slots = 2,
                                              .lead = 40,
                                              .short_max = 8,
                                              .quantum = 64,
                                              .grant_cap = 2000,
                                              .calls = THREADS * TURNS,
                                              .start = 800,
                                              .receivers = 1,
                                              .channel = 3,
                                              .ucd_count = 1};

/* Draws a ticket, tries until it is served, and answers the status of the call. */
static uint32_t make(struct mapsched_worker *worker, struct mapsched_call call, struct mapsched_reply *reply) {
  uint32_t status = mapsched_draw(worker);
  if (status != MAPSCHED_OK) return status;
  while ((status = mapsched_turn(worker, &call, reply)) == MAPSCHED_NOT_SERVED) sched_yield();
  return status;
}

/* What a thread is given. */
struct work {
  struct mapsched_worker worker;
  uint16_t sid;
  size_t failures;
};

/* The turns of one thread: a flow of its own, then requests and builds at minislots that it reads off replies. */
static void *work(void *argument) {
  struct work *mine = argument;
  uint64_t next = 800;
  struct mapsched_reply reply;
  struct mapsched_call admit = {
      .kind = MAPSCHED_ADMIT, .flow = MAPSCHED_BEST_EFFORT, .sid = mine->sid, .priority = 3};
  mine->failures += make(&mine->worker, admit, &reply) != MAPSCHED_OK;
  for (int at = 1; at < TURNS; at++) {
    struct mapsched_call ask = {.kind = MAPSCHED_ASK, .sid = mine->sid, .bytes = 200, .minislot = next};
    struct mapsched_call build = {.kind = MAPSCHED_BUILD, .minislot = next - 40};
    mine->failures += make(&mine->worker, at % 2 ? build : ask, &reply) != MAPSCHED_OK;
    if (reply.kind == MAPSCHED_BUILT || (reply.kind == MAPSCHED_REFUSED && reply.value > next)) next = reply.value;
  }
  mine->failures += mapsched_leave(&mine->worker) != MAPSCHED_OK;
  return NULL;
}

/* Hires a worker for each thread, and waits until all have left. Tells how many calls were not recorded. */
static int storm(struct mapsched_worker *first, size_t *failures) {
  static struct work works[THREADS];
  pthread_t threads[THREADS];
  for (int i = 0; i < THREADS; i++) {
    works[i].sid = (uint16_t)(100 + i);
    if (mapsched_hire(first, &works[i].worker) != MAPSCHED_OK) return 1;
    if (pthread_create(&threads[i], NULL, work, &works[i])) return 1;
  }
  for (int i = 0; i < THREADS; i++) {
    pthread_join(threads[i], NULL);
    *failures += works[i].failures;
  }
  return 0;
}

/* Audits the text of the history, and tells how many entries it has. */
static uint32_t audit(struct mapsched_scheduler *scheduler, size_t *entries) {
  size_t length = 0;
  uint8_t none = 0;
  uint32_t status = mapsched_history(scheduler, &none, 0, &length);
  uint8_t *text = malloc(length);
  if (status == MAPSCHED_NO_ROOM && text) status = mapsched_history(scheduler, text, length, &length);
  if (status == MAPSCHED_OK) status = mapsched_audit(text, length, entries);
  free(text);
  return status;
}

int main(void) {
  struct mapsched_worker first = {0};
  struct mapsched_scheduler scheduler = {0};
  size_t failures = 0, entries = 0;
  if (mapsched_open_workers(&first, &config, THREADS + 1) != MAPSCHED_OK || storm(&first, &failures)) return 1;
  uint32_t status = mapsched_close_workers(&first, &scheduler);
  if (status == MAPSCHED_OK) status = audit(&scheduler, &entries);
  mapsched_close(&scheduler);
  if (status != MAPSCHED_OK || failures) {
    fprintf(stderr, "%s at %zu, %zu calls not recorded\n", mapsched_status_text(status), (size_t)entries,
            (size_t)failures);
    return 1;
  }
  printf("legal %zu\n", (size_t)entries);
  return 0;
}
