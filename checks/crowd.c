/*
 * Sixteen workers in threads of their own make two hundred calls each on one scheduler. Every call has to be recorded,
 * each worker's in their order, with the tickets in order; the text of the history has to be legal; and one thread that
 * makes the calls again, in the order of the history, has to get the same replies. Prints how many entries there are.
 */
#define _POSIX_C_SOURCE 200809L
#include "base_configuration.h"
#include <pthread.h>
#include <sched.h>
#include <stdio.h>
#include <stdlib.h>
#include <string.h>

enum { THREADS = 16, CALLS = 200, FIRST_SID = 100 };

static const struct mapsched_config config = BASE_CONFIGURATION(THREADS * CALLS);

static void fail(const char *what, size_t place) {
  fprintf(stderr, "%s: %zu\n", what, place);
  exit(1);
}

/* What a thread is given, the calls that it made, and the next frame that it knows of. */
struct work {
  struct mapsched_worker worker;
  struct mapsched_call calls[CALLS];
  uint16_t sid;
  uint64_t next;
};

/* An opportunity for the modem of a thread, some longer than a frame has, or a header, some with a wrong exponent. */
static struct mapsched_call ranging_at(const struct work *mine, int number) {
  if (number % 16 == 1)
    return (struct mapsched_call){.kind = MAPSCHED_RESERVE, .usage = MAPSCHED_STATION, .slots = (uint32_t)number % 40,
      .sid = mine->sid};
  return (struct mapsched_call){.kind = MAPSCHED_HEADER, .ucd_count = (uint8_t)mine->sid,
    .ranging_start = (uint8_t)(number % 17), .ranging_end = 10, .data_start = 4, .data_end = (uint8_t)(number % 19)};
}

/* A telephone rests and wakes; another flow has another ceiling, peak and reservation, or tells its queue's depth. */
static struct mapsched_call change_at(const struct work *mine, int number) {
  if (mine->sid % 4 == 0)
    return (struct mapsched_call){.kind = number % 32 == 5 ? MAPSCHED_REST : MAPSCHED_WAKE, .sid = mine->sid};
  if (number % 32 == 5)
    return (struct mapsched_call){.kind = MAPSCHED_CHANGE, .flow = MAPSCHED_BEST_EFFORT, .sid = mine->sid,
      .priority = 4, .rate = 640000 + (uint32_t)number, .burst = 1600, .peak = 1280000 * ((uint32_t)number % 3),
      .reserved = 320000 * (uint32_t)(mine->sid % 2), .reserved_burst = 64 + (uint32_t)number};
  return (struct mapsched_call){
    .kind = MAPSCHED_REPLACE, .sid = mine->sid, .bytes = (uint32_t)number, .minislot = mine->next};
}

/*
 * The call of a thread with this number: its flow is admitted and changed, asks and is asked for, MAPs are built, and
 * its modem gets opportunities to range.
 */
static struct mapsched_call call_at(const struct work *mine, int number) {
  if (number == 0 && mine->sid % 4 == 0)
    return (struct mapsched_call){.kind = MAPSCHED_ADMIT, .flow = MAPSCHED_UNSOLICITED, .sid = mine->sid, .size = 32,
      .interval_us = 20000, .jitter_us = 1000, .grants = 1};
  if (number == 0)
    return (struct mapsched_call){.kind = MAPSCHED_ADMIT, .flow = MAPSCHED_BEST_EFFORT, .sid = mine->sid, .priority = 3,
      .rate = 640000, .burst = 1600, .peak = mine->sid % 2 ? 1280000 : 0, .reserved = mine->sid % 3 ? 320000 : 0,
      .reserved_burst = 128};
  if (number % 16 == 1 || number % 16 == 9) return ranging_at(mine, number);
  if (number % 16 == 5) return change_at(mine, number);
  if (number % 4 == 0) return (struct mapsched_call){.kind = MAPSCHED_BUILD, .minislot = mine->next - 40};
  if (number % 4 == 1) return (struct mapsched_call){.kind = MAPSCHED_STATUS, .sid = mine->sid};
  if (number % 4 == 2) return (struct mapsched_call){.kind = MAPSCHED_HEARD, .minislot = mine->next - 40};
  if (number % 8 == 3)
    return (struct mapsched_call){.kind = MAPSCHED_ASK, .sid = mine->sid, .has_slots = 1,
      .slots = (uint32_t)number % 11, .minislot = mine->next};
  return (struct mapsched_call){
    .kind = MAPSCHED_ASK, .sid = mine->sid, .bytes = 100 + (uint32_t)number, .minislot = mine->next};
}

/* Makes all calls of a thread, each by a turn of its worker. */
static void *work(void *argument) {
  struct work *mine = argument;
  struct mapsched_reply reply;
  for (int number = 0; number < CALLS; number++) {
    struct mapsched_call call = mine->calls[number] = call_at(mine, number);
    uint32_t status = mapsched_draw(&mine->worker);
    if (status != MAPSCHED_OK) fail("no ticket", status);
    while ((status = mapsched_turn(&mine->worker, &call, &reply)) == MAPSCHED_NOT_SERVED) sched_yield();
    if (status != MAPSCHED_OK) fail("a call is not recorded", status);
    if (reply.kind == MAPSCHED_BUILT || (reply.kind == MAPSCHED_REFUSED && reply.value > mine->next))
      mine->next = reply.value;
  }
  if (mapsched_leave(&mine->worker) != MAPSCHED_OK) fail("a worker stays", mine->sid);
  return NULL;
}

/* Hires a worker for each thread, and waits until all have left. */
static void storm(struct mapsched_worker *first, struct work *works) {
  pthread_t threads[THREADS];
  for (int i = 0; i < THREADS; i++) {
    works[i].sid = (uint16_t)(FIRST_SID + i);
    works[i].next = config.start;
    if (mapsched_hire(first, &works[i].worker) != MAPSCHED_OK) fail("no worker", (size_t)i);
  }
  for (int i = 0; i < THREADS; i++)
    if (pthread_create(&threads[i], NULL, work, &works[i])) fail("no thread", (size_t)i);
  for (int i = 0; i < THREADS; i++) pthread_join(threads[i], NULL);
}

/* Whether two calls are the same: the members of an opportunity and a header share places with others, or are here. */
static int is_call(const struct mapsched_call *a, const struct mapsched_call *b) {
  return a->kind == b->kind && a->flow == b->flow && a->size == b->size && a->interval_us == b->interval_us &&
         a->jitter_us == b->jitter_us && a->rate == b->rate && a->burst == b->burst && a->bytes == b->bytes &&
         a->minislot == b->minislot && a->sid == b->sid && a->receiver == b->receiver && a->priority == b->priority &&
         a->grants == b->grants && a->data_start == b->data_start && a->data_end == b->data_end &&
         a->has_slots == b->has_slots && a->peak == b->peak && a->reserved == b->reserved &&
         a->reserved_burst == b->reserved_burst;
}

/* Whether two replies are the same. */
static int is_reply(const struct mapsched_reply *a, const struct mapsched_reply *b) {
  return a->kind == b->kind && a->refusal == b->refusal && a->value == b->value && a->asked == b->asked &&
         a->granted == b->granted && a->outstanding == b->outstanding && a->starts_count == b->starts_count &&
         a->length == b->length && !memcmp(a->starts, b->starts, a->starts_count * sizeof *a->starts) &&
         !memcmp(a->payload, b->payload, a->length);
}

/* Whose entry it is: the first of each seat admits the flow of its worker. */
static size_t worker_of(const struct mapsched_entry *entry, size_t *worker_at) {
  if (entry->stamp.seat > THREADS) return THREADS;
  size_t *worker = &worker_at[entry->stamp.seat];
  if (*worker == THREADS && entry->call.kind == MAPSCHED_ADMIT) *worker = (size_t)entry->call.sid - FIRST_SID;
  return *worker;
}

/* Each worker's calls stand in the history in their order, and all tickets; another scheduler gives these replies. */
static void compare(struct mapsched_scheduler *scheduler, const struct work *works) {
  struct mapsched_scheduler alone = {0};
  struct mapsched_entry entry;
  struct mapsched_reply reply;
  size_t made[THREADS] = {0}, worker_at[THREADS + 1];
  for (size_t seat = 0; seat <= THREADS; seat++) worker_at[seat] = THREADS;
  if (mapsched_open(&alone, &config) != MAPSCHED_OK) fail("no scheduler", 0);
  for (size_t i = 0; i < THREADS * CALLS; i++) {
    if (mapsched_entry(scheduler, i, &entry) != MAPSCHED_OK || entry.stamp.ticket != i) fail("no ticket in order", i);
    size_t worker = worker_of(&entry, worker_at);
    if (worker >= THREADS || made[worker] == CALLS) fail("an entry of nobody", i);
    if (!is_call(&entry.call, &works[worker].calls[made[worker]++])) fail("a call that its worker did not make", i);
    if (mapsched_call(&alone, &entry.stamp, &entry.call, &reply) != MAPSCHED_OK) fail("a call is not made again", i);
    if (!is_reply(&entry.reply, &reply)) fail("another reply", i);
  }
  mapsched_close(&alone);
}

/* Audits the text of the history, and tells how many entries it has. */
static uintptr_t audit(struct mapsched_scheduler *scheduler) {
  uintptr_t length = 0, entries = 0;
  uint8_t none = 0;
  if (mapsched_history(scheduler, &none, 0, &length) != MAPSCHED_NO_ROOM) fail("no length", 0);
  uint8_t *text = malloc(length);
  if (!text || mapsched_history(scheduler, text, length, &length) != MAPSCHED_OK) fail("no text", length);
  if (mapsched_audit(text, length, &entries) != MAPSCHED_OK) fail("illegal", entries);
  free(text);
  return entries;
}

int main(void) {
  static struct work works[THREADS];
  struct mapsched_worker first = {0};
  struct mapsched_scheduler scheduler = {0};
  uintptr_t count = 0;
  if (mapsched_open_workers(&first, &config, THREADS + 1) != MAPSCHED_OK) fail("no workplace", 0);
  storm(&first, works);
  if (mapsched_close_workers(&first, &scheduler) != MAPSCHED_OK) fail("the workplace stays open", 0);
  if (mapsched_count(&scheduler, &count) != MAPSCHED_OK || count != THREADS * CALLS) fail("other entries", count);
  compare(&scheduler, works);
  printf("legal %zu\n", (size_t)audit(&scheduler));
  return mapsched_close(&scheduler) != MAPSCHED_OK;
}
