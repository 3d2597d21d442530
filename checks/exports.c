/*
 * Makes every call of the header that may run out of memory. Where one does, nothing that the caller sees may have
 * changed, and the call is made once more. Prints `whole` at the end, or `out of memory` where it ran out again. The
 * calls for opportunities, headers and requests never do, nor those by which a flow rests and wakes.
 */
#include "base_configuration.h"
#include <stddef.h>
#include <stdio.h>
#include <stdlib.h>
#include <string.h>

/* A program that was built with an older header has a call of this size, with these members in these places. */
#define STANDS_AT(place, member) \
  _Static_assert(offsetof(struct mapsched_call, member) == (place), #member " is at another place")
_Static_assert(sizeof(struct mapsched_call) == 64, "a call has another size");
STANDS_AT(0, kind);
STANDS_AT(4, flow);
STANDS_AT(8, size);
STANDS_AT(12, interval_us);
STANDS_AT(16, jitter_us);
STANDS_AT(20, rate);
STANDS_AT(24, burst);
STANDS_AT(28, bytes);
STANDS_AT(32, minislot);
STANDS_AT(40, sid);
STANDS_AT(42, receiver);
STANDS_AT(43, priority);
STANDS_AT(44, grants);
STANDS_AT(45, data_start);
STANDS_AT(46, data_end);
STANDS_AT(47, has_slots);
STANDS_AT(48, peak);
STANDS_AT(52, reserved);
STANDS_AT(56, reserved_burst);

/* All that the caller has, and what it can read of a scheduler. */
static struct {
  struct mapsched_scheduler scheduler;
  struct mapsched_worker first, second;
  struct mapsched_reply reply;
  struct mapsched_map map;
  struct mapsched_entry last;
  size_t count, length, place;
  uint8_t text[4096], payload[MAPSCHED_MAX_BYTES];
} now, before;

/* How many bytes the first line of a journal has. */
static size_t opening;

static const struct mapsched_config config = BASE_CONFIGURATION(10);
static const struct mapsched_stamp stamp = {.ticket = 0, .seat = 0};
static const struct mapsched_call voice = {.kind = MAPSCHED_ADMIT,
                                           .flow = MAPSCHED_UNSOLICITED,
                                           .sid = 5,
                                           .size = 200,
                                           .interval_us = 10000,
                                           .jitter_us = 800,
                                           .grants = 2};
static const struct mapsched_call data = {
  .kind = MAPSCHED_ADMIT, .flow = MAPSCHED_BEST_EFFORT, .sid = 6, .peak = 64000, .reserved = 32000,
  .reserved_burst = 64};
static const struct mapsched_call change = {.kind = MAPSCHED_CHANGE,
                                            .flow = MAPSCHED_UNSOLICITED,
                                            .sid = 5,
                                            .size = 100,
                                            .interval_us = 10000,
                                            .jitter_us = 800,
                                            .grants = 3};
static const struct mapsched_call rest = {.kind = MAPSCHED_REST, .sid = 5}, wake = {.kind = MAPSCHED_WAKE, .sid = 5};
static const struct mapsched_call replace = {.kind = MAPSCHED_REPLACE, .sid = 6, .bytes = 100, .minislot = 801};
static const struct mapsched_call build = {.kind = MAPSCHED_BUILD, .minislot = 760};
static const struct mapsched_call station = {
  .kind = MAPSCHED_RESERVE, .usage = MAPSCHED_STATION, .slots = 4, .sid = 9};
static const struct mapsched_call header = {.kind = MAPSCHED_HEADER, .ucd_count = 2, .ranging_end = 5, .data_end = 8};

static void end(const char *said, int status) {
  puts(said);
  exit(status);
}

/* Reads what can be read of the scheduler. */
static void look(void) {
  if (mapsched_count(&now.scheduler, &now.count) == MAPSCHED_OK && now.count != 0)
    mapsched_entry(&now.scheduler, now.count - 1, &now.last);
}

/* Makes a call, and once more where memory ran out. */
static void make(uint32_t (*call)(void)) {
  for (int tries = 0; tries < 2; tries++) {
    look();
    memcpy(&before, &now, sizeof now);
    uint32_t status = call();
    if (status == MAPSCHED_OK) return;
    if (status != MAPSCHED_OUT_OF_MEMORY) end(mapsched_status_text(status), 1);
    look();
    if (memcmp(&before, &now, sizeof now) != 0) end("something has changed", 2);
  }
  end("out of memory", 4);
}

/* Makes a call that takes no memory, so that it succeeds whatever is refused. */
static void make_without(const struct mapsched_call *call, uint32_t reply) {
  if (mapsched_call(&now.scheduler, &stamp, call, &now.reply) != MAPSCHED_OK) end("it takes memory", 2);
  if (now.reply.kind != reply) end("another reply", 3);
}

static uint32_t opens(void) { return mapsched_open(&now.scheduler, &config); }
static uint32_t admits_voice(void) { return mapsched_call(&now.scheduler, &stamp, &voice, &now.reply); }
static uint32_t admits_data(void) { return mapsched_call(&now.scheduler, &stamp, &data, &now.reply); }
static uint32_t changes_voice(void) { return mapsched_call(&now.scheduler, &stamp, &change, &now.reply); }
static uint32_t builds(void) { return mapsched_call(&now.scheduler, &stamp, &build, &now.reply); }
static uint32_t writes(void) { return mapsched_history(&now.scheduler, now.text, sizeof now.text, &now.length); }
static uint32_t opens_journal(void) {
  return mapsched_opening(&now.scheduler, now.text, sizeof now.text, &now.length);
}
static uint32_t writes_lines(void) { return mapsched_lines(&now.scheduler, now.text, sizeof now.text, &now.length); }
static uint32_t writes_behind(void) {
  return mapsched_lines(&now.scheduler, now.text + opening, sizeof now.text - opening, &now.length);
}
static uint32_t resumes(void) { return mapsched_resume(&now.scheduler, now.text, opening + now.length, &now.place); }
static uint32_t says_why(void) {
  return mapsched_refusal_words(16, 800, now.text, sizeof now.text, &now.length);
}
static uint32_t audits(void) { return mapsched_audit(now.text, now.length, &now.place); }
static uint32_t decodes(void) { return mapsched_decode(now.reply.payload, now.reply.length, &now.map, &now.place); }
static uint32_t encodes(void) {
  return mapsched_encode(&now.map, now.payload, sizeof now.payload, &now.length, &now.place);
}
static uint32_t opens_workers(void) { return mapsched_open_workers(&now.first, &config, 2); }
static uint32_t hires(void) { return mapsched_hire(&now.first, &now.second); }
static uint32_t closes_workers(void) { return mapsched_close_workers(&now.first, &now.scheduler); }

static uint32_t opens_without_end(void) { return mapsched_open_workers_without_end(&now.first, &config, 1); }
static uint32_t looks(void) { return mapsched_turn_lines(&now.first, now.text, sizeof now.text, &now.length); }

/* A turn: where memory runs out it has ended, and the next try has a ticket of its own. */
static uint32_t turn(struct mapsched_worker *worker, const struct mapsched_call *call) {
  uint32_t status = mapsched_draw(worker);
  return status == MAPSCHED_OK ? mapsched_turn(worker, call, &now.reply) : status;
}
static uint32_t first_builds(void) { return turn(&now.first, &build); }
static uint32_t second_admits(void) { return turn(&now.second, &voice); }
static uint32_t second_leaves(void) { return mapsched_leave(&now.second); }

/* The scheduler of one thread. */
static void alone(void) {
  make(opens);
  make(admits_voice);
  make(admits_data);
  make(changes_voice);
  if (now.reply.kind != MAPSCHED_CHANGED || now.reply.starts_count != 6) end("another place", 3);
  make_without(&rest, MAPSCHED_NOTED);
  make_without(&wake, MAPSCHED_NOTED);
  make_without(&station, MAPSCHED_RESERVED);
  make_without(&header, MAPSCHED_NOTED);
  make(builds);
  make(decodes);
  make(encodes);
  if (now.length != now.reply.length || memcmp(now.payload, now.reply.payload, now.length) != 0) end("other bytes", 3);
  make_without(&replace, MAPSCHED_TAKEN);
  make(opens_journal);
  make(writes_lines);
  make(writes);
  make(audits);
  if (now.place != 9) end("not nine entries", 3);
  make(opens_journal);
  opening = now.length;
  make(writes_behind);
  if (mapsched_close(&now.scheduler) != MAPSCHED_OK) end("not closed", 3);
}

/* A scheduler that goes on after the journal of that. */
static void resumed(void) {
  make(resumes);
  if (now.place != opening + now.length) end("not all lines", 3);
  look();
  if (now.count != 9 || mapsched_close(&now.scheduler) != MAPSCHED_OK) end("not nine entries behind it", 3);
  make(says_why);
}

/* Two workers. */
static void workers(void) {
  make(opens_workers);
  make(hires);
  make(first_builds);
  make(second_admits);
  make(second_leaves);
  make(closes_workers);
  make(writes);
  make(audits);
  if (now.place != 2 || mapsched_close(&now.scheduler) != MAPSCHED_OK) end("not two entries", 3);
}

/* A worker that goes on without end. */
static void without_end(void) {
  make(opens_without_end);
  make(first_builds);
  if (mapsched_draw(&now.first) != MAPSCHED_OK || mapsched_begin(&now.first) != MAPSCHED_OK) end("no turn", 3);
  make(looks);
  if (now.length == 0 || mapsched_turn_forget(&now.first) != MAPSCHED_OK) end("no lines", 3);
  make(closes_workers);
  if (mapsched_kept_from(&now.scheduler, &now.place) != MAPSCHED_OK || now.place != 1) end("not forgotten", 3);
  if (mapsched_close(&now.scheduler) != MAPSCHED_OK) end("not closed", 3);
}

int main(void) {
  setvbuf(stdout, NULL, _IONBF, 0);
  alone();
  resumed();
  workers();
  without_end();
  end("whole", 0);
}
