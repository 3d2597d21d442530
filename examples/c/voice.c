/*
 * A telephone call: its flow is admitted, rests while nobody speaks, wakes, changes to the smaller grants of another
 * codec, and is removed. Prints what it has after each step, in the next MAP in which it has something.
 */
#include <mapsched.h>
#include <stdio.h>

static const struct mapsched_config config = {.ticks = 4,
                                              .bytes_per_slot = 16,
                                              .overhead = 2,
                                              .frame = 40,
                                              .cycle = 20,
                                              .req_slots = 4,
                                              .poll_slots = 2,
                                              .lead = 40,
                                              .short_max = 8,
                                              .quantum = 64,
                                              .grant_cap = 2000,
                                              .calls = 1000,
                                              .start = 800,
                                              .receivers = 1,
                                              .channel = 3,
                                              .ucd_count = 1};

enum { SID = 5 };
#define GRANTS_OF(bytes) .flow = MAPSCHED_UNSOLICITED, .size = (bytes), .interval_us = 20000, .grants = 1

static const struct mapsched_call steps[] = {
    {.kind = MAPSCHED_ADMIT, .sid = SID, GRANTS_OF(232)},
    {.kind = MAPSCHED_REST, .sid = SID},
    {.kind = MAPSCHED_WAKE, .sid = SID},
    {.kind = MAPSCHED_CHANGE, .sid = SID, GRANTS_OF(96)},
    {.kind = MAPSCHED_REMOVE, .sid = SID},
};
static const char *const names[] = {"admit", "rest", "wake", "change", "remove"};

static struct mapsched_scheduler scheduler;
static uint64_t next = 800;

/* Makes a call that is recorded and not refused. */
static int has_made(const struct mapsched_call *call, struct mapsched_reply *reply) {
  static struct mapsched_stamp stamp;
  uint32_t status = mapsched_call(&scheduler, &stamp, call, reply);
  stamp.ticket++;
  if (status == MAPSCHED_OK && reply->kind != MAPSCHED_REFUSED) return 1;
  fprintf(stderr, "a call: %s, refusal %u\n", mapsched_status_text(status), reply->refusal);
  return 0;
}

/* Builds the next MAP, and prints what the flow has in it: whether it has something, or -1. */
static int prints_next(void) {
  struct mapsched_call build = {.kind = MAPSCHED_BUILD, .minislot = next - config.lead};
  struct mapsched_reply reply;
  struct mapsched_map map;
  size_t place = 0;
  if (!has_made(&build, &reply) || mapsched_decode(reply.payload, reply.length, &map, &place) != MAPSCHED_OK) return -1;
  next = reply.value + config.frame;
  for (const struct mapsched_element *at = map.elements; at->iuc != 7; at++) {
    if (at->sid != SID) continue;
    printf("%u to %u of frame %llu, %s\n", at->offset, at[1].offset, (unsigned long long)reply.value,
           at->iuc == 1 ? "a poll" : at->iuc == 5 ? "a short grant" : "a long grant");
    return 1;
  }
  return 0;
}

int main(void) {
  if (mapsched_open(&scheduler, &config) != MAPSCHED_OK) return 1;
  for (size_t i = 0; i < sizeof steps / sizeof *steps; i++) {
    struct mapsched_reply reply;
    int found = 0;
    if (!has_made(&steps[i], &reply)) return 1;
    printf("%s: ", names[i]);
    for (uint32_t frames = 0; frames < config.cycle && found == 0; frames++) found = prints_next();
    if (found == 0) printf("nothing\n");
    if (found < 0) return 1;
  }
  return mapsched_close(&scheduler) != MAPSCHED_OK;
}
