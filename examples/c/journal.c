/*
 * A scheduler of few entries that goes on without end: whenever it is full, what it keeps is added to a journal and let
 * go. `journal FILE` writes the journal of 1000 calls into FILE, which `mapsched audit --journal < FILE` finds legal,
 * and prints how many entries it has.
 */
#include <mapsched.h>
#include <stdio.h>
#include <stdlib.h>

enum { CALLS = 1000, KEPT = 7 };

static const struct mapsched_config config = {.ticks = 4,
                                              .bytes_per_slot = 16,
                                              .overhead = 2,
                                              .frame = 40,
                                              .cycle = 20,
                                              .req_slots = 4,
                                              .poll_slots = 2,
                                              .lead = 40,
                                              .short_max = 8,
                                              .quantum = 64,
                                              .grant_cap = 2000,
                                              .calls = KEPT,
                                              .start = 800,
                                              .receivers = 1,
                                              .channel = 3,
                                              .ucd_count = 1};

/* mapsched_opening or mapsched_lines. */
typedef uint32_t writer(struct mapsched_scheduler *, uint8_t *, size_t, size_t *);

/* Says what went wrong, and whether something did. */
static int wrong(const char *what, uint32_t status) {
  if (status != MAPSCHED_OK) fprintf(stderr, "%s: %s\n", what, mapsched_status_text(status));
  return status != MAPSCHED_OK;
}

/* Adds a text to the file: the function tells its length first, and then fills a room of that length. */
static int add(struct mapsched_scheduler *scheduler, writer *writes, FILE *file) {
  size_t length = 0, written = 0;
  uint8_t none = 0;
  uint32_t status = writes(scheduler, &none, 0, &length);
  if (status != MAPSCHED_NO_ROOM) return wrong("length", status);
  uint8_t *text = malloc(length);
  if (!text) return wrong("room", MAPSCHED_OUT_OF_MEMORY);
  status = writes(scheduler, text, length, &length);
  if (status == MAPSCHED_OK) written = fwrite(text, 1, length, file);
  free(text);
  return wrong("text", status) || written != length || fflush(file) != 0;
}

/* Adds what is kept to the file, and lets it go when it is there. */
static int hand_over(struct mapsched_scheduler *scheduler, FILE *file) {
  return add(scheduler, mapsched_lines, file) || wrong("forget", mapsched_forget(scheduler));
}

/* The call of this place: a flow, then requests, builds, and questions of what the flow has. */
static struct mapsched_call call_at(size_t place, uint64_t next) {
  struct mapsched_call call = {.kind = MAPSCHED_STATUS, .sid = 17};
  if (place == 0) {
    call.kind = MAPSCHED_ADMIT;
    call.flow = MAPSCHED_BEST_EFFORT;
    call.priority = 3;
  } else if (place % 3 == 1) {
    call.kind = MAPSCHED_ASK;
    call.bytes = 100 + (uint32_t)place;
    call.minislot = next;
  } else if (place % 3 == 2) {
    call.kind = MAPSCHED_BUILD;
    call.minislot = next - 40;
  }
  return call;
}

/* Makes the calls. When there is no room for one, what is kept is handed over, and it is made again. */
static int make(struct mapsched_scheduler *scheduler, FILE *file) {
  static struct mapsched_reply reply;
  uint64_t next = 800;
  for (size_t place = 0; place < CALLS; place++) {
    struct mapsched_stamp stamp = {.ticket = place};
    struct mapsched_call call = call_at(place, next);
    uint32_t status = mapsched_call(scheduler, &stamp, &call, &reply);
    if (status == MAPSCHED_HISTORY_FULL) {
      if (hand_over(scheduler, file)) return 1;
      status = mapsched_call(scheduler, &stamp, &call, &reply);
    }
    if (wrong("call", status)) return 1;
    if (reply.kind == MAPSCHED_BUILT) next = reply.value + 40;
  }
  return hand_over(scheduler, file);
}

int main(int count, char **words) {
  struct mapsched_scheduler scheduler = {0};
  size_t entries = 0;
  FILE *file = count == 2 ? fopen(words[1], "wb") : NULL;
  if (!file || wrong("open", mapsched_open(&scheduler, &config))) return 1;
  int failed = add(&scheduler, mapsched_opening, file) || make(&scheduler, file);
  failed |= wrong("count", mapsched_count(&scheduler, &entries)) || wrong("close", mapsched_close(&scheduler));
  failed |= fclose(file) != 0;
  printf("%zu\n", entries);
  return failed;
}
