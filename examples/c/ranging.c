/*
 * Opportunities to range: one for all modems that join the channel, one for the modem with the SID 9, and the header of
 * the MAPs. Prints what the next MAP has.
 */
#include <mapsched.h>
#include <stdio.h>

static const struct mapsched_config config = {.ticks = 4,
                                              .bytes_per_slot = 16,
                                              .overhead = 2,
                                              .frame = 40,
                                              .cycle = 20,
                                              .req_slots = 4,
                                              .poll_slots = 2,
                                              .lead = 40,
                                              .short_max = 8,
                                              .quantum = 64,
                                              .grant_cap = 2000,
                                              .calls = 1000,
                                              .start = 800,
                                              .receivers = 1,
                                              .channel = 3,
                                              .ucd_count = 1};

static const struct mapsched_call calls[] = {
    {.kind = MAPSCHED_RESERVE, .usage = MAPSCHED_INITIAL, .slots = 8},
    {.kind = MAPSCHED_RESERVE, .usage = MAPSCHED_STATION, .slots = 4, .sid = 9},
    {.kind = MAPSCHED_HEADER, .ucd_count = 2, .ranging_start = 3, .ranging_end = 6, .data_start = 4, .data_end = 8},
    {.kind = MAPSCHED_BUILD, .minislot = 760},
};

/* What an element up to the Null is for, by its usage code. */
static const char *const uses[] = {
    "", "request", "request data", "initial maintenance", "station maintenance", "short grant", "long grant",
};

static int fail(const char *what, uint32_t status) {
  fprintf(stderr, "%s: %s\n", what, mapsched_status_text(status));
  return 1;
}

/* Prints a MAP: its header, and each element up to the Null with the minislots that it has. */
static void print_map(const struct mapsched_map *map) {
  printf("ucd %u, ranging %u to %u, data %u to %u\n", map->ucd_count, map->ranging_start, map->ranging_end,
         map->data_start, map->data_end);
  for (const struct mapsched_element *at = map->elements; at->iuc != 7; at++) {
    printf("%2u to %2u: ", at->offset, at[1].offset);
    if (at->sid == 0) printf("nobody\n");
    else if (at->sid == 0x3fff) printf("%s for all\n", uses[at->iuc]);
    else printf("%s for %u\n", uses[at->iuc], at->sid);
  }
}

int main(void) {
  struct mapsched_scheduler scheduler = {0};
  struct mapsched_reply reply;
  struct mapsched_map map;
  size_t element = 0;
  uint32_t status = mapsched_open(&scheduler, &config);
  if (status != MAPSCHED_OK) return fail("open", status);
  for (uint32_t i = 0; i < sizeof calls / sizeof *calls; i++) {
    struct mapsched_stamp stamp = {.ticket = i};
    status = mapsched_call(&scheduler, &stamp, &calls[i], &reply);
    if (status != MAPSCHED_OK) return fail("call", status);
  }
  status = mapsched_decode(reply.payload, reply.length, &map, &element);
  if (status != MAPSCHED_OK) return fail("decode", status);
  print_map(&map);
  status = mapsched_close(&scheduler);
  return status == MAPSCHED_OK ? 0 : fail("close", status);
}
