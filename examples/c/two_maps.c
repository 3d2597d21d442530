/* Prints the two MAPs of README's script: what examples/two_maps.json gives to the program. */
#include <mapsched.h>
#include <stdio.h>

static const struct mapsched_config config = {.ticks = 4,
                                              .bytes_per_slot = 16,
                                              .overhead = 2,
                                              .frame = 40,
                                              .cycle = 20,
                                              .req_slots = 4,
                                              .poll_slots = 2,
                                              .lead = 40,
                                              .short_max = 8,
                                              .quantum = 64,
                                              .grant_cap = 2000,
                                              .calls = 1000,
                                              .start = 800,
                                              .receivers = 1,
                                              .channel = 3,
                                              .ucd_count = 1};

static const struct mapsched_call calls[] = {
    {.kind = MAPSCHED_BUILD, .minislot = 760},
    {.kind = MAPSCHED_ADMIT, .flow = MAPSCHED_BEST_EFFORT, .sid = 17, .priority = 3},
    {.kind = MAPSCHED_ASK, .receiver = 0, .sid = 17, .bytes = 100, .minislot = 801},
    {.kind = MAPSCHED_BUILD, .minislot = 800},
};

static int fail(const char *what, uint32_t status) {
  fprintf(stderr, "%s: %s\n", what, mapsched_status_text(status));
  return 1;
}

int main(void) {
  struct mapsched_scheduler scheduler = {0};
  uint32_t status = mapsched_open(&scheduler, &config);
  if (status != MAPSCHED_OK) return fail("open", status);
  for (uint32_t i = 0; i < sizeof calls / sizeof *calls; i++) {
    struct mapsched_stamp stamp = {.ticket = i};
    struct mapsched_reply reply;
    status = mapsched_call(&scheduler, &stamp, &calls[i], &reply);
    if (status != MAPSCHED_OK) return fail("call", status);
    if (reply.kind != MAPSCHED_BUILT) continue;
    for (uint32_t at = 0; at < reply.length; at++) printf("%02x", reply.payload[at]);
    printf("\n");
  }
  status = mapsched_close(&scheduler);
  return status == MAPSCHED_OK ? 0 : fail("close", status);
}
