/*
 * A channel by the burst descriptors of its UCD: 64-QAM, 5.12 million symbols a second, minislots of 64 symbols. Five
 * modems ask for so many bytes, and one before DOCSIS 3.0 for minislots; prints what the grants of the next MAP take.
 */
#include <mapsched.h>
#include <stdio.h>

/* The descriptors of short and of long data grants, which unsolicited ones have too. */
static const struct mapsched_bursts bursts = {
    .symbols = 64,
    .short_data = {.preamble = 32, .guard = 22, .bits = 6, .parity = 6, .information = 76, .shortened = 1},
    .long_data = {.preamble = 32, .guard = 22, .bits = 6, .parity = 9, .information = 232, .shortened = 1}};

/* What the flows of the SIDs from 17 on ask for: so many bytes, or so many minislots. */
static const struct {
  uint32_t amount;
  uint8_t has_slots;
} asked[] = {{64, 0}, {211, 0}, {212, 0}, {240, 0}, {1526, 0}, {7, 1}};
enum { FLOWS = sizeof asked / sizeof *asked, FIRST_SID = 17 };

static uint64_t tickets = 0;

static int fail(const char *what, uint32_t status) {
  fprintf(stderr, "%s: %s\n", what, mapsched_status_text(status));
  return 1;
}

/* The channel: MAPs of 80 minislots, a millisecond, in which a short grant has at most 6 minislots. */
static struct mapsched_config channel(void) {
  struct mapsched_config config = {.ticks = 2,
                                   .frame = 80,
                                   .cycle = 20,
                                   .req_slots = 4,
                                   .poll_slots = 2,
                                   .lead = 80,
                                   .short_max = 6,
                                   .quantum = 64,
                                   .grant_cap = 2000,
                                   .calls = 1000,
                                   .start = 800,
                                   .receivers = 1,
                                   .channel = 3,
                                   .ucd_count = 1,
                                   .has_bursts = 1};
  config.bursts = bursts;
  return config;
}

/* Makes a call, which is not refused. */
static uint32_t make(struct mapsched_scheduler *scheduler, struct mapsched_call call, struct mapsched_reply *reply) {
  struct mapsched_stamp stamp = {.ticket = tickets++};
  uint32_t status = mapsched_call(scheduler, &stamp, &call, reply);
  if (status == MAPSCHED_OK && reply->kind == MAPSCHED_REFUSED) fprintf(stderr, "refused %u\n", reply->refusal);
  return status;
}

/* The request of a modem. */
static struct mapsched_call ask_of(uint16_t i) {
  struct mapsched_call ask = {.kind = MAPSCHED_ASK, .sid = FIRST_SID + i, .minislot = 801};
  ask.has_slots = asked[i].has_slots;
  if (ask.has_slots)
    ask.slots = asked[i].amount;
  else
    ask.bytes = asked[i].amount;
  return ask;
}

/* Builds a MAP, lets each modem ask, and builds the next one. */
static uint32_t run(struct mapsched_scheduler *scheduler, struct mapsched_reply *reply) {
  struct mapsched_call build = {.kind = MAPSCHED_BUILD, .minislot = 720};
  uint32_t status = make(scheduler, build, reply);
  for (uint16_t i = 0; i < FLOWS && status == MAPSCHED_OK; i++) {
    struct mapsched_call admit = {
        .kind = MAPSCHED_ADMIT, .flow = MAPSCHED_BEST_EFFORT, .sid = FIRST_SID + i, .priority = (uint8_t)(7 - i)};
    status = make(scheduler, admit, reply);
    if (status == MAPSCHED_OK) status = make(scheduler, ask_of(i), reply);
  }
  build.minislot = 800;
  return status == MAPSCHED_OK ? make(scheduler, build, reply) : status;
}

/* Prints the data grants of a MAP. */
static void print_grants(const struct mapsched_map *map) {
  for (const struct mapsched_element *at = map->elements; at->iuc != 7; at++)
    if (at->sid >= FIRST_SID && at->sid < FIRST_SID + FLOWS)
      printf("%4u %s: %2u minislots, %s\n", asked[at->sid - FIRST_SID].amount,
             asked[at->sid - FIRST_SID].has_slots ? "minislots" : "bytes", at[1].offset - at->offset,
             at->iuc == 5 ? "short" : "long");
}

int main(void) {
  struct mapsched_config config = channel();
  struct mapsched_scheduler scheduler = {0};
  struct mapsched_reply reply;
  struct mapsched_map map;
  size_t element = 0;
  uint32_t status = mapsched_open(&scheduler, &config);
  if (status != MAPSCHED_OK) return fail("open", status);
  status = run(&scheduler, &reply);
  if (status != MAPSCHED_OK) return fail("call", status);
  status = mapsched_decode(reply.payload, reply.length, &map, &element);
  if (status != MAPSCHED_OK) return fail("decode", status);
  print_grants(&map);
  status = mapsched_close(&scheduler);
  return status == MAPSCHED_OK ? 0 : fail("close", status);
}
