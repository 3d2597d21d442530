/*
 * Calls of all kinds that are drawn one by one, for checks/costs.c and checks/without_end.c: some fifty flows live on a
 * channel with frames of 1024 minislots of 25 microseconds, and admissions and removals all along. Its burst
 * descriptors are read where `has_bursts` is not 0: minislots of 32 symbols, 24 bytes with their parity, in 64-QAM.
 */
#include "calling.h"

#define PROFILE(k, t) \
  {.preamble = 32, .guard = 22, .bits = 6, .information = (k), .parity = (t), .shortened = 1}

static const struct mapsched_config config = {.ticks = 4, .bytes_per_slot = 16, .overhead = 2, .frame = 1024,
  .cycle = 64, .req_slots = 4, .poll_slots = 1, .short_max = 8, .quantum = 256, .grant_cap = 8192, .calls = 1000000,
  .start = 102400, .receivers = 4, .channel = 3, .ucd_count = 1,
  .bursts = {.symbols = 32, .short_data = PROFILE(76, 6), .long_data = PROFILE(232, 9)}};

static uint64_t state = UINT64_C(0x9e3779b97f4a7c15);

/* A number below this one. */
static uint64_t below(uint64_t bound) {
  state ^= state << 13;
  state ^= state >> 7;
  state ^= state << 17;
  return state % bound;
}

/* How many flows of a hundred that ask have a peak, and how many best effort flows of a hundred have a minimum reserved
 * rate: none where nobody says so, and then what is drawn is as without them. */
static uint64_t peaks_in_hundred, reservations_in_hundred;

/* An admission of a flow of any kind. */
static struct mapsched_call admission(uint16_t sid) {
  struct mapsched_call call = {.kind = MAPSCHED_ADMIT, .sid = sid};
  uint32_t interval_us = 25600u << below(4), jitter_us = 25 * (uint32_t)below(200);
  uint32_t rate = 500000 * (uint32_t)below(9);
  uint64_t kind = below(5);
  call.flow = kind == 0 ? MAPSCHED_UNSOLICITED : kind == 1 ? MAPSCHED_POLLED : MAPSCHED_BEST_EFFORT;
  if (kind <= 1) {
    call.interval_us = interval_us;
    call.jitter_us = jitter_us;
  }
  if (kind == 0) {
    call.size = 64 + (uint32_t)below(200);
    call.grants = 1;
  } else {
    if (kind > 1) call.priority = (uint8_t)below(8);
    call.rate = rate;
    call.burst = 100000;
    if (peaks_in_hundred && below(100) < peaks_in_hundred) call.peak = 500000 * (uint32_t)below(17);
    if (kind > 1 && reservations_in_hundred && below(100) < reservations_in_hundred) {
      call.reserved = 100000 * (1 + (uint32_t)below(9));
      call.reserved_burst = 256 + (uint32_t)below(3000);
    }
  }
  return call;
}

/* How many calls of a hundred change a flow: none where nobody says so, and then what is drawn is as without them. */
static uint64_t changes_in_hundred;
static struct mapsched_call wanted[71];

/* A flow's depth of queue; its rest and its waking; other parameters of its kind, or those that it has. */
static struct mapsched_call changing(uint16_t sid, uint64_t next) {
  struct mapsched_call call = wanted[sid];
  uint64_t kind = below(6);
  if (kind < 2)
    return (struct mapsched_call){.kind = MAPSCHED_REPLACE, .receiver = (uint8_t)below(4), .sid = sid,
      .bytes = (uint32_t)below(6000), .minislot = next - 1};
  if (kind < 4) return (struct mapsched_call){.kind = kind == 2 ? MAPSCHED_REST : MAPSCHED_WAKE, .sid = sid};
  if (kind == 4) {
    do call = admission(sid);
    while (call.flow != wanted[sid].flow);
  }
  call.kind = MAPSCHED_CHANGE;
  call.sid = sid;
  return call;
}

/* An opportunity to range, one in sixteen of a length that no frame has; or a header, some with an exponent of 16. */
static struct mapsched_call ranging(void) {
  struct mapsched_call call = {.kind = MAPSCHED_RESERVE, .usage = (uint32_t)below(2)};
  if (below(8) == 0)
    return (struct mapsched_call){.kind = MAPSCHED_HEADER, .ucd_count = (uint8_t)below(256),
      .ranging_start = (uint8_t)below(17), .ranging_end = 10, .data_start = 4, .data_end = (uint8_t)below(17)};
  if (call.usage == MAPSCHED_STATION) call.sid = (uint16_t)below(70);
  call.slots = below(16) ? 1 + (uint32_t)below(60) : 1021 * (uint32_t)below(2);
  return call;
}

/* The next call, where the frame of the next MAP starts at this minislot. */
static struct mapsched_call drawn(uint64_t next) {
  uint16_t sid = (uint16_t)(below(70) + 1);
  uint8_t receiver = (uint8_t)below(4);
  uint64_t kind = below(100);
  if (changes_in_hundred && below(100) < changes_in_hundred) return changing(sid, next);
  if (kind <= 3) return wanted[sid] = admission(sid);
  if (kind == 4) return (struct mapsched_call){.kind = MAPSCHED_REMOVE, .sid = sid};
  if (kind <= 14) return (struct mapsched_call){.kind = MAPSCHED_BUILD, .minislot = next};
  if (kind == 15) return (struct mapsched_call){.kind = MAPSCHED_SKIP, .minislot = next + 1};
  if (kind <= 25) {
    uint64_t back = below(3000);
    return (struct mapsched_call){
      .kind = MAPSCHED_HEARD, .receiver = receiver, .minislot = next > back ? next - back : 0};
  }
  if (kind <= 35) return (struct mapsched_call){.kind = MAPSCHED_STATUS, .sid = sid};
  if (kind <= 37) return ranging();
  return (struct mapsched_call){.kind = MAPSCHED_ASK, .receiver = receiver, .sid = sid,
    .bytes = 1 + (uint32_t)below(6000), .minislot = next - 1};
}

/* Where the frame of the next MAP starts after this reply. */
static uint64_t next_after(const struct mapsched_reply *reply, uint64_t next) {
  if (reply->kind == MAPSCHED_BUILT) return reply->value + config.frame;
  return reply->kind == MAPSCHED_SKIPPED ? reply->value : next;
}
