/*
 * Scripts that are drawn call by call, for checks/forgetting.c: a configuration with small numbers of calls and large
 * ones, and calls of all kinds, of which some are refused and some are of no kind. What is drawn depends on the replies
 * to the calls before it.
 */
#include <mapsched.h>
#include <string.h>

/* Opportunities have six usages, whose numbers begin with that of MAPSCHED_INITIAL. */
enum { MOST_CALLS = 300, MOST_SIDS = 100, MOST_RECEIVERS = 3, AHEAD = 4096, USAGES = 6 };

#define COUNT(list) (sizeof(list) / sizeof *(list))
#define ONE_OF(list) ((list)[below(COUNT(list))])

static uint64_t state;

/* A number below this one. */
static uint64_t below(uint64_t bound) {
  uint64_t mixed = state += UINT64_C(0x9e3779b97f4a7c15);
  mixed = (mixed ^ (mixed >> 30)) * UINT64_C(0xbf58476d1ce4e5b9);
  mixed = (mixed ^ (mixed >> 27)) * UINT64_C(0x94d049bb133111eb);
  return (mixed ^ (mixed >> 31)) % bound;
}

/* Whether one of so many is drawn. */
static int is_one_in(uint64_t bound) { return below(bound) == 0; }

/* Where a drawing stands: the configuration, which SIDs it has and which are live, what these were given last, and the
 * scheduler's times. */
static struct {
  struct mapsched_config config;
  size_t sids;
  uint16_t sid[MOST_SIDS];
  uint8_t is_live[MOST_SIDS];
  struct mapsched_call given[MOST_SIDS];
  uint64_t admissions, ranging, changes, kinds;
  int has_small_grants;
  uint64_t next, progress[MOST_RECEIVERS];
} drawing;

/* Burst descriptors by which each burst takes what it takes without them: a byte is a symbol. */
static struct mapsched_bursts same_bursts(const struct mapsched_config *config) {
  uint32_t guard = (uint32_t)below(8), spent = config->overhead * config->bytes_per_slot;
  struct mapsched_profile profile = {.preamble = spent - guard, .guard = guard, .bits = 8, .information = 253};
  return (struct mapsched_bursts){.symbols = config->bytes_per_slot, .short_data = profile, .long_data = profile};
}

/* A profile, each number of which is lawful. */
static struct mapsched_profile drawn_profile(void) {
  static const uint32_t preambles[] = {0, 8, 32, 32, 64, 1536}, parities[] = {0, 1, 6, 9, 16};
  struct mapsched_profile profile = {.preamble = ONE_OF(preambles), .guard = (uint32_t)below(40)};
  profile.bits = 1 + (uint32_t)below(8);
  profile.parity = ONE_OF(parities);
  profile.information = 16 + (uint32_t)below(238 - 2 * profile.parity);
  profile.shortened = (uint32_t)below(2);
  return profile;
}

/* Burst descriptors of any profiles, where they leave room for a quantum of 64 bytes. */
static void draw_bursts(struct mapsched_config *config) {
  static const uint32_t symbols[] = {16, 64, 64, 128, 512, 4096};
  struct mapsched_config drawn = *config;
  drawn.quantum = 64;
  drawn.bursts.symbols = ONE_OF(symbols);
  drawn.bursts.short_data = drawn_profile();
  drawn.bursts.long_data = drawn_profile();
  if (is_one_in(2)) drawn.bursts.unsolicited = drawn_profile();
  if (mapsched_check(&drawn) == MAPSCHED_OK) *config = drawn;
}

/* Limits in one configuration of four, mostly low ones, of which any may be missing; some begin near a wrap of the
 * minislots on the wire. The other numbers of a script are drawn as without limits. */
static void draw_limits(struct mapsched_config *config) {
  static const uint32_t flows[] = {0, 1, 2, 3, 4, 6, 64, 100, MAPSCHED_MAX_SID}, pending[] = {0, 1, 1, 2, 4, 64, 125};
  static const uint32_t periodic[] = {0, 1, 3, 5, 40, 60, 2560};
  uint64_t kept = state;
  state ^= UINT64_C(0x2545f4914f6cdd1d);
  if (is_one_in(4)) {
    config->flows = ONE_OF(flows);
    config->pending = ONE_OF(pending);
    config->has_periodic = (uint8_t)below(3);
    config->periodic = ONE_OF(periodic);
    if (is_one_in(2)) config->start = config->frame * ((UINT64_C(1) << 32) / config->frame - below(4));
  }
  state = kept;
}

/* Idles that are open, and MAPs that settle behind a change of the UCD count: for less than a frame, for one or for
 * several. The other numbers of a script are drawn as without these. */
static void draw_idles(struct mapsched_config *config) {
  uint64_t kept = state;
  uint32_t frame = config->frame, settles[] = {1, frame - 1, frame, frame + 1, 2 * frame + 1, 3 * frame, AHEAD};
  state ^= UINT64_C(0x5851f42d4c957f2d);
  config->open_idle = (uint8_t)below(2);
  if (is_one_in(3)) config->settle = ONE_OF(settles);
  state = kept;
}

/* A lawful configuration. */
static struct mapsched_config drawn_config(void) {
  static const uint32_t frames[] = {16, 40, 40, 64, 100, 150, 256, 1024}, slots[] = {8, 16, 32, 64, 100};
  static const uint32_t cycles[] = {1, 2, 4, 6, 12, 20, 64}, calls[] = {1, 2, 3, 5, 8, 17, 40, 100, 300, 1000, 50000};
  struct mapsched_config config = {.ticks = 1u << below(5)};
  config.frame = ONE_OF(frames);
  config.overhead = 1 + (uint32_t)below(4);
  config.req_slots = 1 + (uint32_t)below(3);
  config.poll_slots = 1 + (uint32_t)below(3);
  config.bytes_per_slot = ONE_OF(slots);
  uint32_t room = (config.frame - config.req_slots - config.overhead) * config.bytes_per_slot;
  config.quantum = 64 + (uint32_t)below(room > 1522 ? 1459 : room - 63);
  config.grant_cap = config.quantum + (uint32_t)below(4 * config.quantum);
  config.cycle = ONE_OF(cycles);
  config.calls = ONE_OF(calls);
  config.receivers = (uint8_t)(1 + below(MOST_RECEIVERS));
  uint64_t starts[] = {0, 20, (UINT64_C(1) << 31) / config.frame, UINT64_C(1000000000000)};
  uint32_t leads[] = {0, config.frame, AHEAD - 2 * config.frame};
  config.start = config.frame * ONE_OF(starts);
  config.lead = ONE_OF(leads);
  config.short_max = (uint32_t)below(config.frame + 1);
  config.phy = (uint8_t)below(2);
  if (is_one_in(4)) config.flows = 60 + (uint32_t)below(10);
  if (is_one_in(4)) config.pending = 60 + (uint32_t)below(10);
  config.periodic = 35 + (uint32_t)below(10);
  config.has_periodic = (uint32_t)below(3);
  uint8_t *const others[] = {&config.ranging_start, &config.ranging_end, &config.data_start, &config.data_end};
  for (size_t i = 0; i < COUNT(others); i++) *others[i] = (uint8_t)below(16);
  config.channel = (uint8_t)below(256);
  config.ucd_count = (uint8_t)below(256);
  config.bursts = same_bursts(&config);
  if (is_one_in(3)) {
    config.has_bursts = 1 + (uint32_t)below(3);
    config.bytes_per_slot = config.overhead = (uint32_t)below(3000);
    if (!is_one_in(3)) draw_bursts(&config);
  }
  draw_limits(&config);
  draw_idles(&config);
  return config;
}

/* Begins a drawing. */
static void begin_drawing(uint64_t seed) {
  static const size_t sids[] = {3, 12, 12, MOST_SIDS}, admissions[] = {4, 4, 60}, kinds[] = {3, 3, 9, 2};
  static const size_t ranging[] = {0, 4, 25}, changes[] = {0, 6, 20};
  state = seed;
  memset(&drawing, 0, sizeof drawing);
  drawing.config = drawn_config();
  drawing.sids = ONE_OF(sids);
  for (size_t i = 0; i < drawing.sids; i++) drawing.sid[i] = (uint16_t)(1 + below(MAPSCHED_MAX_SID));
  drawing.admissions = ONE_OF(admissions);
  drawing.ranging = ONE_OF(ranging);
  if (drawing.config.settle && !drawing.ranging) drawing.ranging = 1;
  drawing.changes = ONE_OF(changes);
  drawing.kinds = ONE_OF(kinds);
  drawing.has_small_grants = is_one_in(2);
  drawing.next = drawing.config.start;
  for (size_t i = 0; i < MOST_RECEIVERS; i++) drawing.progress[i] = drawing.config.start;
}

/* An SID that is live or not, mostly, as is wanted. */
static uint16_t drawn_sid(int is_live) {
  static const uint16_t others[] = {0, MAPSCHED_MAX_SID + 1, UINT16_MAX, 4711};
  size_t at = below(drawing.sids);
  if (is_one_in(25)) return ONE_OF(others);
  for (size_t i = 0; i < drawing.sids && drawing.is_live[at] != is_live && !is_one_in(50); i++)
    at = (at + 1) % drawing.sids;
  return drawing.sid[at];
}

/* A peak in one flow of three: one that brings next to nothing, or one below its rate, at it or above it. The other
 * numbers of a script are drawn as without peaks. */
static void draw_peak(struct mapsched_call *call) {
  uint64_t kept = state;
  uint32_t peaks[] = {0, 1, 8000, 64000, 64001, call->rate / 2, call->rate, 3 * call->rate, 5000000, UINT32_MAX};
  state ^= UINT64_C(0x369dea0f31a53f85);
  if (is_one_in(3)) call->peak = ONE_OF(peaks);
  state = kept;
}

/* Rate, burst and peak of a flow that asks. */
static void draw_ceiling(struct mapsched_call *call) {
  static const uint32_t rates[] = {0, 0, 64000, 300000, 5000000};
  uint32_t bursts[] = {drawing.config.quantum, 1522, 5000, 100000};
  call->rate = ONE_OF(rates);
  call->burst = is_one_in(20) ? 63 : ONE_OF(bursts);
  draw_peak(call);
}

/* A minimum reserved rate in one best effort flow of three: mostly one that brings the quantum in a frame or in a few,
 * with a burst of the quantum or of a few, and seldom one that is too low. The other numbers of a script are drawn as
 * without. */
static void draw_reservation(struct mapsched_call *call) {
  uint64_t kept = state;
  uint32_t quantum = drawing.config.quantum;
  uint32_t rate = (uint32_t)(UINT64_C(1280000) * quantum / (drawing.config.frame * drawing.config.ticks));
  uint32_t rates[] = {0, 1, 64000, 2 * rate, rate, rate / 2, rate / 3, rate / 7, UINT32_MAX};
  uint32_t bursts[] = {quantum, quantum, quantum + 1, 2 * quantum, 1522 + quantum, 100000};
  state ^= UINT64_C(0x9f1b3c58d2e64a07);
  if (is_one_in(3)) {
    call->reserved = ONE_OF(rates);
    call->reserved_burst = is_one_in(20) ? 63 : ONE_OF(bursts);
  }
  state = kept;
}

/* An interval of whole frames that part the cycle, or mostly so, and a jitter. */
static void draw_times(struct mapsched_call *call) {
  static const uint32_t jitters[] = {0, 0, 50, 400, 3000};
  uint32_t quarters = 25 * drawing.config.ticks, frames = 1 + (uint32_t)below(drawing.config.cycle);
  while (drawing.config.cycle % frames) frames--;
  if (is_one_in(10)) frames = is_one_in(2) ? 3 * frames : 65 * (uint32_t)below(2);
  call->interval_us = frames * drawing.config.frame * quarters / 4 + (is_one_in(20) ? 1 + (uint32_t)below(60) : 0);
  call->jitter_us = ONE_OF(jitters) * quarters / 100;
}

/* An admission of a flow of any kind, and seldom of none. */
static struct mapsched_call drawn_admission(void) {
  static const uint32_t sizes[] = {0, 1, 20, 60, 60, 200, 200, 5000};
  static const uint8_t grants[] = {1, 1, 1, 1, 1, 2, 2, 3, 8, 9, 0};
  struct mapsched_call call = {.kind = MAPSCHED_ADMIT, .sid = drawn_sid(0)};
  uint64_t kind = below(drawing.kinds);
  call.flow = kind > 2 ? MAPSCHED_BEST_EFFORT : (uint32_t)kind;
  if (call.flow != MAPSCHED_BEST_EFFORT) draw_times(&call);
  if (call.flow != MAPSCHED_UNSOLICITED) draw_ceiling(&call);
  if (call.flow == MAPSCHED_BEST_EFFORT) {
    call.priority = (uint8_t)(is_one_in(30) ? 8 + below(248) : below(8));
    draw_reservation(&call);
  }
  if (call.flow == MAPSCHED_UNSOLICITED) {
    call.size = drawing.has_small_grants ? 1 + (uint32_t)below(8) : ONE_OF(sizes);
    call.grants = ONE_OF(grants);
  }
  if (is_one_in(100)) call.flow = 3 + (uint32_t)below(UINT32_MAX - 2);
  return call;
}

/* A receiver, and seldom one that is not there. */
static uint8_t drawn_receiver(void) {
  return (uint8_t)(is_one_in(30) ? drawing.config.receivers + below(200) : below(drawing.config.receivers));
}

/* A minislot round the receiver's progress and the next frame. */
static uint64_t drawn_near(uint8_t receiver) {
  uint64_t next = drawing.next, least = drawing.config.start;
  if (receiver < drawing.config.receivers) least = drawing.progress[receiver];
  uint64_t first = least < next ? least : next;
  uint64_t times[] = {least, least, least ? least - 1 : 0, next, next + 1, first + below(next - first + 1)};
  return is_one_in(3) ? ONE_OF(times) : next ? next - 1 : 0;
}

/* A time at which the next frame can be built, or mostly so. */
static uint64_t drawn_clock(void) {
  uint64_t next = drawing.next, lead = drawing.config.lead, end = next + drawing.config.frame;
  uint64_t just = next > lead ? next - lead : 0, early = end > AHEAD ? end - AHEAD : 0;
  uint64_t times[] = {early, early ? early - 1 : 0, just + 1, just > 3 ? just - 3 : 0, MAPSCHED_MAX_CLOCK + 1};
  return is_one_in(3) ? ONE_OF(times) : just;
}

/* A request, one in five in minislots, which carry some bytes, none or too many. */
static struct mapsched_call drawn_ask(void) {
  static const uint32_t counts[] = {1, 64, 100, 544, 1522, 3000, 9000, 100000, MAPSCHED_MAX_REQUEST_BYTES};
  static const uint32_t wrong[] = {0, MAPSCHED_MAX_REQUEST_BYTES + 1, UINT32_MAX};
  static const uint32_t slots[] = {0, 1, 2, 3, 4, 4, 5, 6, 7, 8, 12, 40, 100, 1000, 65537, 65538, 1u << 26, UINT32_MAX};
  struct mapsched_call call = {.kind = MAPSCHED_ASK, .sid = drawn_sid(1)};
  call.receiver = drawn_receiver();
  call.has_slots = (uint8_t)is_one_in(5);
  if (call.has_slots) call.slots = ONE_OF(slots);
  else call.bytes = is_one_in(30) ? ONE_OF(wrong) : ONE_OF(counts);
  call.minislot = drawn_near(call.receiver);
  return call;
}

/* A request that supersedes those before, some for nothing. */
static struct mapsched_call drawn_replace(void) {
  struct mapsched_call call = drawn_ask();
  call.kind = MAPSCHED_REPLACE;
  if (!call.has_slots && is_one_in(4)) call.bytes = 0;
  return call;
}

/* What a live flow was given last; of one that does not live, zeroes. */
static struct mapsched_call given_to(uint16_t sid) {
  for (size_t i = 0; i < drawing.sids; i++)
    if (drawing.sid[i] == sid && drawing.is_live[i]) return drawing.given[i];
  return (struct mapsched_call){.kind = 0};
}

/* A change, seldom to another kind of flow; one in two leaves what places a flow, by the priority its peak and the
 * numbers of its reservation, one or both, and seldom all of it. */
static struct mapsched_call drawn_change(void) {
  uint16_t sid = drawn_sid(1);
  struct mapsched_call given = given_to(sid), call = drawn_admission();
  while (call.flow != given.flow && !is_one_in(12)) call = drawn_admission();
  if (call.flow == given.flow && is_one_in(2)) {
    if (call.priority % 2) call.peak = given.peak;
    if (call.priority % 4 > 0) call.reserved = given.reserved;
    if (call.priority % 4 > 1) call.reserved_burst = given.reserved_burst;
    call.size = given.size;
    call.interval_us = given.interval_us;
    call.jitter_us = given.jitter_us;
    call.grants = given.grants;
  }
  if (is_one_in(12)) call = given;
  call.kind = MAPSCHED_CHANGE;
  call.sid = sid;
  return call;
}

/* A flow is changed, tells its queue's depth, rests or wakes. */
static struct mapsched_call drawn_changing(void) {
  uint64_t kind = below(6);
  if (kind < 2) return drawn_replace();
  if (kind < 4) return drawn_change();
  return (struct mapsched_call){.kind = kind == 4 ? MAPSCHED_REST : MAPSCHED_WAKE, .sid = drawn_sid(1)};
}

/* An opportunity of any usage, mostly short and of a length that a frame has, and seldom of no usage. Its SID may be at
 * an end of those of modems, or of those that requests may have beside them. */
static struct mapsched_call drawn_reserve(void) {
  static const uint16_t edges[] = {
    0, 1, MAPSCHED_MAX_SID, MAPSCHED_MAX_SID + 1, 15872, 15873, 16127, 16128, 16382, 16383, UINT16_MAX};
  uint32_t room = drawing.config.frame - drawing.config.req_slots;
  uint32_t slots[] = {1, 1, 2, 4, 4, 8, room / 3, room - 1, room, room, room + 1, 0, UINT32_MAX};
  struct mapsched_call call = {.kind = MAPSCHED_RESERVE, .usage = (uint32_t)below(USAGES), .slots = ONE_OF(slots)};
  if (call.usage != MAPSCHED_INITIAL && call.usage != MAPSCHED_QUIET)
    call.sid = is_one_in(4) ? ONE_OF(edges) : drawn_sid(is_one_in(2));
  if (is_one_in(100)) call.usage = USAGES + (uint32_t)below(UINT32_MAX - USAGES + UINT64_C(1));
  return call;
}

/* A header, and seldom one with an exponent that is none. Where MAPs settle it may have the configuration's count. */
static struct mapsched_call drawn_header(void) {
  struct mapsched_call call = {.kind = MAPSCHED_HEADER, .ucd_count = (uint8_t)below(256)};
  if (drawing.config.settle && is_one_in(3)) call.ucd_count = drawing.config.ucd_count;
  uint8_t *const exponents[] = {&call.ranging_start, &call.ranging_end, &call.data_start, &call.data_end};
  for (size_t i = 0; i < COUNT(exponents); i++) *exponents[i] = (uint8_t)(is_one_in(20) ? 16 + below(240) : below(16));
  return call;
}

/* The next call. */
static struct mapsched_call drawn_call(void) {
  uint64_t kind = below(22 + drawing.admissions + drawing.changes + drawing.ranging);
  struct mapsched_call call = {.kind = MAPSCHED_STATUS, .sid = drawn_sid(1)};
  if (is_one_in(100)) {
    uint32_t unknown = MAPSCHED_WAKE + 1 + (uint32_t)below(UINT32_MAX - MAPSCHED_WAKE);
    return (struct mapsched_call){.kind = unknown, .sid = call.sid};
  }
  if (kind < 9) return drawn_ask();
  if (kind < 15) return (struct mapsched_call){.kind = MAPSCHED_BUILD, .minislot = drawn_clock()};
  if (kind == 15) return (struct mapsched_call){.kind = MAPSCHED_SKIP, .minislot = drawn_clock()};
  if (kind == 16) return (struct mapsched_call){.kind = MAPSCHED_REMOVE, .sid = call.sid};
  if (kind < 20) {
    uint8_t receiver = drawn_receiver();
    return (struct mapsched_call){.kind = MAPSCHED_HEARD, .receiver = receiver, .minislot = drawn_near(receiver)};
  }
  if (kind < 22) return call;
  kind -= 22;
  if (kind < drawing.admissions) return drawn_admission();
  kind -= drawing.admissions;
  if (kind < drawing.changes) return drawn_changing();
  return kind == drawing.changes ? drawn_header() : drawn_reserve();
}

/* Where the drawing stands after a call and its reply. */
static void follow(const struct mapsched_call *call, const struct mapsched_reply *reply) {
  if (reply->kind == MAPSCHED_BUILT) drawing.next = reply->value + drawing.config.frame;
  if (reply->kind == MAPSCHED_SKIPPED) drawing.next = reply->value;
  if (reply->kind == MAPSCHED_NOTED && call->kind == MAPSCHED_HEARD && call->receiver < MOST_RECEIVERS)
    drawing.progress[call->receiver] = call->minislot;
  for (size_t i = 0; i < drawing.sids; i++) {
    if (drawing.sid[i] != call->sid) continue;
    int gives = reply->kind == MAPSCHED_ADMITTED || reply->kind == MAPSCHED_PLACED || reply->kind == MAPSCHED_CHANGED;
    if (gives) drawing.is_live[i] = 1, drawing.given[i] = *call;
    if (reply->kind == MAPSCHED_REMOVED) drawing.is_live[i] = 0;
  }
}
