/*
 * Calls on a channel where many flows live; checks/figures has their instructions counted in `measured` alone.
 * `many_flows WHAT LIVE WAITING TIMES`: so many best effort flows are live and so many of them wait, spread among 8,000
 * SIDs, and WHAT (`build`, `ask`, `replace`, `status`, `change` of a ceiling, `admit`, `remove`) is called so many
 * times. `voice` is a build where they are unsolicited flows that all have their one grant in a cycle, or in a frame
 * where 16 live or fewer. Prints a number for all replies, which is the same for the same replies. `opening` prints the
 * bytes of a scheduler for LIVE flows.
 */
#include "calling.h"
#include <inttypes.h>
#include <malloc.h>
#include <string.h>

enum { SIDS = 8000 };

static const struct mapsched_config config = {.ticks = 4, .bytes_per_slot = 16, .overhead = 2, .frame = 1024,
  .cycle = 64, .req_slots = 4, .poll_slots = 1, .short_max = 8, .quantum = 256, .grant_cap = 1518, .calls = 100000,
  .start = 102400, .receivers = 1, .channel = 3, .ucd_count = 1, .flows = 8191, .has_periodic = 1, .periodic = 2560};

static struct mapsched_scheduler scheduler;
static struct mapsched_reply reply;
static uint64_t calls, said = UINT64_C(14695981039346656037);

static void say(uint64_t what) { said = (said ^ what) * UINT64_C(1099511628211); }

/* A call whose reply is said. */
static __attribute__((noinline)) void measured(const struct mapsched_call *call) {
  make(&scheduler, calls++, call, &reply);
}

static void tell(const struct mapsched_call *call) {
  measured(call);
  if (reply.kind == MAPSCHED_REFUSED) fail("a call is refused");
  say(reply.kind);
  for (size_t i = 0; i < reply.length; i++) say(reply.payload[i]);
}

/* Makes a call that is accepted and not measured. */
static void prepare(const struct mapsched_call *call) {
  make(&scheduler, calls++, call, &reply);
  if (reply.kind == MAPSCHED_REFUSED) fail("a call is refused");
}

static uint16_t sid_of(long place, long of) { return (uint16_t)(1 + place * (SIDS / of)); }

static struct mapsched_call best_effort(uint16_t sid) {
  return (struct mapsched_call){.kind = MAPSCHED_ADMIT, .flow = MAPSCHED_BEST_EFFORT, .sid = sid};
}

/* One grant in the 64 frames of a cycle, or in each frame. */
static struct mapsched_call voice(uint16_t sid, int is_each) {
  return (struct mapsched_call){.kind = MAPSCHED_ADMIT, .flow = MAPSCHED_UNSOLICITED, .sid = sid, .size = 232,
    .interval_us = is_each ? 25600 : 64 * 25600, .grants = 1};
}

/* A request: an ask, or one that supersedes those before. */
static struct mapsched_call request(uint32_t kind, uint16_t sid, uint32_t bytes, uint64_t next) {
  return (struct mapsched_call){.kind = kind, .sid = sid, .bytes = bytes, .minislot = next - 1};
}

/* Another ceiling than the flow has. */
static struct mapsched_call ceiling(uint16_t sid, long number) {
  return (struct mapsched_call){.kind = MAPSCHED_CHANGE, .flow = MAPSCHED_BEST_EFFORT, .sid = sid,
    .rate = 64000 + (uint32_t)number, .burst = 1600};
}

/* Has a frame built, and gives the start of the next. */
static uint64_t build(uint64_t next, void (*by)(const struct mapsched_call *)) {
  struct mapsched_call call = {.kind = MAPSCHED_BUILD, .minislot = next};
  by(&call);
  return next + config.frame;
}

int main(int count, char **words) {
  if (count != 5) fail("many_flows WHAT LIVE WAITING TIMES");
  const char *what = words[1];
  long live = atol(words[2]), waiting = atol(words[3]), times = atol(words[4]);
  struct mapsched_config of = config;
  int is_opening = !strcmp(what, "opening"), is_voice = !strcmp(what, "voice");
  uint64_t next = of.start;
  size_t before = mallinfo2().uordblks;
  if (is_opening) of.flows = (uint32_t)live;
  open(&scheduler, &of);
  if (is_opening) {
    printf("%zu\n", mallinfo2().uordblks - before);
    return 0;
  }
  for (long i = 0; i < live; i++) {
    struct mapsched_call call = is_voice ? voice(sid_of(i, live), live <= 16) : best_effort(sid_of(i, live));
    prepare(&call);
  }
  next = build(next, prepare);
  for (long i = 0; i < waiting; i++) {
    struct mapsched_call call = request(MAPSCHED_ASK, sid_of(i, waiting), 1000000, next);
    prepare(&call);
  }
  for (long i = 0; i < times; i++) {
    uint16_t sid = sid_of(i % 64, 64);
    struct mapsched_call status = {.kind = MAPSCHED_STATUS, .sid = sid}, remove = {.kind = MAPSCHED_REMOVE, .sid = sid};
    struct mapsched_call ask = request(MAPSCHED_ASK, sid, 100, next), admit = best_effort(sid);
    struct mapsched_call replace = request(MAPSCHED_REPLACE, sid, 100, next), change = ceiling(sid, i);
    if (is_voice || !strcmp(what, "build")) next = build(next, tell);
    if (!strcmp(what, "ask")) tell(&ask);
    if (!strcmp(what, "replace")) tell(&replace);
    if (!strcmp(what, "status")) tell(&status);
    if (!strcmp(what, "change")) tell(&change);
    if (!strcmp(what, "remove")) tell(&remove), prepare(&admit);
    if (!strcmp(what, "admit")) prepare(&remove), tell(&admit);
  }
  printf("%" PRIu64 "\n", said);
  return 0;
}
