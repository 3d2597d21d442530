/*
 * What calls of the library cost; checks/cost_from_c reads what it prints. `calls`: a hundred thousand drawn calls,
 * each where those before it are answered: the nanoseconds of a call by processor time, the middle of five runs, how
 * many were refused, and how many bytes the MAPs have. `calls with changes`: the same where twenty in a hundred change,
 * replace, rest or wake; `calls with peaks`: where eighty flows of a hundred that ask have a peak; `calls with
 * reservations`: where eighty best effort flows of a hundred have a minimum reserved rate. `no place`, `full build`,
 * `build beside reserves` and `build by profiles`: the microseconds of the costliest admission and of the costliest
 * builds, without opportunities, with the most, and where bursts are sent by descriptors.
 * `longest`: of a million drawn calls the eight that took longest by the clock, and the eight by processor time.
 */
#include "drawn_calls.h"

enum { CALLS = 100000, MANY = 1000000, RUNS = 5, TOLD = 8 };

static struct mapsched_call calls[CALLS];

static int ascending(const void *one, const void *other) {
  double a = *(const double *)one, b = *(const double *)other;
  return (a > b) - (a < b);
}

static double middle(double *took) {
  qsort(took, RUNS, sizeof *took, ascending);
  return took[RUNS / 2];
}

/* Draws the calls. */
static void draw(void) {
  struct mapsched_scheduler scheduler;
  struct mapsched_reply reply;
  uint64_t next = config.start;
  open(&scheduler, &config);
  for (size_t i = 0; i < CALLS; i++) {
    calls[i] = drawn(next);
    make(&scheduler, i, &calls[i], &reply);
    next = next_after(&reply, next);
  }
  mapsched_close(&scheduler);
}

/* Makes the calls, and counts those refused and the bytes of the MAPs. */
static double time_calls(unsigned long *refused, unsigned long *bytes) {
  struct mapsched_scheduler scheduler;
  struct mapsched_reply reply;
  *refused = *bytes = 0;
  open(&scheduler, &config);
  double start = now(CLOCK_PROCESS_CPUTIME_ID);
  for (size_t i = 0; i < CALLS; i++) {
    make(&scheduler, i, &calls[i], &reply);
    *refused += reply.kind == MAPSCHED_REFUSED;
    *bytes += reply.length;
  }
  double took = now(CLOCK_PROCESS_CPUTIME_ID) - start;
  mapsched_close(&scheduler);
  return took;
}

/* The frames of the costliest calls: a best effort flow may have one grant of 64 bytes at a time. */
static struct mapsched_config wide(void) {
  struct mapsched_config wide = config;
  wide.quantum = wide.grant_cap = 64;
  wide.calls = 1000;
  wide.receivers = 1;
  return wide;
}

/* An unsolicited flow of grants of 26 minislots, one every so many frames. */
static struct mapsched_call grants_every(uint16_t sid, uint32_t frames, uint32_t jitter_us) {
  return (struct mapsched_call){.kind = MAPSCHED_ADMIT, .flow = MAPSCHED_UNSOLICITED, .sid = sid, .size = 384,
    .interval_us = 25600 * frames, .jitter_us = jitter_us, .grants = 1};
}

/* The nanoseconds of a call by the clock. */
static double time_call(struct mapsched_scheduler *scheduler, const struct mapsched_call *call,
                        struct mapsched_reply *reply) {
  double start = now(CLOCK_MONOTONIC);
  make(scheduler, 0, call, reply);
  return now(CLOCK_MONOTONIC) - start;
}

/* An admission that finds no place in any frame of the cycle: 39 flows fill each of them. */
static double time_admission(void) {
  struct mapsched_config of = wide();
  struct mapsched_scheduler scheduler;
  struct mapsched_reply reply;
  open(&scheduler, &of);
  for (uint16_t sid = 1; sid < 40; sid++) {
    struct mapsched_call call = grants_every(sid, 1, 0);
    make(&scheduler, 0, &call, &reply);
    if (reply.kind != MAPSCHED_PLACED) fail("a flow has no place");
  }
  struct mapsched_call last = grants_every(40, 64, 25600);
  double took = time_call(&scheduler, &last, &reply);
  if (reply.kind != MAPSCHED_REFUSED || reply.refusal != 6) fail("the last flow has a place");
  mapsched_close(&scheduler);
  return took;
}

/* What stands before the Null of a MAP. */
struct counts {
  int data, opportunities;
};

static struct counts counts_of(const struct mapsched_reply *reply) {
  struct mapsched_map map;
  uintptr_t place = 0;
  struct counts counts = {0};
  if (mapsched_decode(reply->payload, reply->length, &map, &place) != MAPSCHED_OK) fail("no MAP");
  for (const struct mapsched_element *at = map.elements; at->iuc != 7; at++) {
    counts.data += at->sid != 0 && (at->iuc == 5 || at->iuc == 6);
    counts.opportunities += at->iuc == 3 || at->iuc == 4;
  }
  return counts;
}

/* Has 64 flows admitted, 40 of them polled, and lets each ask for more than a frame carries. */
static void fill(struct mapsched_scheduler *scheduler) {
  struct mapsched_reply reply;
  struct mapsched_call build = {.kind = MAPSCHED_BUILD, .minislot = 102400};
  for (uint16_t sid = 1; sid < 65; sid++) {
    struct mapsched_call call = {.kind = MAPSCHED_ADMIT, .sid = sid, .rate = 4000000, .burst = 100000};
    call.flow = sid <= 40 ? MAPSCHED_POLLED : MAPSCHED_BEST_EFFORT;
    if (sid <= 40) call.interval_us = 25600;
    if (sid > 40) call.priority = 3;
    make(scheduler, 0, &call, &reply);
  }
  make(scheduler, 0, &build, &reply);
  for (uint16_t sid = 1; sid < 65; sid++) {
    struct mapsched_call ask = {.kind = MAPSCHED_ASK, .sid = sid, .bytes = 64000, .minislot = 102400};
    make(scheduler, 0, &ask, &reply);
  }
}

/* A build with 93 allocations that are opportunities, so many, and data grants, 40 polls and 64 pending grants. */
static double time_build(int opportunities, uint32_t has_bursts) {
  struct mapsched_config of = wide();
  struct mapsched_scheduler scheduler;
  struct mapsched_reply reply;
  struct mapsched_call build = {.kind = MAPSCHED_BUILD, .minislot = 103424};
  of.has_bursts = has_bursts;
  open(&scheduler, &of);
  fill(&scheduler);
  for (int i = 0; i < opportunities; i++) {
    struct mapsched_call call = {.kind = MAPSCHED_RESERVE, .usage = MAPSCHED_STATION, .slots = 1, .sid = 100};
    call.sid += (uint16_t)i;
    make(&scheduler, 0, &call, &reply);
  }
  double took = time_call(&scheduler, &build, &reply);
  struct counts counts = counts_of(&reply);
  if (counts.opportunities != opportunities || counts.data != 93 - opportunities) fail("the MAP is not full");
  mapsched_close(&scheduler);
  return took;
}

/* Prints what drawn calls take. */
static void print_calls(const char *name) {
  unsigned long refused, bytes;
  double took[RUNS];
  draw();
  for (int run = 0; run < RUNS; run++) took[run] = time_calls(&refused, &bytes);
  printf("%s: %.0f nanoseconds each, %lu refused, %lu bytes\n", name, middle(took) / CALLS, refused, bytes);
}

/* The longest calls of a run so far by one of two times, the longest first. */
struct longest {
  struct {
    size_t number;
    struct mapsched_call call;
    uint32_t answer;
    double took[2];
  } calls[TOLD];
  int by;
};

/* Keeps a call in the place of the first that took less, and moves those behind it. */
static void keep(struct longest *longest, size_t number, const struct mapsched_call *call, uint32_t answer,
                 const double *took) {
  int place = 0;
  while (place < TOLD && longest->calls[place].took[longest->by] >= took[longest->by]) place++;
  if (place == TOLD) return;
  for (int i = TOLD - 1; i > place; i--) longest->calls[i] = longest->calls[i - 1];
  longest->calls[place].number = number;
  longest->calls[place].call = *call;
  longest->calls[place].answer = answer;
  longest->calls[place].took[0] = took[0];
  longest->calls[place].took[1] = took[1];
}

static void print_longest(const struct longest *longest) {
  static const char *const names[] = {"admission", "removal", "request", "progress", "build", "skip", "status",
    "opportunity", "header", "replacement", "change", "rest", "waking"};
  for (int i = 0; i < TOLD; i++)
    printf("longest by %s: call %zu, %s %s, %.0f ns by the clock, %.0f by processor time\n",
           longest->by ? "processor time" : "the clock", longest->calls[i].number, names[longest->calls[i].call.kind],
           longest->calls[i].answer == MAPSCHED_REFUSED ? "refused" : "accepted", longest->calls[i].took[0],
           longest->calls[i].took[1]);
}

/* Makes a million drawn calls on one scheduler, each timed. */
static void time_each(void) {
  static struct longest by_clock = {.by = 0}, by_processor = {.by = 1};
  struct mapsched_scheduler scheduler;
  struct mapsched_reply reply;
  uint64_t next = config.start;
  open(&scheduler, &config);
  for (size_t i = 0; i < MANY; i++) {
    struct mapsched_call call = drawn(next);
    double start[2] = {now(CLOCK_MONOTONIC), now(CLOCK_PROCESS_CPUTIME_ID)};
    make(&scheduler, i, &call, &reply);
    double took[2] = {now(CLOCK_MONOTONIC) - start[0], now(CLOCK_PROCESS_CPUTIME_ID) - start[1]};
    next = next_after(&reply, next);
    keep(&by_clock, i, &call, reply.kind, took);
    keep(&by_processor, i, &call, reply.kind, took);
  }
  mapsched_close(&scheduler);
  print_longest(&by_clock);
  print_longest(&by_processor);
}

int main(void) {
  double admissions[RUNS], builds[RUNS], beside[RUNS], by_profiles[RUNS];
  print_calls("calls");
  for (int run = 0; run < RUNS; run++) {
    admissions[run] = time_admission();
    builds[run] = time_build(0, 0);
    beside[run] = time_build(16, 0);
    by_profiles[run] = time_build(0, 1);
  }
  printf("no place: %.1f microseconds\n", middle(admissions) / 1000);
  printf("full build: %.1f microseconds\n", middle(builds) / 1000);
  printf("build beside reserves: %.1f microseconds\n", middle(beside) / 1000);
  printf("build by profiles: %.1f microseconds\n", middle(by_profiles) / 1000);
  time_each();
  changes_in_hundred = 20;
  print_calls("calls with changes");
  changes_in_hundred = 0;
  peaks_in_hundred = 80;
  print_calls("calls with peaks");
  peaks_in_hundred = 0;
  reservations_in_hundred = 80;
  print_calls("calls with reservations");
  return 0;
}
