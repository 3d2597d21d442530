/* Calls that have to be recorded, and the time that they take, for the programs here that measure. */
#define _POSIX_C_SOURCE 200809L
#include <mapsched.h>
#include <stdio.h>
#include <stdlib.h>
#include <time.h>

/* The nanoseconds of a clock. */
static inline double now(clockid_t clock) {
  struct timespec at;
  clock_gettime(clock, &at);
  return (double)at.tv_sec * 1e9 + (double)at.tv_nsec;
}

static inline void fail(const char *what) {
  fprintf(stderr, "%s\n", what);
  exit(1);
}

/* Makes a call, which is recorded. */
static inline void make(struct mapsched_scheduler *scheduler, uint64_t ticket, const struct mapsched_call *call,
                        struct mapsched_reply *reply) {
  struct mapsched_stamp stamp = {.ticket = ticket};
  if (mapsched_call(scheduler, &stamp, call, reply) != MAPSCHED_OK) fail("a call is not recorded");
}

static inline void open(struct mapsched_scheduler *scheduler, const struct mapsched_config *of) {
  *scheduler = (struct mapsched_scheduler){0};
  if (mapsched_open(scheduler, of) != MAPSCHED_OK) fail("no scheduler");
}
