/*
 * Drawn scripts, each made by two schedulers: one that keeps its whole history, and one that forgets at drawn places,
 * and wherever it is full. Every answer of the second has to be that of the first, byte for byte; what it kept before
 * each time it forgot, put together, has to be the history of the first; and at each place it has to tell how many
 * calls were recorded, which of them are kept, and that it is full exactly where as many are kept as its configuration
 * allows. The first has the same configuration, but room for the whole script.
 *
 * `forgetting [SEED [SCRIPTS]]`: prints what failed, the first of each script, and last `N passed, M failed`.
 */
#include "drawn_script.h"
#include <stdio.h>
#include <stdlib.h>

enum { SCRIPTS = 10000, SEED = 20261125, FILLED = 0xa5, REFUSALS = 23, REASONS = 8, KINDS = MAPSCHED_CHANGED + 1 };

/* The bytes of a call up to its last number: what is behind it in the struct is nobody's. */
enum { NUMBERS = offsetof(struct mapsched_call, reserved_burst) + sizeof(uint32_t) };

/* A script, with what the scheduler that keeps all answered, and the places of the calls that it recorded. */
static struct {
  uint64_t seed;
  size_t length, recorded;
  struct mapsched_stamp stamps[MOST_CALLS];
  struct mapsched_call calls[MOST_CALLS];
  uint32_t statuses[MOST_CALLS];
  struct mapsched_reply replies[MOST_CALLS];
  size_t places[MOST_CALLS];
  struct mapsched_scheduler scheduler;
} whole;

/* The scheduler that forgets: what it has to tell, and the entries that were read before it forgot them. */
static struct {
  uint32_t calls;
  size_t recorded, kept_from;
  struct mapsched_entry entries[MOST_CALLS];
  struct mapsched_scheduler scheduler;
} brief;

/* What was met of all scripts: kinds of replies, refusals, parameters that are refused, and statuses of calls. */
static struct {
  unsigned long replies[KINDS], refusals[REFUSALS + 1], reasons[REASONS + 1], statuses[MAPSCHED_HANDED_OVER + 1];
} met;

static int has_failed;
static unsigned long passed, failed;

/* That something holds at a call of the script. Only the first failure of a script is told. */
static void want(int holds, const char *what, size_t at) {
  if (!holds && !has_failed)
    printf("FAILED: seed %llu, call %zu: %s\n", (unsigned long long)whole.seed, at, what);
  has_failed |= !holds;
}

/* Makes a call, over a reply of which every byte is told. */
static uint32_t make(struct mapsched_scheduler *scheduler, size_t at, struct mapsched_reply *reply) {
  memset(reply, FILLED, sizeof *reply);
  return mapsched_call(scheduler, &whole.stamps[at], &whole.calls[at], reply);
}

static int is_untouched(const void *bytes, size_t length) {
  const unsigned char *at = bytes;
  return at[0] == FILLED && memcmp(at, at + 1, length - 1) == 0;
}

/* Counts what was met by a call. */
static void meet(uint32_t status, const struct mapsched_reply *reply) {
  if (status <= MAPSCHED_HANDED_OVER) met.statuses[status]++;
  if (status != MAPSCHED_OK || reply->kind >= KINDS) return;
  met.replies[reply->kind]++;
  if (reply->kind != MAPSCHED_REFUSED || reply->refusal > REFUSALS) return;
  met.refusals[reply->refusal]++;
  if (reply->refusal == 3 && reply->value <= REASONS) met.reasons[reply->value]++;
}

/* Draws a script, while a scheduler that keeps all makes its calls. */
static void draw_script(uint64_t seed) {
  static const size_t lengths[] = {10, 30, 100, 200, MOST_CALLS};
  begin_drawing(seed);
  struct mapsched_config roomy = drawing.config;
  if (roomy.calls < MOST_CALLS) roomy.calls = MOST_CALLS;
  whole.seed = seed;
  whole.recorded = 0;
  whole.length = below(ONE_OF(lengths) + 1);
  want(mapsched_open(&whole.scheduler, &roomy) == MAPSCHED_OK, "no scheduler that keeps all", 0);
  for (size_t at = 0; at < whole.length; at++) {
    whole.calls[at] = drawn_call();
    whole.stamps[at].seat = (uint32_t)below(64);
    whole.stamps[at].ticket = below(UINT64_MAX);
    uint32_t status = whole.statuses[at] = make(&whole.scheduler, at, &whole.replies[at]);
    want(status == MAPSCHED_OK || status == MAPSCHED_BAD_CALL, "a call of the one that keeps all", at);
    meet(status, &whole.replies[at]);
    if (status != MAPSCHED_OK) continue;
    whole.places[whole.recorded++] = at;
    follow(&whole.calls[at], &whole.replies[at]);
  }
}

/* Whether an entry is that of this call of the script, with the reply of the scheduler that keeps all. */
static int is_entry_of(const struct mapsched_entry *entry, size_t at) {
  return entry->stamp.seat == whole.stamps[at].seat && entry->stamp.ticket == whole.stamps[at].ticket &&
         memcmp(&entry->call, &whole.calls[at], NUMBERS) == 0 &&
         memcmp(&entry->reply, &whole.replies[at], sizeof entry->reply) == 0;
}

/* An entry that is not kept has this status, and nothing is written. */
static void look_in_vain(size_t place, uint32_t status, size_t at) {
  static struct mapsched_entry entry;
  const char *what = status == MAPSCHED_NO_ENTRY ? "the status where no entry is" : "the status where one was let go";
  memset(&entry, FILLED, sizeof entry);
  want(mapsched_entry(&brief.scheduler, place, &entry) == status, what, at);
  want(is_untouched(&entry, sizeof entry), "an entry is written that is not kept", at);
  met.statuses[status]++;
}

/* An entry that is kept is that of its call. */
static void look_at(size_t place, size_t at) {
  static struct mapsched_entry entry;
  memset(&entry, FILLED, sizeof entry);
  want(mapsched_entry(&brief.scheduler, place, &entry) == MAPSCHED_OK, "no entry where one is kept", at);
  want(is_entry_of(&entry, whole.places[place]), "another entry", at);
}

/* How many calls were recorded, and from where they are kept. */
static void count(size_t at) {
  size_t recorded = SIZE_MAX, kept_from = SIZE_MAX;
  want(mapsched_count(&brief.scheduler, &recorded) == MAPSCHED_OK && recorded == brief.recorded, "the count", at);
  want(mapsched_kept_from(&brief.scheduler, &kept_from) == MAPSCHED_OK && kept_from == brief.kept_from,
       "from where entries are kept", at);
}

/* What is told of entries that were let go, are kept and are not there yet: the first and the last, and a drawn one. */
static void look(size_t at) {
  uint8_t text[8];
  size_t length = 7, kept_from = brief.kept_from, recorded = brief.recorded;
  memset(text, FILLED, sizeof text);
  count(at);
  look_in_vain(recorded, MAPSCHED_NO_ENTRY, at);
  look_in_vain(recorded + 1 + below(SIZE_MAX - recorded), MAPSCHED_NO_ENTRY, at);
  if (kept_from < recorded) {
    look_at(kept_from, at);
    look_at(recorded - 1, at);
    look_at(kept_from + below(recorded - kept_from), at);
  }
  if (kept_from == 0) return;
  look_in_vain(0, MAPSCHED_HANDED_OVER, at);
  look_in_vain(kept_from - 1, MAPSCHED_HANDED_OVER, at);
  look_in_vain(below(kept_from), MAPSCHED_HANDED_OVER, at);
  want(mapsched_history(&brief.scheduler, text, sizeof text, &length) == MAPSCHED_HANDED_OVER && length == 7 &&
         is_untouched(text, sizeof text), "the text of a history that is not whole", at);
}

/* Reads the entries that are kept. */
static void read_kept(size_t at) {
  for (size_t place = brief.kept_from; place < brief.recorded; place++) {
    memset(&brief.entries[place], FILLED, sizeof brief.entries[place]);
    want(mapsched_entry(&brief.scheduler, place, &brief.entries[place]) == MAPSCHED_OK, "an entry is not kept", at);
  }
}

/* Forgets what is kept, and has read it before. */
static void forget(size_t at) {
  look(at);
  read_kept(at);
  want(mapsched_forget(&brief.scheduler) == MAPSCHED_OK, "it does not forget", at);
  brief.kept_from = brief.recorded;
  look(at);
}

/* A call where as many entries are kept as the configuration allows: it is not recorded, and nothing is written. */
static void make_in_vain(size_t at) {
  static struct mapsched_reply reply;
  want(make(&brief.scheduler, at, &reply) == MAPSCHED_HISTORY_FULL, "it is not full", at);
  want(is_untouched(&reply, sizeof reply), "a reply where it is full", at);
  met.statuses[MAPSCHED_HISTORY_FULL]++;
  count(at);
}

/* Makes a call of the script. Where the scheduler is full it forgets before, and else at one place of so many. */
static void make_again(size_t at, uint64_t one_in) {
  static struct mapsched_reply reply;
  int is_call = whole.statuses[at] == MAPSCHED_OK;
  if (is_one_in(one_in)) forget(at);
  if (is_call && brief.recorded - brief.kept_from == brief.calls) {
    make_in_vain(at);
    if (is_one_in(2)) make_in_vain(at);
    forget(at);
  }
  want(make(&brief.scheduler, at, &reply) == whole.statuses[at], "another status", at);
  want(memcmp(&reply, &whole.replies[at], sizeof reply) == 0, "another reply", at);
  if (is_call) brief.recorded++;
  count(at);
  if (is_one_in(16)) look(at);
}

/* What was read of the one that forgets, and the history of the one that keeps all: each is that of the calls. */
static void compare(void) {
  static struct mapsched_entry entry;
  size_t recorded = 0;
  want(mapsched_count(&whole.scheduler, &recorded) == MAPSCHED_OK && recorded == brief.recorded, "the counts", 0);
  for (size_t place = 0; place < whole.recorded; place++) {
    memset(&entry, FILLED, sizeof entry);
    want(mapsched_entry(&whole.scheduler, place, &entry) == MAPSCHED_OK, "the whole history", whole.places[place]);
    want(is_entry_of(&entry, whole.places[place]), "the whole history", whole.places[place]);
    want(is_entry_of(&brief.entries[place], whole.places[place]), "the history put together", whole.places[place]);
  }
}

/* Makes a drawn script by both. */
static void try_script(uint64_t seed) {
  static const uint64_t often[] = {1, 2, 5, 20, 100, UINT64_MAX};
  has_failed = 0;
  draw_script(seed);
  uint64_t one_in = ONE_OF(often);
  brief.calls = drawing.config.calls;
  brief.recorded = brief.kept_from = 0;
  want(mapsched_open(&brief.scheduler, &drawing.config) == MAPSCHED_OK, "no scheduler that forgets", 0);
  for (size_t at = 0; at < whole.length; at++) make_again(at, one_in);
  look(whole.length);
  read_kept(whole.length);
  compare();
  want(mapsched_close(&whole.scheduler) == MAPSCHED_OK, "the one that keeps all stays open", whole.length);
  want(mapsched_close(&brief.scheduler) == MAPSCHED_OK, "the one that forgets stays open", whole.length);
  if (has_failed) failed++;
  else passed++;
}

/* Whether each of these numbers, from a first one on, was met. */
static int are_met(const char *what, const unsigned long *numbers, size_t first, size_t count) {
  int are = 1;
  for (size_t i = first; i < count; i++) {
    if (!numbers[i]) printf("FAILED: no script meets %s %zu\n", what, i);
    are = are && numbers[i];
  }
  return are;
}

/* The scripts have met each kind of reply, each refusal, and the statuses that they are drawn to meet. */
static int is_everything_met(void) {
  int are = are_met("reply", met.replies, 0, KINDS) & are_met("refusal", met.refusals, 1, REFUSALS + 1);
  are &= are_met("parameters refused for", met.reasons, 1, REASONS + 1);
  are &= are_met("status", met.statuses, MAPSCHED_BAD_CALL, MAPSCHED_HISTORY_FULL + 1);
  are &= are_met("status", met.statuses, MAPSCHED_NO_ENTRY, MAPSCHED_NO_ENTRY + 1);
  return are & are_met("status", met.statuses, MAPSCHED_HANDED_OVER, MAPSCHED_HANDED_OVER + 1);
}

int main(int words, char **word) {
  uint64_t seed = words > 1 ? strtoull(word[1], NULL, 10) : SEED;
  uint64_t scripts = words > 2 ? strtoull(word[2], NULL, 10) : SCRIPTS;
  for (uint64_t i = 0; i < scripts; i++) try_script(seed + i);
  if (words < 3) {
    if (is_everything_met()) passed++;
    else failed++;
  }
  printf("%lu passed, %lu failed\n", passed, failed);
  return failed != 0;
}
