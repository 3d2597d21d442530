/* Every status, in turn, and what each leaves as it was; a history read back entry by entry. Prints nothing. */
#include <mapsched.h>
#include <stddef.h>
#include <stdio.h>
#include <string.h>

static struct mapsched_config lawful(void) {
  struct mapsched_config config = {.ticks = 4,
                                   .bytes_per_slot = 16,
                                   .overhead = 2,
                                   .frame = 40,
                                   .cycle = 20,
                                   .req_slots = 4,
                                   .poll_slots = 2,
                                   .lead = 40,
                                   .short_max = 8,
                                   .quantum = 64,
                                   .grant_cap = 2000,
                                   .calls = 3,
                                   .start = 800,
                                   .receivers = 1,
                                   .channel = 3,
                                   .ucd_count = 1};
  return config;
}

/* The bytes of a call up to its last number: what is behind it in the struct is nobody's. */
enum { NUMBERS = offsetof(struct mapsched_call, reserved_burst) + sizeof(uint32_t) };

static int failures = 0;

static void want(int line, int holds) {
  if (holds) return;
  failures++;
  fprintf(stderr, "refusals.c:%d\n", line);
}
#define WANT(holds) want(__LINE__, holds)

/* The statuses of workers: two at one scheduler, used by one thread. */
static void workers(void) {
  struct mapsched_config config = lawful(), wrong = lawful();
  struct mapsched_worker first = {0}, second = {0}, third = {0};
  struct mapsched_scheduler scheduler = {0}, other = {0};
  struct mapsched_call build = {.kind = MAPSCHED_BUILD, .minislot = 760}, unknown = {.kind = 13};
  struct mapsched_reply reply = {0};
  struct mapsched_entry entry;
  size_t count = 0;
  config.calls = 1;
  wrong.ticks = 3;

  WANT(mapsched_hire(&first, &second) == MAPSCHED_EMPTY && mapsched_draw(&first) == MAPSCHED_EMPTY);
  WANT(mapsched_turn(&first, &build, &reply) == MAPSCHED_EMPTY && mapsched_leave(&first) == MAPSCHED_EMPTY);
  WANT(mapsched_close_workers(&first, &scheduler) == MAPSCHED_EMPTY);
  WANT(mapsched_open_workers(&first, &wrong, 2) == MAPSCHED_BAD_CONFIG + 1);
  WANT(mapsched_open_workers(&first, &config, 0) == MAPSCHED_BAD_SEATS);
  WANT(mapsched_open_workers(&first, &config, 65) == MAPSCHED_BAD_SEATS && !first.full);
  WANT(mapsched_open_workers(&first, &config, 2) == MAPSCHED_OK && first.full);
  WANT(mapsched_open_workers(&first, &config, 2) == MAPSCHED_FULL);
  WANT(mapsched_hire(&first, &second) == MAPSCHED_OK && second.full);
  WANT(mapsched_hire(&first, &second) == MAPSCHED_FULL);
  WANT(mapsched_hire(&first, &third) == MAPSCHED_NO_SEAT && !third.full);

  WANT(mapsched_turn(&second, &build, &reply) == MAPSCHED_NO_TICKET);
  WANT(mapsched_draw(&first) == MAPSCHED_OK && mapsched_draw(&first) == MAPSCHED_HAS_TICKET);
  WANT(mapsched_draw(&second) == MAPSCHED_OK && mapsched_leave(&second) == MAPSCHED_HAS_TICKET);
  WANT(mapsched_close_workers(&first, &scheduler) == MAPSCHED_HAS_TICKET && !scheduler.full);
  WANT(mapsched_turn(&second, &build, &reply) == MAPSCHED_NOT_SERVED && reply.length == 0);
  WANT(mapsched_turn(&first, &unknown, &reply) == MAPSCHED_BAD_CALL);
  WANT(mapsched_turn(&first, &build, &reply) == MAPSCHED_OK && reply.kind == MAPSCHED_BUILT && reply.value == 800);
  WANT(mapsched_turn(&second, &build, &reply) == MAPSCHED_HISTORY_FULL && reply.value == 800);
  WANT(mapsched_turn(&second, &build, &reply) == MAPSCHED_NO_TICKET);

  WANT(mapsched_close_workers(&first, &scheduler) == MAPSCHED_WORKERS_OUT && first.full);
  WANT(mapsched_leave(&second) == MAPSCHED_OK && !second.full);
  WANT(mapsched_open(&other, &config) == MAPSCHED_OK);
  WANT(mapsched_close_workers(&first, &other) == MAPSCHED_FULL && first.full);
  WANT(mapsched_close_workers(&first, &scheduler) == MAPSCHED_OK && scheduler.full && !first.full);
  WANT(mapsched_count(&scheduler, &count) == MAPSCHED_OK && count == 1);
  WANT(mapsched_entry(&scheduler, 0, &entry) == MAPSCHED_OK && entry.stamp.ticket == 0 && entry.stamp.seat == 1);
  WANT(entry.reply.kind == MAPSCHED_BUILT && strcmp(mapsched_status_text(MAPSCHED_BAD_SEATS), "seats") == 0);
  WANT(mapsched_close(&scheduler) == MAPSCHED_OK && mapsched_close(&other) == MAPSCHED_OK);

  /* A worker that hired nobody closes, though a seat of nobody is left with it. */
  WANT(mapsched_open_workers(&first, &config, 2) == MAPSCHED_OK);
  WANT(mapsched_close_workers(&first, &scheduler) == MAPSCHED_OK && scheduler.full && !first.full);
  WANT(mapsched_close(&scheduler) == MAPSCHED_OK);

  /* A worker that nobody closes goes with its scheduler. */
  WANT(mapsched_open_workers(&first, &config, 64) == MAPSCHED_OK && mapsched_leave(&first) == MAPSCHED_OK);
}

/* A scheduler that lets go of what it keeps goes on, and answers as one that keeps all. */
static void forgetting(void) {
  struct mapsched_config config = lawful(), roomy = lawful();
  struct mapsched_scheduler scheduler = {0}, whole = {0};
  struct mapsched_stamp stamp = {.ticket = 0, .seat = 0};
  struct mapsched_call data = {.kind = MAPSCHED_ADMIT, .flow = MAPSCHED_BEST_EFFORT, .sid = 6};
  struct mapsched_call build = {.kind = MAPSCHED_BUILD, .minislot = 760};
  struct mapsched_reply reply, wanted;
  struct mapsched_entry entry;
  uint8_t text[1] = {0xa5};
  size_t count = 0, place = 99, length = 7;
  config.calls = 2;
  roomy.calls = 100;
  memset(&reply, 0, sizeof reply);
  memset(&wanted, 0, sizeof wanted);
  memset(&entry, 0xa5, sizeof entry);

  WANT(mapsched_forget(&scheduler) == MAPSCHED_EMPTY);
  WANT(mapsched_kept_from(&scheduler, &place) == MAPSCHED_EMPTY && place == 99);
  WANT(mapsched_lines(&scheduler, text, 1, &length) == MAPSCHED_EMPTY && length == 7 && text[0] == 0xa5);
  WANT(mapsched_opening(&scheduler, text, 1, &length) == MAPSCHED_EMPTY && length == 7 && text[0] == 0xa5);
  WANT(mapsched_open(&scheduler, &config) == MAPSCHED_OK && mapsched_open(&whole, &roomy) == MAPSCHED_OK);
  WANT(mapsched_kept_from(&scheduler, &place) == MAPSCHED_OK && place == 0);
  WANT(mapsched_call(&scheduler, &stamp, &data, &reply) == MAPSCHED_OK);
  WANT(mapsched_call(&whole, &stamp, &data, &wanted) == MAPSCHED_OK);
  for (size_t made = 1; made < 50; made++, build.minislot += 40) {
    WANT(mapsched_call(&whole, &stamp, &build, &wanted) == MAPSCHED_OK && wanted.kind == MAPSCHED_BUILT);
    if (made % 2 == 0) {
      WANT(mapsched_call(&scheduler, &stamp, &build, &reply) == MAPSCHED_HISTORY_FULL);
      WANT(mapsched_forget(&scheduler) == MAPSCHED_OK);
      WANT(mapsched_kept_from(&scheduler, &place) == MAPSCHED_OK && place == made);
    }
    WANT(mapsched_call(&scheduler, &stamp, &build, &reply) == MAPSCHED_OK);
    WANT(memcmp(&reply, &wanted, sizeof reply) == 0);
  }

  WANT(mapsched_count(&scheduler, &count) == MAPSCHED_OK && count == 50 && place == 48);
  WANT(mapsched_entry(&scheduler, 47, &entry) == MAPSCHED_HANDED_OVER && entry.call.kind == 0xa5a5a5a5);
  WANT(mapsched_entry(&scheduler, 50, &entry) == MAPSCHED_NO_ENTRY && entry.call.kind == 0xa5a5a5a5);
  WANT(mapsched_entry(&scheduler, 49, &entry) == MAPSCHED_OK && entry.reply.value == reply.value);
  WANT(mapsched_entry(&scheduler, 48, &entry) == MAPSCHED_OK && entry.reply.value == reply.value - 40);
  WANT(mapsched_history(&scheduler, text, 1, &length) == MAPSCHED_HANDED_OVER && length == 7 && text[0] == 0xa5);
  WANT(mapsched_history(&whole, text, 1, &length) == MAPSCHED_NO_ROOM && length > 1);
  WANT(strcmp(mapsched_status_text(MAPSCHED_HANDED_OVER), "not kept") == 0);
  WANT(mapsched_close(&scheduler) == MAPSCHED_OK && mapsched_close(&whole) == MAPSCHED_OK);
}

/* Whether bytes of this length are a request of this kind, number and SID. */
static int is_request(const uint8_t *bytes, size_t length, uint32_t kind, uint16_t number, uint16_t sid) {
  uint32_t found = 9;
  uint16_t many = 0, of = 0;
  uint32_t status = mapsched_request(bytes, length, &found, &many, &of);
  return status == MAPSCHED_OK && found == kind && many == number && of == sid;
}

/* The frame of README's first MAP, and two requests, as another program reads them; then each fault. */
static void frames(void) {
  static const uint8_t wanted[] = {
      0xc2, 0x00, 0x00, 0x34, 0xd6, 0x89, 0x01, 0xe0, 0x2f, 0x00, 0x00, 0x01, 0x02, 0x00, 0x00, 0x00,
      0x00, 0x01, 0x00, 0x22, 0x00, 0x00, 0x03, 0x01, 0x03, 0x00, 0x03, 0x01, 0x03, 0x00, 0x00, 0x00,
      0x03, 0x20, 0x00, 0x00, 0x03, 0x20, 0x00, 0x00, 0x00, 0x00, 0xff, 0xfc, 0x40, 0x00, 0x00, 0x01,
      0x80, 0x04, 0x00, 0x01, 0xc0, 0x28, 0xc2, 0x86, 0xf0, 0xa5};
  static const uint8_t address[6] = {0x02, 0, 0, 0, 0, 0x01}, longest[MAPSCHED_MAX_BYTES + 1] = {0};
  uint8_t minislots[6] = {0xc4, 0x09, 0x00, 0x11, 0xfd, 0x28}, frame[MAPSCHED_MAX_FRAME_BYTES] = {0};
  static const uint8_t queue[7] = {0xc8, 0x00, 0x64, 0x00, 0x11, 0x04, 0xb9};
  size_t length = 0, payload = sizeof wanted - MAPSCHED_FRAME_OVERHEAD;
  uint32_t kind = 9;
  uint16_t number = 7, sid = 7;

  WANT(mapsched_map_frame(wanted + 26, payload, address, frame, sizeof wanted - 1, &length) == MAPSCHED_NO_ROOM);
  WANT(length == sizeof wanted && frame[0] == 0);
  WANT(mapsched_map_frame(wanted + 26, payload, address, frame, sizeof frame, &length) == MAPSCHED_OK);
  WANT(length == sizeof wanted && memcmp(frame, wanted, length) == 0 && frame[length] == 0);
  WANT(mapsched_map_frame(longest, sizeof longest, address, frame, sizeof frame, &length) == MAPSCHED_TOO_LONG);
  WANT(length == sizeof wanted && memcmp(frame, wanted, length) == 0);
  WANT(mapsched_map_frame(longest, MAPSCHED_MAX_BYTES, address, frame, sizeof frame, &length) == MAPSCHED_OK);
  WANT(length == MAPSCHED_MAX_FRAME_BYTES);

  WANT(is_request(minislots, 6, MAPSCHED_ASKS_MINISLOTS, 9, 17) && is_request(queue, 7, MAPSCHED_TELLS_QUEUE, 100, 17));
  WANT(mapsched_request(minislots, 5, &kind, &number, &sid) == MAPSCHED_BAD_REQUEST + 1);
  WANT(mapsched_request(queue, 6, &kind, &number, &sid) == MAPSCHED_BAD_REQUEST + 2);
  minislots[1]++;
  WANT(mapsched_request(minislots, 6, &kind, &number, &sid) == MAPSCHED_BAD_REQUEST + 4);
  minislots[2] = 0x40;
  WANT(mapsched_request(minislots, 6, &kind, &number, &sid) == MAPSCHED_BAD_REQUEST + 3);
  WANT(kind == 9 && number == 7 && sid == 7 && strcmp(mapsched_status_text(403), "sid") == 0);
}

/* How many lines a text has. */
static size_t lines_in(const uint8_t *text, size_t length) {
  size_t lines = 0;
  for (size_t at = 0; at < length; at++) lines += text[at] == '\n';
  return lines;
}

/* A worker that is in no turn is told so, and nothing has changed. */
static void no_turn(struct mapsched_worker *worker, uint32_t status) {
  struct mapsched_entry entry = {0};
  uint8_t text[1] = {0xa5};
  size_t count = 99, place = 99, length = 99;
  WANT(mapsched_turn_count(worker, &count) == status && count == 99);
  WANT(mapsched_turn_kept_from(worker, &place) == status && place == 99);
  WANT(mapsched_turn_entry(worker, 0, &entry) == status && entry.reply.length == 0);
  WANT(mapsched_turn_lines(worker, text, sizeof text, &length) == status && length == 99 && text[0] == 0xa5);
  WANT(mapsched_turn_forget(worker) == status && mapsched_end(worker) == status);
}

/* What a worker in its turn sees after so many calls, of which the last is kept alone, and how it may not go. */
static void in_turn(struct mapsched_worker *worker, size_t made, uint64_t value) {
  struct mapsched_scheduler scheduler = {0};
  struct mapsched_call build = {.kind = MAPSCHED_BUILD, .minislot = 760};
  struct mapsched_reply reply = {0};
  struct mapsched_entry entry = {0};
  static uint8_t text[10000];
  size_t count = 99, place = 99, length = 99;
  WANT(mapsched_turn_count(worker, &count) == MAPSCHED_OK && count == made);
  WANT(mapsched_turn_kept_from(worker, &place) == MAPSCHED_OK && place == made - 1);
  WANT(mapsched_turn_entry(worker, made - 1, &entry) == MAPSCHED_OK && entry.reply.value == value);
  WANT(made == 1 || mapsched_turn_entry(worker, made - 2, &entry) == MAPSCHED_HANDED_OVER);
  WANT(mapsched_turn_entry(worker, made, &entry) == MAPSCHED_NO_ENTRY && entry.reply.value == value);
  WANT(mapsched_turn_lines(worker, text, 1, &length) == MAPSCHED_NO_ROOM && length > 1);
  WANT(mapsched_turn_lines(worker, text, sizeof text, &length) == MAPSCHED_OK && lines_in(text, length) == 1);
  WANT(mapsched_begin(worker) == MAPSCHED_NO_TICKET && mapsched_draw(worker) == MAPSCHED_HAS_TICKET);
  WANT(mapsched_turn(worker, &build, &reply) == MAPSCHED_NO_TICKET && mapsched_leave(worker) == MAPSCHED_HAS_TICKET);
  WANT(mapsched_close_workers(worker, &scheduler) == MAPSCHED_HAS_TICKET && worker->full);
}

/* A worker whose turn begins and ends, at a workplace that goes on without end and at one that keeps all. */
static void turns(void) {
  struct mapsched_config config = lawful();
  struct mapsched_worker first = {0}, second = {0};
  struct mapsched_scheduler scheduler = {0};
  struct mapsched_call build = {.kind = MAPSCHED_BUILD, .minislot = 760};
  struct mapsched_reply reply = {0};
  size_t count = 99, place = 99;
  config.calls = 1;

  WANT(mapsched_begin(&first) == MAPSCHED_EMPTY);
  no_turn(&first, MAPSCHED_EMPTY);
  WANT(mapsched_open_workers_without_end(&first, &config, 2) == MAPSCHED_OK);
  WANT(mapsched_open_workers_without_end(&first, &config, 2) == MAPSCHED_FULL);
  WANT(mapsched_hire(&first, &second) == MAPSCHED_OK && mapsched_begin(&first) == MAPSCHED_NO_TICKET);
  for (size_t made = 1; made < 7; made++, build.minislot += 40) {
    WANT(mapsched_draw(&second) == MAPSCHED_OK && mapsched_turn(&second, &build, &reply) == MAPSCHED_OK);
    WANT(mapsched_draw(&second) == MAPSCHED_OK && mapsched_draw(&first) == MAPSCHED_OK);
    WANT(mapsched_begin(&first) == MAPSCHED_NOT_SERVED && mapsched_begin(&second) == MAPSCHED_OK);
    no_turn(&first, MAPSCHED_NO_TURN);
    in_turn(&second, made, reply.value);
    WANT(mapsched_begin(&first) == MAPSCHED_NOT_SERVED && mapsched_turn_forget(&second) == MAPSCHED_OK);
    WANT(mapsched_begin(&first) == MAPSCHED_OK && mapsched_turn_kept_from(&first, &place) == MAPSCHED_OK);
    WANT(place == made && mapsched_end(&first) == MAPSCHED_OK);
    no_turn(&first, MAPSCHED_NO_TURN);
  }
  WANT(mapsched_leave(&second) == MAPSCHED_OK && mapsched_close_workers(&first, &scheduler) == MAPSCHED_OK);
  WANT(mapsched_count(&scheduler, &count) == MAPSCHED_OK && count == 6);
  WANT(mapsched_kept_from(&scheduler, &place) == MAPSCHED_OK && place == 6);
  WANT(mapsched_close(&scheduler) == MAPSCHED_OK);

  WANT(mapsched_open_workers(&first, &config, 1) == MAPSCHED_OK && mapsched_draw(&first) == MAPSCHED_OK);
  WANT(mapsched_begin(&first) == MAPSCHED_OK && mapsched_turn_forget(&first) == MAPSCHED_KEEPS_ALL);
  WANT(mapsched_leave(&first) == MAPSCHED_OK);
  WANT(strcmp(mapsched_status_text(MAPSCHED_NO_TURN), "no turn") == 0);
  WANT(strcmp(mapsched_status_text(MAPSCHED_KEEPS_ALL), "keeps all") == 0);
}

/* The lines of a journal are those of what is kept, and the opening is that of the configuration. */
static void journals(void) {
  static const char front[] = "{\"config\":{\"bytes_per_slot\":16,\"calls\":2,\"channel\":3,";
  struct mapsched_config config = lawful();
  struct mapsched_scheduler scheduler = {0};
  struct mapsched_stamp stamp = {.ticket = 0, .seat = 3};
  struct mapsched_call bytes = {.kind = MAPSCHED_STATUS, .sid = 9};
  struct mapsched_reply reply;
  static uint8_t text[10000];
  size_t length = 7;
  config.calls = 2;

  WANT(mapsched_open(&scheduler, &config) == MAPSCHED_OK);
  WANT(mapsched_lines(&scheduler, text, 0, &length) == MAPSCHED_OK && length == 0);
  for (stamp.ticket = 0; stamp.ticket < 5; stamp.ticket++) {
    if (stamp.ticket % 2 == 0) WANT(mapsched_forget(&scheduler) == MAPSCHED_OK);
    WANT(mapsched_call(&scheduler, &stamp, &bytes, &reply) == MAPSCHED_OK);
  }
  WANT(mapsched_lines(&scheduler, text, 1, &length) == MAPSCHED_NO_ROOM && length > 1 && text[0] == 0);
  WANT(mapsched_lines(&scheduler, text, sizeof text, &length) == MAPSCHED_OK && text[length] == 0);
  WANT(text[length - 1] == '\n' && lines_in(text, length) == 1 && strstr((char *)text, "\"seat\":3,\"ticket\":4}\n"));
  WANT(mapsched_opening(&scheduler, text, 1, &length) == MAPSCHED_NO_ROOM && length > 1);
  WANT(mapsched_opening(&scheduler, text, sizeof text, &length) == MAPSCHED_OK && text[length - 1] == '\n');
  WANT(lines_in(text, length) == 1 && memcmp(text, front, sizeof front - 1) == 0);
  WANT(mapsched_close(&scheduler) == MAPSCHED_OK);
}

/* An exponent of each window that is none is refused; the others stand in the next MAP. */
static void headers(struct mapsched_scheduler *scheduler) {
  const struct mapsched_call build = {.kind = MAPSCHED_BUILD, .minislot = 760};
  const struct mapsched_call header = {.kind = MAPSCHED_HEADER,
                                       .ucd_count = 255,
                                       .ranging_start = 15,
                                       .ranging_end = 0,
                                       .data_start = 3,
                                       .data_end = 8};
  struct mapsched_call wrong[] = {header, header, header, header};
  struct mapsched_stamp stamp = {0};
  struct mapsched_reply reply;
  struct mapsched_map map;
  size_t place = 0;

  wrong[0].ranging_start = 16;
  wrong[1].ranging_end = 16;
  wrong[2].data_start = 255;
  wrong[3].data_end = 16;
  for (int i = 0; i < 4; i++) {
    WANT(mapsched_call(scheduler, &stamp, &wrong[i], &reply) == MAPSCHED_OK && reply.kind == MAPSCHED_REFUSED);
    WANT(reply.refusal == 20 && reply.value == 0);
  }
  WANT(mapsched_call(scheduler, &stamp, &header, &reply) == MAPSCHED_OK && reply.kind == MAPSCHED_NOTED);
  WANT(mapsched_call(scheduler, &stamp, &build, &reply) == MAPSCHED_OK && reply.kind == MAPSCHED_BUILT);
  WANT(mapsched_decode(reply.payload, reply.length, &map, &place) == MAPSCHED_OK && map.ucd_count == 255);
  WANT(map.ranging_start == 15 && map.ranging_end == 0 && map.data_start == 3 && map.data_end == 8);
}

/* Opportunities: who and what they may be for, how many wait, and how a history has them. */
static void opportunities(void) {
  struct mapsched_config config = lawful();
  struct mapsched_scheduler scheduler = {0};
  struct mapsched_stamp stamp = {0};
  struct mapsched_call call = {.kind = MAPSCHED_RESERVE, .usage = MAPSCHED_DATA + 1, .slots = 36, .sid = 9};
  struct mapsched_reply reply;
  struct mapsched_entry entry;
  config.calls = 100;

  WANT(mapsched_open(&scheduler, &config) == MAPSCHED_OK);
  WANT(mapsched_call(&scheduler, &stamp, &call, &reply) == MAPSCHED_BAD_CALL);
  call.usage = MAPSCHED_STATION;
  WANT(mapsched_call(&scheduler, &stamp, &call, &reply) == MAPSCHED_OK && reply.kind == MAPSCHED_RESERVED);
  WANT(reply.refusal == 0 && reply.value == 0 && reply.length == 0 && reply.starts_count == 0);
  WANT(mapsched_entry(&scheduler, 0, &entry) == MAPSCHED_OK && memcmp(&entry.call, &call, NUMBERS) == 0);
  call.slots = 37;
  WANT(mapsched_call(&scheduler, &stamp, &call, &reply) == MAPSCHED_OK && reply.refusal == 18);
  call.slots = 0;
  WANT(mapsched_call(&scheduler, &stamp, &call, &reply) == MAPSCHED_OK && reply.refusal == 18);
  call.sid = 0;
  WANT(mapsched_call(&scheduler, &stamp, &call, &reply) == MAPSCHED_OK && reply.refusal == 1);

  /* One for all reads no SID, and a history has none of it. */
  call.usage = MAPSCHED_INITIAL;
  call.slots = 1;
  call.sid = UINT16_MAX;
  for (int i = 1; i < 64; i++)
    WANT(mapsched_call(&scheduler, &stamp, &call, &reply) == MAPSCHED_OK && reply.kind == MAPSCHED_RESERVED);
  WANT(mapsched_entry(&scheduler, 4, &entry) == MAPSCHED_OK && entry.call.sid == 0 && entry.call.slots == 1);
  WANT(mapsched_call(&scheduler, &stamp, &call, &reply) == MAPSCHED_OK && reply.kind == MAPSCHED_REFUSED);
  WANT(reply.refusal == 19 && reply.value == 0);
  headers(&scheduler);
  WANT(mapsched_close(&scheduler) == MAPSCHED_OK);
}

/* Makes a call, and wants that it is refused by this number, or where it is 0 answered so, and that it stands so in the
 * history. Gives the reply. */
static struct mapsched_reply makes(struct mapsched_scheduler *scheduler, struct mapsched_call call, uint32_t kind,
                                   uint32_t refusal) {
  struct mapsched_stamp stamp = {0};
  struct mapsched_reply reply;
  struct mapsched_entry entry;
  size_t count = 0;
  WANT(mapsched_call(scheduler, &stamp, &call, &reply) == MAPSCHED_OK && reply.refusal == refusal);
  WANT(reply.kind == (refusal ? MAPSCHED_REFUSED : kind));
  WANT(mapsched_count(scheduler, &count) == MAPSCHED_OK);
  WANT(mapsched_entry(scheduler, count - 1, &entry) == MAPSCHED_OK && memcmp(&entry.call, &call, NUMBERS) == 0);
  return reply;
}

/* Makes a request, which is taken or refused by this number. */
static void asks(struct mapsched_scheduler *scheduler, struct mapsched_call ask, uint32_t refusal) {
  WANT(makes(scheduler, ask, MAPSCHED_TAKEN, refusal).value == 0);
}

/* Requests in minislots: those that carry no byte or too many are refused, and others add what they carry. */
static void minislots(void) {
  static const char recorded[] = "{\"call\":\"ask\",\"heard\":801,\"receiver\":0,\"sid\":6,\"slots\":9}";
  struct mapsched_config config = lawful();
  struct mapsched_scheduler scheduler = {0};
  struct mapsched_stamp stamp = {0};
  struct mapsched_call data = {.kind = MAPSCHED_ADMIT, .flow = MAPSCHED_BEST_EFFORT, .sid = 6};
  struct mapsched_call build = {.kind = MAPSCHED_BUILD, .minislot = 760};
  struct mapsched_call status = {.kind = MAPSCHED_STATUS, .sid = 6};
  struct mapsched_call ask = {.kind = MAPSCHED_ASK, .sid = 6, .has_slots = 1, .minislot = 801};
  static const uint32_t wrong[] = {0, 2, 65538, (1u << 28) + 3, UINT32_MAX};
  struct mapsched_reply reply;
  static uint8_t text[10000];
  size_t length = 0;
  config.calls = 100;

  WANT(mapsched_open(&scheduler, &config) == MAPSCHED_OK);
  WANT(mapsched_call(&scheduler, &stamp, &build, &reply) == MAPSCHED_OK && reply.kind == MAPSCHED_BUILT);
  WANT(mapsched_call(&scheduler, &stamp, &data, &reply) == MAPSCHED_OK && reply.kind == MAPSCHED_ADMITTED);
  for (size_t i = 0; i < sizeof wrong / sizeof *wrong; i++) {
    ask.slots = wrong[i];
    asks(&scheduler, ask, 10);
  }
  ask.slots = 65537;
  asks(&scheduler, ask, 0);
  ask.slots = 9;
  asks(&scheduler, ask, 0);
  WANT(mapsched_call(&scheduler, &stamp, &status, &reply) == MAPSCHED_OK && reply.asked == 1048560 + 112);

  /* Any flag but 0 says so, and bytes beside it are not read; with 0 they are, and slots are not. */
  ask.has_slots = 255;
  ask.bytes = 7;
  WANT(mapsched_call(&scheduler, &stamp, &ask, &reply) == MAPSCHED_OK && reply.kind == MAPSCHED_TAKEN);
  ask.has_slots = 0;
  WANT(mapsched_call(&scheduler, &stamp, &ask, &reply) == MAPSCHED_OK && reply.kind == MAPSCHED_TAKEN);
  WANT(mapsched_call(&scheduler, &stamp, &status, &reply) == MAPSCHED_OK && reply.asked == 1048560 + 112 + 112 + 7);
  WANT(mapsched_lines(&scheduler, text, sizeof text, &length) == MAPSCHED_OK && strstr((char *)text, recorded));
  WANT(mapsched_close(&scheduler) == MAPSCHED_OK);
}

/* Flows are changed, rest and wake, or are not of a kind that does; a request supersedes those before. */
static void changes(void) {
  struct mapsched_config config = lawful();
  struct mapsched_scheduler scheduler = {0};
  struct mapsched_stamp stamp = {0};
  struct mapsched_call voice = {.kind = MAPSCHED_ADMIT,
                                .flow = MAPSCHED_UNSOLICITED,
                                .sid = 5,
                                .size = 64,
                                .interval_us = 20000,
                                .grants = 1};
  struct mapsched_call data = {.kind = MAPSCHED_ADMIT, .flow = MAPSCHED_BEST_EFFORT, .sid = 6};
  struct mapsched_call rest = {.kind = MAPSCHED_REST}, wake = {.kind = MAPSCHED_WAKE}, other;
  struct mapsched_call build = {.kind = MAPSCHED_BUILD, .minislot = 760}, status = {.kind = MAPSCHED_STATUS, .sid = 6};
  struct mapsched_call ask = {.kind = MAPSCHED_ASK, .sid = 6, .bytes = 1000, .minislot = 801}, replace = ask;
  struct mapsched_reply reply;
  static const uint32_t by[] = {1, 7, 22};
  config.calls = 100;
  config.poll_slots = 4;

  WANT(mapsched_open(&scheduler, &config) == MAPSCHED_OK);
  makes(&scheduler, voice, MAPSCHED_PLACED, 0);
  makes(&scheduler, data, MAPSCHED_ADMITTED, 0);
  for (int i = 0; i < 3; i++) {
    rest.sid = wake.sid = (uint16_t)(i == 0 ? 0 : 8 - i);
    makes(&scheduler, rest, 0, by[i]);
    makes(&scheduler, wake, 0, by[i]);
  }
  rest.sid = wake.sid = 5;
  makes(&scheduler, wake, MAPSCHED_NOTED, 0);
  makes(&scheduler, rest, MAPSCHED_NOTED, 0);

  /* What places a flow is the same: so is its place. Another size is placed anew; its grant is shorter than a poll. */
  voice.kind = data.kind = MAPSCHED_CHANGE;
  for (int i = 0; i < 2; i++) {
    voice.size = i == 0 ? 64 : 1;
    reply = makes(&scheduler, voice, MAPSCHED_CHANGED, 0);
    WANT(reply.value == 804 && reply.starts_count == 1 && reply.starts[0] == 4);
  }
  makes(&scheduler, rest, 0, 23);
  voice.size = 0;
  makes(&scheduler, voice, 0, 3);
  reply = makes(&scheduler, data, MAPSCHED_CHANGED, 0);
  WANT(reply.value == 0 && reply.starts_count == 0);
  other = data;
  other.sid = 5;
  makes(&scheduler, other, 0, 21);
  other.flow = 3;
  WANT(mapsched_call(&scheduler, &stamp, &other, &reply) == MAPSCHED_BAD_CALL);

  makes(&scheduler, build, MAPSCHED_BUILT, 0);
  asks(&scheduler, ask, 0);
  replace.kind = MAPSCHED_REPLACE;
  replace.bytes = 200;
  asks(&scheduler, replace, 0);
  WANT(makes(&scheduler, status, MAPSCHED_BYTES, 0).outstanding == 200);
  replace.bytes = 0;
  asks(&scheduler, replace, 0);
  replace.has_slots = 255;
  replace.slots = 65538;
  WANT(mapsched_call(&scheduler, &stamp, &replace, &reply) == MAPSCHED_OK && reply.refusal == 10);
  WANT(makes(&scheduler, status, MAPSCHED_BYTES, 0).asked == 0);
  replace.sid = 5;
  WANT(mapsched_call(&scheduler, &stamp, &replace, &reply) == MAPSCHED_OK && reply.refusal == 8);
  WANT(mapsched_close(&scheduler) == MAPSCHED_OK);
}

/* Burst descriptors: where they are read, and one of unsolicited grants that is left out. */
static void bursts(void) {
#define PROFILE "{\"bits\":6,\"guard\":22,\"information\":232,\"parity\":9,\"preamble\":32,\"shortened\":1}"
  static const char front[] = "{\"config\":{\"bursts\":{\"long\":" PROFILE ",\"short\":" PROFILE ",\"symbols\":64},";
  static const struct mapsched_profile none, profile = {
      .preamble = 32, .guard = 22, .bits = 6, .parity = 9, .information = 232, .shortened = 1};
  struct mapsched_config config = lawful();
  struct mapsched_scheduler scheduler = {0};
  static uint8_t text[10000];
  size_t length = 0;

  config.bursts.symbols = 64;
  config.bursts.short_data = config.bursts.long_data = profile;
  config.bytes_per_slot = 0;
  WANT(mapsched_check(&config) == MAPSCHED_BAD_CONFIG + 2);
  config.has_bursts = 1;
  WANT(mapsched_open(&scheduler, &config) == MAPSCHED_OK);
  WANT(mapsched_opening(&scheduler, text, sizeof text, &length) == MAPSCHED_OK);
  WANT(memcmp(text, front, sizeof front - 1) == 0 && mapsched_close(&scheduler) == MAPSCHED_OK);
  config.has_bursts = UINT32_MAX;
  WANT(mapsched_check(&config) == MAPSCHED_OK);
  config.bursts.unsolicited.shortened = 1;
  WANT(mapsched_check(&config) == MAPSCHED_BAD_CONFIG + 20 && strcmp(mapsched_status_text(120), "bursts") == 0);
  config.bursts.unsolicited = profile;
  WANT(mapsched_check(&config) == MAPSCHED_OK);
  config.bursts.short_data = none;
  WANT(mapsched_check(&config) == MAPSCHED_BAD_CONFIG + 20);
}

/* Whether the words of a status are those of the header; where that has none nothing is told. */
static int has_its_words(uint32_t number) {
  const char *wanted = mapsched_status_text(number);
  uint8_t room[100] = {0};
  size_t length = 99;
  uint32_t status = mapsched_status_words(number, room, sizeof room, &length);
  if (strcmp(wanted, "unknown status") == 0) return status == MAPSCHED_NO_WORDS && length == 99 && room[0] == 0;
  return status == MAPSCHED_OK && length == strlen(wanted) && memcmp(room, wanted, length + 1) == 0;
}

/* The version, and what statuses and refusals say. */
static void words(void) {
  static const char late[] = "too late: the next frame starts at 800, and the clock with its lead is past it";
  uint8_t room[200] = {0};
  size_t length = 99;

  WANT(mapsched_version(room, 4, &length) == MAPSCHED_NO_ROOM && length == strlen(MAPSCHED_VERSION) && room[0] == 0);
  WANT(mapsched_version(room, sizeof room, &length) == MAPSCHED_OK);
  WANT(length == strlen(MAPSCHED_VERSION) && memcmp(room, MAPSCHED_VERSION, length + 1) == 0);
  for (uint32_t number = 0; number < 1000; number++) WANT(has_its_words(number));
  WANT(has_its_words(UINT32_MAX));
  WANT(mapsched_refusal_words(16, 800, room, 10, &length) == MAPSCHED_NO_ROOM && length == sizeof late - 1);
  WANT(mapsched_refusal_words(16, 800, room, sizeof room, &length) == MAPSCHED_OK);
  WANT(length == sizeof late - 1 && memcmp(room, late, sizeof late) == 0);
  length = 99;
  WANT(mapsched_refusal_words(0, 0, room, sizeof room, &length) == MAPSCHED_NO_WORDS && length == 99);
  WANT(mapsched_refusal_words(3, 9, room, sizeof room, &length) == MAPSCHED_NO_WORDS && length == 99);
  WANT(mapsched_refusal_words(24, 0, room, sizeof room, &length) == MAPSCHED_NO_WORDS && room[0] == 't');
}

/* Whether a journal is no one's to go on after: the status and the place, and that the handle stays empty. */
static int is_wrong(const uint8_t *journal, size_t length, uint32_t wanted, size_t at) {
  struct mapsched_scheduler scheduler = {0};
  size_t place = 99;
  uint32_t status = mapsched_resume(&scheduler, journal, length, &place);
  return status == wanted && place == at && !scheduler.full;
}

/* A scheduler that goes on after a journal answers as the one that wrote it; a journal that is wrong has its place. */
static void resuming(void) {
  struct mapsched_config config = lawful();
  struct mapsched_scheduler before = {0}, after = {0};
  struct mapsched_stamp stamp = {.ticket = 0, .seat = 0};
  struct mapsched_call data = {.kind = MAPSCHED_ADMIT, .flow = MAPSCHED_BEST_EFFORT, .sid = 6};
  struct mapsched_call build = {.kind = MAPSCHED_BUILD, .minislot = 760};
  struct mapsched_reply reply, wanted;
  struct mapsched_entry entry;
  static uint8_t text[10000];
  size_t first = 0, whole = 0, length = 0, place = 99, count = 0;
  config.calls = 5;
  memset(&reply, 0, sizeof reply);
  memset(&wanted, 0, sizeof wanted);

  WANT(mapsched_open(&before, &config) == MAPSCHED_OK);
  WANT(mapsched_call(&before, &stamp, &data, &wanted) == MAPSCHED_OK);
  WANT(mapsched_call(&before, &stamp, &build, &wanted) == MAPSCHED_OK && wanted.kind == MAPSCHED_BUILT);
  WANT(mapsched_opening(&before, text, sizeof text, &first) == MAPSCHED_OK);
  WANT(mapsched_lines(&before, text + first, sizeof text - first, &length) == MAPSCHED_OK);
  whole = first + length;
  memcpy(text + whole, "{\"torn", 6);

  WANT(mapsched_resume(&after, text, whole + 6, &place) == MAPSCHED_OK && after.full && place == whole);
  WANT(mapsched_count(&after, &count) == MAPSCHED_OK && count == 2);
  WANT(mapsched_kept_from(&after, &place) == MAPSCHED_OK && place == 2);
  WANT(mapsched_entry(&after, 1, &entry) == MAPSCHED_HANDED_OVER);
  build.minislot = 800;
  WANT(mapsched_call(&before, &stamp, &build, &wanted) == MAPSCHED_OK);
  WANT(mapsched_call(&after, &stamp, &build, &reply) == MAPSCHED_OK && memcmp(&reply, &wanted, sizeof reply) == 0);
  WANT(mapsched_resume(&after, text, whole, &place) == MAPSCHED_FULL && place == 2);
  WANT(mapsched_close(&before) == MAPSCHED_OK && mapsched_close(&after) == MAPSCHED_OK);

  /* The opening alone is a journal without entries. */
  WANT(mapsched_resume(&after, text, first, &place) == MAPSCHED_OK && place == first);
  WANT(mapsched_count(&after, &count) == MAPSCHED_OK && count == 0 && mapsched_close(&after) == MAPSCHED_OK);
  WANT(is_wrong(text, 0, MAPSCHED_NO_HISTORY, 0) && is_wrong(text, first - 1, MAPSCHED_NO_HISTORY, 0));
  WANT(is_wrong(text + first, length, MAPSCHED_NO_HISTORY, 0));
  text[whole + 6] = '\n';
  WANT(is_wrong(text, whole + 7, MAPSCHED_NO_HISTORY, 3));
  *strstr(strstr((char *)text, "\"ack\":800"), "800") = '9';
  WANT(is_wrong(text, whole, MAPSCHED_ILLEGAL, 1));
}

int main(void) {
  struct mapsched_config config = lawful(), wrong = lawful();
  struct mapsched_scheduler scheduler = {0};
  struct mapsched_stamp stamp = {.ticket = 7, .seat = 2};
  struct mapsched_call voice = {.kind = MAPSCHED_ADMIT,
                                .flow = MAPSCHED_UNSOLICITED,
                                .sid = 5,
                                .size = 64,
                                .interval_us = 20000,
                                .jitter_us = 1000,
                                .grants = 1};
  struct mapsched_call assured = {.kind = MAPSCHED_ADMIT,
                                  .flow = MAPSCHED_BEST_EFFORT,
                                  .sid = 6,
                                  .reserved = 64000,
                                  .reserved_burst = 63};
  struct mapsched_call unknown = {.kind = 13}, strange = {.kind = MAPSCHED_ADMIT, .flow = 3};
  struct mapsched_call bytes = {.kind = MAPSCHED_STATUS, .sid = 9};
  struct mapsched_call build = {.kind = MAPSCHED_BUILD, .minislot = 760};
  struct mapsched_reply reply, before;
  struct mapsched_entry entry;
  struct mapsched_map map;
  static uint8_t text[10000];
  size_t count = 99, length = 0, place = 99;

  memset(&reply, 0xa5, sizeof reply);
  memset(&entry, 0xa5, sizeof entry);
  before = reply;

  wrong.ticks = 3;
  WANT(mapsched_check(&config) == MAPSCHED_OK);
  WANT(mapsched_check(&wrong) == MAPSCHED_BAD_CONFIG + 1 && strcmp(mapsched_status_text(101), "ticks") == 0);
  wrong = lawful();
  wrong.flows = 8192;
  wrong.pending = 126;
  wrong.periodic = 2561;
  WANT(mapsched_check(&wrong) == MAPSCHED_BAD_CONFIG + 21 && strcmp(mapsched_status_text(121), "flows") == 0);
  wrong.flows = 8191;
  WANT(mapsched_check(&wrong) == MAPSCHED_BAD_CONFIG + 22 && strcmp(mapsched_status_text(122), "pending") == 0);
  wrong.pending = 0;
  WANT(mapsched_check(&wrong) == MAPSCHED_OK);
  wrong.has_periodic = 2;
  WANT(mapsched_check(&wrong) == MAPSCHED_BAD_CONFIG + 23 && strcmp(mapsched_status_text(123), "periodic") == 0);
  wrong = lawful();
  wrong.open_idle = 2;
  wrong.settle = 4097;
  WANT(mapsched_check(&wrong) == MAPSCHED_BAD_CONFIG + 24 && strcmp(mapsched_status_text(124), "open_idle") == 0);
  wrong.open_idle = 1;
  WANT(mapsched_check(&wrong) == MAPSCHED_BAD_CONFIG + 25 && strcmp(mapsched_status_text(125), "settle") == 0);
  wrong.settle = 4096;
  WANT(mapsched_check(&wrong) == MAPSCHED_OK);
  wrong = lawful();
  wrong.phy = 2;
  WANT(mapsched_check(&wrong) == MAPSCHED_BAD_CONFIG + 19 && strcmp(mapsched_status_text(119), "phy") == 0);

  WANT(mapsched_call(&scheduler, &stamp, &build, &reply) == MAPSCHED_EMPTY);
  WANT(mapsched_count(&scheduler, &count) == MAPSCHED_EMPTY && count == 99);
  WANT(mapsched_entry(&scheduler, 0, &entry) == MAPSCHED_EMPTY);
  WANT(mapsched_close(&scheduler) == MAPSCHED_EMPTY);
  WANT(mapsched_open(&scheduler, &wrong) == MAPSCHED_BAD_CONFIG + 19 && !scheduler.full);
  WANT(mapsched_open(&scheduler, &config) == MAPSCHED_OK);
  WANT(mapsched_open(&scheduler, &config) == MAPSCHED_FULL);

  WANT(mapsched_call(&scheduler, &stamp, &unknown, &reply) == MAPSCHED_BAD_CALL);
  WANT(mapsched_call(&scheduler, &stamp, &strange, &reply) == MAPSCHED_BAD_CALL);
  WANT(memcmp(&reply, &before, sizeof reply) == 0);
  WANT(mapsched_count(&scheduler, &count) == MAPSCHED_OK && count == 0);

  WANT(mapsched_call(&scheduler, &stamp, &voice, &reply) == MAPSCHED_OK && reply.kind == MAPSCHED_PLACED);
  WANT(reply.value >= 800 && reply.starts_count == 1 && reply.starts[1] == 0xa5a5);
  WANT(mapsched_call(&scheduler, &stamp, &bytes, &reply) == MAPSCHED_OK && reply.kind == MAPSCHED_REFUSED);
  WANT(reply.refusal == 7 && reply.value == 0);
  WANT(mapsched_call(&scheduler, &stamp, &build, &reply) == MAPSCHED_OK && reply.kind == MAPSCHED_BUILT);
  WANT(reply.value == 800 && reply.length > 16 && reply.payload[0] == 3 && reply.payload[reply.length] == 0xa5);
  before = reply;
  WANT(mapsched_call(&scheduler, &stamp, &build, &reply) == MAPSCHED_HISTORY_FULL);
  WANT(memcmp(&reply, &before, sizeof reply) == 0);

  WANT(mapsched_count(&scheduler, &count) == MAPSCHED_OK && count == 3);
  WANT(mapsched_entry(&scheduler, 3, &entry) == MAPSCHED_NO_ENTRY && entry.call.kind == 0xa5a5a5a5);
  WANT(mapsched_entry(&scheduler, 0, &entry) == MAPSCHED_OK && entry.stamp.ticket == 7 && entry.stamp.seat == 2);
  WANT(memcmp(&entry.call, &voice, NUMBERS) == 0 && entry.reply.kind == MAPSCHED_PLACED);
  WANT(mapsched_entry(&scheduler, 2, &entry) == MAPSCHED_OK && entry.reply.kind == MAPSCHED_BUILT);
  WANT(entry.reply.length == reply.length && memcmp(entry.reply.payload, reply.payload, reply.length) == 0);

  memset(&map, 0xa5, sizeof map);
  WANT(mapsched_decode(reply.payload, reply.length, &map, &place) == MAPSCHED_OK && place == 99);
  WANT(map.channel == 3 && map.ucd_count == 1 && map.alloc_start == 800 && map.ack == 800 && map.count == 4);
  WANT(map.elements[0].sid == 0x3fff && map.elements[0].iuc == 1 && map.elements[0].offset == 0);
  WANT(map.elements[1].sid == 5 && map.elements[3].iuc == 7 && map.elements[3].offset == 40);
  WANT(map.elements[4].sid == 0xa5a5);
  WANT(mapsched_decode(reply.payload, 15, &map, &place) == MAPSCHED_BAD_PAYLOAD + 1 && place == 99);
  WANT(mapsched_decode(reply.payload, reply.length - 1, &map, &place) == MAPSCHED_BAD_PAYLOAD + 3);

  /* The payload that was read is written again; then each fault of its numbers. */
  memset(text, 0xa5, 1000);
  WANT(mapsched_encode(&map, text, reply.length - 1, &length, &place) == MAPSCHED_NO_ROOM && length == reply.length);
  WANT(text[0] == 0xa5 && place == 99);
  WANT(mapsched_encode(&map, text, sizeof text, &length, &place) == MAPSCHED_OK && length == reply.length);
  WANT(memcmp(text, reply.payload, length) == 0 && text[length] == 0xa5 && place == 99);
  length = 7;
  map.count = 241;
  WANT(mapsched_encode(&map, text, sizeof text, &length, &place) == MAPSCHED_BAD_MAP + 1 && place == 99);
  map.count = 3;
  WANT(mapsched_encode(&map, text, sizeof text, &length, &place) == MAPSCHED_BAD_MAP + 4 && place == 99);
  map.count = 4;
  map.elements[1].sid = 0x4000;
  WANT(mapsched_encode(&map, text, sizeof text, &length, &place) == MAPSCHED_BAD_MAP + 2 && place == 1);
  map.elements[1].sid = 5;
  map.elements[2].iuc = 15;
  WANT(mapsched_encode(&map, text, sizeof text, &length, &place) == MAPSCHED_BAD_MAP + 2 && place == 2);
  map.elements[2].iuc = 7;
  WANT(mapsched_encode(&map, text, sizeof text, &length, &place) == MAPSCHED_BAD_MAP + 5 && place == 3);
  map.elements[2].iuc = 1;
  map.elements[2].offset = 0;
  WANT(mapsched_encode(&map, text, sizeof text, &length, &place) == MAPSCHED_BAD_MAP + 3 && place == 2);
  WANT(length == 7 && strcmp(mapsched_status_text(302), "out of range") == 0);
  WANT(memcmp(text, reply.payload, reply.length) == 0);
  memset(text, 0, 1000);
  place = 99;

  reply.payload[18] |= 0xc0;
  reply.payload[17] |= 0x03;
  WANT(mapsched_decode(reply.payload, reply.length, &map, &place) == MAPSCHED_BAD_PAYLOAD + 4 && place == 0);
  WANT(map.count == 4 && strcmp(mapsched_status_text(204), "an expansion") == 0);

  WANT(mapsched_history(&scheduler, text, 10, &length) == MAPSCHED_NO_ROOM && length > 10 && text[0] == 0);
  WANT(mapsched_history(&scheduler, text, sizeof text, &length) == MAPSCHED_OK && text[length - 1] == '\n');
  WANT(text[length] == 0 && mapsched_audit(text, length, &place) == MAPSCHED_OK && place == 3);
  WANT(mapsched_audit(text, length - 2, &place) == MAPSCHED_NOT_JSON && place == 3);
  WANT(mapsched_audit((const uint8_t *)"{}", 2, &place) == MAPSCHED_NO_HISTORY && place == 0);
  /* The acknowledge time of the MAP, in the last entry. */
  *strstr(strstr((char *)text, "\"ack\":800"), "800") = '9';
  WANT(mapsched_audit(text, length, &place) == MAPSCHED_ILLEGAL && place == 2);

  WANT(mapsched_close(&scheduler) == MAPSCHED_OK && !scheduler.full);
  WANT(mapsched_close(&scheduler) == MAPSCHED_EMPTY);

  /* No grants in an interval are bad parameters; three have three starts in the one nominal frame of the cycle. */
  voice.grants = 0;
  config.calls = 4;
  WANT(mapsched_open(&scheduler, &config) == MAPSCHED_OK);
  WANT(mapsched_call(&scheduler, &stamp, &voice, &reply) == MAPSCHED_OK && reply.kind == MAPSCHED_REFUSED);
  WANT(reply.refusal == 3 && reply.value == 7);
  /* So is a minimum reserved rate whose burst is below the quantum, and one that is not is in the history. */
  WANT(mapsched_call(&scheduler, &stamp, &assured, &reply) == MAPSCHED_OK && reply.kind == MAPSCHED_REFUSED);
  WANT(reply.refusal == 3 && reply.value == 8);
  assured.reserved_burst = config.quantum;
  WANT(mapsched_call(&scheduler, &stamp, &assured, &reply) == MAPSCHED_OK && reply.kind == MAPSCHED_ADMITTED);
  WANT(mapsched_entry(&scheduler, 2, &entry) == MAPSCHED_OK && memcmp(&entry.call, &assured, NUMBERS) == 0);
  voice.grants = 3;
  WANT(mapsched_call(&scheduler, &stamp, &voice, &reply) == MAPSCHED_OK && reply.kind == MAPSCHED_PLACED);
  WANT(reply.value == 804 && reply.starts_count == 3);
  WANT(reply.starts[0] == 4 && reply.starts[1] == 10 && reply.starts[2] == 16);
  WANT(mapsched_entry(&scheduler, 3, &entry) == MAPSCHED_OK && memcmp(&entry.call, &voice, NUMBERS) == 0);
  WANT(mapsched_close(&scheduler) == MAPSCHED_OK);
  WANT(strcmp(mapsched_status_text(22), "unknown status") == 0);
  WANT(strcmp(mapsched_status_text(100), "unknown status") == 0);
  words();
  workers();
  forgetting();
  journals();
  resuming();
  turns();
  frames();
  opportunities();
  minislots();
  changes();
  bursts();
  return failures != 0;
}
