/*
 * mapsched: the upstream scheduler of one TDMA channel of a cable modem termination system (DOCSIS 3.0), from C11
 * and C++17. docs/C.md says who owns what, what is proved and what the caller owes.
 *
 * Every function answers one of enum mapsched_status. Where it is not MAPSCHED_OK nothing has changed, what the
 * pointers lead to included, but for what the status says is told. No pointer is null.
 */
#ifndef MAPSCHED_H
#define MAPSCHED_H

#include <stddef.h>
#include <stdint.h>

#ifdef __cplusplus
extern "C" {
#endif

/* The version, of which docs/VERSIONS.md says what it promises. */
#define MAPSCHED_VERSION "0.2.0"
#define MAPSCHED_VERSION_MAJOR 0
#define MAPSCHED_VERSION_MINOR 2
#define MAPSCHED_VERSION_PATCH 0

/* A MAP: the bytes of its fields and of an element, and the most elements and bytes that it has. */
#define MAPSCHED_FIXED_BYTES 16
#define MAPSCHED_ELEMENT_BYTES 4
#define MAPSCHED_MAX_ELEMENTS 240
#define MAPSCHED_MAX_BYTES (MAPSCHED_FIXED_BYTES + MAPSCHED_MAX_ELEMENTS * MAPSCHED_ELEMENT_BYTES)

/* The MAC management message of a MAP: the bytes that it has beside the payload, and the most that it has. */
#define MAPSCHED_FRAME_OVERHEAD 30
#define MAPSCHED_MAX_FRAME_BYTES (MAPSCHED_FRAME_OVERHEAD + MAPSCHED_MAX_BYTES)

/* A placement: the most grants in an interval, frames of a cycle, and starts, one for each grant in each frame. */
#define MAPSCHED_MAX_GRANTS 8
#define MAPSCHED_MAX_CYCLE 64
#define MAPSCHED_MAX_STARTS (MAPSCHED_MAX_GRANTS * MAPSCHED_MAX_CYCLE)

/* The most of each that a call, a configuration, a workplace or a text may have. */
#define MAPSCHED_MAX_SID 8191
#define MAPSCHED_MAX_PRIORITY 7
#define MAPSCHED_MAX_REQUEST_BYTES 1048560
#define MAPSCHED_MAX_CLOCK (UINT64_C(1) << 60)
#define MAPSCHED_MAX_FLOWS 8191
#define MAPSCHED_MAX_RECEIVERS 16
#define MAPSCHED_MAX_CALLS 16777216
#define MAPSCHED_MAX_SEATS 64
#define MAPSCHED_MAX_TEXT_BYTES 16777216

/* How many fields of a configuration can be wrong, and faults a payload, the numbers of a MAP and a request have. */
/* checks/tables: counts begin */
#define MAPSCHED_CONFIG_FIELDS 25
#define MAPSCHED_PAYLOAD_FAULTS 7
#define MAPSCHED_MAP_FAULTS 5
#define MAPSCHED_REQUEST_FAULTS 4
/* checks/tables: counts end */

/* checks/tables: statuses begin */
enum mapsched_status {
  MAPSCHED_OK = 0,
  MAPSCHED_EMPTY = 1,         /* the handle has no scheduler */
  MAPSCHED_FULL = 2,          /* the handle has a scheduler already */
  MAPSCHED_BAD_CALL = 3,      /* no such kind of call, of flow or of opportunity */
  MAPSCHED_HISTORY_FULL = 4,  /* as many entries are kept as the configuration allows, or 2^44 calls were recorded */
  MAPSCHED_OUT_OF_MEMORY = 5,
  MAPSCHED_NO_ENTRY = 6,      /* the history has no entry of this number */
  MAPSCHED_NO_ROOM = 7,       /* the room is shorter than the text, whose length is told */
  MAPSCHED_ILLEGAL = 8,       /* an entry may not follow those before it: its place is told */
  MAPSCHED_TOO_LONG = 9,      /* a text is longer than MAPSCHED_MAX_TEXT_BYTES, a payload than MAPSCHED_MAX_BYTES, a journal than 2^44 entries */
  MAPSCHED_NOT_JSON = 10,     /* a text is not JSON in UTF-8 */
  MAPSCHED_NO_HISTORY = 11,   /* a text is no history: the place of the entry is told, from 1, or 0 */
  MAPSCHED_NO_TICKET = 12,    /* the worker has no ticket */
  MAPSCHED_NOT_SERVED = 13,   /* the worker's ticket is not served yet */
  MAPSCHED_HAS_TICKET = 14,   /* the worker has a ticket, or is in its turn */
  MAPSCHED_NO_SEAT = 15,      /* no seat is with the worker */
  MAPSCHED_WORKERS_OUT = 16,  /* other workers are left */
  MAPSCHED_BAD_SEATS = 17,    /* fewer than 1 seat, or more than MAPSCHED_MAX_SEATS */
  MAPSCHED_HANDED_OVER = 18,  /* an entry, or one of a history, is no longer kept: it was let go */
  MAPSCHED_NO_TURN = 19,      /* the worker is not in its turn */
  MAPSCHED_KEEPS_ALL = 20,    /* the scheduler of the workplace keeps its whole history: nothing was let go */
  MAPSCHED_NO_WORDS = 21,     /* no status or no refusal has this number */
  MAPSCHED_BAD_CONFIG = 100,  /* and the number of the first wrong field: 101 to 125, by docs/REFERENCE.md */
  MAPSCHED_BAD_PAYLOAD = 200, /* and the number of the first fault: 201 to 207, by docs/REFERENCE.md */
  MAPSCHED_BAD_MAP = 300,     /* and the number of the first fault of numbers that are no MAP: 301 to 305 */
  MAPSCHED_BAD_REQUEST = 400  /* and the number of the first fault of bytes that are no request frame: 401 to 404 */
};
/* checks/tables: statuses end */

/* The configuration of a channel, with its burst descriptors. docs/REFERENCE.md has the values that are lawful. */
/* checks/tables: configuration begin */
struct mapsched_profile {
  uint32_t preamble, guard, bits, parity, information, shortened;
};

struct mapsched_bursts {
  uint32_t symbols;
  struct mapsched_profile short_data, long_data, unsolicited; /* unsolicited may be zeroes: as long_data */
};

struct mapsched_config {
  uint32_t ticks, bytes_per_slot, overhead, frame, cycle, req_slots, poll_slots, lead, short_max, quantum, grant_cap;
  uint32_t calls;
  uint64_t start;
  uint8_t receivers, ranging_start, ranging_end, data_start, data_end, channel, ucd_count, phy, open_idle;
  uint32_t has_bursts; /* 0: bytes_per_slot and overhead are read, and not bursts */
  struct mapsched_bursts bursts;
  uint32_t flows;        /* 0: 64 */
  uint32_t pending;      /* 0: 64 */
  uint32_t has_periodic; /* 0: periodic is not read, and is 40 */
  uint32_t periodic;
  uint32_t settle;
};
/* checks/tables: configuration end */

/* checks/tables: kinds begin */
enum mapsched_call_kind {
  MAPSCHED_ADMIT = 0,
  MAPSCHED_REMOVE = 1,
  MAPSCHED_ASK = 2,     /* a request: for bytes, or where has_slots is not 0 for what slots carry */
  MAPSCHED_HEARD = 3,
  MAPSCHED_BUILD = 4,
  MAPSCHED_SKIP = 5,
  MAPSCHED_STATUS = 6,
  MAPSCHED_RESERVE = 7, /* an opportunity: usage, slots, and its sid where it is not of all modems or of none */
  MAPSCHED_HEADER = 8,  /* of every MAP after it: ucd_count and the four exponents */
  MAPSCHED_REPLACE = 9, /* a request that supersedes those before, with the members of an ask */
  MAPSCHED_CHANGE = 10, /* of a live flow: other parameters of the same kind, with the members of an admission */
  MAPSCHED_REST = 11,   /* of an unsolicited flow: polls in the place of its grants */
  MAPSCHED_WAKE = 12    /* of an unsolicited flow: its grants again */
};

enum mapsched_flow_kind { MAPSCHED_UNSOLICITED = 0, MAPSCHED_POLLED = 1, MAPSCHED_BEST_EFFORT = 2 };
/* checks/tables: kinds end */

/* What an opportunity is used for, and by whom. */
/* checks/tables: usages begin */
enum mapsched_usage {
  MAPSCHED_INITIAL = 0,    /* Initial Maintenance for any modem */
  MAPSCHED_STATION = 1,    /* Station Maintenance for the modem of sid */
  MAPSCHED_INITIAL_TO = 2, /* Initial Maintenance for the modem of sid */
  MAPSCHED_REQUEST = 3,    /* requests of the modems of sid: one, those of priorities, or all */
  MAPSCHED_QUIET = 4,      /* no modem sends */
  MAPSCHED_DATA = 5        /* a data grant to sid that needs no flow */
};
/* checks/tables: usages end */

/*
 * A call by its kind. A kind reads only its own numbers; in a history the others are 0. Where two names share a place,
 * the second is that of an opportunity, a header or a request in minislots.
 */
/* checks/tables: call begin */
struct mapsched_call {
  uint32_t kind; /* enum mapsched_call_kind */
  union {
    uint32_t flow;  /* of an admission or a change: enum mapsched_flow_kind */
    uint32_t usage; /* of an opportunity: enum mapsched_usage */
  };
  union {
    uint32_t size;  /* of an unsolicited flow: the bytes of a grant */
    uint32_t slots; /* of an opportunity, or of a request with has_slots: minislots */
  };
  uint32_t interval_us, jitter_us, rate, burst; /* of an admission or a change: microseconds, bits per second, bytes */
  uint32_t bytes;                               /* of a request without has_slots */
  uint64_t minislot;                            /* when it was heard, up to when all was, or now */
  uint16_t sid;
  union {
    uint8_t receiver;
    uint8_t ucd_count; /* of a header, like ranging_start to data_end: the exponents of its backoff windows */
  };
  union {
    uint8_t priority;
    uint8_t ranging_start;
  };
  union {
    uint8_t grants; /* of an unsolicited flow: in an interval, from 1 to 8 */
    uint8_t ranging_end;
  };
  uint8_t data_start, data_end;
  uint8_t has_slots;                 /* of a request: 0 where bytes are read, else slots are */
  uint32_t peak;                     /* of a polled or best effort flow: bits per second, or 0 */
  uint32_t reserved, reserved_burst; /* of a best effort flow: bits per second, or 0; bytes */
};
/* checks/tables: call end */

/* Who made a call: a seat and its ticket, which are recorded as they are handed in. */
struct mapsched_stamp {
  uint64_t ticket;
  uint32_t seat;
};

/* checks/tables: replies begin */
enum mapsched_reply_kind {
  MAPSCHED_ADMITTED = 0, /* a best effort flow */
  MAPSCHED_PLACED = 1,   /* a periodic flow: value is its first nominal minislot, starts its starts */
  MAPSCHED_REMOVED = 2,
  MAPSCHED_TAKEN = 3,
  MAPSCHED_NOTED = 4,
  MAPSCHED_BUILT = 5,    /* value is the start of the frame, payload the MAP */
  MAPSCHED_SKIPPED = 6,  /* value is the start of the next frame */
  MAPSCHED_BYTES = 7,    /* asked, granted, outstanding */
  MAPSCHED_REFUSED = 8,  /* refusal is its number in docs/REFERENCE.md, value its value or 0 */
  MAPSCHED_RESERVED = 9, /* the opportunity waits for a MAP */
  MAPSCHED_CHANGED = 10  /* as PLACED of a periodic flow; of a best effort flow without starts */
};
/* checks/tables: replies end */

/* A reply by its kind. Numbers that the kind has not are 0; starts and payload keep what stood behind their end. */
struct mapsched_reply {
  uint32_t kind; /* enum mapsched_reply_kind */
  uint32_t refusal;
  uint32_t starts_count;
  uint32_t length;
  uint64_t value;
  uint64_t asked, granted, outstanding;
  uint16_t starts[MAPSCHED_MAX_STARTS];
  uint8_t payload[MAPSCHED_MAX_BYTES];
};

struct mapsched_entry {
  struct mapsched_stamp stamp;
  struct mapsched_call call;
  struct mapsched_reply reply;
};

/* A scheduler of one thread, or none: `= {0}` in C and `{}` in C++. Its members are the library's. */
struct mapsched_scheduler {
  uint32_t full;
  void *at;
};

/* Whether a configuration is lawful. */
uint32_t mapsched_check(const struct mapsched_config *config);

/* Opens a scheduler into an empty handle. */
uint32_t mapsched_open(struct mapsched_scheduler *scheduler, const struct mapsched_config *config);

/*
 * Opens a scheduler into an empty handle that goes on after a journal, whose bytes are given: its lines are judged one
 * by one, as `mapsched audit --journal` does. Their entries are its whole history, and none of them is kept, so that
 * mapsched_lines writes those behind them. Bytes behind the last newline are left out. Tells how many bytes the whole
 * lines have; of MAPSCHED_ILLEGAL the entry, from 0; of MAPSCHED_NO_HISTORY the line, from 0: the configuration.
 */
uint32_t mapsched_resume(struct mapsched_scheduler *scheduler, const uint8_t *journal, size_t journal_length,
                         size_t *place);

/* Makes a call, which is recorded, and writes its reply. A refusal is a reply. */
uint32_t mapsched_call(struct mapsched_scheduler *scheduler, const struct mapsched_stamp *stamp,
                       const struct mapsched_call *call, struct mapsched_reply *reply);

/* How many calls were recorded, those included that are no longer kept. */
uint32_t mapsched_count(struct mapsched_scheduler *scheduler, size_t *count);

/* The number of the first recorded call that is kept, from 0: so many were let go. */
uint32_t mapsched_kept_from(struct mapsched_scheduler *scheduler, size_t *place);

/*
 * Lets go of all recorded calls that are kept, so that there is room for others. Their numbers are not given again. A
 * program that wants them reads them before, from mapsched_kept_from to mapsched_count, or as lines of a journal.
 */
uint32_t mapsched_forget(struct mapsched_scheduler *scheduler);

/* The recorded call of this number, from 0, where it is kept; else MAPSCHED_HANDED_OVER. */
uint32_t mapsched_entry(struct mapsched_scheduler *scheduler, size_t place, struct mapsched_entry *entry);

/*
 * Writes the text of the history, as `mapsched run --history` does, and tells its length. Where a part of it was let go
 * nothing is written: MAPSCHED_HANDED_OVER.
 */
uint32_t mapsched_history(struct mapsched_scheduler *scheduler, uint8_t *room, size_t room_length, size_t *length);

/*
 * Writes the recorded calls that are kept, with their replies, as lines of a journal, and tells their length: no line
 * where none is kept. The first is that of the number that mapsched_kept_from tells.
 */
uint32_t mapsched_lines(struct mapsched_scheduler *scheduler, uint8_t *room, size_t room_length, size_t *length);

/*
 * Writes the first line of a journal, the configuration, and tells its length. With the lines before each
 * mapsched_forget behind it, and those at the end, it is what `mapsched audit --journal` reads.
 */
uint32_t mapsched_opening(struct mapsched_scheduler *scheduler, uint8_t *room, size_t room_length, size_t *length);

/* Audits the text of a history, and tells how many entries a legal one has. */
uint32_t mapsched_audit(const uint8_t *text, size_t length, size_t *place);

/* An information element of a MAP. */
struct mapsched_element {
  uint16_t sid, offset;
  uint8_t iuc;
};

/* The fields of a MAP's payload and its elements, so many as are counted; the others keep what stood there. */
struct mapsched_map {
  uint32_t alloc_start, ack, count;
  uint8_t channel, ucd_count, reserved, ranging_start, ranging_end, data_start, data_end;
  struct mapsched_element elements[MAPSCHED_MAX_ELEMENTS];
};

/* Reads the payload of a MAP. Of the faults 4, 5 and 7 the element is told, from 0. */
uint32_t mapsched_decode(const uint8_t *payload, size_t length, struct mapsched_map *map, size_t *element);

/*
 * Writes the payload of a MAP, and tells its length: 1 more than 240 elements are counted, 2 an element has a SID or an
 * offset above 16383 or a code above 14, 3 it begins before the one before it, up to the first Null, 4 no element is a
 * Null, 5 it is a second Null. Of the faults 2, 3 and 5 the element is told, from 0.
 */
uint32_t mapsched_encode(const struct mapsched_map *map, uint8_t *room, size_t room_length, size_t *length,
                         size_t *element);

/*
 * Writes the frame of a MAP's payload, the MAC management message of DOCSIS 3.0 with its two checksums, from the
 * address of the sender, six bytes, and tells its length, MAPSCHED_FRAME_OVERHEAD more than the payload's. The payload
 * is not read; one longer than MAPSCHED_MAX_BYTES is MAPSCHED_TOO_LONG.
 */
uint32_t mapsched_map_frame(const uint8_t *payload, size_t payload_length, const uint8_t address[6], uint8_t *room,
                            size_t room_length, size_t *length);

/* A request frame asks for minislots, a queue-depth request frame tells units of the queue of its flow. */
enum mapsched_request_kind { MAPSCHED_ASKS_MINISLOTS = 0, MAPSCHED_TELLS_QUEUE = 1 };

/*
 * Reads a request frame or a queue-depth request frame, and tells which it is, its number and its SID. Bytes that are
 * neither are MAPSCHED_BAD_REQUEST and 1 where the length is neither 6 nor 7, 2 where the first byte is not C4 in 6
 * bytes nor C8 in 7, 3 where the SID has more than 14 bits, 4 where the HCS is wrong.
 */
uint32_t mapsched_request(const uint8_t *bytes, size_t length, uint32_t *kind, uint16_t *number, uint16_t *sid);

/* Frees the scheduler. */
uint32_t mapsched_close(struct mapsched_scheduler *scheduler);

/*
 * Threads: workers at one scheduler, each with a seat, which take turns in the order of their tickets. A worker may go
 * to another thread, and is used by one at a time: `= {0}` in C and `{}` in C++. Its members are the library's.
 * There are no readers of the newest MAP: a build that publishes may wait for one, and no function here waits. A
 * program hands on the payload of a build's reply.
 */
struct mapsched_worker {
  uint32_t full;
  void *at;
};

/*
 * Opens a scheduler with 1 to 64 seats, and puts its first worker into an empty handle. The other seats are with it.
 * The scheduler keeps all recorded calls.
 */
uint32_t mapsched_open_workers(struct mapsched_worker *worker, const struct mapsched_config *config, uint32_t seats);

/* Opens one that goes on without end: a worker in its turn can let go of what is kept. */
uint32_t mapsched_open_workers_without_end(struct mapsched_worker *worker, const struct mapsched_config *config,
                                           uint32_t seats);

/* Gives one of the seats that are with a worker to a new one, in an empty handle: another than the first. */
uint32_t mapsched_hire(struct mapsched_worker *worker, struct mapsched_worker *hired);

/* Draws the next ticket. It waits for nobody. Who draws has to take the turn: nobody is served before. */
uint32_t mapsched_draw(struct mapsched_worker *worker);

/*
 * If the ticket is served, makes a call, which is recorded with the seat and the ticket, and writes its reply. The turn
 * ends so, and also by MAPSCHED_HISTORY_FULL and MAPSCHED_OUT_OF_MEMORY. If it is not: MAPSCHED_NOT_SERVED. It looks
 * once and never waits; the loop round it is the program's.
 */
uint32_t mapsched_turn(struct mapsched_worker *worker, const struct mapsched_call *call, struct mapsched_reply *reply);

/*
 * If the ticket is served, the turn begins and goes on until mapsched_turn_forget or mapsched_end: in it the worker
 * looks at the scheduler, while no other worker has a turn. If it is not: MAPSCHED_NOT_SERVED. It looks once and never
 * waits. In such a turn no call is made. A worker that is not in one gets MAPSCHED_NO_TURN from mapsched_turn_count to
 * mapsched_end.
 */
uint32_t mapsched_begin(struct mapsched_worker *worker);

/* To a worker in its turn: how many calls were recorded, those included that are no longer kept. */
uint32_t mapsched_turn_count(struct mapsched_worker *worker, size_t *count);

/* The number of the first recorded call that is kept, from 0: so many were let go. */
uint32_t mapsched_turn_kept_from(struct mapsched_worker *worker, size_t *place);

/* The recorded call of this number, from 0, where it is kept; else MAPSCHED_HANDED_OVER. */
uint32_t mapsched_turn_entry(struct mapsched_worker *worker, size_t place, struct mapsched_entry *entry);

/* Writes the recorded calls that are kept as mapsched_lines does. */
uint32_t mapsched_turn_lines(struct mapsched_worker *worker, uint8_t *room, size_t room_length, size_t *length);

/*
 * Lets go of all recorded calls that are kept, and ends the turn. The turn ends too where the scheduler keeps all:
 * MAPSCHED_KEEPS_ALL.
 */
uint32_t mapsched_turn_forget(struct mapsched_worker *worker);

/* Ends the turn, and lets nothing go. */
uint32_t mapsched_end(struct mapsched_worker *worker);

/* Lets a worker go, if it has no ticket and is not in its turn, with the seats that are with it. */
uint32_t mapsched_leave(struct mapsched_worker *worker);

/* When all others have left: closes the workplace, and puts its scheduler with the history into an empty handle. */
uint32_t mapsched_close_workers(struct mapsched_worker *worker, struct mapsched_scheduler *scheduler);

/* Writes the version, as 0.2.0, and tells its length. No text of the library ends with a zero. */
uint32_t mapsched_version(uint8_t *room, size_t room_length, size_t *length);

/* Writes what a status says, as mapsched_status_text does, and tells its length. */
uint32_t mapsched_status_words(uint32_t number, uint8_t *room, size_t room_length, size_t *length);

/*
 * Writes what a refusal means, as `mapsched run --explain` does, and tells its length. The number and the value are
 * those of its reply; a refusal without a value does not read it.
 */
uint32_t mapsched_refusal_words(uint32_t number, uint64_t value, uint8_t *room, size_t room_length, size_t *length);

/* What a status says, in English. */
static inline const char *mapsched_status_text(uint32_t status) {
  /* checks/tables: texts begin */
  static const char *const texts[] = {
      "ok", "no scheduler", "a scheduler already", "no such call", "history full", "out of memory", "no such entry",
      "no room", "illegal", "text too long", "not json", "no history", "no ticket", "not served", "has a ticket",
      "no seat", "workers left", "seats", "not kept", "no turn", "keeps all", "no such number",
  };
  static const char *const fields[] = {
      "ticks", "bytes_per_slot", "overhead", "frame", "cycle", "req_slots", "poll_slots", "lead", "short_max",
      "quantum", "grant_cap", "receivers", "calls", "start", "ranging_start", "ranging_end", "data_start", "data_end",
      "phy", "bursts", "flows", "pending", "periodic", "open_idle", "settle",
  };
  static const char *const faults[] = {
      "too short", "too many elements", "wrong length", "an expansion", "a descent", "no null", "a second null",
  };
  static const char *const map_faults[] = {
      "too many elements", "out of range", "a descent", "no null", "a second null",
  };
  static const char *const request_faults[] = {"length", "kind", "sid", "hcs"};
  /* checks/tables: texts end */
  if (status <= MAPSCHED_NO_WORDS) return texts[status];
  if (status > MAPSCHED_BAD_CONFIG && status <= MAPSCHED_BAD_CONFIG + MAPSCHED_CONFIG_FIELDS)
    return fields[status - MAPSCHED_BAD_CONFIG - 1];
  if (status > MAPSCHED_BAD_PAYLOAD && status <= MAPSCHED_BAD_PAYLOAD + MAPSCHED_PAYLOAD_FAULTS)
    return faults[status - MAPSCHED_BAD_PAYLOAD - 1];
  if (status > MAPSCHED_BAD_MAP && status <= MAPSCHED_BAD_MAP + MAPSCHED_MAP_FAULTS)
    return map_faults[status - MAPSCHED_BAD_MAP - 1];
  if (status > MAPSCHED_BAD_REQUEST && status <= MAPSCHED_BAD_REQUEST + MAPSCHED_REQUEST_FAULTS)
    return request_faults[status - MAPSCHED_BAD_REQUEST - 1];
  return "unknown status";
}

#ifdef __cplusplus
}
#endif

#endif
