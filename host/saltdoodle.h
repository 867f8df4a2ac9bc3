/* A sender for a host in C: the functions of libsaltdoodle.a (`bash host/build`; x86-64 Linux).

   The host owns an sd_sender and lends it to each call. It keeps to this:
   - sd_set_up fills it, and comes first: the other calls need a sender that an accepted set-up filled. Before that, zeros must stand there.
   - A refused call, a set-up too, leaves what stood there.
   - Nothing but these calls writes into it, and nothing touches or copies it while a call runs: one thread at a time.
     It holds no address, so between two calls it may be moved.
   - A `bool` is 0 or 1, and no pointer is null. A call has 128 KiB of stack: about 100 are used at most.

   The host owns two stores of bytes, one for objects and one for FDTs. The sender never sees their bytes: it is told their
   lengths at set-up, and speaks of parts of them. The bytes of a part stay as they are while its object or FDT is held.

   Times and durations are nanoseconds, on the host's clock; any may follow any other. An answer's `refused` is 0, or says why:
     1 set-up: a number out of range
     2 add: no session has that priority
     3 add: after sd_complete
     4 E or B out of range, or more than 65535 blocks
     5 a part past its store, or shared with one that is held, or an empty one to publish
     6 not a reservation, or an object has it
     7 32 objects, 64 numbers or 4 waiting FDTs are held already
     8 no such session
     9 no record
   The smallest that applies is told. A refused call changes nothing. */
#ifndef SALTDOODLE_H
#define SALTDOODLE_H

#include <stdbool.h>
#include <stddef.h>
#include <stdint.h>

#ifdef __cplusplus
#define SD_SAME(fact) static_assert(fact, #fact)
extern "C" {
#else
#include <stdalign.h>
#define SD_SAME(fact) _Static_assert(fact, #fact)
#endif

#define SD_RECORD_SIZE 28

/* The sender: its size and alignment, and nothing for the host to read. */
typedef struct sd_sender {
    uint64_t room[1035];
} sd_sender;

/* A part of a store: its first byte, and how many. */
typedef struct sd_part {
    uint64_t start;
    uint64_t size;
} sd_part;

/* Symbol length E, in bytes, and largest block B, in symbols: each in 1 .. 65535. */
typedef struct sd_sizes {
    uint64_t e;
    uint64_t b;
} sd_sizes;

/* A time, where `known`. */
typedef struct sd_time {
    bool known;
    uint64_t at;
} sd_time;

/* How an object is sent. */
typedef struct sd_plan {
    uint32_t most;       /* transfers in a round; then the carousel's wait begins, or, without one, the object leaves */
    bool repeats;        /* is there a carousel? */
    bool from_start;     /* its interval counts from the last start, else from the last end */
    uint64_t interval;
    bool paced;          /* is a transfer spread over a time? */
    bool by_time;        /* `target` is a time to end by, else a duration */
    uint64_t target;
    bool stop_at_once;   /* may it be stopped before it was sent once? */
} sd_plan;

/* An object to add. */
typedef struct sd_object {
    uint32_t priority;   /* that of a session */
    sd_part part;        /* of the object store */
    bool own;            /* has it sizes of its own, else those of the set-up? */
    sd_sizes sizes;
    sd_plan plan;
    sd_time start;       /* the earliest start, if any */
    bool named;          /* has it the reserved number `toi`, else a new one? */
    uint64_t toi;
} sd_object;

/* What is named once. */
typedef struct sd_setup {
    sd_sizes sizes;
    uint64_t window;          /* blocks sent in turn: 1 .. 16 */
    uint64_t count;           /* file sessions: 1 .. 4, numbered from 0 */
    uint32_t priorities[4];   /* of the first `count` */
    uint64_t width;           /* of object numbers: 16, 32, 48 or 64 bits */
    uint64_t first_toi;
    uint64_t first_fdt_id;    /* at most 0xFFFFF */
    uint64_t validity;        /* of an FDT */
    bool from_start;          /* an FDT is sent again an interval after its last start, else after its last end */
    uint64_t interval;
    uint64_t object_store;    /* the lengths of the stores, each at most 2^40 */
    uint64_t fdt_store;
} sd_setup;

/* An object's number, or the refusal. */
typedef struct sd_numbered {
    uint32_t refused;
    uint64_t toi;
} sd_numbered;

/* How often an object was sent in all, where it is listed. */
typedef struct sd_counted {
    bool listed;
    uint64_t total;
} sd_counted;

/* What a packet says of its symbol. */
typedef struct sd_symbol {
    uint32_t sbn;               /* its block */
    uint32_t esi;               /* its number in the block */
    uint64_t symbols;           /* of the block */
    sd_part payload;            /* of the object store or the FDT store */
    uint64_t transfer_length;
    bool close;                 /* the last packet of the last transfer, or of one that is stopped; always on an empty object */
} sd_symbol;

/* A packet: of an FDT (its object number is 0) or of an object (its FDT id says nothing). */
typedef struct sd_packet {
    bool is_fdt;
    uint64_t toi;
    uint32_t fdt_id;
    sd_symbol symbol;
} sd_packet;

/* What a run comes to: the packet, where `sent`. */
typedef struct sd_sent {
    uint32_t refused;
    bool taken;          /* did an FDT run take the draft? */
    bool sent;
    sd_packet packet;
} sd_sent;

/* Where a payload stands: in the FDT store or the object store. */
typedef struct sd_place {
    bool of_fdt;
    uint64_t start;
    uint64_t size;
} sd_place;

/* What a record says, or the refusal. */
typedef struct sd_record {
    uint32_t refused;
    bool is_fdt;
    bool close;
    uint32_t fdt_id;
    uint32_t block;
    uint32_t symbol;
    uint64_t toi;
    uint64_t length;     /* of the payload */
    uint64_t total;      /* of the transfer */
    uint64_t symbols;    /* of the block */
} sd_record;

/* Fills the sender. */
uint32_t sd_set_up(sd_sender *s, sd_setup z);

/* Reserves an object number. */
sd_numbered sd_reserve(sd_sender *s);

/* Gives up a reservation that no object has. */
uint32_t sd_release(sd_sender *s, uint64_t toi);

/* Adds an object. */
sd_numbered sd_add(sd_sender *s, sd_object o);

/* Takes an object off the list; was it there? */
bool sd_remove(sd_sender *s, uint64_t toi);

/* Forgets when an object was last sent, and sets its earliest start if one is known, unless it is being sent; is it listed? */
bool sd_trigger(sd_sender *s, uint64_t toi, sd_time start);

/* From here on no object is added. */
void sd_complete(sd_sender *s);

/* Queues an FDT: a part of the FDT store. */
uint32_t sd_publish(sd_sender *s, uint64_t at, sd_part part);

/* Asks the FDT session for a packet; `draft` is the FDT to publish if it is time for one, and of length 0 is none. */
sd_sent sd_run_fdt(sd_sender *s, uint64_t at, sd_part draft);

/* Asks file session i for a packet. */
sd_sent sd_run(sd_sender *s, uint64_t i, uint64_t at);

/* Is the object listed? */
bool sd_listed(const sd_sender *s, uint64_t toi);

/* How often was it sent? */
sd_counted sd_transfers(const sd_sender *s, uint64_t toi);

/* Where the packet's payload stands, in stores of these lengths; without a packet, or past its store, the object store's empty part. */
sd_place sd_payload(uint64_t object_store, uint64_t fdt_store, sd_sent s);

/* Writes the packet's record; where it is refused, nothing is written. */
uint32_t sd_record_write(uint8_t out[SD_RECORD_SIZE], sd_sent s);

/* Reads a record. */
sd_record sd_record_read(const uint8_t bytes[SD_RECORD_SIZE]);

/* The layout that libsaltdoodle.a has. */
SD_SAME(sizeof(bool) == 1);
SD_SAME(sizeof(sd_sender) == 8280);
SD_SAME(alignof(sd_sender) == 8);

SD_SAME(sizeof(sd_part) == 16);
SD_SAME(offsetof(sd_part, start) == 0);
SD_SAME(offsetof(sd_part, size) == 8);

SD_SAME(sizeof(sd_sizes) == 16);
SD_SAME(offsetof(sd_sizes, e) == 0);
SD_SAME(offsetof(sd_sizes, b) == 8);

SD_SAME(sizeof(sd_time) == 16);
SD_SAME(offsetof(sd_time, known) == 0);
SD_SAME(offsetof(sd_time, at) == 8);

SD_SAME(sizeof(sd_plan) == 40);
SD_SAME(offsetof(sd_plan, most) == 0);
SD_SAME(offsetof(sd_plan, repeats) == 4);
SD_SAME(offsetof(sd_plan, from_start) == 5);
SD_SAME(offsetof(sd_plan, interval) == 8);
SD_SAME(offsetof(sd_plan, paced) == 16);
SD_SAME(offsetof(sd_plan, by_time) == 17);
SD_SAME(offsetof(sd_plan, target) == 24);
SD_SAME(offsetof(sd_plan, stop_at_once) == 32);

SD_SAME(sizeof(sd_object) == 120);
SD_SAME(offsetof(sd_object, priority) == 0);
SD_SAME(offsetof(sd_object, part) == 8);
SD_SAME(offsetof(sd_object, own) == 24);
SD_SAME(offsetof(sd_object, sizes) == 32);
SD_SAME(offsetof(sd_object, plan) == 48);
SD_SAME(offsetof(sd_object, start) == 88);
SD_SAME(offsetof(sd_object, named) == 104);
SD_SAME(offsetof(sd_object, toi) == 112);

SD_SAME(sizeof(sd_setup) == 112);
SD_SAME(offsetof(sd_setup, sizes) == 0);
SD_SAME(offsetof(sd_setup, window) == 16);
SD_SAME(offsetof(sd_setup, count) == 24);
SD_SAME(offsetof(sd_setup, priorities) == 32);
SD_SAME(offsetof(sd_setup, width) == 48);
SD_SAME(offsetof(sd_setup, first_toi) == 56);
SD_SAME(offsetof(sd_setup, first_fdt_id) == 64);
SD_SAME(offsetof(sd_setup, validity) == 72);
SD_SAME(offsetof(sd_setup, from_start) == 80);
SD_SAME(offsetof(sd_setup, interval) == 88);
SD_SAME(offsetof(sd_setup, object_store) == 96);
SD_SAME(offsetof(sd_setup, fdt_store) == 104);

SD_SAME(sizeof(sd_numbered) == 16);
SD_SAME(offsetof(sd_numbered, refused) == 0);
SD_SAME(offsetof(sd_numbered, toi) == 8);

SD_SAME(sizeof(sd_counted) == 16);
SD_SAME(offsetof(sd_counted, listed) == 0);
SD_SAME(offsetof(sd_counted, total) == 8);

SD_SAME(sizeof(sd_symbol) == 48);
SD_SAME(offsetof(sd_symbol, sbn) == 0);
SD_SAME(offsetof(sd_symbol, esi) == 4);
SD_SAME(offsetof(sd_symbol, symbols) == 8);
SD_SAME(offsetof(sd_symbol, payload) == 16);
SD_SAME(offsetof(sd_symbol, transfer_length) == 32);
SD_SAME(offsetof(sd_symbol, close) == 40);

SD_SAME(sizeof(sd_packet) == 72);
SD_SAME(offsetof(sd_packet, is_fdt) == 0);
SD_SAME(offsetof(sd_packet, toi) == 8);
SD_SAME(offsetof(sd_packet, fdt_id) == 16);
SD_SAME(offsetof(sd_packet, symbol) == 24);

SD_SAME(sizeof(sd_sent) == 80);
SD_SAME(offsetof(sd_sent, refused) == 0);
SD_SAME(offsetof(sd_sent, taken) == 4);
SD_SAME(offsetof(sd_sent, sent) == 5);
SD_SAME(offsetof(sd_sent, packet) == 8);

SD_SAME(sizeof(sd_place) == 24);
SD_SAME(offsetof(sd_place, of_fdt) == 0);
SD_SAME(offsetof(sd_place, start) == 8);
SD_SAME(offsetof(sd_place, size) == 16);

SD_SAME(sizeof(sd_record) == 56);
SD_SAME(offsetof(sd_record, refused) == 0);
SD_SAME(offsetof(sd_record, is_fdt) == 4);
SD_SAME(offsetof(sd_record, close) == 5);
SD_SAME(offsetof(sd_record, fdt_id) == 8);
SD_SAME(offsetof(sd_record, block) == 12);
SD_SAME(offsetof(sd_record, symbol) == 16);
SD_SAME(offsetof(sd_record, toi) == 24);
SD_SAME(offsetof(sd_record, length) == 32);
SD_SAME(offsetof(sd_record, total) == 40);
SD_SAME(offsetof(sd_record, symbols) == 48);

#ifdef __cplusplus
}
#endif

#endif
