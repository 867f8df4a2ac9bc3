/* The script language of `desk` (oracle/README.md), played through the C calls: a test of the header against the library.

       play < SCRIPT > ANSWERS

   Every struct is filled with ones first, so that its padding is not zero. Each packet's record is compared, bit by bit,
   with the packet's fields, and read back. */
#include "saltdoodle.h"

#include <inttypes.h>
#include <stdio.h>
#include <stdlib.h>
#include <string.h>

static sd_sender sender;
static bool open;
static uint64_t object_store, fdt_store;

static char line[4096];
static char *words[64];
static size_t count;

static void wrong(const char *what) {
    fprintf(stderr, "play: %s\n", what);
    exit(1);
}

static const char *word(size_t i) {
    if (i >= count) wrong("a word is missing");
    return words[i];
}

static bool is(size_t i, const char *text) { return strcmp(word(i), text) == 0; }

static uint64_t number(size_t i) {
    char *end;
    uint64_t n = strtoull(word(i), &end, 10);
    if (*end != 0) wrong("not a number");
    return n;
}

static sd_part part(size_t i) { return (sd_part){.start = number(i), .size = number(i + 1)}; }

static void refused_or(uint32_t refused, const char *text) {
    if (refused != 0)
        printf("refused %" PRIu32 "\n", refused);
    else
        printf("%s\n", text);
}

static void numbered(sd_numbered r) {
    if (r.refused != 0)
        printf("refused %" PRIu32 "\n", r.refused);
    else
        printf("toi %" PRIu64 "\n", r.toi);
}

static void set_up(void) {
    sd_setup z;
    memset(&z, 0xff, sizeof z);
    z.sizes.e = number(1);
    z.sizes.b = number(2);
    z.window = number(3);
    z.count = number(4);
    bool narrow = true;
    for (size_t i = 0; i < z.count; i++) {
        if (number(5 + i) > UINT32_MAX) narrow = false;
        if (i < 4) z.priorities[i] = (uint32_t)number(5 + i);
    }
    size_t at = 5 + z.count;
    z.width = number(at);
    z.first_toi = number(at + 1);
    z.first_fdt_id = number(at + 2);
    z.validity = number(at + 3);
    z.from_start = is(at + 4, "interval");
    z.interval = number(at + 5);
    z.object_store = object_store = number(at + 6);
    z.fdt_store = fdt_store = number(at + 7);
    /* a priority is 32 bits wide here */
    uint32_t refused = narrow ? sd_set_up(&sender, z) : 1;
    open = refused == 0;
    refused_or(refused, "ok");
}

static void add(void) {
    sd_object o;
    memset(&o, 0xff, sizeof o);
    o.priority = (uint32_t)number(1);
    o.part = part(2);
    o.own = !is(4, "-");
    if (o.own) o.sizes = (sd_sizes){.e = number(4), .b = number(5)};
    o.plan.most = (uint32_t)number(6);
    o.plan.repeats = !is(7, "none");
    o.plan.from_start = is(7, "interval");
    o.plan.interval = number(8);
    o.plan.paced = !is(9, "none");
    o.plan.by_time = is(9, "at");
    o.plan.target = number(10);
    o.start.known = !is(11, "-");
    if (o.start.known) o.start.at = number(11);
    o.plan.stop_at_once = number(12) == 1;
    o.named = !is(13, "-");
    if (o.named) o.toi = number(13);
    /* as above: no session has a wider priority */
    numbered(number(1) > UINT32_MAX ? (sd_numbered){.refused = 2} : sd_add(&sender, o));
}

static void trigger(void) {
    sd_time start;
    memset(&start, 0xff, sizeof start);
    start.known = !is(2, "-");
    if (start.known) start.at = number(2);
    printf("%s\n", sd_trigger(&sender, number(1), start) ? "yes" : "no");
}

/* Some bits of a record, the most significant first. */
static uint64_t bits(const uint8_t *record, int from, int n) {
    uint64_t v = 0;
    for (int i = from; i < from + n; i++) v = 2 * v + (record[i / 8] >> (7 - i % 8) & 1);
    return v;
}

static void check_record(sd_sent s) {
    const sd_packet *p = &s.packet;
    const sd_symbol *y = &p->symbol;
    uint32_t id = p->is_fdt ? p->fdt_id : 0;
    uint8_t record[SD_RECORD_SIZE + 1];
    memset(record, 0xa5, sizeof record);
    if (sd_record_write(record, s) != 0) wrong("a record is refused");
    if (record[SD_RECORD_SIZE] != 0xa5) wrong("a byte behind the record is written");
    if (bits(record, 0, 1) != p->is_fdt || bits(record, 1, 1) != y->close || bits(record, 2, 20) != id || bits(record, 22, 64) != p->toi
        || bits(record, 86, 16) != y->sbn || bits(record, 102, 16) != y->esi || bits(record, 118, 16) != y->payload.size
        || bits(record, 134, 48) != y->transfer_length || bits(record, 182, 16) != y->symbols || bits(record, 198, 26) != 0)
        wrong("a record has other fields");
    sd_record r = sd_record_read(record);
    if (r.refused != 0 || r.is_fdt != p->is_fdt || r.close != y->close || r.fdt_id != id || r.toi != p->toi || r.block != y->sbn
        || r.symbol != y->esi || r.length != y->payload.size || r.total != y->transfer_length || r.symbols != y->symbols)
        wrong("a record reads otherwise");
    record[SD_RECORD_SIZE - 1] = 1;
    if (sd_record_read(record).refused != 9) wrong("a record with a bit in its padding is read");
    s.sent = false;
    if (sd_record_write(record, s) != 9) wrong("there is a record without a packet");
}

/* Byte i of a store, as `desk` fills it. */
static uint64_t byte_at(bool of_fdt, uint64_t i) { return of_fdt ? (83 * i + 29 * (i / 241) + 7) % 128 : (167 * i + 59 * (i / 251) + 13) % 256; }

static void packet(sd_sent s) {
    const sd_packet *p = &s.packet;
    const sd_symbol *y = &p->symbol;
    sd_place c = sd_payload(object_store, fdt_store, s);
    if (c.of_fdt != p->is_fdt || c.start != y->payload.start || c.size != y->payload.size) wrong("a payload stands elsewhere");
    sd_place none = sd_payload(c.of_fdt ? object_store : c.start, c.of_fdt ? c.start : fdt_store, s);
    if (none.size != 0 || (c.size != 0 && (none.of_fdt || none.start != 0))) wrong("a payload past its store");
    uint64_t sum = 1;
    for (uint64_t i = 0; i < c.size; i++) sum = (257 * sum + byte_at(c.of_fdt, c.start + i) + 1) % UINT64_C(4294967291);
    char id[16] = "-", start[24] = "-";
    if (p->is_fdt) snprintf(id, sizeof id, "%" PRIu32, p->fdt_id);
    if (c.size != 0) snprintf(start, sizeof start, "%" PRIu64, c.start);
    printf("packet %s %" PRIu64 " %s %" PRIu32 " %" PRIu32 " %d %" PRIu64 " %" PRIu64 " %" PRIu64 " %s %" PRIu64, p->is_fdt ? "fdt" : "obj", p->toi,
        id, y->sbn, y->esi, y->close, y->transfer_length, y->symbols, c.size, start, sum);
    check_record(s);
}

static void ran(sd_sent s, bool of_fdt) {
    if (s.refused != 0) {
        printf("refused %" PRIu32 "\n", s.refused);
        return;
    }
    if (s.sent)
        packet(s);
    else
        printf("nothing");
    if (of_fdt) printf(" taken %d", s.taken);
    printf("\n");
}

static void total(sd_counted r) {
    if (r.listed)
        printf("%" PRIu64 "\n", r.total);
    else
        printf("none\n");
}

static void play(void) {
    if (is(0, "setup"))
        set_up();
    else if (!open)
        printf("error\n");
    else if (is(0, "reserve"))
        numbered(sd_reserve(&sender));
    else if (is(0, "release"))
        refused_or(sd_release(&sender, number(1)), "ok");
    else if (is(0, "add"))
        add();
    else if (is(0, "remove"))
        printf("%s\n", sd_remove(&sender, number(1)) ? "yes" : "no");
    else if (is(0, "trigger"))
        trigger();
    else if (is(0, "publish"))
        refused_or(sd_publish(&sender, number(1), part(2)), "ok");
    else if (is(0, "complete")) {
        sd_complete(&sender);
        printf("ok\n");
    } else if (is(0, "listed"))
        printf("%s\n", sd_listed(&sender, number(1)) ? "yes" : "no");
    else if (is(0, "transfers"))
        total(sd_transfers(&sender, number(1)));
    else if (is(0, "runfdt"))
        ran(sd_run_fdt(&sender, number(1), part(2)), true);
    else if (is(0, "run"))
        ran(sd_run(&sender, number(1), number(2)), false);
    else
        wrong("no such command");
}

/* A set-up writes the sender to its last byte and nothing behind it, whatever stood there. */
static void check_size(void) {
    static struct {
        sd_sender sender;
        uint8_t behind[4096];
    } rooms[2];
    sd_setup z = {.sizes = {1, 1}, .window = 1, .count = 1, .width = 16, .first_toi = 1};
    for (int k = 0; k < 2; k++) {
        memset(&rooms[k], k, sizeof rooms[k]);
        if (sd_set_up(&rooms[k].sender, z) != 0) wrong("the smallest set-up is refused");
        for (size_t i = 0; i < sizeof rooms[k].behind; i++)
            if (rooms[k].behind[i] != k) wrong("a byte behind the sender is written");
    }
    const uint8_t *a = (const uint8_t *)&rooms[0].sender, *b = (const uint8_t *)&rooms[1].sender;
    for (size_t i = sizeof(sd_sender) - 8; i < sizeof(sd_sender); i++)
        if (a[i] != b[i]) wrong("the sender is shorter");
}

int main(void) {
    check_size();
    while (fgets(line, sizeof line, stdin) != NULL) {
        count = 0;
        for (char *w = strtok(line, " \t\r\n"); w != NULL && count < 64; w = strtok(NULL, " \t\r\n")) words[count++] = w;
        if (count > 0 && words[0][0] != '#') play();
    }
    return 0;
}
