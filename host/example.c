/* A host in C: two banks from two files, one FDT, and every packet on a line, until nothing is sent. No network.

       example BANK BANK [FDT]

   A line is: packet KIND TOI ID SBN ESI CLOSE TOTAL SYMBOLS LENGTH START SUM record HEX
   as the program `desk` prints it, and the packet's record. SUM is a checksum of the payload. */
#include "saltdoodle.h"

#include <inttypes.h>
#include <stdio.h>
#include <stdlib.h>

/* The two stores, as the host keeps them. */
static uint8_t objects[1 << 20];
static uint8_t fdts[1 << 12];

/* The sender: zeros, until it is set up. */
static sd_sender sender;

static void fail(const char *what, uint32_t refused) {
    fprintf(stderr, "example: %s: refused %" PRIu32 "\n", what, refused);
    exit(1);
}

/* Reads a file into a store, from `start` on. */
static sd_part read_part(const char *name, uint8_t *store, uint64_t size, uint64_t start) {
    FILE *f = fopen(name, "rb");
    if (f == NULL) {
        perror(name);
        exit(1);
    }
    sd_part part = {.start = start, .size = fread(store + start, 1, size - start, f)};
    if (fgetc(f) != EOF) {
        fprintf(stderr, "example: %s is too long\n", name);
        exit(1);
    }
    fclose(f);
    return part;
}

/* E = 64, B = 8, a window of 2 blocks; two file sessions; an FDT is sent again after an hour. */
static void set_up(void) {
    sd_setup z = {
        .sizes = {.e = 64, .b = 8},
        .window = 2,
        .count = 2,
        .priorities = {1, 2},
        .width = 16,
        .first_toi = 1,
        .first_fdt_id = 7,
        .validity = UINT64_C(7200) * 1000000000,
        .from_start = false,
        .interval = UINT64_C(3600) * 1000000000,
        .object_store = sizeof objects,
        .fdt_store = sizeof fdts,
    };
    uint32_t refused = sd_set_up(&sender, z);
    if (refused != 0) fail("set-up", refused);
}

/* Adds a bank, to be sent `most` times by the session of this priority. */
static uint64_t add(uint32_t priority, sd_part part, uint32_t most) {
    sd_object o = {.priority = priority, .part = part, .plan = {.most = most}};
    sd_numbered r = sd_add(&sender, o);
    if (r.refused != 0) fail("add", r.refused);
    return r.toi;
}

/* An FDT for the two, where none is given as a file. */
static sd_part write_fdt(const char *const names[2], const uint64_t tois[2], const sd_part banks[2]) {
    char *out = (char *)fdts;
    int n = snprintf(out, sizeof fdts, "<FDT-Instance Expires=\"7200\">");
    for (int i = 0; i < 2; i++)
        n += snprintf(out + n, sizeof fdts - (size_t)n, "<File TOI=\"%" PRIu64 "\" Content-Location=\"%.400s\" Content-Length=\"%" PRIu64 "\"/>", tois[i], names[i], banks[i].size);
    n += snprintf(out + n, sizeof fdts - (size_t)n, "</FDT-Instance>");
    return (sd_part){.start = 0, .size = (uint64_t)n};
}

/* Prints a packet, if there is one; a host with a network sends the record and the payload here. */
static bool print(sd_sent s) {
    if (s.refused != 0) fail("run", s.refused);
    if (!s.sent) return false;
    const sd_packet *p = &s.packet;
    const sd_symbol *y = &p->symbol;
    printf("packet %s %" PRIu64 " ", p->is_fdt ? "fdt" : "obj", p->toi);
    if (p->is_fdt)
        printf("%" PRIu32, p->fdt_id);
    else
        printf("-");
    printf(" %" PRIu32 " %" PRIu32 " %d %" PRIu64 " %" PRIu64, y->sbn, y->esi, y->close, y->transfer_length, y->symbols);

    sd_place c = sd_payload(sizeof objects, sizeof fdts, s);
    const uint8_t *payload = (c.of_fdt ? fdts : objects) + c.start;
    uint64_t sum = 1;
    for (uint64_t i = 0; i < c.size; i++) sum = (257 * sum + payload[i] + 1) % UINT64_C(4294967291);
    if (c.size == 0)
        printf(" 0 - %" PRIu64 " record ", sum);
    else
        printf(" %" PRIu64 " %" PRIu64 " %" PRIu64 " record ", c.size, c.start, sum);

    uint8_t record[SD_RECORD_SIZE];
    uint32_t refused = sd_record_write(record, s);
    if (refused != 0) fail("record", refused);
    for (int i = 0; i < SD_RECORD_SIZE; i++) printf("%02x", record[i]);
    printf("\n");
    return true;
}

int main(int argc, char **argv) {
    if (argc < 3 || argc > 4) {
        fprintf(stderr, "usage: example BANK BANK [FDT]\n");
        return 2;
    }
    set_up();
    sd_part banks[2];
    banks[0] = read_part(argv[1], objects, sizeof objects, 0);
    banks[1] = read_part(argv[2], objects, sizeof objects, banks[0].size);
    uint64_t tois[2] = {add(1, banks[0], 2), add(2, banks[1], 1)};
    sd_part fdt = argc == 4 ? read_part(argv[3], fdts, sizeof fdts, 0) : write_fdt((const char *const[2]){argv[1], argv[2]}, tois, banks);
    uint32_t refused = sd_publish(&sender, 0, fdt);
    if (refused != 0) fail("publish", refused);

    /* One millisecond a round: each session is asked in turn, until none has a packet. */
    sd_part no_draft = {.start = 0, .size = 0};
    bool any = true;
    for (uint64_t now = 0; any; now += 1000000) {
        any = print(sd_run_fdt(&sender, now, no_draft));
        for (uint64_t i = 0; i < 2; i++) any = print(sd_run(&sender, i, now)) || any;
    }
    return 0;
}
