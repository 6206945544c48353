/* A bench in C: plays the small runs P1 to P9 (docs/RULES.md, 9) on one machine, archives what they did and
 * reads the archive back. It ends with status 1 at the first answer that is not the rules'. */
#include "malthobre.h"
#include <stdio.h>
#include <stdlib.h>
#include <string.h>

enum {
    CORES = 3,
    BYTES = 64,
    ENTRIES = 4,
    LOAD = MALTHOBRE_OPERATION_LOAD,
    LL = MALTHOBRE_OPERATION_LL,
    STORE = MALTHOBRE_OPERATION_STORE,
    SC = MALTHOBRE_OPERATION_SC,
    POKE = 5 /* no operation: malthobre_poke does it */
};
static const char *const NAMES[] = {"", "load", "ll", "store", "sc", "poke"};
/* The word of an operation's last answer. */
static const unsigned ANSWERS[] = {0, MALTHOBRE_LOAD, MALTHOBRE_LL, MALTHOBRE_STORE, MALTHOBRE_SC};

/* One operation, run whole, with the value that the rules have it answer. */
typedef struct { int run, core, what; uint32_t address, value, answer; } Operation;

static const Operation RUNS[] = {
    {1, 0, LL, 8, 0, 0}, {1, 0, SC, 8, 5, 0}, {1, 2, LOAD, 8, 0, 5},
    {2, 0, LL, 8, 0, 0}, {2, 1, STORE, 8, 7, 0}, {2, 1, STORE, 8, 0, 0}, {2, 0, SC, 8, 5, 1}, {2, 2, LOAD, 8, 0, 0},
    {3, 0, LL, 8, 0, 0}, {3, 1, STORE, 8, 7, 0}, {3, 0, STORE, 24, 9, 0}, {3, 0, SC, 8, 5, 1}, {3, 2, LOAD, 8, 0, 7},
    {4, 0, LL, 8, 0, 0}, {4, 1, LL, 24, 0, 0}, {4, 0, SC, 8, 5, 1}, {4, 1, SC, 24, 4, 0}, {4, 2, LOAD, 8, 0, 0},
    {5, 0, LL, 8, 0, 0}, {5, 0, STORE, 8, 3, 0}, {5, 0, SC, 8, 5, 0}, {5, 2, LOAD, 8, 0, 5},
    {6, 0, LL, 8, 0, 0}, {6, 0, SC, 12, 5, 1}, {6, 0, SC, 8, 5, 1}, {6, 2, LOAD, 8, 0, 0},
    {7, 0, LL, 8, 0, 0}, {7, 1, STORE, 12, 1, 0}, {7, 0, SC, 8, 5, 0}, {7, 2, LOAD, 8, 0, 5},
    {8, 0, LL, 8, 0, 0}, {8, 1, SC, 24, 4, 1}, {8, 0, SC, 8, 5, 0}, {8, 2, LOAD, 8, 0, 5},
    {9, 0, LL, 8, 0, 0}, {9, 0, POKE, 8, 9, 0}, {9, 0, SC, 8, 5, 0}, {9, 2, LOAD, 8, 0, 5},
};

/* The machine and the writer stand here for the whole session. */
static malthobre_machine machine;
static malthobre_writer writer;
static uint8_t memory[BYTES], owners[ENTRIES], holders[ENTRIES];
static uint8_t block[MALTHOBRE_BLOCK_BYTES], archive[2 * MALTHOBRE_BLOCK_BYTES];
static size_t stored;

static void expect(uint64_t answer, unsigned word, uint32_t value) {
    if (MALTHOBRE_NUMBER(answer) != MALTHOBRE_DONE || MALTHOBRE_WORD(answer) != word || MALTHOBRE_VALUE(answer) != value) {
        printf("WRONG: number %u, answer %u, value %u\n", MALTHOBRE_NUMBER(answer), MALTHOBRE_WORD(answer), MALTHOBRE_VALUE(answer));
        exit(1);
    }
}

static void put_out(uint64_t answer) {
    if (MALTHOBRE_WORD(answer) == MALTHOBRE_BLOCK) {
        memcpy(archive + stored, block, sizeof block);
        stored += sizeof block;
    } else {
        expect(answer, MALTHOBRE_NO_BLOCK, 0);
    }
}

static void keep(const malthobre_record record) {
    if (record[1] != 0) put_out(malthobre_writer_add(&writer, block, sizeof block, record));
}

static uint64_t step(size_t core) {
    malthobre_record record;
    uint64_t answer = malthobre_step(&machine, memory, BYTES, owners, ENTRIES, holders, ENTRIES, core, record);
    if (MALTHOBRE_NUMBER(answer) == MALTHOBRE_DONE) keep(record); /* a refused step leaves `record` as it was */
    return answer;
}

static void run(const Operation *o) {
    malthobre_record record;
    if (o->what == POKE) {
        expect(malthobre_poke(&machine, memory, BYTES, o->address, o->value, record), MALTHOBRE_POKED, 0);
        keep(record);
        printf("P%d: poke %u %u: poked\n", o->run, o->address, o->value);
        return;
    }
    expect(malthobre_give(&machine, o->core, o->what, o->address, o->value), MALTHOBRE_TAKEN, 0);
    printf("P%d: %d %s %u", o->run, o->core, NAMES[o->what], o->address);
    if (o->what == STORE || o->what == SC) printf(" %u", o->value);
    printf(":");
    for (int i = 1; o->what != LOAD && i < 4; i++) {
        expect(step(o->core), MALTHOBRE_MOVED, 0);
        printf(" moved");
    }
    expect(step(o->core), ANSWERS[o->what], o->answer);
    printf(" %s", NAMES[o->what]);
    if (o->what != STORE) printf(" %u", o->answer);
    printf("\n");
}

static uint32_t four(const uint8_t *b) { return b[0] | b[1] << 8 | b[2] << 16 | (uint32_t)b[3] << 24; }

static void print_record(const malthobre_record r) {
    printf("%u: core %u kind %u address %u value %u\n", four(r + 12), r[0], r[1], four(r + 4), four(r + 8));
}

/* How many records a pass came to and the last of them, and which block was refused, by what number: DONE where none. */
typedef struct { uint32_t records, block; unsigned number; malthobre_record last; } Pass;

/* Goes through the archive once, block by block, as far as the first block that is refused. */
static Pass pass(void (*use)(const malthobre_record)) {
    Pass p = {0, 0, MALTHOBRE_DONE, {0}};
    bool short_before = false;
    for (; p.block < stored / MALTHOBRE_BLOCK_BYTES; p.block++) {
        const uint8_t *here = archive + (size_t)p.block * MALTHOBRE_BLOCK_BYTES;
        size_t place = 0;
        for (; place < MALTHOBRE_BLOCK_RECORDS; place++) {
            malthobre_record record;
            uint64_t answer = malthobre_block_record(here, MALTHOBRE_BLOCK_BYTES, p.block, short_before, place, record);
            p.number = MALTHOBRE_NUMBER(answer);
            if (p.number != MALTHOBRE_DONE) return p;
            if (MALTHOBRE_WORD(answer) == MALTHOBRE_NO_RECORD) break;
            memcpy(p.last, record, sizeof record);
            p.records++;
            if (use) use(record);
        }
        short_before = place < MALTHOBRE_BLOCK_RECORDS;
    }
    return p;
}

/* The pass says of an archive what the calls of a whole archive do. */
static void read_back(void) {
    printf("archive: %u bytes, %u records\n", (unsigned)stored, pass(NULL).records);
    Pass good = pass(print_record);
    expect(malthobre_archive_check(archive, stored), MALTHOBRE_HOLDS, 38);
    expect(malthobre_archive_decided_by(archive, stored), MALTHOBRE_NONE_DECIDED, 0);
    malthobre_record last;
    expect(malthobre_archive_record(archive, stored, 37, last), MALTHOBRE_RECORD, 0);
    if (good.number != MALTHOBRE_DONE || good.records != 38 || memcmp(good.last, last, sizeof last) != 0) exit(1);

    archive[600] ^= 1;
    Pass bad = pass(NULL);
    expect(malthobre_archive_decided_by(archive, stored), MALTHOBRE_DECIDED, bad.block);
    if (malthobre_archive_check(archive, stored) != bad.number || bad.records != 31) exit(1);
    if (bad.number != MALTHOBRE_REFUSAL_BLOCK_CHECK) exit(1);
    printf("a bit of block 1 turned: refused %u, by block %u\n", bad.number, bad.block);
}

int main(void) {
    expect(malthobre_writer_new(&writer), MALTHOBRE_NO_BLOCK, 0);
    int of = 0;
    for (size_t i = 0; i < sizeof RUNS / sizeof *RUNS; i++) {
        if (RUNS[i].run != of) {
            of = RUNS[i].run;
            expect(malthobre_start(&machine, CORES, memory, BYTES, owners, ENTRIES, holders, ENTRIES), MALTHOBRE_READY, 0);
        }
        run(&RUNS[i]);
    }
    put_out(malthobre_writer_close(&writer, block, sizeof block));
    read_back();
    return 0;
}
