/* The single pass that bench/malthobre.h shows, taken from there by tests/bench/run, against the calls of a whole
 * archive: on a good archive, on one with each of its bytes raised, and on blocks that are missing, doubled or swapped. */
#include "malthobre.h"
#include <stdio.h>
#include <stdlib.h>
#include <string.h>

enum { BLOCKS = 4, RECORDS = 98, BYTES = BLOCKS * MALTHOBRE_BLOCK_BYTES };

static uint8_t good[BYTES], longer[BYTES + MALTHOBRE_BLOCK_BYTES], tried[2 * BYTES];
static malthobre_record of_pass[2 * BLOCKS * MALTHOBRE_BLOCK_RECORDS];
static uint32_t used, refused_at;

static unsigned refused(uint32_t b, unsigned number) {
    refused_at = b;
    return number;
}

static void use(const malthobre_record record) { memcpy(of_pass[used++], record, MALTHOBRE_RECORD_BYTES); }

static unsigned pass(const uint8_t *archive, size_t length) {
    malthobre_record record;
#include "pass.inc"
    return MALTHOBRE_DONE;
}

static void must(const char *what, bool holds) {
    if (holds) return;
    printf("WRONG: %s\n", what);
    exit(1);
}

/* What it tries is refused by a number at a block, or is good, with so many records before: the pass and the calls say so. */
static void both(const char *what, size_t length, unsigned number, uint32_t block, uint32_t records) {
    used = refused_at = 0;
    must(what, pass(tried, length) == number && used == records);
    uint64_t whole = malthobre_archive_check(tried, length), by = malthobre_archive_decided_by(tried, length);
    malthobre_record record;
    must(what, MALTHOBRE_NUMBER(whole) == number);
    if (number == MALTHOBRE_DONE) {
        must(what, MALTHOBRE_WORD(whole) == MALTHOBRE_HOLDS && MALTHOBRE_VALUE(whole) == records);
        must(what, MALTHOBRE_WORD(by) == MALTHOBRE_NONE_DECIDED);
        for (uint32_t n = 0; n < records; n++) {
            must(what, MALTHOBRE_WORD(malthobre_archive_record(tried, length, n, record)) == MALTHOBRE_RECORD);
            must(what, memcmp(record, of_pass[n], sizeof record) == 0);
        }
    } else {
        must(what, refused_at == block && MALTHOBRE_WORD(by) == MALTHOBRE_DECIDED && MALTHOBRE_VALUE(by) == block);
    }
}

/* An archive of so many pokes. */
static void make(uint8_t *at, unsigned records) {
    malthobre_writer writer;
    malthobre_writer_new(&writer);
    for (unsigned i = 0; i < records; i++) {
        const malthobre_record poke = {MALTHOBRE_CORE_OF_POKE, MALTHOBRE_KIND_POKE, 0, 0, 4 * (i % 16), 0, 0, 0, i, 0, 0, 7};
        if (MALTHOBRE_WORD(malthobre_writer_add(&writer, at, MALTHOBRE_BLOCK_BYTES, poke)) == MALTHOBRE_BLOCK) at += MALTHOBRE_BLOCK_BYTES;
    }
    must("the last block", MALTHOBRE_WORD(malthobre_writer_close(&writer, at, MALTHOBRE_BLOCK_BYTES)) == MALTHOBRE_BLOCK);
}

static void put(unsigned place, unsigned block) {
    memcpy(tried + place * MALTHOBRE_BLOCK_BYTES, good + block * MALTHOBRE_BLOCK_BYTES, MALTHOBRE_BLOCK_BYTES);
}

int main(void) {
    /* three blocks of 31 and one of 5; and four of 31 and one of 1 */
    make(good, RECORDS);
    make(longer, 4 * MALTHOBRE_BLOCK_RECORDS + 1);
    both("no block", 0, MALTHOBRE_DONE, 0, 0);
    for (unsigned i = 0; i < BLOCKS; i++) put(i, i);
    both("a good archive", BYTES, MALTHOBRE_DONE, 0, RECORDS);
    both("its first blocks", 2 * MALTHOBRE_BLOCK_BYTES, MALTHOBRE_DONE, 0, 62);
    for (size_t i = 0; i < BYTES; i++) {
        /* 12 comes before all else (RULES 6.13) */
        uint32_t block = i / MALTHOBRE_BLOCK_BYTES;
        tried[i]++;
        both("a byte raised", BYTES, MALTHOBRE_REFUSAL_BLOCK_CHECK, block, 31 * block);
        tried[i]--;
    }
    put(1, 2);
    both("a block doubled", BYTES, MALTHOBRE_REFUSAL_BLOCK_NUMBER, 1, 31);
    put(0, 1);
    both("the first block missing", MALTHOBRE_BLOCK_BYTES, MALTHOBRE_REFUSAL_BLOCK_NUMBER, 0, 0);
    for (unsigned i = 0; i < BLOCKS; i++) put(i, i), put(BLOCKS + i, i);
    both("an archive behind another", 2 * BYTES, MALTHOBRE_REFUSAL_BLOCK_NUMBER, BLOCKS, RECORDS);
    memcpy(tried + BYTES, longer + BYTES, MALTHOBRE_BLOCK_BYTES);
    both("a block after a short one", BYTES + MALTHOBRE_BLOCK_BYTES, MALTHOBRE_REFUSAL_RECORD_COUNT, BLOCKS, RECORDS);
    memset(tried + MALTHOBRE_BLOCK_BYTES, 0, MALTHOBRE_BLOCK_BYTES);
    both("a block of zeros", BYTES, MALTHOBRE_REFUSAL_BLOCK_MARK, 1, 31);
    printf("the header's single pass says what the calls of a whole archive do, of %d archives\n", BYTES + 8);
    return 0;
}
