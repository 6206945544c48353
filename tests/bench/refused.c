/* Each refusal of each call of the library: its number stands alone in the answer, and all that the call was lent is
 * as it was found, the machine and the 16 bytes for a record too (docs/RULES.md, 13.6 and 13.10). */
#include "../../bench/malthobre.h"
#include <stdio.h>
#include <stdlib.h>
#include <string.h>

enum { BYTES = 64, ENTRIES = 4, BLOCK = 512 };

/* All that is lent. What a call must leave is not 0. */
static struct lent {
    malthobre_machine machine;
    malthobre_writer writer;
    uint8_t memory[BYTES], owners[ENTRIES], holders[ENTRIES], block[BLOCK], archive[2 * BLOCK];
    malthobre_record record;
} now, found, fresh;

/* Padding has no value: a call may write it. */
static void without_padding(struct lent *l) {
    for (int i = 0; i < 8; i++) memset((uint8_t *)&l->machine.cores[i] + 5, 0, 3);
    memset((uint8_t *)&l->writer + 521, 0, 3);
}

static void wrong(const char *call, unsigned number, const char *what) {
    printf("WRONG: %s, refused %u: %s\n", call, number, what);
    exit(1);
}

static void refused(const char *call, unsigned number, uint64_t answer) {
    without_padding(&now);
    without_padding(&found);
    if (answer != number) wrong(call, number, "another answer, or one with a value");
    if (memcmp(&now, &found, sizeof now) != 0) wrong(call, number, "something is not as it was found");
    printf("%s: refused %u, all as found\n", call, number);
}

/* A call that is refused after a change of what is lent to it. */
#define REFUSED(number, change, call, ...) \
    do { \
        now = fresh; \
        change; \
        found = now; \
        refused(#call, number, malthobre_##call(__VA_ARGS__)); \
    } while (0)
#define AS_IT_IS (void)0

static void must(uint64_t answer) {
    if (MALTHOBRE_NUMBER(answer) != 0) wrong("what goes before", MALTHOBRE_NUMBER(answer), "it is not to be refused");
}

/* Puts the check of a block's bytes 0..507 into its last four. */
static void seal(uint8_t *block) {
    unsigned first = 0, second = 0;
    for (int i = 0; i < 508; i += 2) {
        first = (first + block[i] + 256u * block[i + 1]) % 65535;
        second = (second + first) % 65535;
    }
    block[508] = first & 255, block[509] = first >> 8;
    block[510] = second & 255, block[511] = second >> 8;
}

/* A machine with a core inside its lock, its marks, a record, a writer with it pending, its block, and twice that block. */
static void begin(void) {
    struct lent *l = &fresh;
    memset(&l->machine, 0, sizeof l->machine);
    must(malthobre_start(&l->machine, 2, l->memory, BYTES, l->owners, ENTRIES, l->holders, ENTRIES));
    must(malthobre_give(&l->machine, 1, 2, 8, 0));
    for (int i = 0; i < 2; i++) must(malthobre_step(&l->machine, l->memory, BYTES, l->owners, ENTRIES, l->holders, ENTRIES, 1, l->record));
    must(malthobre_poke(&l->machine, l->memory, BYTES, 12, 0x01020304, l->record));
    must(malthobre_writer_new(&l->writer));
    must(malthobre_writer_add(&l->writer, l->block, BLOCK, l->record));
    malthobre_writer out = l->writer;
    must(malthobre_writer_close(&out, l->block, BLOCK));
    memcpy(l->archive, l->block, BLOCK);
    memcpy(l->archive + BLOCK, l->block, BLOCK);
}

static void machine(void) {
    malthobre_machine *m = &now.machine;
    uint8_t *memory = now.memory, *owners = now.owners, *holders = now.holders;
    REFUSED(4, AS_IT_IS, start, m, 2, memory, 63, owners, ENTRIES, holders, ENTRIES);
    REFUSED(1, AS_IT_IS, start, m, 9, memory, BYTES, owners, ENTRIES, holders, ENTRIES);
    REFUSED(9, AS_IT_IS, give, m, 0, 5, 8, 0);
    REFUSED(5, m->count = 9, give, m, 0, 1, 8, 0);
    REFUSED(1, AS_IT_IS, give, m, 2, 1, 8, 0);
    REFUSED(7, AS_IT_IS, give, m, 1, 1, 8, 0);
    REFUSED(2, AS_IT_IS, give, m, 0, 1, 9, 0);
    REFUSED(3, AS_IT_IS, give, m, 0, 1, 64, 0);
    REFUSED(5, m->count = 9, step, m, memory, BYTES, owners, ENTRIES, holders, ENTRIES, 1, now.record);
    REFUSED(4, AS_IT_IS, step, m, memory, 60, owners, ENTRIES, holders, ENTRIES, 1, now.record);
    REFUSED(1, AS_IT_IS, step, m, memory, BYTES, owners, ENTRIES, holders, ENTRIES, 2, now.record);
    REFUSED(8, AS_IT_IS, step, m, memory, BYTES, owners, ENTRIES, holders, ENTRIES, 0, now.record);
    REFUSED(6, owners[2] = 3, step, m, memory, BYTES, owners, ENTRIES, holders, ENTRIES, 1, now.record);
    REFUSED(5, m->count = 9, poke, m, memory, BYTES, 8, 7, now.record);
    REFUSED(4, AS_IT_IS, poke, m, memory, 60, 8, 7, now.record);
    REFUSED(2, AS_IT_IS, poke, m, memory, BYTES, 9, 7, now.record);
    REFUSED(3, AS_IT_IS, poke, m, memory, BYTES, 64, 7, now.record);
    REFUSED(5, m->count = 9, show, m, memory, BYTES, 8);
    REFUSED(4, AS_IT_IS, show, m, memory, 60, 8);
    REFUSED(2, AS_IT_IS, show, m, memory, BYTES, 9);
    REFUSED(3, AS_IT_IS, show, m, memory, BYTES, 64);
}

static void writer(void) {
    malthobre_writer *w = &now.writer;
    REFUSED(5, w->count = 31, writer_add, w, now.block, BLOCK, now.record);
    REFUSED(18, w->closed = true, writer_add, w, now.block, BLOCK, now.record);
    REFUSED(16, AS_IT_IS, writer_add, w, now.block, 511, now.record);
    REFUSED(15, now.record[1] = 7, writer_add, w, now.block, BLOCK, now.record);
    REFUSED(17, (memset(w, 0, sizeof *w), w->blocks = 1048576), writer_add, w, now.block, BLOCK, now.record);
    REFUSED(5, w->count = 31, writer_close, w, now.block, BLOCK);
    REFUSED(18, w->closed = true, writer_close, w, now.block, BLOCK);
    REFUSED(16, AS_IT_IS, writer_close, w, now.block, 511);
}

static void reader(void) {
    uint8_t *b = now.block;
    REFUSED(16, AS_IT_IS, block_check, b, 511, 0, false);
    REFUSED(12, b[20] ^= 1, block_check, b, BLOCK, 0, false);
    REFUSED(16, AS_IT_IS, block_record, b, 511, 0, false, 0, now.record);
    REFUSED(12, b[20] ^= 1, block_record, b, BLOCK, 0, false, 0, now.record);
    REFUSED(11, (b[0] = 0, seal(b)), block_record, b, BLOCK, 0, false, 0, now.record);
    REFUSED(13, AS_IT_IS, block_record, b, BLOCK, 1, false, 0, now.record);
    REFUSED(14, AS_IT_IS, block_record, b, BLOCK, 0, true, 0, now.record);
    REFUSED(15, (b[13] = 7, seal(b)), block_record, b, BLOCK, 0, false, 0, now.record);
    REFUSED(16, AS_IT_IS, archive_check, now.archive, BLOCK + 1);
    REFUSED(13, AS_IT_IS, archive_check, now.archive, 2 * BLOCK);
    REFUSED(16, AS_IT_IS, archive_record, now.archive, BLOCK + 1, 0, now.record);
    REFUSED(13, AS_IT_IS, archive_record, now.archive, 2 * BLOCK, 0, now.record);
}

/* Which block decided is answered, and never refused (7.40a); and a record that there is none of is 16 zero bytes. */
static void answered(const char *what, uint64_t answer, unsigned word, uint32_t value) {
    if (MALTHOBRE_NUMBER(answer) != 0 || MALTHOBRE_WORD(answer) != word || MALTHOBRE_VALUE(answer) != value)
        wrong(what, MALTHOBRE_NUMBER(answer), "another answer");
    printf("%s\n", what);
}

static void decided(void) {
    const malthobre_record none = {0};
    now = fresh;
    answered("an archive that is accepted: no block decided", malthobre_archive_decided_by(now.archive, BLOCK), MALTHOBRE_NONE_DECIDED, 0);
    answered("one whose length is refused: no block decided", malthobre_archive_decided_by(now.archive, BLOCK + 1), MALTHOBRE_NONE_DECIDED, 0);
    answered("one whose second block is refused: block 1 decided", malthobre_archive_decided_by(now.archive, 2 * BLOCK), MALTHOBRE_DECIDED, 1);
    answered("past the last record: none", malthobre_archive_record(now.archive, BLOCK, 1, now.record), MALTHOBRE_NO_RECORD, 0);
    if (memcmp(now.record, none, 16) != 0) wrong("past the last record", 0, "no 16 zero bytes");
}

int main(void) {
    begin();
    machine();
    writer();
    reader();
    decided();
    return 0;
}
