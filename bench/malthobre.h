/* Malthobre for a bench in C, C++ or Rust: link target/staticlib/libbench.a (x86-64 Linux), which bench/build makes.
 *
 * The library keeps no state and allocates nothing. The bench keeps one machine and one writer, each
 * a plain struct, and lends memory and both tables to each call. Every call takes any values and
 * refuses by the number that the rules give (docs/RULES.md, 6 and 13). One refusal is the library's own:
 * 9 of malthobre_give, for an operation's number that is none. A refusal is its number and no value, and
 * leaves all that the call was lent as it was found: the machine, the writer, the buffers, and the 16
 * bytes for a record. So look at the answer's number before you look at a record.
 *
 * What the library cannot test, and what a call therefore relies on:
 *   - a pointer is not null and points to as many bytes as the length beside it says (to a whole
 *     struct, to 16 bytes), also where the length is 0; a length is at most SIZE_MAX / 2;
 *   - what is lent to be written overlaps nothing else that is lent to the same call;
 *   - a bool, also one in a struct, is 0 or 1;
 *   - a struct is initialised before its first use (all zero bytes will do);
 *   - no other thread touches what is lent before the call returns.
 */
#ifndef MALTHOBRE_H
#define MALTHOBRE_H

#include <stdbool.h>
#include <stddef.h>
#include <stdint.h>

#ifdef __cplusplus
extern "C" {
#endif

/* ---- Sizes and numbers (docs/RULES.md, 3, 4.30 and 7) ---- */

enum {
    MALTHOBRE_MOST_CORES = 8,        /* the most cores; the first is 0 */
    MALTHOBRE_MOST_BYTES = 65536,    /* the most bytes of memory; the least are 4 */
    MALTHOBRE_MOST_ENTRIES = 4096,   /* the most entries of each table; the least is 1 */
    MALTHOBRE_RECORD_BYTES = 16,     /* a record */
    MALTHOBRE_BLOCK_BYTES = 512,     /* a block of an archive */
    MALTHOBRE_BLOCK_RECORDS = 31,    /* the records of a block; the last one may have fewer */
    MALTHOBRE_MOST_BLOCKS = 1048576, /* the most blocks of an archive */
    MALTHOBRE_CORE_OF_POKE = 255     /* in a poke's record, in the core's place */
};

/* The operations, as malthobre_give takes them. */
enum {
    MALTHOBRE_OPERATION_LOAD = 1,
    MALTHOBRE_OPERATION_LL = 2,    /* load-link */
    MALTHOBRE_OPERATION_STORE = 3,
    MALTHOBRE_OPERATION_SC = 4     /* store-conditional */
};

/* The kinds of a record: its byte 1. */
enum {
    MALTHOBRE_KIND_LOAD = 1,
    MALTHOBRE_KIND_LL = 2,
    MALTHOBRE_KIND_STORE = 3,
    MALTHOBRE_KIND_SC_SUCCESS = 4,
    MALTHOBRE_KIND_SC_FAILURE = 5, /* its value was not written */
    MALTHOBRE_KIND_POKE = 6        /* a write by the bench */
};

/* ---- The structs, as laid out: offset and size in bytes ---- */

/* Fields that the core's present state does not use are 0, or the machine is refused 5. */
typedef struct malthobre_core {
    bool busy;         /*  0, 1 */
    uint8_t operation; /*  1, 1: MALTHOBRE_OPERATION_.. */
    uint8_t next;      /*  2, 1: the operation's next step, 1 to 4 */
    bool passed;       /*  3, 1: what a store-conditional's step 2 judged */
    bool linked;       /*  4, 1; 5 to 7 are padding, and of no meaning */
    uint32_t address;  /*  8, 4: the operation's */
    uint32_t value;    /* 12, 4: what a store or a store-conditional is to write */
    uint32_t read;     /* 16, 4: what a load-link read */
    uint32_t link;     /* 20, 4: the link's address */
} malthobre_core;      /* 24, aligned to 4 */

typedef struct malthobre_machine {
    malthobre_core cores[8]; /*   0, 192 */
    size_t count;            /* 192, 8: how many cores there are, 1 to 8 */
    size_t bytes;            /* 200, 8: memory's length, 4 to 65,536, a multiple of 4 */
    size_t entries;          /* 208, 8: each table's length, a power of two from 1 to 4,096 */
} malthobre_machine;         /* 216, aligned to 8 */

typedef struct malthobre_writer {
    uint8_t pending[512]; /*   0, 512: a block; record i of those pending stands at 12 + 16 * i */
    uint32_t count;       /* 512, 4: how many records are pending, 0 to 30 */
    uint32_t blocks;      /* 516, 4: how many blocks were put out */
    bool closed;          /* 520, 1; 521 to 523 are padding, and of no meaning */
} malthobre_writer;       /* 524, aligned to 4 */

/* ---- An answer: one 64-bit number ----
 *
 * Bits 0 to 7 are the rules' number, 0 to 18 (docs/RULES.md, 6.1); bits 8 to 15 say which
 * answer it is, 0 for a refusal; bits 16 to 31 are 0; bits 32 to 63 are the value, 0 where an answer has
 * none. So an answer below 256 and not 0 is a refusal, and its number is the answer.
 */
#define MALTHOBRE_NUMBER(answer) ((unsigned)((answer)&0xff))
#define MALTHOBRE_WORD(answer) ((unsigned)((answer) >> 8 & 0xff))
#define MALTHOBRE_VALUE(answer) ((uint32_t)((answer) >> 32))

/* The number: DONE, or that of the refusal. */
enum {
    MALTHOBRE_DONE = 0,                   /* done, moved, or waits */
    MALTHOBRE_REFUSAL_NO_SUCH_CORE = 1,   /* there is no such core; start: the core count is none of 1 to 8 */
    MALTHOBRE_REFUSAL_UNALIGNED = 2,      /* the address is no multiple of 4 */
    MALTHOBRE_REFUSAL_OUTSIDE = 3,        /* the address is at or above memory's size */
    MALTHOBRE_REFUSAL_LENT_LENGTHS = 4,   /* a lent length is not the machine's; start: it is not allowed */
    MALTHOBRE_REFUSAL_OUT_OF_RANGE = 5,   /* machine or writer are out of their ranges: no call made them so */
    MALTHOBRE_REFUSAL_DAMAGED = 6,        /* step: the tables are damaged at the entry in use: no call made them so */
    MALTHOBRE_REFUSAL_BUSY = 7,           /* give: step the core until it answers */
    MALTHOBRE_REFUSAL_IDLE = 8,           /* step: give the core an operation */
    MALTHOBRE_REFUSAL_NOT_UNDERSTOOD = 9, /* give: the operation is none of the four; also of a script's line */
    MALTHOBRE_REFUSAL_NO_MACHINE = 10,    /* of a script's line alone: no call answers it */
    MALTHOBRE_REFUSAL_BLOCK_MARK = 11,    /* the block does not have the mark: it is none of an archive */
    MALTHOBRE_REFUSAL_BLOCK_CHECK = 12,   /* the block's check is wrong: a byte of it has changed */
    MALTHOBRE_REFUSAL_BLOCK_NUMBER = 13,  /* the block is another than the one expected */
    MALTHOBRE_REFUSAL_RECORD_COUNT = 14,  /* the block's count of records is wrong, or it comes after a short one */
    MALTHOBRE_REFUSAL_RECORD_FIELD = 15,  /* a record has a wrong field, or an unused byte is not 0 */
    MALTHOBRE_REFUSAL_BLOCK_LENGTH = 16,  /* the block does not have 512 bytes, or the archive no multiple of them */
    MALTHOBRE_REFUSAL_FULL = 17,          /* add: the archive has all the blocks that it can have */
    MALTHOBRE_REFUSAL_CLOSED = 18         /* add, close: the archive is closed */
};

/* The word: which answer it is. */
enum {
    MALTHOBRE_REFUSED = 0, /* the number is not 0, and the value is 0 */
    MALTHOBRE_READY = 1,   /* start */
    MALTHOBRE_TAKEN = 2,   /* give */
    MALTHOBRE_MOVED = 3,   /* step, the operation is unfinished */
    MALTHOBRE_WAITS = 4,   /* step, nothing changed */
    MALTHOBRE_LOAD = 5,    /* step, a load is done; the value is the word read */
    MALTHOBRE_LL = 6,      /* step, a load-link is done; the value is the word read */
    MALTHOBRE_STORE = 7,   /* step, a store is done */
    MALTHOBRE_SC = 8,      /* step, a store-conditional is done; the value is 0 success, 1 failure */
    MALTHOBRE_POKED = 9,   /* poke */
    MALTHOBRE_SHOWN = 10,  /* show; the value is the word */
    MALTHOBRE_NO_BLOCK = 11, /* add, close: no block was put out */
    MALTHOBRE_BLOCK = 12,    /* add, close: the lent block was put out */
    MALTHOBRE_GOOD = 13,     /* block check: the block is the one expected */
    MALTHOBRE_NO_RECORD = 14, /* record of a block or an archive: there is none there */
    MALTHOBRE_RECORD = 15,    /* record of a block or an archive: it is handed out */
    MALTHOBRE_HOLDS = 16,     /* whole archive: it is good; the value is how many records it holds */
    MALTHOBRE_NONE_DECIDED = 17, /* decided by: no block decided that the archive is refused */
    MALTHOBRE_DECIDED = 18       /* decided by: a block did; the value is its index */
};

/* ---- A record: 16 bytes, as in an archive block, little-endian ----
 *
 * 0 the core, 0..7, and 255 of a poke; 1 the kind: 1 a load, 2 an ll, 3 a store, 4 an sc that succeeded,
 * 5 an sc that failed, 6 a poke; 2..3 zero; 4..7 the address; 8..11 the value; 12..15 the record's number,
 * 0 in a record that no writer has yet numbered (docs/RULES.md, 7.4). Kind 0, and 16 zero bytes, is no
 * record.
 */
typedef uint8_t malthobre_record[16];

/* ---- The machine ---- */

/* A fresh machine with `count` cores, of the lent buffers' sizes; they are filled with 0.
 * Refused, in this order: 4, 1; the machine is then as it was. Else READY. */
uint64_t malthobre_start(malthobre_machine *machine, size_t count, uint8_t *memory, size_t memory_length,
                         uint8_t *owners, size_t owners_length, uint8_t *holders, size_t holders_length);

/* An operation (MALTHOBRE_OPERATION_..) for an idle core; a load and a load-link look at no value.
 * Refused, in this order: 9 for an operation that is none of the four, which is the library's own
 * refusal; 5, 1, 7, 2, 3. Else TAKEN. */
uint64_t malthobre_give(malthobre_machine *machine, size_t core, uint8_t operation, uint32_t address,
                        uint32_t value);

/* One micro-step of one core, on the machine where it stands. `record` becomes the record that the
 * step hands out, and 16 zero bytes where it hands out none; a refused step leaves it as it was.
 * Refused, in this order: 5, 4, 1, 8, 6. Else MOVED, WAITS, LOAD, LL, STORE or SC. */
uint64_t malthobre_step(malthobre_machine *machine, uint8_t *memory, size_t memory_length, uint8_t *owners,
                        size_t owners_length, uint8_t *holders, size_t holders_length, size_t core,
                        malthobre_record record);

/* A write of one word by the bench, at once. `record` becomes the record that it makes; a refused poke
 * leaves it as it was. Refused, in this order: 5, 4, 2, 3. Else POKED. */
uint64_t malthobre_poke(malthobre_machine *machine, uint8_t *memory, size_t memory_length, uint32_t address,
                        uint32_t value, malthobre_record record);

/* The word at an address. Refused, in this order: 5, 4, 2, 3. Else SHOWN. */
uint64_t malthobre_show(malthobre_machine *machine, const uint8_t *memory, size_t memory_length,
                        uint32_t address);

/* ---- The archive's writer ---- */

/* A writer at the beginning of a run. Answers NO_BLOCK. */
uint64_t malthobre_writer_new(malthobre_writer *writer);

/* Takes a record: its bytes 0, 1 and 4..11; the writer numbers it, and looks at no other byte of it.
 * With the 31st pending one the lent block becomes the next block of the archive.
 * Refused, in this order: 5, 18, 16, 15, 17. Else NO_BLOCK or BLOCK. */
uint64_t malthobre_writer_add(malthobre_writer *writer, uint8_t *block, size_t block_length,
                              const malthobre_record record);

/* Ends the run; pending records go out in the lent block.
 * Refused, in this order: 5, 18, 16. Else NO_BLOCK or BLOCK. */
uint64_t malthobre_writer_close(malthobre_writer *writer, uint8_t *block, size_t block_length);

/* ---- The archive's reader ----
 *
 * The two calls of a block read that block. The three of a whole archive each read all of it, once, however little
 * they answer: asked for one record after the other, malthobre_archive_record reads the archive once for each.
 * To go through an archive in a single pass, go block by block, and stop at the first refusal:
 *
 *     bool short_before = false;
 *     for (uint32_t b = 0; b < length / MALTHOBRE_BLOCK_BYTES; b++) {
 *         const uint8_t *block = archive + (size_t)b * MALTHOBRE_BLOCK_BYTES;
 *         size_t place = 0;
 *         for (; place < MALTHOBRE_BLOCK_RECORDS; place++) {
 *             uint64_t answer = malthobre_block_record(block, MALTHOBRE_BLOCK_BYTES, b, short_before, place, record);
 *             if (MALTHOBRE_NUMBER(answer) != MALTHOBRE_DONE) return refused(b, MALTHOBRE_NUMBER(answer));
 *             if (MALTHOBRE_WORD(answer) == MALTHOBRE_NO_RECORD) break;
 *             use(record);
 *         }
 *         short_before = place < MALTHOBRE_BLOCK_RECORDS;
 *     }
 *
 * That hands out what malthobre_archive_record does, and refuses at the block and by the number of
 * malthobre_archive_decided_by and malthobre_archive_check, where length is a multiple of MALTHOBRE_BLOCK_BYTES; where
 * it is not, the archive is refused 16 before any record. No more of the archive than the block has to be in
 * memory. (bench/example/bench.c does so.)
 */

/* Whether a block is the one expected here; `after_short`: whether the block before was short, with fewer
 * than 31 records. Refused, in this order: 16, 12, 11, 13, 14, 15. Else GOOD. Reads the block. */
uint64_t malthobre_block_check(const uint8_t *block, size_t block_length, uint32_t expected, bool after_short);

/* The record at a place of a block, which is checked as above, with the same refusals; `record` is then
 * as it was. Else RECORD, and `record` is its 16 bytes; past the last one NO_RECORD, and 16 zero bytes.
 * Reads the block. */
uint64_t malthobre_block_record(const uint8_t *block, size_t block_length, uint32_t expected, bool after_short,
                                size_t place, malthobre_record record);

/* A whole archive. Refused 16, if its length is no multiple of 512; else the first refused block decides,
 * by its number. Else HOLDS. Linear: reads the archive, up to that block. */
uint64_t malthobre_archive_check(const uint8_t *archive, size_t archive_length);

/* Which block decided that the archive is refused, as above: DECIDED, with its index (at most 1,048,576).
 * NONE_DECIDED where the archive is accepted, and where its length is refused. Never refused.
 * Linear: reads the archive, up to that block. */
uint64_t malthobre_archive_decided_by(const uint8_t *archive, size_t archive_length);

/* The record of a number, in an archive that is checked whole as above, with the same refusals; `record`
 * is then as it was. Else RECORD, and `record` is its 16 bytes; NO_RECORD, and 16 zero bytes.
 * Linear: reads the whole archive, for a single record too. */
uint64_t malthobre_archive_record(const uint8_t *archive, size_t archive_length, uint32_t number,
                                  malthobre_record record);

#ifdef __cplusplus
}
#endif

#endif
