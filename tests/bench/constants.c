/* Each constant of bench/malthobre.h beside its number, written out from docs/RULES.md: section 3 (sizes), 4.30
 * (operations), 6.1 (numbers), 7 (archive) and 13.5 (which answer it is). The numbers are compared when it is compiled;
 * it prints the constants' names, and tests/bench/run sees that the header has no other. */
#include "../../bench/malthobre.h"
#include <stdio.h>

#define IS(name, number) \
    _Static_assert(MALTHOBRE_##name == (number), "MALTHOBRE_" #name " is not " #number); \
    puts("MALTHOBRE_" #name)

int main(void) {
    /* 3.1, 3.2, 3.4 */
    IS(MOST_CORES, 8);
    IS(MOST_BYTES, 65536);
    IS(MOST_ENTRIES, 4096);
    /* 7.2 to 7.4, 7.8 */
    IS(RECORD_BYTES, 16);
    IS(BLOCK_BYTES, 512);
    IS(BLOCK_RECORDS, 31);
    IS(MOST_BLOCKS, 1048576);
    IS(CORE_OF_POKE, 255);
    /* 4.30 */
    IS(OPERATION_LOAD, 1);
    IS(OPERATION_LL, 2);
    IS(OPERATION_STORE, 3);
    IS(OPERATION_SC, 4);
    /* 7.5 */
    IS(KIND_LOAD, 1);
    IS(KIND_LL, 2);
    IS(KIND_STORE, 3);
    IS(KIND_SC_SUCCESS, 4);
    IS(KIND_SC_FAILURE, 5);
    IS(KIND_POKE, 6);
    /* 6.1 */
    IS(DONE, 0);
    IS(REFUSAL_NO_SUCH_CORE, 1);
    IS(REFUSAL_UNALIGNED, 2);
    IS(REFUSAL_OUTSIDE, 3);
    IS(REFUSAL_LENT_LENGTHS, 4);
    IS(REFUSAL_OUT_OF_RANGE, 5);
    IS(REFUSAL_DAMAGED, 6);
    IS(REFUSAL_BUSY, 7);
    IS(REFUSAL_IDLE, 8);
    IS(REFUSAL_NOT_UNDERSTOOD, 9);
    IS(REFUSAL_NO_MACHINE, 10);
    IS(REFUSAL_BLOCK_MARK, 11);
    IS(REFUSAL_BLOCK_CHECK, 12);
    IS(REFUSAL_BLOCK_NUMBER, 13);
    IS(REFUSAL_RECORD_COUNT, 14);
    IS(REFUSAL_RECORD_FIELD, 15);
    IS(REFUSAL_BLOCK_LENGTH, 16);
    IS(REFUSAL_FULL, 17);
    IS(REFUSAL_CLOSED, 18);
    /* 13.5 */
    IS(REFUSED, 0);
    IS(READY, 1);
    IS(TAKEN, 2);
    IS(MOVED, 3);
    IS(WAITS, 4);
    IS(LOAD, 5);
    IS(LL, 6);
    IS(STORE, 7);
    IS(SC, 8);
    IS(POKED, 9);
    IS(SHOWN, 10);
    IS(NO_BLOCK, 11);
    IS(BLOCK, 12);
    IS(GOOD, 13);
    IS(NO_RECORD, 14);
    IS(RECORD, 15);
    IS(HOLDS, 16);
    IS(NONE_DECIDED, 17);
    IS(DECIDED, 18);
    return 0;
}
