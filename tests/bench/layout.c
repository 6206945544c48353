/* Holds bench/malthobre.h to the library: the structs' sizes and offsets are found by having the library
 * write each field, and looking for what it wrote among raw bytes. */
#include "../../bench/malthobre.h"
#include <stdio.h>
#include <stdlib.h>
#include <string.h>

static _Alignas(8) uint8_t raw[1024];
static uint8_t memory[64], owners[4], holders[4], block[512];
static malthobre_record record;

/* A field of the header's, at an offset of `raw`: is that what the library wrote there? */
static void holds(const char *field, size_t offset, size_t size, uint64_t value) {
    uint64_t found = 0;
    for (size_t i = 0; i < size; i++) found |= (uint64_t)raw[offset + i] << (8 * i);
    printf("%s: at %zu, %zu bytes: %llu\n", field, offset, size, (unsigned long long)found);
    if (found != value) {
        printf("WRONG: %llu is expected there\n", (unsigned long long)value);
        exit(1);
    }
}

#define IN(type, field, value) holds(#type "." #field, offsetof(type, field), sizeof ((type *)0)->field, value)
#define CORE(core, field, value) holds("core." #field, offsetof(malthobre_machine, cores) + (core) * sizeof(malthobre_core) + offsetof(malthobre_core, field), sizeof ((malthobre_core *)0)->field, value)

/* The bytes of a struct are those that the library has written over 170, but for padding at its end. */
static void size(const char *type, size_t declared, size_t aligned) {
    size_t last = sizeof raw;
    while (last > 0 && raw[last - 1] == 170) last--;
    size_t found = (last + aligned - 1) / aligned * aligned;
    printf("%s: %zu bytes\n", type, found);
    if (found != declared) {
        printf("WRONG: the header has %zu\n", declared);
        exit(1);
    }
}

static uint64_t step(size_t core) {
    return malthobre_step((malthobre_machine *)raw, memory, 64, owners, 4, holders, 4, core, record);
}

static void machine(void) {
    malthobre_machine *m = (malthobre_machine *)raw;
    memset(raw, 170, sizeof raw);
    malthobre_start(m, 8, memory, 64, owners, 4, holders, 4);
    size("malthobre_machine", sizeof(malthobre_machine), _Alignof(malthobre_machine));
    IN(malthobre_machine, count, 8);
    IN(malthobre_machine, bytes, 64);
    IN(malthobre_machine, entries, 4);
    malthobre_poke(m, memory, 64, 12, 0x01020304, record);
    malthobre_give(m, 5, 2, 12, 0);
    for (int i = 0; i < 3; i++) step(5);
    CORE(5, busy, 1);
    CORE(5, operation, 2);
    CORE(5, next, 4);
    CORE(5, linked, 1);
    CORE(5, address, 12);
    CORE(5, read, 0x01020304);
    CORE(5, link, 12);
    step(5);
    malthobre_give(m, 5, 4, 12, 0x05060708);
    step(5);
    step(5);
    CORE(5, operation, 4);
    CORE(5, next, 3);
    CORE(5, passed, 1);
    CORE(5, value, 0x05060708);
    malthobre_give(m, 7, 3, 60, 9);
    CORE(7, busy, 1);
    CORE(7, address, 60);
    CORE(0, busy, 0);
}

static void writer(void) {
    malthobre_writer *w = (malthobre_writer *)raw;
    const malthobre_record made = {3, 1, 0, 0, 8, 0, 0, 0, 11, 12, 13, 14};
    memset(raw, 170, sizeof raw);
    malthobre_writer_new(w);
    size("malthobre_writer", sizeof(malthobre_writer), _Alignof(malthobre_writer));
    for (int i = 0; i < 32; i++) malthobre_writer_add(w, block, 512, made);
    IN(malthobre_writer, count, 1);
    IN(malthobre_writer, blocks, 1);
    IN(malthobre_writer, closed, 0);
    holds("malthobre_writer.pending's first value", offsetof(malthobre_writer, pending) + 12 + 8, 4, 0x0e0d0c0b);
    malthobre_writer_close(w, block, 512);
    IN(malthobre_writer, closed, 1);
    IN(malthobre_writer, blocks, 2);
}

int main(void) {
    machine();
    writer();
    return 0;
}
