/* A .dex file and its header record as include/ringlinden.h takes it, and memory to lend: what the programs beside this share. */
#ifndef DEX_H
#define DEX_H

#include "ringlinden.h"

#include <stdio.h>
#include <stdlib.h>

static uint8_t *file;
static size_t file_len;
static uint32_t header[13];

enum { STRINGS = 0, TYPES = 2, METHODS = 8, CLASSES = 10 }; /* places of a table's offset in the header; its size stands after it */

/* four bytes of the file, 0 past its end */
static inline uint32_t word(size_t at)
{
    if (at > file_len || file_len - at < 4)
        return 0;
    return (uint32_t)file[at] | (uint32_t)file[at + 1] << 8 | (uint32_t)file[at + 2] << 16 | (uint32_t)file[at + 3] << 24;
}

static inline void *lend(size_t n, size_t size)
{
    void *room = calloc(n ? n : 1, size);
    if (!room) {
        fprintf(stderr, "no memory\n");
        exit(2);
    }
    return room;
}

static inline uint32_t *words(size_t n)
{
    return (uint32_t *)lend(n, sizeof(uint32_t));
}

static inline void read_header(void)
{
    static const size_t places[13] = { 0x3c, 0x38, 0x44, 0x40, 0x4c, 0x48, 0x54, 0x50, 0x5c, 0x58, 0x64, 0x60, 0x34 };
    size_t i;
    for (i = 0; i < 13; i++)
        header[i] = word(places[i]);
}

static inline void read_file(const char *name)
{
    FILE *f = fopen(name, "rb");
    long n;
    if (!f || fseek(f, 0, SEEK_END) || (n = ftell(f)) < 0 || fseek(f, 0, SEEK_SET)) {
        perror(name);
        exit(2);
    }
    file_len = (size_t)n;
    file = (uint8_t *)lend(file_len, 1);
    if (fread(file, 1, file_len, f) != file_len) {
        perror(name);
        exit(2);
    }
    fclose(f);
    read_header();
}

/* stops where a call is refused */
static inline void need(uint32_t refusal, const char *call)
{
    if (refusal) {
        printf("refusal=%u\n", (unsigned)refusal);
        fprintf(stderr, "%s refuses\n", call);
        exit(1);
    }
}

#endif
