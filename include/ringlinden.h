/*
 * Ringlinden, as C and C++ call it: `tools/staticlib` writes target/staticlib/libringlinden.a, for Linux on x86-64 (from x86-64-v2 on).
 * Nothing else is needed to link but memset.
 *
 *     cc -std=c99 -I include tools/c/lookup.c target/staticlib/libringlinden.a
 *
 * tools/c/lookup.c is a whole program, from a phrase to the methods that use it; tools/check-c compiles and runs it as C and as C++.
 *
 * Each function returns 0, or the number of a refusal (RINGLINDEN_..), the first that applies in the order given with the function. It is
 * proved to be safe, to end, and to answer as its definition says, for all values of all arguments. What C has to see to, since
 * nothing here can:
 *
 *   - a pointer and the length after it, in elements, are memory that is there: aligned, and of at most PTRDIFF_MAX bytes. Where the
 *     length is 0 the pointer may be null. Bytes and words that are only read have to be set;
 *   - the header record and the numbers are there in every call;
 *   - what is written (the lent outputs and the numbers) overlaps nothing else that is passed;
 *   - there is enough stack (below).
 *
 * Of every function:
 *
 *   - the lent outputs may hold anything beforehand. On success they hold the result, and zeros after it up to their length;
 *     on a refusal only zeros;
 *   - the numbers behind `size_t *` are set by every call, on a refusal to 0;
 *   - a file of more than 16,777,216 bytes is refused first (1), where there is a file;
 *   - `header` is 13 words, offset and size of the tables of strings, types, prototypes, fields, methods and classes, and the map's
 *     offset. It is taken as given, and need not be the file's own;
 *   - calls share no state: the library keeps nothing from one call to the next, allocates nothing, and may be called from several
 *     threads at once, each with lent outputs of its own;
 *   - stack that a call takes, in KiB, for files of up to 3,000, 100,000 and 4,000,000 strings (measured on x86-64 by tools/check-c; no
 *     proof speaks of it):
 *
 *         string_search                                                         513    513    513
 *         type_search, method_search, name_filter                              1026   1026   1026
 *         scan for strings, scan for others, find for strings, find for others  517    517    517
 *         string_map                                                              4      5      6
 *         the others                                                              1      1      1
 *
 *     What string_map takes grows with the logarithm of n, the number of strings: its sort calls itself on a part of the keys, at most
 *     2 log2 n + 1 deep. The row holds of the worst orders of the strings that were found too.
 *
 * What suffices: with outputs of these lengths no call is refused 4 (proved: crates/room), and longer ones are as good. n is file_len;
 * strings.size and so on are the header's.
 *
 *     type_groups     str_offsets: strings.size + 1; type_idxs: types.size
 *     method_groups   clz_offsets: types.size + 1; name_offsets: strings.size + 1; clz_mids, name_mids: methods.size
 *     string_map      keys: strings.size
 *     string_search   out: keys_len
 *     type_search     strings: keys_len; out: type_idxs_len
 *     method_search   strings: keys_len; types: type_idxs_len; out: methods.size
 *     name_filter     out: given_len
 *     code_table      starts: 2 * methods.size; slots: n / 16; triples, shares: three words for each code found, up to 2^31 codes
 *     scan            offs, marks: n for strings, (n + 1) / 2 for the other kinds
 *     locate          answers: entries_len; further: starts_len / 2
 *     list_slot       methods: shares_len / 3 + 1
 *
 * How many codes are found is known beforehand only of a file in which no method has code twice, as of every file that demand 3 speaks of
 * (README.md, "What is proved"). For such a file also:
 *
 *     code_table      triples, shares: 3 * methods.size
 *     find            starts: 2 * methods.size; further: methods.size; triples, shares: 3 * methods.size; slots: n / 16;
 *                     offs, marks, answers: n for strings, (n + 1) / 2 for the other kinds
 *     list_slot       methods: methods.size, for the slot of a confirmed entry
 *
 * For example, the methods that use the string with index 7, from a file and its header, with room for METHODS methods:
 *
 *     size_t from, to, hits, n, i;
 *     uint32_t wanted[1] = { 7 };
 *     if (ringlinden_find(file, file_len, header, RINGLINDEN_STRING, wanted, 1, starts, 2 * METHODS, triples, TRIPLES, slots, SLOTS,
 *                         shares, SHARES, offs, HITS, marks, HITS, further, METHODS, answers, HITS, &from, &to, &hits) == 0)
 *         for (i = 0; i < hits; i++)
 *             if (answers[i] != 0 && ringlinden_list_slot(shares, SHARES, answers[i], methods, METHODS, &n) == 0)
 *                 show(offs[i], methods, n);
 */
#ifndef RINGLINDEN_H
#define RINGLINDEN_H

#include <stddef.h>
#include <stdint.h>

#ifdef __cplusplus
extern "C" {
#endif

/* The refusals. */
enum {
    RINGLINDEN_DONE = 0,
    RINGLINDEN_FILE_TOO_LARGE = 1,  /* the file has more than 16,777,216 bytes */
    RINGLINDEN_UNKNOWN_KIND = 2,    /* the kind asked for is none of the four */
    RINGLINDEN_TABLE_OUTSIDE = 3,   /* a table of ids or a class definition passes the file's end */
    RINGLINDEN_LENT_TOO_SHORT = 4,  /* a lent output is shorter than the result needs */
    RINGLINDEN_STRING_OUTSIDE = 5,  /* string data begin outside the file, or have no final zero */
    RINGLINDEN_NUMBER_OUTSIDE = 6,  /* a number runs off the file */
    RINGLINDEN_METHOD_INDEX = 7,    /* a method index passes 32 bits, or one with code is not below the method count or 2^24 */
    RINGLINDEN_CODE_OUTSIDE = 8,    /* a code item is not inside the file, or has no instruction */
    RINGLINDEN_BAD_QUERY = 9,       /* a query is empty, too long or not ASCII */
    RINGLINDEN_LENGTH_OVERFLOW = 10, /* a string's length passes 32 bits */
    RINGLINDEN_NOT_ASCII = 11,      /* a string that a query is held against is not ASCII */
    RINGLINDEN_REGION_OUTSIDE = 12, /* a region is backward or passes the file's end */
    RINGLINDEN_STRING_INDEX = 13,   /* a string index is not below the string count */
    RINGLINDEN_LENT_TABLE = 15,     /* a lent table does not hold what is needed of it */
    RINGLINDEN_NUMBER_TOO_LONG = 16 /* a number has more than five bytes, or does not fit 32 bits */
};

/* The kinds of index that an instruction names. */
enum { RINGLINDEN_STRING = 1, RINGLINDEN_TYPE = 2, RINGLINDEN_FIELD = 3, RINGLINDEN_METHOD = 4 };

/* ---- groups ---- */

/*
 * The type ids, grouped by the string index of their descriptor. str_offsets: strings.size + 1 words, where each group begins and the
 * last ends; type_idxs: *count words, the groups one after another, at most types.size. A type whose string index is not below
 * strings.size is in no group. Refusals: 1, 3, 4.
 */
uint32_t ringlinden_type_groups(const uint8_t *file, size_t file_len, const uint32_t header[13],
                                uint32_t *str_offsets, size_t str_offsets_len, uint32_t *type_idxs, size_t type_idxs_len,
                                size_t *count);

/*
 * The method ids, grouped by class and by name. clz_offsets: types.size + 1 words; clz_mids: *clz_count words, at most methods.size;
 * name_offsets: strings.size + 1 words; name_mids: *name_count words, at most methods.size. Refusals: 1, 3, 4.
 */
uint32_t ringlinden_method_groups(const uint8_t *file, size_t file_len, const uint32_t header[13],
                                  uint32_t *clz_offsets, size_t clz_offsets_len, uint32_t *clz_mids, size_t clz_mids_len,
                                  uint32_t *name_offsets, size_t name_offsets_len, uint32_t *name_mids, size_t name_mids_len,
                                  size_t *clz_count, size_t *name_count);

/*
 * The group of a key: ids[*start .. *start + *count], inside ids. A key outside the offsets, or offsets that don't fit, give 0 and 0.
 * Always returns 0.
 */
uint32_t ringlinden_group(const uint32_t *offsets, size_t offsets_len, const uint32_t *ids, size_t ids_len, uint32_t key,
                          size_t *start, size_t *count);

/* ---- strings ---- */

/*
 * The string map. keys: strings.size words, *count of them, each (data offset * 2^32 + string index), rising; the text area is
 * file[*start .. *end]. No strings succeed, with 0 for all three. Refusals: 1, 3, 4, 5.
 */
uint32_t ringlinden_string_map(const uint8_t *file, size_t file_len, const uint32_t header[13], uint64_t *keys, size_t keys_len,
                               size_t *count, size_t *start, size_t *end);

/*
 * The bytes of the string whose data stand at an offset of the file: file[*start .. *start + *count], after the length bytes and before
 * the zero. Refusals: 1; 6; 10, a fifth length byte above 0x0f; 5.
 */
uint32_t ringlinden_string_bytes(const uint8_t *file, size_t file_len, size_t offset, size_t *start, size_t *count);

/*
 * The searches take the keys and the area that ringlinden_string_map gave, with keys_len = *count: the zeros after the keys of a longer
 * slice would be keys that don't rise (15). Their results rise, without repeats. An area backward or past the file's end finds nothing.
 */

/*
 * The indices of the strings in which a find of the query begins. out: *count words. Refusals: 1; 9, the query is empty or has more than
 * 255 bytes; 15, the keys don't rise strictly, or one has the index 2^32 - 1; 4.
 */
uint32_t ringlinden_string_search(const uint8_t *file, size_t file_len, const uint64_t *keys, size_t keys_len,
                                  size_t start, size_t end, const uint8_t *query, size_t query_len,
                                  uint32_t *out, size_t out_len, size_t *count);

/*
 * The types whose string is found. str_offsets and type_idxs as ringlinden_type_groups gave them. strings: as many words as strings are
 * found, zero afterwards in every case; out: *count words. The empty query finds nothing. Refusals: 1; 9, more than 255 bytes; 15; 4.
 */
uint32_t ringlinden_type_search(const uint8_t *file, size_t file_len, const uint64_t *keys, size_t keys_len,
                                size_t start, size_t end, const uint8_t *query, size_t query_len,
                                const uint32_t *str_offsets, size_t str_offsets_len, const uint32_t *type_idxs, size_t type_idxs_len,
                                uint32_t *strings, size_t strings_len, uint32_t *out, size_t out_len, size_t *count);

/*
 * The methods whose class and whose name is found; an empty query asks nothing of its part, and two empty ones find nothing. strings and
 * types: as many words as strings and types are found, zero afterwards in every case; a class that names no type finds nothing,
 * whatever is lent for the name's strings. out: *count words. Refusals: 1; 9, either query has more than 255 bytes; 15; 3, the method
 * ids; 4.
 */
uint32_t ringlinden_method_search(const uint8_t *file, size_t file_len, const uint32_t header[13],
                                  const uint64_t *keys, size_t keys_len, size_t start, size_t end,
                                  const uint8_t *class_query, size_t class_query_len, const uint8_t *name_query, size_t name_query_len,
                                  const uint32_t *str_offsets, size_t str_offsets_len, const uint32_t *type_idxs, size_t type_idxs_len,
                                  uint32_t *strings, size_t strings_len, uint32_t *types, size_t types_len,
                                  uint32_t *out, size_t out_len, size_t *count);

/*
 * Those of the given string indices whose string contains the query, ASCII case ignored, rising and without repeats; the file's own count
 * and table of strings are used. out: *count words. Refusals: 1; 3, the file has less than 0x70 bytes or its table passes its end; 9, more
 * than 255 bytes or not ASCII; then, in the order of the given indices, 13, 6, 10, 5, 11; 4.
 */
uint32_t ringlinden_name_filter(const uint8_t *file, size_t file_len, const uint32_t *given, size_t given_len,
                                const uint8_t *query, size_t query_len, uint32_t *out, size_t out_len, size_t *count);

/* ---- code ---- */

/*
 * The code table. starts: two words for each method, a pair, starts[2 * m] where the array of method m begins and starts[2 * m + 1] where it
 * ends, the offset after its last byte, both of its code found last; 0 and 0 without code; triples: three words for each of the *codes codes
 * found, first 16-byte block, last, and method; slots: *slot_count words, one for each block of the region, 0, or method + 1, or
 * 2^31 + number of a share; shares: *share_count words, three for each share; the region is file[*region_start .. *region_end],
 * whole blocks, but that it ends with the file where its last block sticks out: ringlinden_scan over it is never refused 12.
 * Refusals: 1; 4, fewer start words than two for each method; then as the class data are read 3, 6, 16, 7, 8; 4, one of the others is
 * too short.
 */
uint32_t ringlinden_code_table(const uint8_t *file, size_t file_len, const uint32_t header[13],
                               uint32_t *starts, size_t starts_len, uint32_t *triples, size_t triples_len,
                               uint32_t *slots, size_t slots_len, uint32_t *shares, size_t shares_len,
                               size_t *region_start, size_t *region_end, size_t *codes, size_t *slot_count, size_t *share_count);

/*
 * The places from start up to end that look like an instruction of the kind with a wanted index, rising, and beside each the index there.
 * wanted: in any order, repeats allowed. offs and marks: *count words each. Refusals: 1; 2; 12; 4.
 */
uint32_t ringlinden_scan(const uint8_t *file, size_t file_len, uint32_t start, uint32_t end, uint32_t kind,
                         const uint32_t *wanted, size_t wanted_len, uint32_t *offs, size_t offs_len, uint32_t *marks, size_t marks_len,
                         size_t *count);

/*
 * For each entry, an offset in the file, the slot word of its block where the entry is below the end of its method's array and a walk over the
 * array's instructions and payloads lands on it, else 0: nothing at or past the end is confirmed. An entry counts by its first byte. The method is
 * the first of its slot. base: the region's first block, *region_start / 16; slots, starts and shares as ringlinden_code_table gave them;
 * entries: ringlinden_scan's offsets. further: a word for each pair of start words, zero afterwards in every case; answers: *count words, one
 * for each entry. Refusals: 1; 4; 15, a share that is needed is outside the shares, or a first method that is needed has no pair: both its
 * words must be there, and an odd last start word counts for nothing. With the tables that ringlinden_code_table gave for this file it is never 15.
 * Entries that never fall, as ringlinden_scan's, are taken in linear time, and each has the answer that a list with it alone has.
 */
uint32_t ringlinden_locate(const uint8_t *file, size_t file_len, uint32_t base, const uint32_t *slots, size_t slots_len,
                           const uint32_t *starts, size_t starts_len, const uint32_t *shares, size_t shares_len,
                           const uint32_t *entries, size_t entries_len, uint32_t *further, size_t further_len,
                           uint32_t *answers, size_t answers_len, size_t *count);

/*
 * The methods of a slot word: *count words, none for the word 0. Refusals: 15, a share that is needed is outside the shares, or
 * names one that is not an earlier one; 4.
 */
uint32_t ringlinden_list_slot(const uint32_t *shares, size_t shares_len, uint32_t slot, uint32_t *methods, size_t methods_len,
                              size_t *count);

/*
 * Code table, scan of its region and locate in one. starts, triples, slots and shares as of ringlinden_code_table, offs and marks as of
 * ringlinden_scan, answers as of ringlinden_locate; further: a word for each method, however many start words are lent. *hits words of
 * offs, marks and answers are the result. Refusals: those of the three, in their order, but never 12 or 15. For a file as published and lent
 * outputs that suffice the confirmed entries (answer not 0) are exactly the instructions that name a wanted index, none missing and none
 * invented: crates/findrefs has the statement. For any file, an entry's answer does not depend on what else is wanted: the confirmed entries of two
 * lists of indices together are those of each, merged by offset.
 */
uint32_t ringlinden_find(const uint8_t *file, size_t file_len, const uint32_t header[13], uint32_t kind,
                         const uint32_t *wanted, size_t wanted_len, uint32_t *starts, size_t starts_len,
                         uint32_t *triples, size_t triples_len, uint32_t *slots, size_t slots_len, uint32_t *shares, size_t shares_len,
                         uint32_t *offs, size_t offs_len, uint32_t *marks, size_t marks_len, uint32_t *further, size_t further_len,
                         uint32_t *answers, size_t answers_len, size_t *region_start, size_t *region_end, size_t *hits);

#ifdef __cplusplus
}
#endif

#endif
