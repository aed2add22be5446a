/*
 * What a caller in C asks of each function of include/ringlinden.h beside its answer. ../check-c builds and runs it.
 *
 *     probe nulls FILE.dex   every function with a null pointer for its slices of length 0, each alone, by two and all at once: the
 *                            number, the out numbers and the lent words are those of the same call with pointers that are not null
 *     probe stack FILE.dex   how many bytes down its stack each function writes, over FILE.dex and over made up files of 3,000, 100,000 and
 *                            4,000,000 strings: it is called on a stack of its own that holds a pattern
 *     probe region FILE      FILE is SPEC's whole case, which is cut at every length from its array's end on: its region ends with the file and
 *                            is scanned, and a region that is a byte longer is refused 12, with zeros
 *     probe pairs FILE       the same, with a second use after the array's end: start words are pairs, an odd last one counts for nothing, and
 *                            what stands at or past the end is not confirmed
 *
 * A line for each function, for each length, or for each call of pairs; exit status 1 where two calls differ, or an answer is another.
 */
#define _XOPEN_SOURCE 600
#include "dex.h"

#include <string.h>
#include <ucontext.h>

enum { SLICES = 10, NUMBERS = 5 };

struct slice {
    void *at;
    size_t n;
};

/* the slices of a call, those that are only read before those that are lent */
struct call {
    const char *name;
    uint32_t (*run)(const struct slice *s, size_t *out);
    size_t read, lent;
    struct slice s[SLICES];
    size_t size[SLICES];
};

/* what the calls are given beside their slices */
static size_t area_start, area_end, offset;
static uint32_t region_start, region_end, kind, slot;

#define B(i) ((const uint8_t *)s[i].at), s[i].n
#define K(i) ((const uint64_t *)s[i].at), s[i].n
#define W(i) ((const uint32_t *)s[i].at), s[i].n
#define M(i) ((uint32_t *)s[i].at), s[i].n

static uint32_t type_groups(const struct slice *s, size_t *out)
{
    return ringlinden_type_groups(B(0), header, M(1), M(2), out);
}
static uint32_t method_groups(const struct slice *s, size_t *out)
{
    return ringlinden_method_groups(B(0), header, M(1), M(2), M(3), M(4), out, out + 1);
}
static uint32_t group(const struct slice *s, size_t *out)
{
    return ringlinden_group(W(0), W(1), 3, out, out + 1);
}
static uint32_t string_map(const struct slice *s, size_t *out)
{
    return ringlinden_string_map(B(0), header, (uint64_t *)s[1].at, s[1].n, out, out + 1, out + 2);
}
static uint32_t string_bytes(const struct slice *s, size_t *out)
{
    return ringlinden_string_bytes(B(0), offset, out, out + 1);
}
static uint32_t string_search(const struct slice *s, size_t *out)
{
    return ringlinden_string_search(B(0), K(1), area_start, area_end, B(2), M(3), out);
}
static uint32_t type_search(const struct slice *s, size_t *out)
{
    return ringlinden_type_search(B(0), K(1), area_start, area_end, B(2), W(3), W(4), M(5), M(6), out);
}
static uint32_t method_search(const struct slice *s, size_t *out)
{
    return ringlinden_method_search(B(0), header, K(1), area_start, area_end, B(2), B(3), W(4), W(5), M(6), M(7), M(8), out);
}
static uint32_t name_filter(const struct slice *s, size_t *out)
{
    return ringlinden_name_filter(B(0), W(1), B(2), M(3), out);
}
static uint32_t code_table(const struct slice *s, size_t *out)
{
    return ringlinden_code_table(B(0), header, M(1), M(2), M(3), M(4), out, out + 1, out + 2, out + 3, out + 4);
}
static uint32_t scan(const struct slice *s, size_t *out)
{
    return ringlinden_scan(B(0), region_start, region_end, kind, W(1), M(2), M(3), out);
}
static uint32_t locate(const struct slice *s, size_t *out)
{
    return ringlinden_locate(B(0), region_start / 16, W(1), W(2), W(3), W(4), M(5), M(6), out);
}
static uint32_t list_slot(const struct slice *s, size_t *out)
{
    return ringlinden_list_slot(W(0), slot, M(1), out);
}
static uint32_t find(const struct slice *s, size_t *out)
{
    return ringlinden_find(B(0), header, kind, W(1), M(2), M(3), M(4), M(5), M(6), M(7), M(8), M(9), out, out + 1, out + 2);
}
static uint32_t nothing(const struct slice *s, size_t *out)
{
    (void)s;
    (void)out;
    return 0;
}

static struct slice of(void *at, size_t n)
{
    struct slice s;
    s.at = at;
    s.n = n;
    return s;
}

static struct slice some(size_t n)
{
    return of(words(n), n);
}

static void put(size_t at, size_t x)
{
    int i;
    for (i = 0; i < 4; i++)
        file[at + (size_t)i] = (uint8_t)(x >> 8 * i);
}

/* A file of that many strings, two texts, a type and a method of each text, and code of one const-string for both methods. */
static void make_up(size_t strings)
{
    const size_t ids = 0x70, types = ids + 4 * strings, methods = types + 8, classes = methods + 16, texts = classes + 32;
    const size_t data = texts + 8, code = (data + 16) / 4 * 4 + 4, n = (code + 20) / 16 * 16 + 16;
    size_t i;
    file = (uint8_t *)lend(n, 1);
    file_len = n;
    for (i = 0; i < strings; i++)
        put(ids + 4 * i, texts + 4 * (i % 2));
    memcpy(file + texts, "\2ab\0\2bc", 8);
    put(types, 0);
    put(types + 4, 1);
    put(methods + 8, 1);
    put(methods + 4, 0);
    put(methods + 12, 1);
    put(classes + 24, data);
    /* two direct methods: difference, flags, code offset in four bytes */
    file[data + 2] = 2;
    for (i = 0; i < 2; i++) {
        uint8_t *m = file + data + 4 + 6 * i;
        m[0] = (uint8_t)i;
        m[2] = (uint8_t)(code | 0x80);
        m[3] = (uint8_t)(code >> 7 | 0x80);
        m[4] = (uint8_t)(code >> 14 | 0x80);
        m[5] = (uint8_t)(code >> 21);
    }
    put(code + 12, 2);
    file[code + 16] = 0x1a;
    file[code + 18] = 1;
    put(0x38, strings), put(0x3c, ids);
    put(0x40, 2), put(0x44, types);
    put(0x58, 2), put(0x5c, methods);
    put(0x60, 1), put(0x64, classes);
    read_header();
}

static struct slice text(const char *t)
{
    return of(memcpy(lend(strlen(t), 1), t, strlen(t)), strlen(t));
}

/* ---- the calls over a file */

enum { CALLS = 14 };
static struct call calls[CALLS];
static size_t made;

static struct call *add(const char *name, uint32_t (*run)(const struct slice *, size_t *), size_t read, size_t lent)
{
    struct call *c = &calls[made++];
    size_t i;
    c->name = name;
    c->run = run;
    c->read = read;
    c->lent = lent;
    for (i = 0; i < SLICES; i++)
        c->size[i] = 4;
    return c;
}

/* A call that others stand on. */
static void must(struct call *c, size_t *out)
{
    uint32_t refusal = c->run(c->s, out);
    if (refusal) {
        fprintf(stderr, "probe: %s refuses %u\n", c->name, (unsigned)refusal);
        exit(2);
    }
}

static void prepare(const char *phrase)
{
    const size_t strings = header[STRINGS + 1], types = header[TYPES + 1], methods = header[METHODS + 1], most = 4096;
    const struct slice whole = of(file, file_len);
    struct call *c, *groups, *map, *table, *hits;
    struct slice keys, wanted, given;
    size_t out[NUMBERS], i;

    made = 0;
    kind = RINGLINDEN_STRING;
    offset = word(header[STRINGS]);

    groups = c = add("type_groups", type_groups, 1, 2);
    c->s[0] = whole, c->size[0] = 1, c->s[1] = some(strings + 1), c->s[2] = some(types);
    must(c, out);

    c = add("method_groups", method_groups, 1, 4);
    c->s[0] = whole, c->size[0] = 1;
    c->s[1] = some(types + 1), c->s[2] = some(methods), c->s[3] = some(strings + 1), c->s[4] = some(methods);

    c = add("group", group, 2, 0);
    c->s[0] = groups->s[1], c->s[1] = groups->s[2];

    map = c = add("string_map", string_map, 1, 1);
    c->s[0] = whole, c->size[0] = 1, c->size[1] = 8;
    c->s[1] = of(lend(strings, 8), strings);
    must(c, out);
    area_start = out[1], area_end = out[2];
    keys = of(memcpy(lend(strings, 8), map->s[1].at, 8 * strings), out[0]);

    c = add("string_bytes", string_bytes, 1, 0);
    c->s[0] = whole, c->size[0] = 1;

    c = add("string_search", string_search, 3, 1);
    c->s[0] = whole, c->size[0] = 1, c->s[1] = keys, c->size[1] = 8, c->s[2] = text(phrase), c->size[2] = 1, c->s[3] = some(most);

    c = add("type_search", type_search, 5, 2);
    c->s[0] = whole, c->size[0] = 1, c->s[1] = keys, c->size[1] = 8, c->s[2] = text(phrase), c->size[2] = 1;
    c->s[3] = groups->s[1], c->s[4] = groups->s[2], c->s[5] = some(most), c->s[6] = some(most);

    c = add("method_search", method_search, 6, 3);
    c->s[0] = whole, c->size[0] = 1, c->s[1] = keys, c->size[1] = 8, c->s[2] = text(phrase), c->size[2] = 1;
    c->s[3] = text(phrase), c->size[3] = 1, c->s[4] = groups->s[1], c->s[5] = groups->s[2];
    c->s[6] = some(most), c->s[7] = some(most), c->s[8] = some(most);

    given = some(4);
    for (i = 0; i < 4; i++)
        ((uint32_t *)given.at)[i] = (uint32_t)(i % 2 ? i : strings - 1 - i);
    c = add("name_filter", name_filter, 3, 1);
    c->s[0] = whole, c->size[0] = 1, c->s[1] = given, c->s[2] = text(phrase), c->size[2] = 1, c->s[3] = some(most);

    table = c = add("code_table", code_table, 1, 4);
    c->s[0] = whole, c->size[0] = 1;
    c->s[1] = some(2 * methods), c->s[2] = some(3 * methods), c->s[3] = some(file_len / 16 + 1), c->s[4] = some(3 * methods);
    must(c, out);
    region_start = (uint32_t)out[0], region_end = (uint32_t)out[1];

    wanted = some(24);
    for (i = 0; i < 24; i++)
        ((uint32_t *)wanted.at)[i] = (uint32_t)i;
    hits = c = add("scan", scan, 2, 2);
    c->s[0] = whole, c->size[0] = 1, c->s[1] = wanted, c->s[2] = some(most), c->s[3] = some(most);
    must(c, out);

    c = add("locate", locate, 5, 2);
    c->s[0] = whole, c->size[0] = 1, c->s[1] = table->s[3], c->s[2] = table->s[1], c->s[3] = table->s[4];
    c->s[4] = hits->s[2], c->s[4].n = out[0], c->s[5] = some(methods), c->s[6] = some(most);

    slot = table->s[4].n >= 3 ? (uint32_t)1 << 31 : 1;
    c = add("list_slot", list_slot, 1, 1);
    c->s[0] = table->s[4], c->s[1] = some(methods);

    c = add("find", find, 2, 8);
    c->s[0] = whole, c->size[0] = 1, c->s[1] = wanted;
    c->s[2] = some(2 * methods), c->s[3] = some(3 * methods), c->s[4] = some(file_len / 16 + 1), c->s[5] = some(3 * methods);
    c->s[6] = some(most), c->s[7] = some(most), c->s[8] = some(methods), c->s[9] = some(most);
}

/* ---- null pointers */

/* The outcome of a call whose slices of the mask have length 0: numbers, and the lent words one after another. */
static size_t outcome(const struct call *c, unsigned mask, void *empty, uint8_t *to)
{
    struct slice s[SLICES];
    size_t out[NUMBERS], i, n = 0;
    uint32_t refusal;
    memset(out, 0x5a, sizeof out);
    for (i = 0; i < c->read + c->lent; i++) {
        s[i] = c->s[i];
        if (mask >> i & 1)
            s[i].at = empty, s[i].n = 0;
        else if (i >= c->read)
            s[i].at = memset(lend(s[i].n, c->size[i]), 0x5a, c->size[i] * s[i].n);
    }
    refusal = c->run(s, out);
    memcpy(to, &refusal, 4), n += 4;
    memcpy(to + n, out, sizeof out), n += sizeof out;
    for (i = c->read; i < c->read + c->lent; i++)
        if (!(mask >> i & 1)) {
            memcpy(to + n, s[i].at, c->size[i] * s[i].n), n += c->size[i] * s[i].n;
            free(s[i].at);
        }
    return n;
}

static int nulls(const char *name)
{
    static uint64_t spare[2];
    static uint8_t one[1 << 18], two[1 << 18];
    size_t i, a, b;
    int bad = 0;
    read_file(name);
    prepare("clear");
    for (i = 0; i < made; i++) {
        const struct call *c = &calls[i];
        const size_t slices = c->read + c->lent;
        unsigned n = 0;
        for (a = 0; a <= slices; a++)
            for (b = a; b < slices || b == a; b++) {
                /* one slice, two, or all */
                const unsigned mask = a == slices ? (1u << slices) - 1 : 1u << a | 1u << b;
                const size_t length = outcome(c, mask, NULL, one);
                n++;
                if (outcome(c, mask, spare, two) != length || memcmp(one, two, length)) {
                    printf("%s: differs where the slices of %#x are null\n", c->name, mask);
                    bad = 1;
                }
            }
        printf("%s: %u calls with null pointers, each as without\n", c->name, n);
    }
    return bad;
}

/* ---- stack */

enum { STACK = 16 << 20, FILES = 4 };
static unsigned char *stack;
static ucontext_t back;
static struct call *called;
static uint32_t answered;

static void on_stack(void)
{
    size_t out[NUMBERS];
    answered = called->run(called->s, out);
}

/* How many bytes at the end of the stack were written to. */
static size_t taken(struct call *c)
{
    ucontext_t there;
    size_t i = 0;
    memset(stack, 0xa5, STACK);
    getcontext(&there);
    there.uc_stack.ss_sp = stack;
    there.uc_stack.ss_size = STACK;
    there.uc_link = &back;
    makecontext(&there, on_stack, 0);
    called = c;
    swapcontext(&back, &there);
    if (answered) {
        fprintf(stderr, "probe: %s refuses %u\n", c->name, (unsigned)answered);
        exit(2);
    }
    while (i < STACK && stack[i] == 0xa5)
        i++;
    return STACK - i;
}

/* The strings' data begin higher from string to string up to the middle, and then lower: of such keys the sort of string_map calls itself
   nearly as deep as of any (19, 32 and 42 of 23, 33 and 43). */
static void rise_and_fall(size_t strings)
{
    size_t i;
    for (i = 0; i < strings; i++)
        put(header[STRINGS] + 4 * i, i < strings / 2 ? i : strings - i);
}

static void print_row(const char *name, const char *of, const size_t *taken_by)
{
    size_t f;
    printf("%s%s", name, of);
    for (f = 0; f < FILES; f++)
        printf(" %lu", (unsigned long)taken_by[f]);
    printf("\n");
}

static int stacks(const char *name)
{
    static const size_t strings[FILES] = { 0, 3000, 100000, 4000000 };
    struct call empty;
    size_t taken_by[CALLS][FILES], others[CALLS][FILES], f, i, own;
    memset(&empty, 0, sizeof empty);
    empty.run = nothing;
    stack = (unsigned char *)lend(STACK, 1);
    own = taken(&empty);
    for (f = 0; f < FILES; f++) {
        if (f)
            make_up(strings[f]);
        else
            read_file(name);
        prepare(f ? "b" : "clear");
        for (i = 0; i < made; i++) {
            kind = RINGLINDEN_METHOD;
            others[i][f] = taken(&calls[i]) - own;
            kind = RINGLINDEN_STRING;
            taken_by[i][f] = taken(&calls[i]) - own;
        }
        if (f)
            rise_and_fall(strings[f]);
        for (i = 0; i < made; i++)
            if (calls[i].run == string_map) {
                const size_t turned = taken(&calls[i]) - own;
                taken_by[i][f] = turned < taken_by[i][f] ? taken_by[i][f] : turned;
            }
    }
    for (i = 0; i < made; i++) {
        const int by_kind = calls[i].run == scan || calls[i].run == find;
        print_row(calls[i].name, by_kind ? " for strings" : "", taken_by[i]);
        if (by_kind)
            print_row(calls[i].name, " for others", others[i]);
    }
    return 0;
}

/* SPEC's whole case: one method, whose array stands from 64 up to 72, a const-string of 5, return-void and nop */
static void read_whole_case(const char *name)
{
    read_file(name);
    memset(header, 0, sizeof header);
    header[METHODS + 1] = header[CLASSES + 1] = 1;
}

/* ---- the region's end */

static int regions(const char *name)
{
    const uint32_t wanted[1] = { 5 };
    uint32_t starts[2], triples[3], slots[5], shares[3], offs[9], marks[9], further[1], answers[9];
    size_t start, end, codes, slot_count, share_count, hits, past, found;
    int bad = 0;
    read_whole_case(name);
    for (file_len = 72; file_len <= 80; file_len++) {
        int ok = !ringlinden_code_table(file, file_len, header, starts, 2, triples, 3, slots, 5, shares, 3, &start, &end, &codes, &slot_count,
                                        &share_count);
        ok = ok && start == 64 && end == file_len && slot_count == 1;
        ok = ok && !ringlinden_scan(file, file_len, (uint32_t)start, (uint32_t)end, RINGLINDEN_STRING, wanted, 1, offs, 9, marks, 9, &hits);
        ok = ok && hits == 1 && offs[0] == 64 && marks[0] == 5;
        ok = ok && ringlinden_scan(file, file_len, (uint32_t)start, (uint32_t)end + 1, RINGLINDEN_STRING, wanted, 1, offs, 9, marks, 9, &past)
            == RINGLINDEN_REGION_OUTSIDE;
        ok = ok && past == 0 && offs[0] == 0 && marks[0] == 0;
        ok = ok && !ringlinden_find(file, file_len, header, RINGLINDEN_STRING, wanted, 1, starts, 2, triples, 3, slots, 5, shares, 3, offs, 9,
                                    marks, 9, further, 1, answers, 9, &start, &end, &found);
        ok = ok && end == file_len && found == 1 && offs[0] == 64 && answers[0] == 1;
        printf("%lu bytes: %s\n", (unsigned long)file_len, ok ? "the region ends with them, one byte more is refused" : "OTHERWISE");
        bad |= !ok;
    }
    return bad;
}

/* ---- start words are pairs */

enum { LENT = 6 };
static uint32_t starts[LENT], further[LENT], answers[LENT], offs[LENT], marks[LENT];

/* the words from place i on are zero */
static int zero_from(const uint32_t *at, size_t i)
{
    while (i < LENT && !at[i])
        i++;
    return i == LENT;
}

static int told(int ok, const char *call, size_t starts_len, size_t further_len)
{
    printf("%s with %lu start words and %lu further words: %s\n", call, (unsigned long)starts_len, (unsigned long)further_len,
           ok ? "as it must be" : "OTHERWISE");
    return !ok;
}

/* The build of one method: 4 below two start words, else its pair and zeros. */
static int build_pairs(size_t n)
{
    uint32_t triples[3], slots[5], shares[3], refusal;
    size_t start, end, codes, slot_count, share_count;
    int ok;
    memset(starts, 0x5a, 4 * n);
    refusal = ringlinden_code_table(file, file_len, header, starts, n, triples, 3, slots, 5, shares, 3, &start, &end, &codes, &slot_count,
                                    &share_count);
    if (n < 2)
        ok = refusal == RINGLINDEN_LENT_TOO_SHORT && codes == 0 && end == 0 && zero_from(starts, 0);
    else
        ok = !refusal && codes == 1 && starts[0] == 64 && starts[1] == 72 && zero_from(starts, 2);
    return told(ok, "code_table", n, 0);
}

/* The finder: a further word for the one method, however many start words; the use at 72 is an entry, and is not confirmed. */
static int find_pairs(size_t n, size_t k)
{
    const uint32_t wanted[1] = { 5 };
    uint32_t triples[3], slots[5], shares[3], refusal;
    size_t start, end, hits;
    int ok;
    memset(starts, 0x5a, 4 * n);
    memset(further, 0x5a, 4 * k);
    memset(answers, 0x5a, sizeof answers);
    refusal = ringlinden_find(file, file_len, header, RINGLINDEN_STRING, wanted, 1, starts, n, triples, 3, slots, 5, shares, 3, offs, LENT,
                              marks, LENT, further, k, answers, LENT, &start, &end, &hits);
    if (n < 2 || k < 1)
        ok = refusal == RINGLINDEN_LENT_TOO_SHORT && hits == 0 && zero_from(starts, 0) && zero_from(answers, 0);
    else
        ok = !refusal && hits == 2 && starts[0] == 64 && starts[1] == 72 && zero_from(starts, 2) && offs[0] == 64 && offs[1] == 72 &&
            answers[0] == 1 && zero_from(answers, 1);
    return told(ok && zero_from(further, 0), "find", n, k);
}

/* Locate over the slot of method 0: a further word for each pair, else 4; both words of its pair, else 15. */
static int locate_pairs(size_t n, size_t k)
{
    static const uint32_t slots[1] = { 1 }, lent[LENT] = { 64, 72, 1, 1, 1, 1 }, entries[3] = { 64, 70, 72 };
    uint32_t refusal;
    size_t count;
    int ok;
    memset(further, 0x5a, 4 * k);
    memset(answers, 0x5a, sizeof answers);
    refusal = ringlinden_locate(file, file_len, 4, slots, 1, lent, n, NULL, 0, entries, 3, further, k, answers, LENT, &count);
    if (k < n / 2 || n < 2)
        ok = refusal == (uint32_t)(k < n / 2 ? RINGLINDEN_LENT_TOO_SHORT : RINGLINDEN_LENT_TABLE) && count == 0 && zero_from(answers, 0);
    else
        ok = !refusal && count == 3 && answers[0] == 1 && answers[1] == 1 && zero_from(answers, 2);
    return told(ok && zero_from(further, 0), "locate", n, k);
}

/* Locate with an end of e: an entry below it is confirmed, also where its instruction passes it. */
static int locate_ends(uint32_t e)
{
    static const uint32_t slots[1] = { 1 }, entries[3] = { 64, 68, 70 };
    const uint32_t lent[2] = { 64, e };
    size_t count, i;
    int ok = !ringlinden_locate(file, file_len, 4, slots, 1, lent, 2, NULL, 0, entries, 3, further, 1, answers, LENT, &count) && count == 3;
    for (i = 0; i < 3; i++)
        ok = ok && answers[i] == (entries[i] < e);
    printf("locate with the end %u: %s\n", (unsigned)e, ok ? "as it must be" : "OTHERWISE");
    return !ok;
}

static int pairs(const char *name)
{
    size_t n, k;
    uint32_t e;
    int bad = 0;
    read_whole_case(name);
    file[72] = 0x1a;
    file[74] = 5;
    for (n = 0; n < LENT; n++) {
        memset(starts, 0, sizeof starts);
        memset(further, 0, sizeof further);
        bad |= build_pairs(n);
        for (k = 0; k < 3; k++) {
            bad |= find_pairs(n, k);
            bad |= locate_pairs(n, k);
        }
    }
    for (e = 0; e < 80; e++)
        bad |= locate_ends(e);
    return bad;
}

int main(int argc, char **argv)
{
    if (argc == 3 && !strcmp(argv[1], "nulls"))
        return nulls(argv[2]);
    if (argc == 3 && !strcmp(argv[1], "stack"))
        return stacks(argv[2]);
    if (argc == 3 && !strcmp(argv[1], "region"))
        return regions(argv[2]);
    if (argc == 3 && !strcmp(argv[1], "pairs"))
        return pairs(argv[2]);
    fprintf(stderr, "usage: probe nulls|stack|region|pairs FILE\n");
    return 2;
}
