/*
 * uses FILE.dex KIND: what the program `refs` prints after its first two lines, for a file of any size and any number of indices, which are
 * read from standard input, one to a line. KIND is string, type, field or method. Exit status 1 where a call is refused. ../check-refs
 * builds and runs it.
 */
#include "dex.h"

#include <string.h>

static uint32_t kind_of(const char *name)
{
    static const char *const names[] = { "string", "type", "field", "method" };
    uint32_t i;
    for (i = 0; i < 4; i++)
        if (!strcmp(name, names[i]))
            return i + 1;
    return 0;
}

int main(int argc, char **argv)
{
    size_t methods, wanted_len = 0, start, end, hits, n, i, k;
    uint32_t *wanted, *starts, *triples, *slots, *shares, *offs, *marks, *further, *answers, *list;
    unsigned long index;

    if (argc != 3 || !kind_of(argv[2])) {
        fprintf(stderr, "usage: uses FILE.dex string|type|field|method <INDICES\n");
        return 2;
    }
    read_file(argv[1]);
    methods = header[METHODS + 1];
    wanted = words(file_len);
    while (wanted_len < file_len && scanf("%lu", &index) == 1)
        wanted[wanted_len++] = (uint32_t)index;

    starts = words(2 * methods);
    triples = words(file_len);
    slots = words(file_len / 16 + 1);
    shares = words(file_len);
    offs = words(file_len);
    marks = words(file_len);
    further = words(methods);
    answers = words(file_len);
    need(ringlinden_find(file, file_len, header, kind_of(argv[2]), wanted, wanted_len, starts, 2 * methods, triples, file_len, slots,
                         file_len / 16 + 1, shares, file_len, offs, file_len, marks, file_len, further, methods, answers, file_len, &start,
                         &end, &hits), "find");
    list = words(methods);
    for (i = 0; i < hits; i++) {
        need(ringlinden_list_slot(shares, file_len, answers[i], list, methods, &n), "list_slot");
        printf("off=%u idx=%u mids=%s", (unsigned)offs[i], (unsigned)marks[i], n ? "" : "-");
        for (k = 0; k < n; k++)
            printf("%s%u", k ? "," : "", (unsigned)list[k]);
        printf("\n");
    }
    return 0;
}
