/*
 * lookup FILE.dex PHRASE: every instruction of the file that names a string with the phrase in it, and the methods that hold it. Shows how
 * the functions of include/ringlinden.h go together; C99, and C++ as well. ../check-c builds and runs it.
 *
 * Prints the strings that contain the phrase, and a line for each use: the instruction's offset, the text, and the methods as class and
 * name. Exit status 1 where a call is refused.
 */
#include "dex.h"

#include <string.h>

/* the text of a string, by its index */
static void print_string(uint32_t index)
{
    size_t start, count;
    need(ringlinden_string_bytes(file, file_len, word(header[STRINGS] + 4 * (size_t)index), &start, &count), "string_bytes");
    printf("%.*s", (int)count, (const char *)file + start);
}

/* class and name of a method: its id has the type index in the first two bytes and the string index of the name in the last four */
static void print_method(uint32_t index)
{
    size_t id = header[METHODS] + 8 * (size_t)index;
    print_string(word(header[TYPES] + 4 * (size_t)(word(id) & 0xffff)));
    printf("->");
    print_string(word(id + 4));
}

int main(int argc, char **argv)
{
    size_t strings, methods, blocks, most, start, end, count, found, hits, n, i, k;
    uint32_t *wanted, *starts, *triples, *slots, *shares, *offs, *marks, *further, *answers, *list;
    uint64_t *keys;

    if (argc != 3) {
        fprintf(stderr, "usage: lookup FILE.dex PHRASE\n");
        return 2;
    }
    read_file(argv[1]);
    strings = header[STRINGS + 1];
    methods = header[METHODS + 1];

    /* phrase -> string indices. A search is given as many keys as the map has. */
    keys = (uint64_t *)lend(strings, sizeof(uint64_t));
    need(ringlinden_string_map(file, file_len, header, keys, strings, &count, &start, &end), "string_map");
    wanted = words(strings);
    need(ringlinden_string_search(file, file_len, keys, count, start, end, (const uint8_t *)argv[2], strlen(argv[2]), wanted, strings,
                                  &found), "string_search");
    printf("strings with `%s`:", argv[2]);
    for (i = 0; i < found; i++)
        printf(" %u", (unsigned)wanted[i]);
    printf("\n");

    /* string indices -> instructions and their methods, for a file in which no method has code twice */
    blocks = file_len / 16 + 1;
    most = file_len;
    starts = words(2 * methods);
    triples = words(3 * methods);
    slots = words(blocks);
    shares = words(3 * methods);
    offs = words(most);
    marks = words(most);
    further = words(methods);
    answers = words(most);
    need(ringlinden_find(file, file_len, header, RINGLINDEN_STRING, wanted, found, starts, 2 * methods, triples, 3 * methods, slots, blocks,
                         shares, 3 * methods, offs, most, marks, most, further, methods, answers, most, &start, &end, &hits), "find");
    list = words(methods);
    for (i = 0; i < hits; i++) {
        need(ringlinden_list_slot(shares, 3 * methods, answers[i], list, methods, &n), "list_slot");
        printf("%u ", (unsigned)offs[i]);
        print_string(marks[i]);
        printf(" |%s", n ? "" : " -");
        for (k = 0; k < n; k++) {
            printf(" ");
            print_method(list[k]);
        }
        printf("\n");
    }
    return 0;
}
