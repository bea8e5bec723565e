/*
 * A write at a primary: in one set it reaches a second node, in a copy of it that node is elected without it.
 * Prints the replies, and ends with 0.
 *
 *     cc example.c $(pkg-config --cflags --libs replset) -o example && ./example
 */
#include "replset.h"

#include <stdio.h>
#include <stdlib.h>
#include <string.h>

/* Ends the program where a call has failed. */
static void must(uint32_t answer, const char *what)
{
    if (answer == REPLSET_OK)
        return;
    fprintf(stderr, "example: %s answered %u\n", what, (unsigned)answer);
    exit(1);
}

/* Plays lines in a set, and prints their replies. */
static void play(replset *set, const char *lines)
{
    char text[64];
    size_t size, from = 0;
    must(replset_steps(set, lines, strlen(lines), text, sizeof text, &size), lines);
    while (size > sizeof text) {
        fwrite(text, 1, sizeof text, stdout);
        from += sizeof text;
        must(replset_text(set, from, text, sizeof text, &size), "replset_text");
    }
    fwrite(text, 1, size, stdout);
}

int main(void)
{
    replset set = REPLSET_NONE, other = REPLSET_NONE;
    must(replset_open(3, 3, 3, 1, &set), "replset_open");
    play(&set, "campaign n0\ndeliver n0 n1\ndeliver n1 n0\ndrain n0\ninsert n0 t {_id: 1}\n");
    must(replset_copy(&set, &other), "replset_copy");

    puts("n1 fetches the write:");
    play(&set, "heartbeat n0 n1\ndeliver n0 n1\nfetch n1\ndeliver n1 n0\ndeliver n0 n1\napply n1\n");
    play(&set, "read n1 local t 1\n");

    puts("n1 is elected without it:");
    play(&other, "campaign n1\ndeliver n1 n2\ndeliver n2 n1\ndrain n1\nread n1 local t 1\n");

    puts("a bad line changes nothing:");
    char text[64];
    size_t size;
    if (replset_step(&set, "par", 3, text, sizeof text, &size) != REPLSET_BAD_LINE)
        return 1;
    fwrite(text, 1, size, stdout);

    replset_free(&other);
    replset_free(&set);
    return 0;
}
