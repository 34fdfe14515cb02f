/* A rack terminal: shows one page of a pattern's file, as a restart would leave it. The file is only read, so it may stand on a disk that was just
 * taken out of a machine whose current failed.
 *
 *   cc -std=c11 -Iinclude programs/page.c src/luppaneth_file.c target/staticlib/libluppaneth.a -o page
 *   ./page pattern.disk 3          shows page 3 of the sixteen, 16 bytes on a line, with the address of the first */
#include "luppaneth_file.h"

#include <stdio.h>
#include <stdlib.h>

/* Exit statuses. */
enum { DONE = 0, FAILED = 1, BAD_USAGE = 2 };

enum { ON_A_LINE = 16 };

static int usage(FILE *to, int status)
{
    fprintf(to, "usage: page FILE NUMBER\n"
                "Shows one of the sixteen pages of the pattern in FILE, numbered from 0 to 15, as a restart would leave it. FILE is only read.\n"
                "Exit status: 0 done; 1 refused, or trouble with the file; 2 usage.\n");
    return status;
}

static void show(size_t number, const unsigned char *page)
{
    size_t i;
    for (i = 0; i < LUPPANETH_PAGE_LEN; i++) {
        if (i % ON_A_LINE == 0)
            printf("%4zu:", number * LUPPANETH_PAGE_LEN + i);
        printf(" %02x", page[i]);
        if (i % ON_A_LINE == ON_A_LINE - 1)
            putchar('\n');
    }
}

int main(int argc, char **argv)
{
    static struct lup_file f;
    unsigned char page[LUPPANETH_PAGE_LEN];
    unsigned long number;
    char *end;
    int refused;
    if (argc == 2 && strcmp(argv[1], "--help") == 0)
        return usage(stdout, DONE);
    if (argc != 3 || argv[2][0] < '0' || argv[2][0] > '9')
        return usage(stderr, BAD_USAGE);
    number = strtoul(argv[2], &end, 10);
    if (*end != '\0' || number >= LUPPANETH_PAGES)
        return usage(stderr, BAD_USAGE);
    if (lup_file_look(&f, argv[1]) != 0) {
        fprintf(stderr, "page: %s\n", lup_file_error(&f));
        return FAILED;
    }
    refused = lup_read_page(&f.store, number, page);
    if (refused != 0) {
        fprintf(stderr, "page: %s: number %d: %s\n", argv[1], refused, lup_text(refused));
        return FAILED;
    }
    show(number, page);
    if (fflush(stdout) != 0 || ferror(stdout)) {
        fprintf(stderr, "page: what it has to tell can't be written\n");
        return FAILED;
    }
    return DONE;
}
