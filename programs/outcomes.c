/* For the office: what became of transactions, by the log of a disk in a file or on standard input. One line for each id: the id, a blank, and committed,
 * aborted or neither. The disk is only read, so it may be one that a power cut has left. An input that is no disk gives refused=1, as disklist does.
 * Ask before the bench books again: an id that was lost is given out anew, and then its line is of another booking.
 *
 *   tools/build luppaneth
 *   cc -std=c11 -Iinclude programs/outcomes.c src/luppaneth_file.c target/staticlib/libluppaneth.a -o outcomes
 *   ./outcomes -f pattern.disk 3 5 7
 *   ./outcomes 3 5 7 < pattern.disk
 *
 * By name the file is locked while it is read, so that no bench can be writing it. In C, since it has to end with a status and a program of the toolchain
 * has none. */
#include "luppaneth_file.h"

#include <stdio.h>
#include <stdlib.h>

/* Exit statuses. */
enum { DONE = 0, FAILED = 1, BAD_USAGE = 2 };

enum { IDS = 65536 };

static int usage(FILE *to, int status)
{
    fprintf(to, "usage: outcomes [-f FILE] [ID]...\n"
                "Tells what became of transactions, by the log of the disk in FILE, or on standard input. The ids are numbers from 0 to 65535, each\n"
                "above the one before it. One line each: the id, and committed, aborted or neither. No disk: refused=1.\n"
                "Exit status: 0 done; 1 refused, or the disk can't be read; 2 usage.\n");
    return status;
}

/* The id that an argument names; it has to be above the one before it (-1: there is none). */
static long id_of(const char *argument, long before)
{
    char *end;
    long id = strtol(argument, &end, 10);
    if (argument[0] < '0' || argument[0] > '9' || *end != '\0' || id >= IDS) {
        fprintf(stderr, "outcomes: '%s' is no id: ids are numbers from 0 to 65535\n", argument);
        exit(BAD_USAGE);
    }
    if (id <= before) {
        fprintf(stderr, "outcomes: %ld stands after %ld: each id has to be above the one before it\n", id, before);
        exit(BAD_USAGE);
    }
    return id;
}

/* What was read is what a disk has and at most one byte more, so that an input too long is refused as one too short is. */
static size_t read_input(unsigned char *disk)
{
    size_t length = fread(disk, 1, LUPPANETH_DISK_LEN + 1, stdin);
    if (ferror(stdin)) {
        fprintf(stderr, "outcomes: standard input can't be read\n");
        exit(FAILED);
    }
    return length;
}

static size_t read_file(const char *path, unsigned char *disk)
{
    static struct lup_file f;
    int answer = lup_file_look(&f, path);
    if (answer != 0)
        fprintf(stderr, "outcomes: %s\n", lup_file_error(&f));
    if (answer != 0 && answer != LUP_NO_DISK)
        exit(FAILED);
    memcpy(disk, f.store.disk, LUPPANETH_DISK_LEN);
    return answer == 0 ? LUPPANETH_DISK_LEN : 0;
}

static void print_lines(const uint16_t *ids, const unsigned char *outcomes, size_t count)
{
    static const char *const words[] = {[LUPPANETH_NEITHER] = "neither", [LUPPANETH_COMMITTED] = "committed", [LUPPANETH_ABORTED] = "aborted"};
    size_t i;
    for (i = 0; i < count; i++)
        printf("%u %s\n", ids[i], words[outcomes[i]]);
}

int main(int argc, char **argv)
{
    static unsigned char disk[LUPPANETH_DISK_LEN + 1], outcomes[IDS];
    static uint16_t ids[IDS];
    struct luppaneth_outcomes_reply r;
    const char *path = NULL;
    size_t count = 0, length;
    long id = -1;
    int next = 1;
    if (argc == 2 && strcmp(argv[1], "--help") == 0)
        return usage(stdout, DONE);
    if (argc > 1 && strcmp(argv[1], "-f") == 0) {
        if (argc == 2)
            return usage(stderr, BAD_USAGE);
        path = argv[2];
        next = 3;
    }
    for (; next < argc; next++) {
        id = id_of(argv[next], id);
        ids[count++] = (uint16_t)id;
    }
    length = path == NULL ? read_input(disk) : read_file(path, disk);
    r = luppaneth_outcomes(disk, length, ids, count, outcomes, count);
    if (r.number == 0) {
        print_lines(ids, outcomes, count);
    } else {
        printf("refused=%u\n", r.number);
        if (path == NULL)
            fprintf(stderr, "outcomes: standard input is no disk: a disk has 33,691 bytes\n");
    }
    if (fflush(stdout) != 0 || ferror(stdout)) {
        fprintf(stderr, "outcomes: what it has to tell can't be written\n");
        return FAILED;
    }
    return r.number == 0 ? DONE : FAILED;
}
