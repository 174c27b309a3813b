/*
 * What a layout program does with an edition that it has finished or been sent.
 *
 *   layout FILE                                  prints the digest of the file
 *   layout FILE KEYHEX STATEMENTHEX STAMPHEX     prints also whether the stamp checks
 *
 * Build it after `make clib`: cc examples/layout.c -Itarget/clib target/clib/libbodunkwa.a -o layout
 */
#include <errno.h>
#include <stdint.h>
#include <stdio.h>
#include <stdlib.h>
#include <string.h>

#include "bodunkwa.h"

struct bytes {
    uint8_t *at;
    size_t len;
};

static int complain(const char *what, const char *why)
{
    fprintf(stderr, "layout: %s: %s\n", what, why);
    return 0;
}

/* Reads a file, or one byte more than pages may have, by which it is seen to be too long. */
static int read_pages(const char *path, struct bytes *pages)
{
    const size_t most = (size_t)BODUNKWA_MOST_PAGES + 1;
    FILE *file = fopen(path, "rb");
    int failed;

    if (file == NULL)
        return complain(path, strerror(errno));
    pages->at = malloc(most);
    if (pages->at == NULL) {
        fclose(file);
        return complain(path, "no memory");
    }
    pages->len = fread(pages->at, 1, most, file);
    failed = ferror(file);
    fclose(file);
    return failed ? complain(path, "cannot be read") : 1;
}

static int digit(char c)
{
    if (c >= '0' && c <= '9')
        return c - '0';
    if (c >= 'a' && c <= 'f')
        return c - 'a' + 10;
    if (c >= 'A' && c <= 'F')
        return c - 'A' + 10;
    return -1;
}

/* Reads any number of bytes: the library says no to a wrong one. A complaint shows no key. */
static int read_hex(const char *name, const char *text, struct bytes *bytes)
{
    const size_t digits = strlen(text);
    size_t i;

    if (digits % 2 != 0)
        return complain(name, "an odd number of digits");
    bytes->len = digits / 2;
    bytes->at = malloc(bytes->len + 1);
    if (bytes->at == NULL)
        return complain(name, "no memory");
    for (i = 0; i < bytes->len; i++) {
        const int high = digit(text[2 * i]), low = digit(text[2 * i + 1]);

        if (high < 0 || low < 0)
            return complain(name, "not hexadecimal");
        bytes->at[i] = (uint8_t)(16 * high + low);
    }
    return 1;
}

static int print_digest(const char *path, struct bytes pages)
{
    uint8_t digest[BODUNKWA_DIGEST_BYTES];
    size_t i;

    if (bodunkwa_digest(pages.at, pages.len, digest, sizeof digest) != 0)
        return complain(path, "too long for the pages of an edition");
    for (i = 0; i < sizeof digest; i++)
        printf("%02x", (unsigned)digest[i]);
    putchar('\n');
    return 1;
}

static int print_check(struct bytes key, struct bytes statement, struct bytes stamp)
{
    const uint32_t checks =
        bodunkwa_stamp_checks(key.at, key.len, statement.at, statement.len, stamp.at, stamp.len);

    printf("stamp checks: %s\n", checks == 1 ? "yes" : "no");
    return 1;
}

int main(int argc, char **argv)
{
    struct bytes pages = {NULL, 0}, key = {NULL, 0}, statement = {NULL, 0}, stamp = {NULL, 0};
    int done;

    if (argc != 2 && argc != 5) {
        fputs("usage: layout FILE [KEYHEX STATEMENTHEX STAMPHEX]\n", stderr);
        return 1;
    }
    done = read_pages(argv[1], &pages);
    if (argc == 5)
        done = done && read_hex("key", argv[2], &key) && read_hex("statement", argv[3], &statement) &&
               read_hex("stamp", argv[4], &stamp);
    done = done && print_digest(argv[1], pages);
    if (argc == 5)
        done = done && print_check(key, statement, stamp);
    free(pages.at);
    free(key.at);
    free(statement.at);
    free(stamp.at);
    if (fflush(stdout) != 0)
        done = complain("standard output", strerror(errno));
    return done ? 0 : 1;
}
