/* Both functions for C: known answers, their bounds and past them, every wrong length. */
#define _DEFAULT_SOURCE
#include <stdint.h>
#include <stdio.h>
#include <stdlib.h>
#include <string.h>
#include <sys/mman.h>
#include <unistd.h>

#include "bodunkwa.h"

static int failures;

#define EXPECT(holds) expect((holds), #holds, __LINE__)

static void expect(int holds, const char *what, int line)
{
    if (holds)
        return;
    fprintf(stderr, "tests/c/test.c:%d: not so: %s\n", line, what);
    failures++;
}

static void unhex(const char *text, uint8_t *to, size_t len)
{
    size_t i;
    unsigned byte;

    EXPECT(strlen(text) == 2 * len);
    for (i = 0; i < len; i++) {
        EXPECT(sscanf(text + 2 * i, "%2x", &byte) == 1);
        to[i] = (uint8_t)byte;
    }
}

/*
 * Bytes between two pages that end the test when they are touched. The library is compiled without
 * the sanitizer, so this is what sees a read or a write of its own outside the bytes it was given.
 */
struct fenced {
    uint8_t *at;
    uint8_t *map;
    size_t map_len;
    size_t page;
};

/* Right after the first page, or right before the last. */
enum side { FIRST, LAST };

static struct fenced fence(size_t len, enum side side)
{
    struct fenced f;
    size_t inside;

    f.page = (size_t)sysconf(_SC_PAGESIZE);
    inside = (len + f.page - 1) / f.page * f.page;
    f.map_len = inside + 2 * f.page;
    f.map = mmap(NULL, f.map_len, PROT_NONE, MAP_PRIVATE | MAP_ANONYMOUS, -1, 0);
    if (f.map == MAP_FAILED || mprotect(f.map + f.page, inside, PROT_READ | PROT_WRITE) != 0) {
        perror("tests/c/test.c");
        exit(1);
    }
    f.at = f.map + f.page + (side == LAST ? inside - len : 0);
    return f;
}

/* A copy that can only be read. */
static struct fenced fence_copy(const uint8_t *bytes, size_t len, enum side side)
{
    struct fenced f = fence(len, side);

    memcpy(f.at, bytes, len);
    if (mprotect(f.map + f.page, f.map_len - 2 * f.page, PROT_READ) != 0) {
        perror("tests/c/test.c");
        exit(1);
    }
    return f;
}

static void unfence(struct fenced f)
{
    munmap(f.map, f.map_len);
}

#define EMPTY "e3b0c44298fc1c149afbf4c8996fb92427ae41e4649b934ca495991b7852b855"
#define SPRING "622a494d3ea8c7ba2fed4f37909f14d9b50ab412322de39be62c8d6c2418bfca"
/* as many zeros as pages may have bytes */
#define ZEROS "080acf35a507ac9849cfcba47dc2ad83e01b75663a516279c8b9d243b719643e"

/* Memory of `len` bytes that stands among others. All of them are compared: only a digest may be new. */
static void digest_into(size_t len, const uint8_t *pages, size_t pages_len, uint32_t answer, const char *digest)
{
    enum { BEFORE = 16, ALL = 128 };
    uint8_t memory[ALL], left[ALL];
    size_t i;

    for (i = 0; i < ALL; i++)
        memory[i] = left[i] = (uint8_t)(0xa5 ^ i);
    if (answer == 0)
        unhex(digest, left + BEFORE, BODUNKWA_DIGEST_BYTES);
    EXPECT(bodunkwa_digest(pages, pages_len, memory + BEFORE, len) == answer);
    EXPECT(memcmp(memory, left, ALL) == 0);
}

static void known_digests(void)
{
    static const struct {
        const char *pages, *digest;
    } known[] = {
        {"", EMPTY},
        {"abc", "ba7816bf8f01cfea414140de5dae2223b00361a396177a9cb410ff61f20015ad"},
        {"abcdbcdecdefdefgefghfghighijhijkijkljklmklmnlmnomnopnopq",
         "248d6a61d20638b8e5c026930c3e6039a33ce45964ff2167f6ecedd419db06c1"},
        {"spring", SPRING},
    };
    size_t i;

    for (i = 0; i < sizeof known / sizeof known[0]; i++)
        digest_into(32, (const uint8_t *)known[i].pages, strlen(known[i].pages), 0, known[i].digest);
}

static void no_pages(void)
{
    digest_into(32, NULL, 0, 0, EMPTY);
    digest_into(31, NULL, 0, BODUNKWA_MEMORY_TOO_SMALL, NULL);
    EXPECT(bodunkwa_digest(NULL, 0, NULL, 0) == 15);
}

static void memory_lengths(void)
{
    const uint8_t *pages = (const uint8_t *)"spring";
    size_t len;

    digest_into(31, pages, 6, 15, NULL);
    digest_into(32, pages, 6, 0, SPRING);
    digest_into(33, pages, 6, 0, SPRING);
    for (len = 0; len <= 100; len++)
        digest_into(len, pages, 6, len < 32 ? BODUNKWA_MEMORY_TOO_SMALL : 0, SPRING);
    EXPECT(bodunkwa_digest(pages, 6, NULL, 0) == 15);
}

static void page_bound(void)
{
    const size_t most = 16777216;
    struct fenced pages = fence(most, LAST), more = fence(most + 1, LAST);

    EXPECT(most == BODUNKWA_MOST_PAGES);
    digest_into(32, pages.at, most, 0, ZEROS);
    digest_into(33, pages.at, most, 0, ZEROS);
    digest_into(31, pages.at, most, 15, NULL);
    digest_into(32, more.at, most + 1, 7, NULL);
    digest_into(33, more.at, most + 1, BODUNKWA_PAGES_TOO_LONG, NULL);
    /* 7 comes before 15 */
    digest_into(31, more.at, most + 1, 7, NULL);
    digest_into(0, more.at, most + 1, 7, NULL);
    EXPECT(bodunkwa_digest(more.at, most + 1, NULL, 0) == 7);
    unfence(pages);
    unfence(more);
}

/* The digest reads no byte outside the pages and writes none outside the memory, at lengths around some blocks. */
static void digest_fences(enum side side)
{
    struct fenced memory = fence(BODUNKWA_DIGEST_BYTES, side);
    struct fenced small = fence(BODUNKWA_DIGEST_BYTES - 1, side);
    uint8_t bytes[260], digest[BODUNKWA_DIGEST_BYTES];
    size_t i, len;

    for (i = 0; i < sizeof bytes; i++)
        bytes[i] = (uint8_t)(37 * i + 11);
    for (len = 0; len <= sizeof bytes; len++) {
        struct fenced pages = fence_copy(bytes, len, side);

        EXPECT(bodunkwa_digest(bytes, len, digest, sizeof digest) == 0);
        EXPECT(bodunkwa_digest(pages.at, len, memory.at, BODUNKWA_DIGEST_BYTES) == 0);
        EXPECT(memcmp(memory.at, digest, sizeof digest) == 0);
        EXPECT(bodunkwa_digest(pages.at, len, small.at, BODUNKWA_DIGEST_BYTES - 1) == 15);
        unfence(pages);
    }
    unfence(memory);
    unfence(small);
}

/* Stamps by Python: hmac.new(key, statement, "sha256").hexdigest() */
struct vector {
    const char *key, *statement, *stamp;
};

/* Zeros after a key do not change its stamps, so with a last byte of 0 no length but 32 is told by the stamp. */
#define KEY "1f1e1d1c1b1a191817161514131211100f0e0d0c0b0a09080706050403020100"
#define STATEMENT "02000001622a494d3ea8c7ba2fed4f37909f14d9b50ab412322de39be62c8d6c2418bfca"
#define STAMP "d213c702e246c46be0b76f04da5e18ff5ed0d1141037d3a60305f0d296baf7a0"

static const struct vector stamps[] = {
    {KEY, STATEMENT, STAMP},
    {"030a11181f262d343b424950575e656c737a81888f969da4abb2b9c0c7ced5dc",
     "c8d3dee9f4ff0a15202b36414c57626d78838e99a4afbac5d0dbe6f1fc07121d28333e49",
     "7a0e6fb8fa39cf7f19c9998a061640c1b801cf4d125817da72d7fb024b7cce12"},
    {"ffffffffffffffffffffffffffffffffffffffffffffffffffffffffffffffff",
     "000000000000000000000000000000000000000000000000000000000000000000000000",
     "690034bdc49d34227cf7d59be1fb4e167d94956d5df16568ab4ea8433e85971e"},
};

/* Right stamps of statements of wrong lengths under KEY: STATEMENT's first 35 bytes, STATEMENT with a zero, no bytes. */
#define STAMP_35 "7823a6c5e6a2fd5003c4837ca0c3263162b43f5db3ecfdbe7b124725f998e22a"
#define STAMP_37 "9be0ad34ed550731bd5d12b944e43b9fad1b38964902785f0c7ffe9a6c5b01fe"
#define STAMP_0 "7d1f28319279f17da8841c15fa2db696d5b86c97b56cfada49e83f9d5480fd27"

/* A key, a statement and a stamp, with room for more bytes after each; those are zeros. */
struct stamped {
    uint8_t key[80], statement[80], stamp[80];
};

static struct stamped stamped_by(struct vector v)
{
    struct stamped s;

    memset(&s, 0, sizeof s);
    unhex(v.key, s.key, BODUNKWA_KEY_BYTES);
    unhex(v.statement, s.statement, BODUNKWA_STATEMENT_BYTES);
    unhex(v.stamp, s.stamp, BODUNKWA_STAMP_BYTES);
    return s;
}

static uint32_t checks(const struct stamped *s)
{
    return bodunkwa_stamp_checks(s->key, 32, s->statement, 36, s->stamp, 32);
}

/* Each bit of the bytes, turned alone, makes the stamp fail. */
static void flips(const struct stamped *s, uint8_t *bytes, size_t len)
{
    size_t i;
    int bit;

    for (i = 0; i < len; i++) {
        for (bit = 0; bit < 8; bit++) {
            bytes[i] ^= (uint8_t)(1 << bit);
            EXPECT(checks(s) == 0);
            bytes[i] ^= (uint8_t)(1 << bit);
        }
    }
    EXPECT(checks(s) == 1);
}

static void known_stamps(void)
{
    size_t i;

    for (i = 0; i < sizeof stamps / sizeof stamps[0]; i++) {
        struct stamped s = stamped_by(stamps[i]);

        EXPECT(checks(&s) == 1);
        flips(&s, s.stamp, 32);
        flips(&s, s.statement, 36);
        flips(&s, s.key, 32);
    }
}

static void stamp_lengths(void)
{
    const struct stamped s = stamped_by(stamps[0]);
    uint8_t other[BODUNKWA_STAMP_BYTES];
    size_t len;

    for (len = 0; len <= 80; len++) {
        EXPECT(bodunkwa_stamp_checks(s.key, len, s.statement, 36, s.stamp, 32) == (len == 32));
        EXPECT(bodunkwa_stamp_checks(s.key, 32, s.statement, len, s.stamp, 32) == (len == 36));
        EXPECT(bodunkwa_stamp_checks(s.key, 32, s.statement, 36, s.stamp, len) == (len == 32));
    }
    unhex(STAMP_35, other, sizeof other);
    EXPECT(bodunkwa_stamp_checks(s.key, 32, s.statement, 35, other, 32) == 0);
    unhex(STAMP_37, other, sizeof other);
    EXPECT(bodunkwa_stamp_checks(s.key, 32, s.statement, 37, other, 32) == 0);
    unhex(STAMP_0, other, sizeof other);
    EXPECT(bodunkwa_stamp_checks(s.key, 32, NULL, 0, other, 32) == 0);
    EXPECT(bodunkwa_stamp_checks(NULL, 0, s.statement, 36, s.stamp, 32) == 0);
    EXPECT(bodunkwa_stamp_checks(s.key, 32, NULL, 0, s.stamp, 32) == 0);
    EXPECT(bodunkwa_stamp_checks(s.key, 32, s.statement, 36, NULL, 0) == 0);
    EXPECT(bodunkwa_stamp_checks(NULL, 0, NULL, 0, NULL, 0) == 0);
}

/* No byte outside the three is read, and none of them is written. */
static void stamp_fences(enum side side)
{
    const struct stamped s = stamped_by(stamps[0]);
    size_t key_len, statement_len, stamp_len;

    for (key_len = 31; key_len <= 33; key_len++) {
        for (statement_len = 35; statement_len <= 37; statement_len++) {
            for (stamp_len = 31; stamp_len <= 33; stamp_len++) {
                struct fenced key = fence_copy(s.key, key_len, side);
                struct fenced statement = fence_copy(s.statement, statement_len, side);
                struct fenced stamp = fence_copy(s.stamp, stamp_len, side);
                const int right = key_len == 32 && statement_len == 36 && stamp_len == 32;

                EXPECT(bodunkwa_stamp_checks(key.at, key_len, statement.at, statement_len, stamp.at, stamp_len) ==
                       (uint32_t)right);
                unfence(key);
                unfence(statement);
                unfence(stamp);
            }
        }
    }
}

int main(void)
{
    known_digests();
    no_pages();
    memory_lengths();
    page_bound();
    digest_fences(FIRST);
    digest_fences(LAST);
    known_stamps();
    stamp_lengths();
    stamp_fences(FIRST);
    stamp_fences(LAST);
    return failures == 0 ? 0 : 1;
}
