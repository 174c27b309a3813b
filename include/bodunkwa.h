/*
 * Bodunkwa for C: the digest of an edition's pages, and the check of a stamp.
 *
 * Link libbodunkwa.a; it needs nothing but the C library.
 *
 * A pointer and the length after it stand for that many bytes. They belong to the caller before,
 * during and after the call: nothing is kept, allocated or freed. Where the length is 0, the
 * pointer may be NULL. Any bytes and any lengths may be given. The functions share no state, so
 * that several threads may call them at once.
 */
#ifndef BODUNKWA_H
#define BODUNKWA_H

#include <stddef.h>
#include <stdint.h>

#ifdef __cplusplus
extern "C" {
#endif

/* The most bytes that the pages of an edition may have. */
#define BODUNKWA_MOST_PAGES 16777216

/* Lengths in bytes. */
#define BODUNKWA_DIGEST_BYTES 32
#define BODUNKWA_KEY_BYTES 32
#define BODUNKWA_STATEMENT_BYTES 36
#define BODUNKWA_STAMP_BYTES 32

/* Refusals of bodunkwa_digest. */
#define BODUNKWA_PAGES_TOO_LONG 7
#define BODUNKWA_MEMORY_TOO_SMALL 15

/*
 * Writes the digest of the pages, their SHA-256, to the first BODUNKWA_DIGEST_BYTES bytes of
 * `digest`. The bytes after those stay as they are.
 *
 * `pages` is only read. `digest` is written, and must not overlap `pages`.
 *
 * Returns 0 when the digest is written. Otherwise it returns the number of a refusal, and no byte
 * is written:
 *   BODUNKWA_PAGES_TOO_LONG     pages_len is above BODUNKWA_MOST_PAGES
 *   BODUNKWA_MEMORY_TOO_SMALL   digest_len is below BODUNKWA_DIGEST_BYTES
 * Where both are so, it is the first.
 */
uint32_t bodunkwa_digest(const uint8_t *pages, size_t pages_len, uint8_t *digest, size_t digest_len);

/*
 * Whether `stamp` is the stamp of the statement under the key, that is its HMAC-SHA-256.
 *
 * All three are only read, and may overlap. All bytes of the stamp are compared, also after the
 * first that differs.
 *
 * Returns 1 for yes and 0 for no. Every wrong length is a no: key_len other than
 * BODUNKWA_KEY_BYTES, statement_len other than BODUNKWA_STATEMENT_BYTES, stamp_len other than
 * BODUNKWA_STAMP_BYTES.
 */
uint32_t bodunkwa_stamp_checks(const uint8_t *key, size_t key_len, const uint8_t *statement,
                               size_t statement_len, const uint8_t *stamp, size_t stamp_len);

#ifdef __cplusplus
}
#endif

#endif
