/*
 * Jirvelko for hosts in C and C++.
 *
 * Link with libjirvelko.a; nothing else is needed. No call here allocates,
 * keeps a pointer after it returns, or has any state between two calls.
 */
#ifndef JIRVELKO_H
#define JIRVELKO_H

#include <stddef.h>
#include <stdint.h>

#ifdef __cplusplus
extern "C" {
#endif

/*
 * The verdict on a definition: cause 0 and place 0 where it is accepted,
 * otherwise the number of the refusal and its place (docs/refusals.md).
 */
typedef struct {
    uint32_t cause;
    uint32_t place;
} jirvelko_verdict;

/*
 * Checks a definition of `length` bytes.
 *
 * `bytes` is not null, also where `length` is 0, and `length` bytes can be
 * read there. They are not changed. The answer depends on the bytes alone.
 * 128 KiB of stack suffice (measured, not proved).
 */
jirvelko_verdict jirvelko_check_definition(const uint8_t *bytes, size_t length);

#ifdef __cplusplus
}
#endif

#endif
