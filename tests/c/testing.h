/* Shared by the tests that run hosts of the documents.  TEST is the name by
   which a test tells its failures. */
#ifndef TESTING_H
#define TESTING_H

#include <stdint.h>
#include <stdio.h>
#include <stdlib.h>

/* Random numbers that a seed fixes (xorshift64). */
static uint64_t random_state;

static uint32_t below(uint32_t bound)
{
    random_state ^= random_state << 13;
    random_state ^= random_state >> 7;
    random_state ^= random_state << 17;
    return (uint32_t)(random_state >> 32) % bound;
}

static void expect(int holds, const char *what)
{
    if (holds)
        return;
    fprintf(stderr, "%s: %s\n", TEST, what);
    exit(EXIT_FAILURE);
}

#endif
