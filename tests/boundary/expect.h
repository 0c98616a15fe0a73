/* Facts that a test holds the archive to: each that fails is printed, and makes the test fail. */
#ifndef EXPECT_H
#define EXPECT_H

#include <stdio.h>

static int failures;

#define EXPECT(fact) \
    do { \
        if (!(fact)) { \
            printf("%s:%d: %s\n", __FILE__, __LINE__, #fact); \
            failures++; \
        } \
    } while (0)

#endif
