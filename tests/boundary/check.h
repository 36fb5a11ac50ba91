/* A check that ends the test where it is false, and is counted. */
#include <stdio.h>
#include <stdlib.h>

static long checks;

#define CHECK(test)                                                        \
    do {                                                                   \
        checks++;                                                          \
        if (!(test)) {                                                     \
            printf("%s: line %d: %s is false\n", __FILE__, __LINE__, #test); \
            exit(1);                                                       \
        }                                                                  \
    } while (0)
