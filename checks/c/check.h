/* What a test holds to be so. */
#ifndef CHECK_H
#define CHECK_H

#include <stdio.h>
#include <stdlib.h>

#define CHECK(holds)                                                      \
    do {                                                                  \
        if (!(holds)) {                                                   \
            printf("%s:%d: this does not hold: %s\n", __FILE__, __LINE__, #holds); \
            exit(1);                                                      \
        }                                                                 \
    } while (0)

#endif
