/* What the examples in C share: standard input as a whole, and room. */
#ifndef INPUT_H
#define INPUT_H

#include <stdint.h>
#include <stdio.h>
#include <stdlib.h>

static void *room(size_t bytes) {
    void *p = malloc(bytes > 0 ? bytes : 1); /* never null, not for an empty list either */
    if (p == NULL) exit(1);
    return p;
}

static uint8_t *standard_input(size_t *length) {
    size_t space = 65536;
    uint8_t *input = (uint8_t *)room(space);
    *length = 0;
    for (;;) {
        size_t got = fread(input + *length, 1, space - *length, stdin);
        *length += got;
        if (got == 0) return input;
        if (*length == space) {
            input = (uint8_t *)realloc(input, space *= 2);
            if (input == NULL) exit(1);
        }
    }
}

#endif
