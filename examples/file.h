/* A whole file in memory, for the examples. */
#ifndef FILE_H
#define FILE_H

#include <stdint.h>
#include <stdio.h>
#include <stdlib.h>

/* The bytes of a file, and how many they are: the caller frees them. NULL where it can't be read or memory is short. */
static uint8_t *whole_file(const char *path, size_t *length)
{
    FILE *file = fopen(path, "rb");
    if (file == NULL)
        return NULL;
    size_t capacity = 1u << 16;
    size_t count = 0;
    uint8_t *text = (uint8_t *)malloc(capacity);
    while (text != NULL) {
        count += fread(text + count, 1, capacity - count, file);
        if (count < capacity)
            break;
        uint8_t *more = capacity <= SIZE_MAX / 2 ? (uint8_t *)realloc(text, 2 * capacity) : NULL;
        if (more == NULL)
            free(text);
        text = more;
        capacity *= 2;
    }
    if (ferror(file)) {
        free(text);
        text = NULL;
    }
    fclose(file);
    *length = count;
    return text;
}

#endif
