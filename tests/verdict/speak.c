// Answers the verdict requests of the stream that tests/README.md describes with the proved library.
#include "zarpalume.h"

#include <stdio.h>
#include <stdlib.h>
#include <string.h>

static uint64_t number(int bytes) {
    uint64_t value = 0;
    for (int i = 0; i < bytes; i++) {
        int byte = getchar();
        if (byte == EOF) {
            exit(2);
        }
        value |= (uint64_t)byte << (8 * i);
    }
    return value;
}

static void put_number(uint64_t value, int bytes) {
    for (int i = 0; i < bytes; i++) {
        putchar((int)(value >> (8 * i) & 255));
    }
}

int main(void) {
    for (int letter = getchar(); letter != EOF; letter = getchar()) {
        if (letter != 'V') {
            return 2;
        }
        size_t sheet_length = number(4);
        // One byte more: a pointer to nothing is not lent.
        uint8_t *sheet = malloc(sheet_length + 1);
        if (!sheet || fread(sheet, 1, sheet_length, stdin) != sheet_length) {
            return 2;
        }
        size_t verdict_length = number(4);
        uint8_t *verdict = malloc(verdict_length + 1);
        if (!verdict) {
            return 2;
        }
        memset(verdict, 0xA5, verdict_length + 1);
        size_t length = zarpalume_verdict(sheet, sheet_length, verdict, verdict_length);
        if (verdict[verdict_length] != 0xA5) {
            return 3;
        }
        put_number(length, 8);
        put_number(verdict_length, 4);
        fwrite(verdict, 1, verdict_length, stdout);
        free(sheet);
        free(verdict);
    }
    return 0;
}
