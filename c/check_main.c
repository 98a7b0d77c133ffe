/*
 * Calls check from C.
 *   check_main          some sheets that are built in: the bytes in hexadecimal, and the answer
 *   check_main FILE     a sheet in hexadecimal on each line of the file, and on each line of the output its answer
 */
#include <inttypes.h>
#include <stdio.h>
#include <stdlib.h>
#include <string.h>

#include "raupsilo.h"

/* a line of a file of cases, with its end: a sheet has at most 130 bytes, and there is room for far more */
#define MOST_TEXT 4096

struct sheet {
    const char *hex;
    uint32_t expected;
};

static const struct sheet built_in[] = {
    {"01020107010000000300", 0},                             /* hold, and a within over it */
    {"01030101067f00007f0000000100", 0},                     /* a then over holds of 127 and 127 */
    {"01030101067f0000800000000100", 1026},                  /* .. of 127 and 128 */
    {"0103010104000000010000000100", 0},                     /* an either of unequal sides as the rule */
    {"010401010407000000010000000100000202", 1538},          /* .. and below a within */
    {"", 256},                                               /* no bytes */
    {"0101", 256},                                           /* a row without its bytes */
    {"010108000000", 512},                                   /* no such kind */
    {"010105000000", 768},                                   /* a not of itself */
    {"01020000000000000000", 1280},                          /* a row that no row names */
    {"1003010507ff0f00000000ffff01", 1537},                   /* a not below a within */
};

static int digit(char c)
{
    if (c >= '0' && c <= '9') {
        return c - '0';
    }
    if (c >= 'a' && c <= 'f') {
        return c - 'a' + 10;
    }
    if (c >= 'A' && c <= 'F') {
        return c - 'A' + 10;
    }
    return -1;
}

/* Check's answer for the sheet that the text is in hexadecimal; 0 if it is none, or there is no memory. */
static int answer(const char *text, size_t digits, uint32_t *result)
{
    size_t length = digits / 2;
    /* The block ends where the sheet ends, so that nothing that lies behind it can be read by accident. */
    uint8_t *block = malloc(length + 1);
    if (block == NULL || digits % 2 != 0) {
        free(block);
        return 0;
    }
    uint8_t *bytes = block + 1;
    for (size_t i = 0; i < length; i++) {
        int high = digit(text[2 * i]);
        int low = digit(text[2 * i + 1]);
        if (high < 0 || low < 0) {
            free(block);
            return 0;
        }
        bytes[i] = (uint8_t)(16 * high + low);
    }
    *result = check(bytes, length);
    free(block);
    return 1;
}

static int run_built_in(void)
{
    int status = EXIT_SUCCESS;
    for (size_t i = 0; i < sizeof built_in / sizeof built_in[0]; i++) {
        const struct sheet *sheet = &built_in[i];
        uint32_t result;
        if (!answer(sheet->hex, strlen(sheet->hex), &result)) {
            fprintf(stderr, "sheet %zu was not read\n", i);
            return EXIT_FAILURE;
        }
        printf("%s %" PRIu32 "\n", sheet->hex, result);
        if (result != sheet->expected) {
            fprintf(stderr, "%s: expected %" PRIu32 "\n", sheet->hex, sheet->expected);
            status = EXIT_FAILURE;
        }
    }
    return status;
}

static int run_file(const char *name)
{
    FILE *file = fopen(name, "r");
    if (file == NULL) {
        perror(name);
        return EXIT_FAILURE;
    }
    int status = EXIT_SUCCESS;
    static char line[MOST_TEXT];
    for (size_t number = 1; fgets(line, sizeof line, file) != NULL; number++) {
        size_t digits = strcspn(line, "\r\n");
        uint32_t result;
        if (digits + 1 == sizeof line || !answer(line, digits, &result)) {
            fprintf(stderr, "%s:%zu: not a sheet in hexadecimal\n", name, number);
            status = EXIT_FAILURE;
            break;
        }
        printf("%" PRIu32 "\n", result);
    }
    if (ferror(file)) {
        perror(name);
        status = EXIT_FAILURE;
    }
    fclose(file);
    return status;
}

int main(int argc, char **argv)
{
    if (argc > 2) {
        fprintf(stderr, "usage: %s [FILE]\n", argv[0]);
        return EXIT_FAILURE;
    }
    return argc == 2 ? run_file(argv[1]) : run_built_in();
}
