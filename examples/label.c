/* Writes a record as the label on a chamber's door, in version 2, to standard
 * output; or in the version that is named: label RECORD [VERSION]. Example A
 * where no file is named. */
#include <stdio.h>
#include <stdlib.h>
#include "joguyvi.h"

/* The most bytes that a record has. */
#define RECORD_MOST 455

int main(int argc, char **argv)
{
    uint8_t bytes[RECORD_MOST + 1], out[RECORD_MOST];
    uint64_t size[1] = {0};
    const char *name = argc > 1 ? argv[1] : "examples/example-a.record";
    char *end = NULL;
    uint64_t version = argc > 2 ? strtoull(argv[2], &end, 10) : 2;
    if (argc > 2 && (end == argv[2] || *end != '\0')) {
        fprintf(stderr, "%s is no version\n", argv[2]);
        return 2;
    }
    FILE *file = fopen(name, "rb");
    if (file == NULL) {
        perror(name);
        return 2;
    }
    size_t length = fread(bytes, 1, sizeof bytes, file);
    if (ferror(file)) {
        perror(name);
        return 2;
    }
    fclose(file);
    uint8_t number = joguyvi_rewrite(bytes, length, version, out, sizeof out, size, 1);
    if (number != 0) {
        fprintf(stderr, "REFUSED %u\n", (unsigned)number);
        return 1;
    }
    if (fwrite(out, 1, size[0], stdout) != size[0] || fflush(stdout) != 0) {
        perror("standard output");
        return 3;
    }
    return 0;
}
