/* Tells whether long contracts may be sold on the scheme of a record: prints
 * the first count of years in which every class can go to every class, or
 * REFUSED and the cause, 16 where there is none to 1,024. Example A where no
 * file is named. */
#include <stdio.h>
#include "joguyvi.h"

/* The most bytes that a record has. */
#define RECORD_MOST 455

int main(int argc, char **argv)
{
    uint8_t bytes[RECORD_MOST + 1];
    uint64_t count[1] = {0};
    const char *name = argc > 1 ? argv[1] : "examples/example-a.record";
    FILE *file = fopen(name, "rb");
    if (file == NULL) {
        perror(name);
        return 2;
    }
    size_t length = fread(bytes, 1, sizeof bytes, file);
    if (ferror(file)) {
        perror(name);
        return 2;
    }
    fclose(file);
    uint8_t number = joguyvi_mixing(bytes, length, count, 1);
    if (number != 0) {
        printf("REFUSED %u\n", (unsigned)number);
        return 1;
    }
    printf("MIXES IN %llu YEARS\n", (unsigned long long)count[0]);
    return 0;
}
