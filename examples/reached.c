/* What sales may say of a scheme: how likely a chamber is to have stood in
 * class 1 at least once, by each year to the horizon, low and high, in parts
 * of 1,000,000,000. Example A where no file is named. */
#include <stdio.h>
#include "joguyvi.h"

/* The most bytes that a record has, the class asked for, and the cause of a year past the horizon. */
#define RECORD_MOST 455
#define CLASS 1
#define YEAR_OUT 12

int main(int argc, char **argv)
{
    uint8_t bytes[RECORD_MOST + 1];
    uint64_t out[2] = {0, 0};
    const char *name = argc > 1 ? argv[1] : "examples/example-a.record";
    FILE *file = fopen(name, "rb");
    if (file == NULL) {
        perror(name);
        return 2;
    }
    size_t length = fread(bytes, 1, sizeof bytes, file);
    if (ferror(file)) {
        perror(name);
        return 2;
    }
    fclose(file);
    uint8_t number = 0;
    for (uint64_t year = 0; number == 0; year += 1) {
        number = joguyvi_reached(bytes, length, CLASS, year, out, 2);
        if (number == 0) {
            printf("YEAR %llu %llu %llu\n", (unsigned long long)year, (unsigned long long)out[0], (unsigned long long)out[1]);
        }
    }
    if (number != YEAR_OUT) {
        printf("REFUSED %u\n", (unsigned)number);
        return 1;
    }
    return 0;
}
