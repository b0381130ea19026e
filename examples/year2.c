/* Prints the shares, the mean premium and the total of year 2 of a record,
 * low and high: Example A where no file is named. */
#include <stdio.h>
#include "joguyvi.h"

/* The most bytes that a record has. */
#define RECORD_MOST 455

/* The year asked for. */
#define YEAR 2

/* Prints a line, or the cause for which the call was declined; answers 1 for a cause. */
static int line(const char *word, uint8_t number, const uint64_t *out)
{
    if (number != 0) {
        printf("%s REFUSED %u\n", word, (unsigned)number);
        return 1;
    }
    printf("%s %llu %llu\n", word, (unsigned long long)out[0], (unsigned long long)out[1]);
    return 0;
}

int main(int argc, char **argv)
{
    uint8_t bytes[RECORD_MOST + 1];
    uint64_t out[2] = {0, 0};
    char word[32];
    const char *name = argc > 1 ? argv[1] : "examples/example-a.record";
    FILE *file = fopen(name, "rb");
    if (file == NULL) {
        perror(name);
        return 2;
    }
    size_t length = fread(bytes, 1, sizeof bytes, file);
    if (ferror(file)) {
        perror(name);
        return 2;
    }
    fclose(file);
    int causes = line("TOTAL", joguyvi_total(bytes, length, YEAR, out, 2), out);
    causes += line("PREMIUM", joguyvi_mean(bytes, length, YEAR, out, 2), out);
    for (uint64_t j = 1; length > 3 && j <= bytes[3]; j++) {
        snprintf(word, sizeof word, "CLASS %u", (unsigned)j);
        causes += line(word, joguyvi_share(bytes, length, j, YEAR, out, 2), out);
    }
    return causes != 0;
}
