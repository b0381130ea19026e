/* A dealer opens with chambers already in several classes, and takes over
 * those of another: joins the two books, and prints the mean premium, the
 * total and the share of class 1 of year 2, pooled over all chambers, low and
 * high. Example A where no file is named. */
#include <stdio.h>
#include "joguyvi.h"

/* The most bytes that a record has, the counts of a book, the year asked for. */
#define RECORD_MOST 455
#define BOOK_COUNTS 32
#define YEAR 2

/* Prints a line, or the cause for which the call was declined; answers 1 for a cause. */
static int line(const char *word, uint8_t number, const uint64_t *out)
{
    if (number != 0) {
        printf("%s REFUSED %u\n", word, (unsigned)number);
        return 1;
    }
    printf("%s %llu %llu\n", word, (unsigned long long)out[0], (unsigned long long)out[1]);
    return 0;
}

int main(int argc, char **argv)
{
    /* The count of class i stands at i - 1: here of the classes 1, 2 and 10, and of 2, 10 and 14. */
    static const uint32_t own[BOOK_COUNTS] = {30, 12, 0, 0, 0, 0, 0, 0, 0, 8};
    static const uint32_t taken[BOOK_COUNTS] = {0, 5, 0, 0, 0, 0, 0, 0, 0, 20, 0, 0, 0, 2};
    uint32_t book[BOOK_COUNTS] = {0};
    uint8_t bytes[RECORD_MOST + 1];
    uint64_t out[2] = {0, 0};
    const char *name = argc > 1 ? argv[1] : "examples/example-a.record";
    FILE *file = fopen(name, "rb");
    if (file == NULL) {
        perror(name);
        return 2;
    }
    size_t length = fread(bytes, 1, sizeof bytes, file);
    if (ferror(file)) {
        perror(name);
        return 2;
    }
    fclose(file);
    uint8_t number = joguyvi_join(own, BOOK_COUNTS, taken, BOOK_COUNTS, book, BOOK_COUNTS);
    if (number != 0) {
        printf("JOIN REFUSED %u\n", (unsigned)number);
        return 1;
    }
    int causes = line("PREMIUM", joguyvi_pooled_mean(bytes, length, book, BOOK_COUNTS, YEAR, out, 2), out);
    causes += line("TOTAL", joguyvi_pooled_total(bytes, length, book, BOOK_COUNTS, YEAR, out, 2), out);
    causes += line("CLASS 1", joguyvi_pooled_share(bytes, length, book, BOOK_COUNTS, 1, YEAR, out, 2), out);
    return causes != 0;
}
