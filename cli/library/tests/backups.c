/* An example of the library in use: compares two files of up to 1 MiB, and prints the records that they hold a different number of times, each
 * with its copies in both.
 *
 *   backups OLDER NEWER
 */
#include <stdio.h>
#include <stdlib.h>

#include "zs.h"

enum { LONGEST = 1 << 20 };

/* A list of so many places. */
static uint64_t *list(uint64_t places)
{
    uint64_t *numbers = (uint64_t *)malloc(places > 0 ? places * sizeof *numbers : 1);
    if (!numbers)
        exit(2);
    return numbers;
}

static size_t load(const char *name, uint8_t *file)
{
    FILE *stored = fopen(name, "rb");
    if (!stored)
        exit(2);
    size_t length = fread(file, 1, LONGEST, stored);
    fclose(stored);
    return length;
}

static void refuse(const char *name, uint64_t number, uint64_t place)
{
    fprintf(stderr, "%s: refused %llu at %llu: %s\n", name, (unsigned long long)number, (unsigned long long)place, zs_message(number));
    exit(1);
}

/* A list that is too short is refused, and the call is made again with a longer one. One of five places for each record is long enough. */
static zs_compared compare(const uint8_t *older, size_t older_len, const uint8_t *newer, size_t newer_len, uint64_t **differences)
{
    size_t longer = older_len > newer_len ? older_len : newer_len;
    uint64_t *work = list(longer / 11), places = 5 * 100;
    *differences = list(places);
    zs_compared answer = zs_compare(older, older_len, newer, newer_len, work, longer / 11, *differences, places);
    while (answer.number == ZS_DIFFERENCE_LIST_SHORT) {
        places *= 8;
        free(*differences);
        *differences = list(places);
        answer = zs_compare(older, older_len, newer, newer_len, work, longer / 11, *differences, places);
    }
    free(work);
    return answer;
}

int main(int count, char **words)
{
    static uint8_t older[LONGEST], newer[LONGEST];
    if (count != 3)
        return 2;
    size_t older_len = load(words[1], older), newer_len = load(words[2], newer);
    uint64_t *differences;
    zs_compared answer = compare(older, older_len, newer, newer_len, &differences);
    if (answer.number != ZS_OK)
        refuse(words[answer.which], answer.number, answer.place);
    for (uint64_t i = 0; i < answer.differences; i++) {
        const uint64_t *found = differences + 5 * i;
        zs_shown part = zs_show(older, older_len, newer, newer_len, found[0], found[1], found[2]);
        printf("%llu %llu ", (unsigned long long)found[3], (unsigned long long)found[4]);
        fwrite((part.which == 1 ? older : newer) + part.offset, 1, (size_t)part.length, stdout);
        printf("\n");
    }
    printf("%lld records more\n", (long long)answer.sum);
    free(differences);
    return 0;
}
