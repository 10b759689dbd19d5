/* An example of the library in use: checks a file of up to 1 MiB, then prints its metadata and the records that begin with a prefix.
 *
 *   lookup FILE PREFIX
 */
#include <stdio.h>
#include <stdlib.h>
#include <string.h>

#include "zs.h"

/* A list of so many places. */
static uint64_t *list(uint64_t places)
{
    uint64_t *numbers = (uint64_t *)malloc(places > 0 ? places * sizeof *numbers : 1);
    if (!numbers)
        exit(2);
    return numbers;
}

static void refuse(uint64_t number, uint64_t place)
{
    fprintf(stderr, "refused %llu at %llu: %s\n", (unsigned long long)number, (unsigned long long)place, zs_message(number));
    exit(1);
}

static void print_part(const uint8_t *file, zs_part part)
{
    fwrite(file + part.offset, 1, (size_t)part.length, stdout);
    printf("\n");
}

/* The counts of the check are the lengths of lists that suffice for any search of the file. */
static void look_up(const uint8_t *file, size_t file_len, zs_checked checked, const char *prefix)
{
    uint64_t *opened = list(checked.blocks), *results = list(checked.records);
    zs_found found = zs_search(file, file_len, NULL, 0, false, NULL, 0, (const uint8_t *)prefix, strlen(prefix), opened,
                               checked.blocks, results, checked.records);
    if (found.number != ZS_OK)
        refuse(found.number, found.place);
    for (uint64_t i = 0; i < found.matches; i++)
        print_part(file, zs_unpack(results[i]));
    free(opened);
    free(results);
}

int main(int count, char **words)
{
    static uint8_t file[1 << 20];
    FILE *stored = count == 3 ? fopen(words[1], "rb") : NULL;
    if (!stored)
        return 2;
    size_t file_len = fread(file, 1, sizeof file, stored);
    fclose(stored);

    uint64_t *work = list(file_len / 11);
    zs_checked checked = zs_check(file, file_len, work, file_len / 11);
    free(work);
    if (checked.number != ZS_OK)
        refuse(checked.number, checked.place);
    print_part(file, zs_metadata(file, file_len));
    look_up(file, file_len, checked, words[2]);
    return 0;
}
