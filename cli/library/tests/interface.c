/* Calls everything of include/zs.h on the file that is named, and prints what each answers. C99, and C++11 as well. */
#include <stdio.h>
#include <string.h>

#include "zs.h"

enum { WORK = 4, OPENED = 4, RESULTS = 3, LIST = 16, OUTPUT = 200 };

static uint8_t file[65536], output[OUTPUT], archive[OUTPUT];
static size_t length;
static uint64_t work[WORK], opened[OPENED], results[RESULTS], list[LIST];

static void print_list(const char *name, const uint64_t *list, size_t places)
{
    printf("%s", name);
    for (size_t i = 0; i < places; i++)
        printf(" %llu", (unsigned long long)list[i]);
    printf("\n");
}

static void print_four(const char *name, uint64_t first, uint64_t second, uint64_t third, uint64_t fourth)
{
    const uint64_t fields[4] = {first, second, third, fourth};
    print_list(name, fields, 4);
}

static void print_checked(const char *name, struct zs_checked answer)
{
    print_four(name, answer.number, answer.place, answer.blocks, answer.records);
}

static void print_read(const char *name, struct zs_read_answer answer)
{
    print_four(name, answer.number, answer.place, answer.matches, 0);
}

static void print_found(const char *name, struct zs_found answer)
{
    print_four(name, answer.number, answer.place, answer.matches, answer.opened);
}

static void print_written(const char *name, struct zs_written answer)
{
    print_four(name, answer.number, answer.place, answer.length, 0);
}

static void print_compared(const char *name, struct zs_compared answer)
{
    print_four(name, answer.number, answer.place, answer.which, answer.differences);
    printf("sum %lld\n", (long long)answer.sum);
}

static void print_part(const char *name, struct zs_part part)
{
    print_four(name, part.offset, part.length, 0, 0);
}

/* The refusal, and the figures of the session. */
static zs_session print_stepped(const char *name, struct zs_stepped answer)
{
    const uint64_t fields[5] = {answer.number, answer.place, answer.session.records, answer.session.last, answer.session.next};
    print_list(name, fields, 5);
    return answer.session;
}

static void print_shown(const char *name, struct zs_shown part)
{
    print_four(name, part.which, part.offset, part.length, 0);
}

/* Numbers that a call has to overwrite. */
static void fill_lists(void)
{
    memset(work, 7, sizeof work);
    memset(opened, 7, sizeof opened);
    memset(results, 7, sizeof results);
    memset(list, 7, sizeof list);
}

/* The records that begin with `b`. */
static void call_all(void)
{
    const uint8_t prefix[1] = {'b'};
    fill_lists();
    print_checked("check", zs_check(file, length, work, WORK));
    print_list("work", work, WORK);

    print_read("read", zs_read(file, length, NULL, 0, false, NULL, 0, prefix, 1, results, RESULTS));
    print_list("results", results, RESULTS);

    fill_lists();
    print_found("search", zs_search(file, length, NULL, 0, false, NULL, 0, prefix, 1, opened, OPENED, results, RESULTS));
    print_list("opened", opened, OPENED);
    print_list("results", results, RESULTS);

    zs_part first = zs_unpack(results[0]);
    print_part("first", first);
    print_part("record", zs_record(file, length, first.offset, first.length));
    print_four("within", zs_within(file, length, length, 0), zs_within(file, length, length, 1), 0, 0);

    zs_part metadata = zs_metadata(file, length);
    print_part("metadata", metadata);
    print_four("is metadata", zs_is_metadata(file + metadata.offset, (size_t)metadata.length), zs_is_metadata((const uint8_t *)"{}", 2),
               zs_is_metadata((const uint8_t *)"{oops}", 6), zs_is_metadata((const uint8_t *)"{}", 1));
}

/* Writes the records of the example, two in a data block, into so many bytes, and prints the answer and how many bytes after the file
 * aren't zeros. */
static zs_written call_write(size_t room)
{
    const uint8_t metadata[2] = {'{', '}'};
    const uint8_t records[10] = {1, 'a', 2, 'b', 0xff, 2, 'b', 0xff, 1, 'c'};
    memset(output, 7, sizeof output);
    zs_written answer = zs_write(metadata, sizeof metadata, records, sizeof records, 2, 2, output, room);
    uint64_t behind = 0;
    for (size_t i = (size_t)answer.length; i < room; i++)
        behind += output[i] != 0;
    print_four("write", answer.number, answer.place, answer.length, behind);
    return answer;
}

/* A file that is written, compared with the one that is named, checked and read back, and one that finds no room. */
static void write_and_read(void)
{
    size_t written = (size_t)call_write(OUTPUT).length;
    print_four("the file", written == length && memcmp(output, file, length) == 0, 0, 0, 0);
    print_checked("check", zs_check(output, written, work, WORK));
    fill_lists();
    print_read("read", zs_read(output, written, (const uint8_t *)"b", 1, false, NULL, 0, NULL, 0, results, RESULTS));
    print_list("results", results, RESULTS);
    call_write(written - 1);
}

/* Imports a dump of so many bytes into as many as are given, and prints the answer and how many bytes after the records aren't zeros. */
static zs_written call_import(const uint8_t *dump, size_t dump_len, uint64_t name_length, size_t room)
{
    memset(output, 7, sizeof output);
    zs_written answer = zs_import_sim(dump, dump_len, name_length, output, room);
    uint64_t behind = 0;
    for (size_t i = (size_t)answer.length; i < room; i++)
        behind += output[i] != 0;
    print_four("import", answer.number, answer.place, answer.length, behind);
    return answer;
}

/* A phonebook with the names `b` and `a` and a free record between them: imported, and made an archive that is checked; then refused. */
static void import_and_check(void)
{
    uint8_t dump[3 * 16];
    memset(dump, 0xff, sizeof dump);
    dump[0] = 'b';
    dump[2] = 11;
    dump[32] = 'a';
    dump[34] = 0;
    size_t imported = (size_t)call_import(dump, sizeof dump, 2, OUTPUT).length;
    print_four("names", output[1], output[2], output[17], output[18]);
    zs_written written = zs_write((const uint8_t *)"{}", 2, output, imported, 1, 2, archive, OUTPUT);
    print_written("write", written);
    print_checked("check", zs_check(archive, (size_t)written.length, work, WORK));
    call_import(dump, sizeof dump, 2, imported);
    call_import(dump, sizeof dump, 2, imported - 1);
    call_import(dump, sizeof dump, 3, OUTPUT);
    call_import(dump, sizeof dump, 242, OUTPUT);
    dump[34] = 12;
    call_import(dump, sizeof dump, 2, OUTPUT);
    dump[33] = 0x80;
    call_import(dump, sizeof dump, 2, OUTPUT);
}

/* The stores of the example, which is written again, and one more than there are: carried out on an empty file, they give the example, whose
 * header and blocks are there before its magic. Then what has no stores: a refused output, one byte less than a header, and no magic. */
static void call_store(void)
{
    size_t written = (size_t)call_write(OUTPUT).length;
    memset(archive, 0, sizeof archive);
    for (uint64_t i = 0; i <= 4; i++) {
        zs_part part = zs_store(output, written, i);
        print_part("store", part);
        if (i == 3)
            print_four("unfinished", memcmp(archive, zs_unfinished, 8) == 0, memcmp(archive + 8, file + 8, length - 8) == 0, 0, 0);
        memcpy(archive + part.offset, i == 0 ? zs_unfinished : output + part.offset, (size_t)part.length);
    }
    print_four("the file", memcmp(archive, file, length) == 0, zs_check(archive, length, work, WORK).number, 0, 0);
    print_checked("unfinished", zs_check(zs_unfinished, 8, work, WORK));
    print_part("cut header", zs_store(output, 105, 0));
    print_part("no block", zs_store(output, 106, 1));
    print_part("no magic", zs_store(output + 1, written - 1, 0));
    zs_written refused = call_write(written - 1);
    for (uint64_t i = 0; i <= 4; i++) {
        print_part("refused", zs_store(output, (size_t)refused.length, i));
        print_part("refused", zs_store(output, written - 1, i));
    }
}

/* Compares the example with a file in which one record is stored once more, one isn't and one is new, and the other way about. Then what the
 * three numbers of a record lead to, refusals of either file, and lists that are too short. */
static void call_compare(void)
{
    const uint8_t records[12] = {1, 'a', 1, 'a', 2, 'b', 0xff, 2, 'b', 0xff, 1, 'd'};
    size_t other = (size_t)zs_write((const uint8_t *)"{}", 2, records, sizeof records, 3, 2, archive, OUTPUT).length;
    fill_lists();
    print_compared("compare", zs_compare(archive, other, file, length, work, WORK, list, LIST));
    print_list("list", list, LIST);
    print_list("work", work, WORK);
    fill_lists();
    print_compared("compare", zs_compare(file, length, archive, other, work, WORK, list, LIST));
    print_list("list", list, LIST);
    for (size_t i = 0; i < 15; i += 5) {
        zs_shown part = zs_show(file, length, archive, other, list[i], list[i + 1], list[i + 2]);
        print_shown("show", part);
        printf("record %c\n", (part.which == 1 ? file : archive)[part.offset]);
    }
    print_shown("show", zs_show(file, length, archive, other, 0, 0, 1));
    print_shown("show", zs_show(file, length, archive, other, 3, 0, 1));
    print_shown("show", zs_show(file, length, archive, other, 2, other, 0));
    print_shown("show", zs_show(file, length, archive, other, 2, other, 1));

    print_compared("compare", zs_compare(file, length, file, length, work, WORK, list, 0));
    print_compared("compare", zs_compare(file, length - 1, archive, other - 1, work, WORK, list, LIST));
    print_compared("compare", zs_compare(file, length, archive, other - 1, work, WORK, list, LIST));
    print_compared("compare", zs_compare(file, length, archive, other, work, 2, list, LIST));
    print_compared("compare", zs_compare(file, length, archive, other, work, 3, list, 15));
    fill_lists();
    print_compared("compare", zs_compare(file, length, archive, other, work, WORK, list, 14));
    print_list("list", list, 14);
}

/* Adds the records of the example one by one, in an output that begins with room for the header alone and is lengthened by zeros; among these
 * steps some that are refused. */
static void call_session(void)
{
    const char *records[4] = {"a", "b\xff", "b\xff", "c"};
    const uint8_t *metadata = (const uint8_t *)"{}";
    memset(output, 7, sizeof output);
    zs_session session = zs_session_afresh(output, 105);
    session = print_stepped("begin", zs_session_begin(session, metadata, 2, 0, 2, output, 105));
    session = print_stepped("begin", zs_session_begin(session, metadata, 1, 2, 2, output, 105));
    session = print_stepped("begin", zs_session_begin(session, metadata, 2, 2, 2, output, 105));
    memset(output + 105, 0, sizeof output - 105);
    session = print_stepped("begin", zs_session_begin(session, metadata, 2, 2, 2, output, 106));
    session = print_stepped("begin", zs_session_begin(session, metadata, 2, 2, 2, output, 106));
    session = print_stepped("close", zs_session_close(session, output, 106));
    session = print_stepped("finish", zs_session_finish(session, output, 106));
    session = print_stepped("add", zs_session_add(session, (const uint8_t *)"a", 1, output, 117));
    for (size_t i = 0; i < 4; i++)
        session = print_stepped("add", zs_session_add(session, (const uint8_t *)records[i], strlen(records[i]), output, OUTPUT));
    session = print_stepped("add", zs_session_add(session, (const uint8_t *)"b", 1, output, OUTPUT));
    session = print_stepped("close", zs_session_close(session, output, OUTPUT));
    session = print_stepped("close", zs_session_close(session, output, OUTPUT));
    print_checked("unfinished", zs_check(output, (size_t)session.next, work, WORK));
    session = print_stepped("finish", zs_session_finish(session, output, 153));
    session = print_stepped("finish", zs_session_finish(session, output, OUTPUT));
    session = print_stepped("finish", zs_session_finish(session, output, OUTPUT));
    session = print_stepped("add", zs_session_add(session, (const uint8_t *)"c", 1, output, OUTPUT));
    print_four("the file", session.next == length && memcmp(output, file, length) == 0, 0, 0, 0);
}

/* Every pointer is NULL once. */
static void call_with_null(void)
{
    fill_lists();
    print_checked("null file", zs_check(NULL, 0, work, WORK));
    print_list("work", work, WORK);
    print_read("null file", zs_read(NULL, 0, NULL, 0, true, NULL, 0, NULL, 0, NULL, 0));
    print_found("null file", zs_search(NULL, 0, NULL, 0, true, NULL, 0, NULL, 0, NULL, 0, NULL, 0));
    print_part("null file", zs_record(NULL, 0, 0, 0));
    print_four("null file", zs_within(NULL, 0, 0, 0), zs_within(NULL, 0, 0, 1), 0, 0);
    print_part("null file", zs_metadata(NULL, 0));

    print_checked("null work", zs_check(file, length, NULL, 0));
    print_read("null stop", zs_read(file, length, NULL, 0, true, NULL, 0, NULL, 0, NULL, 0));
    print_found("null stop", zs_search(file, length, NULL, 0, true, NULL, 0, NULL, 0, opened, OPENED, NULL, 0));
    print_read("null results", zs_read(file, length, NULL, 0, false, NULL, 0, NULL, 0, NULL, 0));
    print_found("null results", zs_search(file, length, NULL, 0, false, NULL, 0, NULL, 0, opened, OPENED, NULL, 0));
    print_found("null opened", zs_search(file, length, NULL, 0, false, NULL, 0, NULL, 0, NULL, 0, results, RESULTS));

    print_four("null metadata", zs_is_metadata(NULL, 0), 0, 0, 0);
    print_written("null metadata", zs_write(NULL, 0, file, 0, 1, 2, output, OUTPUT));
    print_written("null records", zs_write((const uint8_t *)"{}", 2, NULL, 0, 1, 2, output, OUTPUT));
    print_written("null output", zs_write((const uint8_t *)"{}", 2, (const uint8_t *)"", 1, 1, 2, NULL, 0));
    print_written("null all", zs_write(NULL, 0, NULL, 0, 0, 2, NULL, 0));

    print_written("null dump", zs_import_sim(NULL, 0, 241, output, OUTPUT));
    print_written("null output", zs_import_sim((const uint8_t *)"\013 91234567890 ", 14, 0, NULL, 0));
    print_written("null all", zs_import_sim(NULL, 0, 242, NULL, 0));

    for (uint64_t i = 0; i <= 4; i++)
        print_part("null file", zs_store(NULL, 0, i));

    print_compared("null first", zs_compare(NULL, 0, file, length, work, WORK, list, LIST));
    print_compared("null second", zs_compare(file, length, NULL, 0, work, WORK, list, LIST));
    print_compared("null work", zs_compare(file, length, file, length, NULL, 0, list, LIST));
    print_compared("null list", zs_compare(file, length, file, length, work, WORK, NULL, 0));
    print_compared("null all", zs_compare(NULL, 0, NULL, 0, NULL, 0, NULL, 0));
    print_shown("null first", zs_show(NULL, 0, file, length, 1, 0, 0));
    print_shown("null second", zs_show(file, length, NULL, 0, 2, 0, 0));
    print_shown("null second", zs_show(file, length, NULL, 0, 2, 0, 1));

    zs_session session = zs_session_afresh(NULL, 0);
    session = print_stepped("null metadata", zs_session_begin(session, NULL, 0, 1, 2, output, OUTPUT));
    session = print_stepped("null output", zs_session_begin(session, (const uint8_t *)"{}", 2, 1, 2, NULL, 0));
    session = print_stepped("null record", zs_session_add(session, NULL, 0, NULL, 0));
    session = print_stepped("null output", zs_session_close(session, NULL, 0));
    session = print_stepped("null output", zs_session_finish(session, NULL, 0));
    session = zs_session_afresh(output, OUTPUT);
    session = print_stepped("begin", zs_session_begin(session, (const uint8_t *)"{}", 2, 1, 2, output, OUTPUT));
    print_stepped("null record", zs_session_add(session, NULL, 0, output, OUTPUT));
}

/* Version, and the refusals of a file without its last byte and of a short list by their names. */
static void print_words(void)
{
    printf("version %s\n", ZS_VERSION);
    zs_checked cut = zs_check(file, length - 1, work, WORK);
    zs_checked full = zs_check(file, length, work, 1);
    enum zs_refusal named = ZS_WORK_LIST_SHORT;
    printf("names %d %d\n", cut.number == ZS_FILE_LENGTH, full.number == (uint64_t)named);
    for (uint64_t number = ZS_OK; number <= ZS_DIFFERENCE_LIST_SHORT + 1; number++)
        printf("message %llu %s\n", (unsigned long long)number, zs_message(number));
}

int main(int count, char **words)
{
    FILE *stored = count == 2 ? fopen(words[1], "rb") : NULL;
    if (!stored)
        return 2;
    length = fread(file, 1, sizeof file, stored);
    fclose(stored);
    call_all();
    write_and_read();
    import_and_check();
    call_store();
    call_compare();
    call_session();
    call_with_null();
    print_words();
    return 0;
}
