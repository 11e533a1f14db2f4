/* Reads types and an import by tb_read_type and tb_read_import: a record at two grades, an import, bytes that are cut, and a name
 * that is not UTF-8. */
#include <stdio.h>
#include "tbaunarith.h"

/* A row of this many words has room for every item. */
#define WORDS 16384

static uint32_t row[WORDS];

/* The reply, and the words of an item. */
static void show(const char *what, tb_reply reply)
{
    if (reply.number != TB_OK) {
        printf("%s: refused %u at %llu", what, (unsigned)reply.number, (unsigned long long)reply.value);
        if (reply.number == TB_TEXT)
            printf(" byte %u", (unsigned)reply.also);
        printf("\n");
        return;
    }
    printf("%s: %llu bytes, words", what, (unsigned long long)reply.value);
    for (uint32_t i = 0; i < reply.also; i++)
        printf(" %u", (unsigned)row[i]);
    printf("\n");
}

int main(void)
{
    /* record x: error-context, and a byte that is none of its own */
    const uint8_t record[] = { 0x72, 0x01, 0x01, 0x78, 0x64, 0x73 };
    /* import f with version suffix 1, function 0 */
    const uint8_t import[] = { 0x02, 0x01, 0x66, 0x01, 0x01, 0x01, 0x31, 0x01, 0x00 };
    /* flags of one name, whose byte 2 is no second byte of e2 */
    const uint8_t flags[] = { 0x6e, 0x01, 0x04, 0x61, 0xe2, 0x41, 0x62 };

    show("record at grade 2", tb_read_type(record, sizeof record, 2, row, WORDS));
    /* words 2 and 3 of a record's row are its first name: offset and length in the bytes that were read */
    printf("its name: %.*s\n", (int)row[3], (const char *)record + row[2]);
    show("record at grade 1", tb_read_type(record, sizeof record, 1, row, WORDS));
    show("record, cut", tb_read_type(record, 4, 2, row, WORDS));
    show("record, five words of room", tb_read_type(record, sizeof record, 2, row, 5));
    show("import at grade 3", tb_read_import(import, sizeof import, 3, row, WORDS));
    show("flags, not UTF-8", tb_read_type(flags, sizeof flags, 1, row, WORDS));
    return 0;
}
