/*
 * A desk program: settles one text and prints its form.
 *
 *     desk [TEXT [ROOM]]
 *
 * The text is the first argument, or all of standard input where there is none. ROOM is the size of the lent buffer in bytes;
 * without it every form has room. A refused text prints its refusal's name and number, and the exit status is 1. A program that
 * cannot do its work says why on standard error and ends with status 2.
 */
#include <stdio.h>
#include <stdlib.h>
#include <string.h>

#include "keybasket.h"

static void fail(const char *why)
{
    fprintf(stderr, "desk: %s\n", why);
    exit(2);
}

/* Memory of this many bytes; never null, not even for none. */
static uint8_t *memory(size_t bytes)
{
    uint8_t *p = malloc(bytes > 0 ? bytes : 1);
    if (p == NULL)
        fail("no memory");
    return p;
}

/* Standard input. One byte more than a text may have is enough: a longer text is refused as such. */
static uint8_t *read_text(size_t *len)
{
    uint8_t *text = memory(KEYBASKET_LONGEST + 1);
    *len = fread(text, 1, KEYBASKET_LONGEST + 1, stdin);
    if (ferror(stdin))
        fail("standard input cannot be read");
    return text;
}

static uint8_t *copy_text(const char *argument, size_t *len)
{
    *len = strlen(argument);
    uint8_t *text = memory(*len);
    memcpy(text, argument, *len);
    return text;
}

static size_t room_of(const char *argument)
{
    char *end;
    unsigned long room = strtoul(argument, &end, 10);
    if (argument[0] < '0' || argument[0] > '9' || *end != '\0' || room > KEYBASKET_LONGEST)
        fail("ROOM is a number from 0 to 65536");
    return room;
}

int main(int argc, char **argv)
{
    if (argc > 3)
        fail("usage: desk [TEXT [ROOM]]");
    size_t len;
    uint8_t *text = argc > 1 ? copy_text(argv[1], &len) : read_text(&len);
    size_t room = argc > 2 ? room_of(argv[2]) : KEYBASKET_LONGEST;
    uint8_t *out = memory(room);
    memset(out, 0, room);

    size_t result = keybasket_settle(text, len, out, room);
    int refused = result >= KEYBASKET_REFUSED;
    if (refused) {
        size_t number = result - KEYBASKET_REFUSED;
        printf("refused: %s (%zu)\n", keybasket_refusal_name(number), number);
    } else {
        fwrite(out, 1, result, stdout);
        putchar('\n');
    }
    free(out);
    free(text);
    if (ferror(stdout) || fflush(stdout) != 0)
        fail("standard output cannot be written");
    return refused;
}
