/*
 * The calls beside settling, the result of each on a line of its own.
 *
 *     calls {read ENTRY TEXT | keyed TEXT | value TYPE TEXT | decode ENTRY TEXT ROOM | suffix KIND NAME}
 *
 * read and keyed print the eight numbers of a reading. value prints what is returned, and what *value holds then, which was 7. decode prints
 * what is returned, and in hexadecimal what a buffer of ROOM bytes holds then, each of which was a5. suffix prints the code of the type that
 * NAME stands for, an integer type for KIND 2 and a float type for KIND 3. Anything else is said on standard error, with exit status 2.
 *
 * A rating as it is typed in, and one with a key held down for 41 digits:
 *
 *     $ calls keyed 2143.5 keyed 18500000000000000000000000000000000000000
 *     3 6 4 6 6 4 1 0
 *     0 53 0 0 0 0 0 0
 */
#include <stdio.h>
#include <stdlib.h>
#include <string.h>

#include "keybasket.h"

static void fail(const char *why)
{
    fprintf(stderr, "calls: %s\n", why);
    exit(2);
}

/* Memory of this many bytes, each of them a5; never null, not even for none. Of no byte more, so that one too many is found out. */
static void *memory(size_t bytes)
{
    void *p = malloc(bytes > 0 ? bytes : 1);
    if (p == NULL)
        fail("no memory");
    return memset(p, 0xa5, bytes);
}

static uint64_t number_of(const char *word)
{
    char *end;
    uint64_t number = strtoull(word, &end, 10);
    if (word[0] < '0' || word[0] > '9' || *end != '\0')
        fail("a code and ROOM are numbers");
    return number;
}

static void print_numbers(const uint64_t *numbers)
{
    for (int i = 0; i < KEYBASKET_NUMBERS; i++)
        printf(i == 0 ? "%llu" : " %llu", (unsigned long long)numbers[i]);
    putchar('\n');
}

static void print_reading(uint64_t entry, const uint8_t *text, size_t len)
{
    uint64_t *numbers = memory(KEYBASKET_NUMBERS * sizeof *numbers);
    keybasket_read(entry, text, len, numbers);
    print_numbers(numbers);
    free(numbers);
}

static void print_keyed(const uint8_t *text, size_t len)
{
    uint64_t *numbers = memory(KEYBASKET_NUMBERS * sizeof *numbers);
    keybasket_read_keyed(text, len, numbers);
    print_numbers(numbers);
    free(numbers);
}

static void print_value(uint64_t type, const uint8_t *text, size_t len)
{
    uint64_t *value = memory(sizeof *value);
    *value = 7;
    size_t result = keybasket_value(type, text, len, value);
    printf("%zu %llu\n", result, (unsigned long long)*value);
    free(value);
}

static void print_decoded(uint64_t entry, const uint8_t *text, size_t len, size_t room)
{
    uint8_t *out = memory(room);
    printf("%zu ", keybasket_decode(entry, text, len, out, room));
    for (size_t i = 0; i < room; i++)
        printf("%02x", out[i]);
    putchar('\n');
    free(out);
}

static void print_type(uint64_t kind, const uint8_t *name, size_t len)
{
    if (kind != KEYBASKET_INTEGER && kind != KEYBASKET_FLOAT)
        fail("KIND is 2 or 3");
    uint64_t type = kind == KEYBASKET_INTEGER ? keybasket_integer_from_suffix(name, len) : keybasket_float_from_suffix(name, len);
    printf("%llu\n", (unsigned long long)type);
}

int main(int argc, char **argv)
{
    for (int i = 1, words; i < argc; i += words) {
        const char *call = argv[i];
        int keyed = strcmp(call, "keyed") == 0, decodes = strcmp(call, "decode") == 0;
        words = 3 - keyed + decodes;
        if (argc - i < words)
            fail("a word is missing");
        uint64_t code = keyed ? KEYBASKET_ANY : number_of(argv[i + 1]);
        const char *given = argv[keyed ? i + 1 : i + 2];
        size_t len = strlen(given);
        uint8_t *text = memory(len);
        memcpy(text, given, len);
        if (keyed) {
            print_keyed(text, len);
        } else if (decodes) {
            print_decoded(code, text, len, number_of(argv[i + 3]));
        } else if (strcmp(call, "read") == 0) {
            print_reading(code, text, len);
        } else if (strcmp(call, "value") == 0) {
            print_value(code, text, len);
        } else if (strcmp(call, "suffix") == 0) {
            print_type(code, text, len);
        } else {
            fail("a call is read, keyed, value, decode or suffix");
        }
        free(text);
    }
    if (fflush(stdout) != 0)
        fail("standard output cannot be written");
    return 0;
}
