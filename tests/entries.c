/*
 * Answers the batch format (docs/BATCH.md) by the entries for C: records from standard input, one line for each to standard output. The span of
 * a refusal, and the kind of a settled text, are asked of keybasket_read.
 */
#include <stdio.h>
#include <string.h>

#include "keybasket.h"

/* Some bytes behind the lent buffer are looked at, too. */
enum { LENGTH_LIMIT = 65600, FILL = 165, BEHIND = 64 };

static uint8_t text[LENGTH_LIMIT], out[LENGTH_LIMIT + BEHIND];
static size_t text_len, out_len;

static size_t number_at(const uint8_t *p)
{
    return p[0] | (size_t)p[1] << 8 | (size_t)p[2] << 16 | (size_t)p[3] << 24;
}

static void print(uint64_t number)
{
    printf(" %llu", (unsigned long long)number);
}

static void print_refused(uint64_t number, uint64_t spanned, uint64_t start, uint64_t end)
{
    printf("no");
    print(number);
    if (spanned) {
        print(start);
        print(end);
    } else {
        printf(" - -");
    }
}

/* Before each call the numbers are none that a reading has, so one that is not written shows. */
static void read_numbers(uint64_t entry, uint64_t numbers[KEYBASKET_NUMBERS])
{
    memset(numbers, FILL, KEYBASKET_NUMBERS * sizeof *numbers);
    keybasket_read(entry, text, text_len, numbers);
}

static void read_keyed_numbers(uint64_t numbers[KEYBASKET_NUMBERS])
{
    memset(numbers, FILL, KEYBASKET_NUMBERS * sizeof *numbers);
    keybasket_read_keyed(text, text_len, numbers);
}

/* A refusal by another call than reading: its span is that of the same refusal by an entry. */
static void print_code(size_t answer, uint64_t entry)
{
    uint64_t number = answer - KEYBASKET_REFUSED, reading[KEYBASKET_NUMBERS];
    read_numbers(entry, reading);
    print_refused(number, reading[0] == 0 && reading[1] == number && reading[2], reading[3], reading[4]);
}

/* How many bytes of a part of the text are digits of a base. */
static uint64_t digits(uint64_t base, uint64_t start, uint64_t end)
{
    static const char all[] = "0123456789abcdef";
    uint64_t n = 0;
    for (uint64_t i = start; i < end; i++) {
        uint8_t b = text[i] >= 'A' && text[i] <= 'F' ? text[i] - 'A' + 'a' : text[i];
        if (memchr(all, b, base))
            n++;
    }
    return n;
}

/* The counts of a reading are those of its parts; what has no meaning is 0. Says so where they are not. */
static void check_counts(const uint64_t a[KEYBASKET_NUMBERS])
{
    uint64_t counts[3] = {0};
    if (a[0] == KEYBASKET_INTEGER) {
        counts[0] = digits(a[2], a[3], a[4]);
    } else if (a[0] == KEYBASKET_FLOAT) {
        counts[0] = digits(10, 0, a[2]);
        counts[1] = digits(10, a[2], a[3]);
        counts[2] = digits(10, a[3], a[4]);
    }
    if (memcmp(a + 5, counts, sizeof counts) != 0)
        printf(" miscounted");
}

static void print_reading(const uint64_t a[KEYBASKET_NUMBERS])
{
    if (a[0] == 0) {
        print_refused(a[1], a[2], a[3], a[4]);
        return;
    }
    printf("ok");
    print(a[0]);
    print(a[1]);
    switch (a[0]) {
    case KEYBASKET_INTEGER:
    case KEYBASKET_FLOAT:
        print(a[2]);
        print(a[3]);
        print(a[4]);
        break;
    case KEYBASKET_BOOL:
    case KEYBASKET_CHAR:
    case KEYBASKET_BYTE:
        print(a[2]);
        /* what has no meaning is 0 */
        if (a[3] != 0 || a[4] != 0)
            printf(" and more");
        break;
    default:
        if (a[2])
            print(a[3]);
        else
            printf(a[3] == 0 ? " -" : " and more");
        print(a[4]);
    }
}

static void read_line(uint64_t entry)
{
    uint64_t a[KEYBASKET_NUMBERS];
    read_numbers(entry, a);
    print_reading(a);
    check_counts(a);
}

/* The line of a reading, and then the counts of an integer or a float. */
static void keyed_line(void)
{
    uint64_t a[KEYBASKET_NUMBERS];
    read_keyed_numbers(a);
    print_reading(a);
    if (a[0] == KEYBASKET_INTEGER || a[0] == KEYBASKET_FLOAT)
        print(a[5]);
    if (a[0] == KEYBASKET_FLOAT) {
        print(a[6]);
        print(a[7]);
    }
    check_counts(a);
}

static void value_line(uint64_t type)
{
    uint64_t value = FILL;
    size_t answer = keybasket_value(type, text, text_len, &value);
    if (answer == 0) {
        printf("ok");
        print(value);
        return;
    }
    print_code(answer, KEYBASKET_INTEGER);
    if (value != FILL)
        printf(" changed");
}

/* The bytes written, `-` for none. */
static void print_written(size_t n)
{
    printf(" %zu ", n);
    if (n == 0)
        putchar('-');
    for (size_t i = 0; i < n; i++)
        printf("%02x", out[i]);
}

/* Whether the buffer behind its first bytes is as it was. */
static void print_state(size_t from)
{
    for (size_t i = from; i < out_len + BEHIND; i++) {
        if (out[i] != FILL) {
            printf(" changed");
            return;
        }
    }
    printf(" kept");
}

static void decode_line(uint64_t entry)
{
    size_t answer = keybasket_decode(entry, text, text_len, out, out_len);
    if (answer < KEYBASKET_REFUSED) {
        printf("ok");
        print_written(answer);
        print_state(answer);
        return;
    }
    print_code(answer, entry);
    print_state(0);
}

static void settle_line(void)
{
    size_t answer = keybasket_settle(text, text_len, out, out_len);
    if (answer < KEYBASKET_REFUSED) {
        uint64_t reading[KEYBASKET_NUMBERS];
        read_numbers(KEYBASKET_ANY, reading);
        printf("ok");
        print(reading[0]);
        print_written(answer);
        print_state(answer);
        return;
    }
    print_code(answer, KEYBASKET_ANY);
    print_state(0);
}

static void type_line(uint64_t type)
{
    printf("ok");
    print(type);
}

static void record_line(uint8_t operation, uint64_t code)
{
    switch (operation) {
    case 'R':
        read_line(code);
        break;
    case 'K':
        keyed_line();
        break;
    case 'V':
        value_line(code);
        break;
    case 'D':
        decode_line(code);
        break;
    case 'S':
        settle_line();
        break;
    case 'I':
        type_line(keybasket_integer_from_suffix(text, text_len));
        break;
    case 'F':
        type_line(keybasket_float_from_suffix(text, text_len));
        break;
    default:
        printf("bad operation");
    }
    putchar('\n');
}

int main(void)
{
    uint8_t head[10];
    size_t got;
    while ((got = fread(head, 1, sizeof head, stdin)) == sizeof head) {
        out_len = number_at(head + 2);
        text_len = number_at(head + 6);
        if (out_len > LENGTH_LIMIT || text_len > LENGTH_LIMIT || fread(text, 1, text_len, stdin) < text_len) {
            puts("bad record");
            return 0;
        }
        memset(out, FILL, out_len + BEHIND);
        record_line(head[0], head[1]);
    }
    if (got > 0)
        puts("bad record");
    return 0;
}
