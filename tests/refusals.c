/*
 * Prints the header's list of refusals as its macro, its constants and keybasket_refusal_name have it, a line for each: number, constant,
 * the constant's value, name in the list, name by number. Then the names of numbers that are none. C99 and C++11.
 */
#include <stdio.h>

#include "keybasket.h"

#define PRINT(number, constant, name) printf("%d %s %d %s %s\n", number, #constant, (int)constant, name, keybasket_refusal_name(number));

int main(void)
{
    static const uint64_t none[] = {0, 49, 50, 51, 52, 54, 100, 257, (uint64_t)KEYBASKET_REFUSED + 1, (uint64_t)1 << 32 | 1, UINT64_MAX};
    size_t i;
    KEYBASKET_REFUSALS(PRINT)
    for (i = 0; i < sizeof none / sizeof none[0]; i++)
        puts(keybasket_refusal_name(none[i]));
    return 0;
}
