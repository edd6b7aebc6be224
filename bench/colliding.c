/* Prints so many names of eight characters whose hashes end in the same bits, so they lie in few
 * places of a table.
 *
 *   colliding COUNT
 *
 * As many bits are alike as a quarter of COUNT needs, and at most 15. The hash is that of a name's eight bytes in EBCDIC as one number: it
 * is multiplied by a constant, and both halves of the product are mixed. The same COUNT gives the
 * same names on every machine.
 */
#include <stdint.h>
#include <stdio.h>
#include <stdlib.h>

enum { HALVES = 1 << 20 };

static const char characters[] = "ABCDEFGHIJKLMNOPQRSTUVWXYZ012345";
static uint32_t half[HALVES];

static uint32_t hash_of(uint64_t name)
{
    __uint128_t product = (__uint128_t)(0x243f6a8885a308d3 ^ name) * (0x9e3779b97f4a7c15 ^ 16);
    uint64_t hash = (uint64_t)product ^ (uint64_t)(product >> 64);
    return hash ^ hash >> 32;
}

/* The code of a letter or a digit in EBCDIC. */
static uint32_t code_of(char it)
{
    if (it <= '9')
        return 0xf0 + it - '0';
    if (it <= 'I')
        return 0xc1 + it - 'A';
    return it <= 'R' ? 0xd1 + it - 'J' : 0xe2 + it - 'S';
}

static void print_half(uint32_t number)
{
    for (int at = 15; at >= 0; at -= 5)
        putchar(characters[number >> at & 31]);
}

int main(int words, char **word)
{
    long count = words > 1 ? atol(word[1]) : 0;
    uint32_t mask = 1;
    while (mask < count / 4 && mask < 1 << 15)
        mask *= 2;
    for (uint32_t number = 0; number < HALVES; number++)
        for (int at = 15; at >= 0; at -= 5)
            half[number] = half[number] << 8 | code_of(characters[number >> at & 31]);
    for (uint32_t first = 0; count > 0; first++)
        for (uint32_t second = 0; count > 0 && second < HALVES; second++)
            if ((hash_of((uint64_t)half[first] << 32 | half[second]) & (mask - 1)) == 0) {
                print_half(first);
                print_half(second);
                putchar('\n');
                count--;
            }
    return 0;
}
