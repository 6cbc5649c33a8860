/* Turns a text of forty digits 9,999 times by a step: a plain loop over the bytes with a carry.
 *
 *   turning STEP all     rewrites every digit at each turn
 *   turning STEP stop    stops where nothing is carried any further
 *
 * Writes the last text. The text begins with forty zeros. */
#include <stdint.h>
#include <stdio.h>
#include <stdlib.h>
#include <string.h>

enum { LENGTH = 40, TURNS = 9999 };

__attribute__((noinline)) static void turn_all(unsigned char *text, size_t length, int64_t step)
{
    int64_t carry = step;
    for (size_t i = length; i-- > 0;) {
        if (text[i] >= '0' && text[i] <= '9') {
            int64_t sum = text[i] - '0' + carry;
            int64_t digit = sum % 10;
            carry = sum / 10;
            if (digit < 0) {
                digit += 10;
                carry -= 1;
            }
            text[i] = (unsigned char)('0' + digit);
        }
    }
}

__attribute__((noinline)) static void turn_stop(unsigned char *text, size_t length, int64_t step)
{
    int64_t carry = step;
    for (size_t i = length; i-- > 0 && carry != 0;) {
        if (text[i] >= '0' && text[i] <= '9') {
            int64_t sum = text[i] - '0' + carry;
            int64_t digit = sum % 10;
            carry = sum / 10;
            if (digit < 0) {
                digit += 10;
                carry -= 1;
            }
            text[i] = (unsigned char)('0' + digit);
        }
    }
}

int main(int argc, char **argv)
{
    if (argc != 3 || (strcmp(argv[2], "all") != 0 && strcmp(argv[2], "stop") != 0)) {
        fputs("usage: turning STEP all|stop\n", stderr);
        return 2;
    }
    int64_t step = strtoll(argv[1], NULL, 10);
    int all = strcmp(argv[2], "all") == 0;
    unsigned char text[LENGTH];
    memset(text, '0', LENGTH);
    for (int i = 0; i < TURNS; i++) {
        if (all)
            turn_all(text, LENGTH, step);
        else
            turn_stop(text, LENGTH, step);
    }
    printf("%.*s\n", LENGTH, (const char *)text);
    return 0;
}
