/* Bit tricks on words that are not negative: ones, parity, reversal, the least bit, Gray codes, sets. */
#include <stdio.h>

#define BITS 16

int ones(int word) {
    int count = 0;
    while (word) {
        word &= word - 1;
        count++;
    }
    return count;
}

int parity(int word) {
    for (int width = 8; width > 0; width >>= 1)
        word ^= word >> width;
    return word & 1;
}

int reversed(int word) {
    int turned = 0;
    for (int bit = 0; bit < BITS; bit++)
        if (word & 1 << bit)
            turned |= 1 << (BITS - 1 - bit);
    return turned;
}

void show(int word) {
    for (int bit = BITS - 1; bit >= 0; bit--)
        printf("%d", word >> bit & 1);
    printf("\n");
}

/* From a Gray code back to its number. */
int decoded(int code) {
    int number = code;
    while (code >>= 1)
        number ^= code;
    return number;
}

/* Counts the sets of numbers from 1 to 10 with this sum; bit k of a set stands for k + 1. */
int sets_with_sum(int sum) {
    int count = 0;
    for (int set = 0; set < 1 << 10; set++) {
        int rest = sum;
        for (int k = 0; k < 10; k++)
            rest -= set >> k & 1 ? k + 1 : 0;
        count += !rest;
    }
    return count;
}

int main(void) {
    int word = 0x1b2c, gaps = 0;
    long wide = 1L << 40 | 0xffff;
    show(word);
    show(reversed(word));
    show(~word & 0xffff);
    printf("ones %d, parity %d, least bit %d\n", ones(word), parity(word), word & -word);
    for (int i = 0; i < 1 << 12; i++) {
        int code = i ^ i >> 1, after = (i + 1) ^ (i + 1) >> 1;
        if (decoded(code) != i || ones(code ^ after) != 1)
            gaps++;
    }
    printf("%d gaps in the Gray code\n", gaps);
    printf("wide %ld, its half %ld, low bits %ld\n", wide, wide >> 1, wide & 0xfff);
    printf("%d sets have the sum 27\n", sets_with_sum(27));
    return 0;
}
