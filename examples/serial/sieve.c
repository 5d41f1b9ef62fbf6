/* The sieve of Eratosthenes: counts the primes below LIMIT, and finds the widest gap between two of
   them that follow each other. */
#include <stdio.h>

#define LIMIT 20000

int composite[LIMIT];

void cross_out(void) {
    for (int p = 2; p * p < LIMIT; p++) {
        if (composite[p])
            continue;
        for (int multiple = p * p; multiple < LIMIT; multiple += p)
            composite[multiple] = 1;
    }
}

int main(void) {
    int count = 0, last = 2, gap = 0, from = 2;
    cross_out();
    for (int n = 2; n < LIMIT; n++) {
        if (composite[n])
            continue;
        count++;
        if (n - last > gap) {
            gap = n - last;
            from = last;
        }
        last = n;
    }
    printf("%d primes below %d, the last is %d\n", count, LIMIT, last);
    printf("widest gap: %d, from %d to %d\n", gap, from, from + gap);
    return 0;
}
