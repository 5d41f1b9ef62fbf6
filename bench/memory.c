/* Updates of a static array. A round is one turn, and makes two loads and one store. */
#include <stdio.h>

#define ROUNDS 83000

int a[1001] = {1, 3, 5, 7, 9};

int main(void) {
    for (int round = 0; round < ROUNDS; round++) {
        int i = round % 1000 + 1;
        a[i] = (a[i] + a[i - 1]) & 1023;
    }
    printf("%d\n", a[1000]);
    return 0;
}
