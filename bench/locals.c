/* Arithmetic on locals that are kept without calls. A round is one turn. */
#include <stdio.h>

#define ROUNDS 9000000

int main(void) {
    int x = 1;
    for (int i = 0; i < ROUNDS; i++)
        x = (x * 1103 + i) & 65535;
    printf("%d\n", x);
    return 0;
}
