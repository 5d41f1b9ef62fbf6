#include <stdio.h>

int x;

int main(void) {
    x = 2;
    printf("%d\n", x);
    return 0;
}
