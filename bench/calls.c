/* Calls of functions. A round makes the 21,891 calls of the twentieth Fibonacci number. */
#include <stdio.h>

#define ROUNDS 400

int fibonacci(int n) {
    return n < 2 ? n : fibonacci(n - 1) + fibonacci(n - 2);
}

int main(void) {
    int sum = 0;
    for (int round = 0; round < ROUNDS; round++)
        sum += fibonacci(20);
    printf("%d\n", sum);
    return 0;
}
