/* Greatest common divisors, inverses and powers modulo a prime, Fibonacci numbers by doubling. */
#include <stdio.h>

#define PRIME 1000003

int gcd(int a, int b) {
    while (b != 0) {
        int rest = a % b;
        a = b;
        b = rest;
    }
    return a;
}

/* Gives *x and *y with a * *x + b * *y equal to the greatest common divisor, which is its value. */
long bezout(long a, long b, long *x, long *y) {
    if (b == 0) {
        *x = 1;
        *y = 0;
        return a;
    }
    long x1, y1, divisor;
    divisor = bezout(b, a % b, &x1, &y1);
    *x = y1;
    *y = x1 - a / b * y1;
    return divisor;
}

long power(long base, long exponent, long modulus) {
    long result = 1;
    for (base %= modulus; exponent > 0; exponent >>= 1) {
        if (exponent & 1)
            result = result * base % modulus;
        base = base * base % modulus;
    }
    return result;
}

/* The n-th Fibonacci number and the one behind it. */
void fibonacci(int n, long *this, long *following) {
    if (n == 0) {
        *this = 0;
        *following = 1;
        return;
    }
    long a, b;
    fibonacci(n / 2, &a, &b);
    long even = a * (2 * b - a), odd = a * a + b * b;
    *this = n % 2 == 0 ? even : odd;
    *following = n % 2 == 0 ? odd : even + odd;
}

int main(void) {
    long x, y, divisor;
    int pairs = 0, wrong = 0;
    for (int a = 1; a <= 100; a++)
        for (int b = 1; b <= 100; b++)
            pairs += gcd(a, b) == 1;
    printf("gcd %d, %d of 10000 pairs have no common divisor\n", gcd(1071, 462), pairs);
    divisor = bezout(240, 46, &x, &y);
    printf("240 * %ld + 46 * %ld = %ld\n", x, y, divisor);
    for (int a = 1; a <= 200; a++) {
        bezout(a, PRIME, &x, &y);
        if ((x + PRIME) % PRIME != power(a, PRIME - 2, PRIME))
            wrong++;
    }
    printf("%d inverses are wrong\n", wrong);
    for (int n = 10; n <= 80; n += 35) {
        fibonacci(n, &x, &y);
        printf("fibonacci %d: %ld, then %ld\n", n, x, y);
    }
    return 0;
}
