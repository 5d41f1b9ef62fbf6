/* Long arithmetic: a number is an array of decimal digits, the lowest first. Prints factorials and
   powers of two, and the sums of their digits. */
#include <stdio.h>

#define DIGITS 200

int digits[DIGITS];

/* Multiplies by a small factor. Its value is the number of digits, or 0 where there are too many. */
int multiply(int *number, int length, int factor) {
    int carry = 0;
    for (int i = 0; i < length; i++) {
        int product = number[i] * factor + carry;
        number[i] = product % 10;
        carry = product / 10;
    }
    while (carry > 0) {
        if (length == DIGITS)
            return 0;
        number[length++] = carry % 10;
        carry /= 10;
    }
    return length;
}

void show(int *number, int length) {
    int sum = 0;
    for (int i = length - 1; i >= 0; i--) {
        printf("%d", number[i]);
        sum += number[i];
    }
    printf("\n%d digits, their sum is %d\n", length, sum);
}

int main(void) {
    int length = 1;
    digits[0] = 1;
    for (int n = 2; n <= 100 && length > 0; n++) {
        length = multiply(digits, length, n);
        if (n % 25 == 0) {
            printf("%d! = ", n);
            show(digits, length);
        }
    }
    length = 1;
    digits[0] = 1;
    for (int n = 1; n <= 256 && length > 0; n++)
        length = multiply(digits, length, 2);
    printf("2 to the 256 = ");
    show(digits, length);
    return 0;
}
