/* Products of square matrices, which are kept row by row in one-dimensional arrays. */
#include <stdio.h>

#define SIZE 20

long a[SIZE * SIZE], b[SIZE * SIZE], product[SIZE * SIZE];

void multiply(long *into, long *left, long *right, int size) {
    for (int row = 0; row < size; row++)
        for (int column = 0; column < size; column++) {
            long sum = 0;
            for (int k = 0; k < size; k++)
                sum += left[row * size + k] * right[k * size + column];
            into[row * size + column] = sum;
        }
}

long trace(long *matrix, int size) {
    long sum = 0;
    for (int i = 0; i < size; i++)
        sum += matrix[i * size + i];
    return sum;
}

void show_corner(long *matrix, int size) {
    for (int row = 0; row < 3; row++)
        printf("%ld %ld %ld\n", matrix[row * size], matrix[row * size + 1], matrix[row * size + 2]);
}

int main(void) {
    for (int row = 0; row < SIZE; row++)
        for (int column = 0; column < SIZE; column++) {
            a[row * SIZE + column] = row + column;
            b[row * SIZE + column] = row - column;
        }
    multiply(product, a, b, SIZE);
    show_corner(product, SIZE);
    printf("trace of a b: %ld\n", trace(product, SIZE));
    multiply(product, b, a, SIZE);
    printf("trace of b a: %ld\n", trace(product, SIZE));
    return 0;
}
