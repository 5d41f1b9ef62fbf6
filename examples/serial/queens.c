/* The n queens: counts the ways to place them, by recursion over the rows, and shows the first way. */
#include <stdio.h>

#define MOST 8

int column_of[MOST];
int shown;

int is_free(int row, int column) {
    for (int above = 0; above < row; above++) {
        int other = column_of[above];
        if (other == column || other - column == row - above || column - other == row - above)
            return 0;
    }
    return 1;
}

void show(int size) {
    for (int row = 0; row < size; row++) {
        for (int column = 0; column < size; column++) {
            if (column_of[row] == column)
                printf("Q");
            else
                printf(".");
        }
        printf("\n");
    }
    shown = 1;
}

int ways(int row, int size) {
    int count = 0;
    if (row == size) {
        if (size == MOST && !shown)
            show(size);
        return 1;
    }
    for (int column = 0; column < size; column++) {
        if (is_free(row, column)) {
            column_of[row] = column;
            count += ways(row + 1, size);
        }
    }
    return count;
}

int main(void) {
    for (int size = 1; size <= MOST; size++)
        printf("%d: %d\n", size, ways(0, size));
    return 0;
}
