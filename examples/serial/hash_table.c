/* A hash table with open addressing: counts how often each number of a sequence comes. Tables double
   when half of their cells are used, so blocks are made and freed. */
#include <stdio.h>
#include <stdlib.h>

#define NUMBERS 1500

int *keys, *counts;
int cells, used;

/* Cells of a key of -1 are unused. Its value is 0 where there is no memory left. */
int make_table(int size) {
    keys = malloc(size * sizeof(int));
    counts = malloc(size * sizeof(int));
    if (keys == NULL || counts == NULL)
        return 0;
    for (int i = 0; i < size; i++)
        keys[i] = -1;
    cells = size;
    used = 0;
    return 1;
}

void add(int key, int count) {
    int mask = cells - 1;
    int cell = key * 40503 & mask;
    while (keys[cell] != -1 && keys[cell] != key)
        cell = (cell + 1) & mask;
    if (keys[cell] == key) {
        counts[cell] += count;
        return;
    }
    keys[cell] = key;
    counts[cell] = count;
    used++;
}

int grow(void) {
    int *old_keys = keys, *old_counts = counts;
    int old_cells = cells;
    if (!make_table(2 * cells))
        return 0;
    for (int i = 0; i < old_cells; i++)
        if (old_keys[i] != -1)
            add(old_keys[i], old_counts[i]);
    free(old_keys);
    free(old_counts);
    return 1;
}

int main(void) {
    int number = 1, most = 0;
    if (!make_table(4))
        return 1;
    for (int i = 0; i < NUMBERS; i++) {
        if (2 * used >= cells && !grow())
            return 1;
        add(number % 600, 1);
        number = number * 75 % 65537;
    }
    for (int i = 1; i < cells; i++)
        if (keys[i] != -1 && (keys[most] == -1 || counts[i] > counts[most]))
            most = i;
    printf("%d different numbers in %d cells\n", used, cells);
    printf("most often: %d, %d times\n", keys[most], counts[most]);
    free(keys);
    free(counts);
    return 0;
}
