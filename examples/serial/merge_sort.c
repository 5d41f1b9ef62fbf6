/* Merge sort over blocks of malloc: each call merges its two sorted halves into a block of its own. */
#include <stdio.h>
#include <stdlib.h>

#define COUNT 500

void merge(int *into, int *left, int lefts, int *right, int rights) {
    int l = 0, r = 0;
    for (int i = 0; i < lefts + rights; i++) {
        if (r == rights || (l < lefts && left[l] <= right[r]))
            into[i] = left[l++];
        else
            into[i] = right[r++];
    }
}

/* Its value is 0 where there is no memory left. */
int sort(int *list, int count) {
    if (count < 2)
        return 1;
    int half = count / 2, i;
    int *sorted = malloc(count * sizeof(int));
    if (sorted == NULL || !sort(list, half) || !sort(list + half, count - half)) {
        free(sorted);
        return 0;
    }
    merge(sorted, list, half, list + half, count - half);
    for (i = 0; i < count; i++)
        list[i] = sorted[i];
    free(sorted);
    return 1;
}

int main(void) {
    int *list = malloc(COUNT * sizeof(int));
    long sum = 0;
    if (!list)
        return 1;
    for (int i = 0; i < COUNT; i++)
        list[i] = (i * 7919 + 13) % 1009;
    if (!sort(list, COUNT)) {
        free(list);
        return 1;
    }
    for (int i = 0; i < COUNT; i++)
        sum += (long)i * list[i];
    printf("%d %d %d .. %d\n", list[0], list[1], list[2], list[COUNT - 1]);
    printf("sum of the places times the numbers: %ld\n", sum);
    free(list);
    return 0;
}
