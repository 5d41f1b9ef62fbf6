/* Heap sort of COUNT numbers, which a small generator makes. Ends with 1 where they are not sorted. */
#include <stdio.h>

#define COUNT 1000

int numbers[COUNT];

void swap(int *a, int *b) {
    int kept = *a;
    *a = *b;
    *b = kept;
}

/* Lets the number at the root sink until no child is greater. */
void sink(int *heap, int root, int count) {
    while (2 * root + 1 < count) {
        int child = 2 * root + 1;
        if (child + 1 < count && heap[child + 1] > heap[child])
            child++;
        if (heap[root] >= heap[child])
            return;
        swap(&heap[root], &heap[child]);
        root = child;
    }
}

void heap_sort(int *heap, int count) {
    for (int root = count / 2 - 1; root >= 0; root--)
        sink(heap, root, count);
    for (int last = count - 1; last > 0; last--) {
        swap(heap, heap + last);
        sink(heap, 0, last);
    }
}

int is_sorted(int *list, int count) {
    for (int i = 1; i < count; i++)
        if (list[i - 1] > list[i])
            return 0;
    return 1;
}

int main(void) {
    long seed = 1;
    for (int i = 0; i < COUNT; i++) {
        seed = (seed * 16807) % 2147483647;
        numbers[i] = (int)(seed % 100000);
    }
    printf("before: %d %d %d ..\n", numbers[0], numbers[1], numbers[2]);
    heap_sort(numbers, COUNT);
    if (!is_sorted(numbers, COUNT)) {
        printf("not sorted\n");
        return 1;
    }
    printf("least %d, median %d, greatest %d\n", numbers[0], numbers[COUNT / 2], numbers[COUNT - 1]);
    return 0;
}
