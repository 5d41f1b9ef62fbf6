/* A linked list in two arrays: a node is an index, and NONE ends the list. Numbers are put in in order,
   some are taken out, and the list is turned round. */
#include <stdio.h>

#define NODES 64
#define NONE 99

int value[NODES], next[NODES];
int first = NONE, unused = 0;

void fill_unused(void) {
    for (int node = 0; node < NODES; node++)
        next[node] = node + 1 < NODES ? node + 1 : NONE;
}

/* Its value is 0 where all nodes are used. */
int insert(int number) {
    int node = unused;
    if (node == NONE)
        return 0;
    unused = next[node];
    value[node] = number;
    if (first == NONE || value[first] >= number) {
        next[node] = first;
        first = node;
        return 1;
    }
    int before = first;
    while (next[before] != NONE && value[next[before]] < number)
        before = next[before];
    next[node] = next[before];
    next[before] = node;
    return 1;
}

int remove_multiples(int divisor) {
    int removed = 0;
    int *link = &first;
    while (*link != NONE) {
        int node = *link;
        if (value[node] % divisor != 0) {
            link = &next[node];
            continue;
        }
        *link = next[node];
        next[node] = unused;
        unused = node;
        removed++;
    }
    return removed;
}

void reverse(void) {
    int done = NONE;
    while (first != NONE) {
        int node = first;
        first = next[node];
        next[node] = done;
        done = node;
    }
    first = done;
}

void show(void) {
    for (int node = first; node != NONE; node = next[node])
        printf("%d ", value[node]);
    printf("\n");
}

int main(void) {
    fill_unused();
    int number = 5;
    for (int i = 0; i < 30; i++) {
        insert(number);
        number = (number * 37 + 11) % 101;
    }
    show();
    printf("%d removed\n", remove_multiples(3));
    show();
    reverse();
    show();
    while (insert(7))
        number++;
    printf("full, first %d\n", value[first]);
    return 0;
}
