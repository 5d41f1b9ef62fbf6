/* The towers of Hanoi: each rod is a part of one array, and each move is checked. */
#include <stdio.h>

#define DISCS 10
#define RODS 3

int rods[RODS * DISCS];
int height[RODS];
int moves, wrong;

void put(int rod, int disc) {
    int on = height[rod];
    if (on > 0 && rods[rod * DISCS + on - 1] < disc)
        wrong++;
    rods[rod * DISCS + on] = disc;
    height[rod] = on + 1;
}

int take(int rod) {
    height[rod]--;
    return rods[rod * DISCS + height[rod]];
}

void move(int discs, int from, int to) {
    if (discs == 0)
        return;
    int other = 3 - from - to;
    move(discs - 1, from, other);
    put(to, take(from));
    moves++;
    move(discs - 1, other, to);
}

int main(void) {
    for (int disc = DISCS; disc > 0; disc--)
        put(0, disc);
    move(DISCS, 0, 2);
    printf("%d moves, %d wrong\n", moves, wrong);
    for (int rod = 0; rod < RODS; rod++)
        printf("rod %d: %d discs\n", rod, height[rod]);
    return 0;
}
