/* Dynamic programming: the knapsack, with each thing taken at most once, and the things that are taken. */
#include <stdio.h>

#define THINGS 12
#define ROOM 400

int weight[THINGS] = {41, 50, 49, 59, 45, 47, 42, 44, 60, 48, 57, 58};
int worth[THINGS] = {442, 525, 511, 593, 546, 564, 617, 501, 609, 432, 598, 540};
int best[ROOM + 1];
int taken[THINGS * (ROOM + 1)];

void fill(void) {
    for (int thing = 0; thing < THINGS; thing++) {
        int heavy = weight[thing], dear = worth[thing];
        for (int room = ROOM; room >= heavy; room--) {
            int with = best[room - heavy] + dear;
            if (with > best[room]) {
                best[room] = with;
                taken[thing * (ROOM + 1) + room] = 1;
            }
        }
    }
}

int main(void) {
    int room = ROOM;
    fill();
    printf("worth %d, things", best[ROOM]);
    for (int thing = THINGS - 1; thing >= 0; thing--) {
        if (!taken[thing * (ROOM + 1) + room])
            continue;
        printf(" %d", thing);
        room -= weight[thing];
    }
    printf(", room left %d\n", room);
    return 0;
}
