/* A search in breadth through a maze: the length of the shortest way, and the way drawn. A row of the
   maze is a number whose bits are its walls. */
#include <stdio.h>

#define SIDE 12
#define PLACES 144

int walls[SIDE] = {0xfff, 0x811, 0xbd5, 0x945, 0xd7d, 0x805, 0xbf5, 0xa15, 0xad5, 0x8c1, 0xbff, 0xfff};
int distance[PLACES], came_from[PLACES], on_way[PLACES];
int queue[PLACES];
int head, tail;
int moves[4] = {1, -1, SIDE, -SIDE};

int is_wall(int place) {
    return walls[place / SIDE] >> (SIDE - 1 - place % SIDE) & 1;
}

void visit(int place, int from, int steps) {
    distance[place] = steps;
    came_from[place] = from;
    queue[tail++] = place;
}

void search(int start) {
    for (int i = 0; i < PLACES; i++)
        distance[i] = -1;
    visit(start, start, 0);
    while (head < tail) {
        int place = queue[head++];
        for (int i = 0; i < 4; i++) {
            int beside = place + moves[i];
            if (beside < 0 || beside >= PLACES || is_wall(beside) || distance[beside] != -1)
                continue;
            visit(beside, place, distance[place] + 1);
        }
    }
}

void draw(void) {
    for (int place = 0; place < PLACES; place++) {
        if (is_wall(place))
            printf("#");
        else if (on_way[place])
            printf("*");
        else
            printf(" ");
        if (place % SIDE == SIDE - 1)
            printf("\n");
    }
}

int main(void) {
    int start = SIDE + 1, goal = 9 * SIDE + 9;
    search(start);
    if (distance[goal] == -1) {
        printf("there is no way\n");
        return 1;
    }
    for (int place = goal; place != start; place = came_from[place])
        on_way[place] = 1;
    on_way[start] = 1;
    draw();
    printf("%d steps, %d places seen\n", distance[goal], tail);
    return 0;
}
