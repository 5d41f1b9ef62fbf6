/* Conway's game of life on a torus: a glider flies for some generations. */
#include <stdio.h>

#define WIDTH 16
#define HEIGHT 12
#define GENERATIONS 24

int cells[WIDTH * HEIGHT], grown[WIDTH * HEIGHT];

int neighbours(int row, int column) {
    int count = 0;
    for (int down = -1; down <= 1; down++)
        for (int right = -1; right <= 1; right++) {
            int r = (row + down + HEIGHT) % HEIGHT, c = (column + right + WIDTH) % WIDTH;
            if (down != 0 || right != 0)
                count += cells[r * WIDTH + c];
        }
    return count;
}

void grow(void) {
    for (int i = 0; i < WIDTH * HEIGHT; i++) {
        int count = neighbours(i / WIDTH, i % WIDTH);
        grown[i] = count == 3 || (count == 2 && cells[i]);
    }
    for (int i = 0; i < WIDTH * HEIGHT; i++)
        cells[i] = grown[i];
}

void show(int generation) {
    printf("generation %d\n", generation);
    for (int i = 0; i < WIDTH * HEIGHT; i++) {
        if (cells[i])
            printf("#");
        else
            printf(".");
        if (i % WIDTH == WIDTH - 1)
            printf("\n");
    }
}

int main(void) {
    cells[1] = 1;
    cells[WIDTH + 2] = 1;
    cells[2 * WIDTH] = 1;
    cells[2 * WIDTH + 1] = 1;
    cells[2 * WIDTH + 2] = 1;
    show(0);
    for (int generation = 1; generation <= GENERATIONS; generation++)
        grow();
    show(GENERATIONS);
    return 0;
}
