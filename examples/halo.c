/* Heat along a rod. Each rank holds CELLS cells of it and a cell more at each end, a copy of its
   neighbour's. Before each step the ranks swap the cells at their edges. */
#include <mpi.h>
#include <stdio.h>

#define CELLS 16
#define STEPS 20
#define TO_LEFT 1
#define TO_RIGHT 2

int heat[CELLS + 2];
int next[CELLS + 2];

/* Swaps the edges with the ranks to the left and to the right. At the rod's ends there is none. */
static void swap_edges(int left, int right) {
    MPI_Sendrecv(&heat[1], 1, MPI_INT, left, TO_LEFT,
                 &heat[CELLS + 1], 1, MPI_INT, right, TO_LEFT,
                 MPI_COMM_WORLD, MPI_STATUS_IGNORE);
    MPI_Sendrecv(&heat[CELLS], 1, MPI_INT, right, TO_RIGHT,
                 &heat[0], 1, MPI_INT, left, TO_RIGHT,
                 MPI_COMM_WORLD, MPI_STATUS_IGNORE);
}

static void step(void) {
    for (int i = 1; i <= CELLS; i++)
        next[i] = (heat[i - 1] + 2 * heat[i] + heat[i + 1]) / 4;
    for (int i = 1; i <= CELLS; i++)
        heat[i] = next[i];
}

static long total(void) {
    long sum = 0;
    for (int i = 1; i <= CELLS; i++)
        sum += heat[i];
    return sum;
}

int main(int argc, char **argv) {
    int rank, size, left, right;
    long mine, all;
    MPI_Init(&argc, &argv);
    MPI_Comm_rank(MPI_COMM_WORLD, &rank);
    MPI_Comm_size(MPI_COMM_WORLD, &size);
    left = rank == 0 ? MPI_PROC_NULL : rank - 1;
    right = rank == size - 1 ? MPI_PROC_NULL : rank + 1;
    if (rank == 0)
        heat[1] = 1000000;
    for (int i = 0; i < STEPS; i++) {
        swap_edges(left, right);
        step();
    }
    mine = total();
    MPI_Reduce(&mine, &all, 1, MPI_LONG, MPI_SUM, 0, MPI_COMM_WORLD);
    printf("rank %d: %ld\n", rank, mine);
    if (rank == 0)
        printf("all: %ld\n", all);
    MPI_Finalize();
    return 0;
}
