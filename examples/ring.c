/* A token goes round the ranks, of which there are two or more. Each adds its own rank to it. */
#include <mpi.h>
#include <stdio.h>

#define TURNS 3
#define TOKEN 7

int main(int argc, char **argv) {
    int rank, size, next, before, token = 0;
    MPI_Status status;
    MPI_Init(&argc, &argv);
    MPI_Comm_rank(MPI_COMM_WORLD, &rank);
    MPI_Comm_size(MPI_COMM_WORLD, &size);
    next = (rank + 1) % size;
    before = (rank + size - 1) % size;
    if (size < 2)
        MPI_Abort(MPI_COMM_WORLD, 1);
    for (int turn = 0; turn < TURNS; turn++) {
        if (rank == 0) {
            MPI_Send(&token, 1, MPI_INT, next, TOKEN, MPI_COMM_WORLD);
            MPI_Recv(&token, 1, MPI_INT, before, TOKEN, MPI_COMM_WORLD, &status);
            printf("turn %d: %d, from %d\n", turn, token, status.MPI_SOURCE);
        } else {
            MPI_Recv(&token, 1, MPI_INT, before, TOKEN, MPI_COMM_WORLD, &status);
            token += rank;
            MPI_Send(&token, 1, MPI_INT, next, TOKEN, MPI_COMM_WORLD);
        }
    }
    MPI_Finalize();
    return 0;
}
