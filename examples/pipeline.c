/* A pipeline: each rank works on a block, while the next block comes in and the last one goes out. */
#include <mpi.h>
#include <stdio.h>

#define BLOCKS 12
#define WORDS 8

/* Two buffers each way: one in use, one on its way. */
long in[2 * WORDS];
long out[2 * WORDS];

static void make_block(long *block, int number) {
    for (int i = 0; i < WORDS; i++)
        block[i] = 100 * number + i;
}

static void work_on(long *from, long *to, int rank) {
    for (int i = 0; i < WORDS; i++)
        to[i] = from[i] * 3 + rank;
}

static long sum_of(long *block) {
    long sum = 0;
    for (int i = 0; i < WORDS; i++)
        sum += block[i];
    return sum;
}

int main(int argc, char **argv) {
    int rank, size, before, next;
    long sum = 0;
    MPI_Request coming = MPI_REQUEST_NULL, going[2];
    MPI_Init(&argc, &argv);
    MPI_Comm_rank(MPI_COMM_WORLD, &rank);
    MPI_Comm_size(MPI_COMM_WORLD, &size);
    before = rank == 0 ? MPI_PROC_NULL : rank - 1;
    next = rank == size - 1 ? MPI_PROC_NULL : rank + 1;
    going[0] = MPI_REQUEST_NULL;
    going[1] = MPI_REQUEST_NULL;
    MPI_Irecv(in, WORDS, MPI_LONG, before, 0, MPI_COMM_WORLD, &coming);
    for (int b = 0; b < BLOCKS; b++) {
        int half = b % 2;
        long *block = &in[half * WORDS], *done = &out[half * WORDS];
        MPI_Wait(&coming, MPI_STATUS_IGNORE);
        if (b + 1 < BLOCKS)
            MPI_Irecv(&in[(1 - half) * WORDS], WORDS, MPI_LONG, before, b + 1, MPI_COMM_WORLD, &coming);
        if (rank == 0)
            make_block(block, b);
        MPI_Wait(&going[half], MPI_STATUS_IGNORE);
        work_on(block, done, rank);
        sum += sum_of(done);
        MPI_Isend(done, WORDS, MPI_LONG, next, b, MPI_COMM_WORLD, &going[half]);
    }
    MPI_Waitall(2, going, MPI_STATUSES_IGNORE);
    printf("rank %d of %d: %ld\n", rank, size, sum);
    MPI_Finalize();
    return 0;
}
