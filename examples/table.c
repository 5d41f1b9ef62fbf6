/* A table that is costly to make. The ranks of a node share one copy of it, which the first of them
   to come there makes; without the pragmas each rank has its own. */
#include <mpi.h>
#include <stdio.h>

#define SIZE 256

int crc[SIZE], ready;
int seen;
#pragma hls node(crc, ready)
#pragma hls core(seen)

void make_table(void) {
    for (int i = 0; i < SIZE; i++) {
        long c = i;
        for (int bit = 0; bit < 8; bit++)
            c = c & 1 ? (c >> 1) ^ 0x6db88320 : c >> 1;
        crc[i] = (int)(c & 0x7fffffff);
    }
    ready = 1;
}

int sum_of(int *bytes, int count) {
    long sum = 0x7fffffff;
    for (int i = 0; i < count; i++)
        sum = crc[(sum ^ bytes[i]) & 255] ^ (sum >> 8);
    return (int)(sum & 0x7fffffff);
}

int main(int argc, char **argv) {
    int rank, bytes[4], mine, all;
    MPI_Init(&argc, &argv);
    MPI_Comm_rank(MPI_COMM_WORLD, &rank);
#pragma hls single(crc, ready)
    {
        make_table();
    }
    for (int i = 0; i < 4; i++)
        bytes[i] = (rank + 1) * (i + 3) & 255;
    mine = sum_of(bytes, 4);
#pragma hls single(seen) nowait
    {
        seen = 1;
    }
#pragma hls barrier(ready, seen)
    MPI_Allreduce(&mine, &all, 1, MPI_INT, MPI_BXOR, MPI_COMM_WORLD);
    printf("rank %d: %d of %d, ready %d\n", rank, mine, all, ready);
    MPI_Finalize();
    return 0;
}
