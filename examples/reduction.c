/* Sums and extremes over all ranks: each rank counts the primes of its own part of 2 to LIMIT. */
#include <mpi.h>
#include <stdio.h>

#define LIMIT 2000

int is_prime(int n) {
    for (int d = 2; d * d <= n; d++)
        if (n % d == 0)
            return 0;
    return 1;
}

int main(int argc, char **argv) {
    int rank, size, n;
    int found[2], least[2], most[2];
    long sum = 0, before = 0, all;
    MPI_Init(&argc, &argv);
    MPI_Comm_rank(MPI_COMM_WORLD, &rank);
    MPI_Comm_size(MPI_COMM_WORLD, &size);
    found[0] = 0;
    found[1] = 0;
    for (n = 2 + rank; n <= LIMIT; n += size) {
        if (!is_prime(n))
            continue;
        found[0]++;
        found[1] = n;
        sum += n;
    }
    MPI_Allreduce(found, least, 2, MPI_INT, MPI_MIN, MPI_COMM_WORLD);
    MPI_Allreduce(found, most, 2, MPI_INT, MPI_MAX, MPI_COMM_WORLD);
    MPI_Exscan(&sum, &before, 1, MPI_LONG, MPI_SUM, MPI_COMM_WORLD);
    MPI_Allreduce(&sum, &all, 1, MPI_LONG, MPI_SUM, MPI_COMM_WORLD);
    printf("rank %d: %d primes, sum %ld, before it %ld\n", rank, found[0], sum, before);
    if (rank == 0)
        printf("counts %d to %d, greatest %d, sum %ld\n", least[0], most[0], most[1], all);
    MPI_Finalize();
    return 0;
}
