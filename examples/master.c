/* A master hands out numbers, one at a time, to whichever worker is free. A worker answers how many
   steps its number takes to come down to 1. */
#include <mpi.h>
#include <stdio.h>

#define JOBS 40
#define WORK 1
#define STOP 2

int steps[JOBS + 1];

int steps_of(int number) {
    int count = 0;
    long n = number;
    while (n != 1) {
        if (n % 2 == 0)
            n /= 2;
        else
            n = 3 * n + 1;
        count++;
    }
    return count;
}

/* Sends the next job to a worker, or sends it home. Its value is the number of the job behind. */
static int hand_out(int worker, int job) {
    if (job <= JOBS) {
        MPI_Send(&job, 1, MPI_INT, worker, WORK, MPI_COMM_WORLD);
        return job + 1;
    }
    MPI_Send(NULL, 0, MPI_INT, worker, STOP, MPI_COMM_WORLD);
    return job;
}

static void lead(int workers) {
    int answer[2], job = 1, sum = 0;
    MPI_Status status;
    for (int worker = 1; worker <= workers; worker++)
        job = hand_out(worker, job);
    for (int done = 0; done < JOBS; done++) {
        MPI_Recv(answer, 2, MPI_INT, MPI_ANY_SOURCE, MPI_ANY_TAG, MPI_COMM_WORLD, &status);
        steps[answer[0]] = answer[1];
        job = hand_out(status.MPI_SOURCE, job);
    }
    for (int i = 1; i <= JOBS; i++)
        sum += steps[i];
    printf("%d jobs, %d steps\n", JOBS, sum);
}

static void work(void) {
    int job, answer[2];
    MPI_Status status;
    for (;;) {
        MPI_Recv(&job, 1, MPI_INT, 0, MPI_ANY_TAG, MPI_COMM_WORLD, &status);
        if (status.MPI_TAG == STOP)
            return;
        answer[0] = job;
        answer[1] = steps_of(job);
        MPI_Send(answer, 2, MPI_INT, 0, WORK, MPI_COMM_WORLD);
    }
}

int main(int argc, char **argv) {
    int rank, size;
    MPI_Init(&argc, &argv);
    MPI_Comm_rank(MPI_COMM_WORLD, &rank);
    MPI_Comm_size(MPI_COMM_WORLD, &size);
    if (size == 1)
        printf("a master alone has no workers\n");
    else if (rank == 0)
        lead(size - 1);
    else
        work();
    MPI_Finalize();
    return 0;
}
