/* Josephus: people stand in a ring, and each STEP-th one goes until one is left. The ring is a list of
   who stands behind whom; the answer is compared with the one that a recurrence gives. */
#include <stdio.h>

#define PEOPLE 41
#define STEP 3

int behind[PEOPLE];

int last_by_recurrence(int people) {
    return people == 1 ? 0 : (last_by_recurrence(people - 1) + STEP) % people;
}

int main(void) {
    for (int person = 0; person < PEOPLE; person++)
        behind[person] = (person + 1) % PEOPLE;
    int at = PEOPLE - 1;
    printf("they go:");
    for (int left = PEOPLE; left > 1; left--) {
        for (int step = 1; step < STEP; step++)
            at = behind[at];
        printf(" %d", behind[at]);
        behind[at] = behind[behind[at]];
    }
    printf("\nleft: %d, by the recurrence %d\n", at, last_by_recurrence(PEOPLE));
    return 0;
}
