/* Which number below LIMIT takes the most steps down to 1, where an even one is halved and any other is
   taken three times and one. It works on locals alone. */
#include <stdio.h>

#define LIMIT 20000

int main(void) {
    int best = 1, most = 0;
    long highest = 1;
    for (int start = 1; start < LIMIT; start++) {
        long n = start;
        int steps = 0;
        do {
            n = n % 2 == 0 ? n / 2 : 3 * n + 1;
            steps++;
            if (n > highest)
                highest = n;
        } while (n != 1);
        if (steps > most) {
            most = steps;
            best = start;
        }
    }
    printf("%d takes %d steps\n", best, most);
    printf("the highest number on the way is %ld\n", highest);
    return 0;
}
