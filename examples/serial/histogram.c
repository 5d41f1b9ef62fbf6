/* A histogram of the sums of three dice, of which each bar is printed star by star. */
#include <stdio.h>

#define THROWS 5000
#define SUMS 19

int count[SUMS];
long state = 20;

int die(void) {
    state = (state * 1103515245 + 12345) % 2147483648;
    return (int)(state / 65536 % 6) + 1;
}

int main(void) {
    int most = 0;
    long total = 0;
    for (int i = 0; i < THROWS; i++) {
        int sum = die();
        sum += die();
        sum += die();
        count[sum]++;
        total += sum;
    }
    for (int sum = 3; sum < SUMS; sum++)
        if (count[sum] > count[most])
            most = sum;
    for (int sum = 3; sum < SUMS; sum++) {
        if (sum < 10)
            printf(" ");
        printf("%d ", sum);
        for (int star = 0; star < count[sum] * 40 / count[most]; star++)
            printf("*");
        printf(" %d\n", count[sum]);
    }
    printf("mean %ld.%ld, most often %d\n", total / THROWS, total * 10 / THROWS % 10, most);
    return 0;
}
