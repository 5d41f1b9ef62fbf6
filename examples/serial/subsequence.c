/* Dynamic programming: the longest common subsequence of two lists, its length and one such list. */
#include <stdio.h>

#define COUNT 80
#define ROW 81

int a[COUNT], b[COUNT];
int longest[ROW * ROW];
int common[COUNT];

void make_lists(void) {
    int x = 3, y = 8;
    for (int i = 0; i < COUNT; i++) {
        x = (x * 29 + 7) % 211;
        y = (y * 31 + 5) % 199;
        a[i] = x % 7;
        b[i] = y % 7;
    }
}

/* longest[i * ROW + j] is that of the first i of a and the first j of b. */
void fill(void) {
    for (int i = 1; i <= COUNT; i++)
        for (int j = 1; j <= COUNT; j++) {
            int up = longest[(i - 1) * ROW + j], left = longest[i * ROW + j - 1];
            if (a[i - 1] == b[j - 1])
                longest[i * ROW + j] = longest[(i - 1) * ROW + j - 1] + 1;
            else
                longest[i * ROW + j] = up > left ? up : left;
        }
}

void trace_back(void) {
    int i = COUNT, j = COUNT;
    while (i > 0 && j > 0) {
        int here = longest[i * ROW + j];
        if (here == longest[(i - 1) * ROW + j])
            i--;
        else if (here == longest[i * ROW + j - 1])
            j--;
        else {
            i--;
            j--;
            common[here - 1] = a[i];
        }
    }
}

int is_subsequence(int *part, int parts, int *whole) {
    int found = 0;
    for (int i = 0; i < COUNT && found < parts; i++)
        if (whole[i] == part[found])
            found++;
    return found == parts;
}

int main(void) {
    make_lists();
    fill();
    trace_back();
    int length = longest[COUNT * ROW + COUNT];
    printf("%d:", length);
    for (int i = 0; i < length; i++)
        printf(" %d", common[i]);
    printf("\n");
    int in_a = is_subsequence(common, length, a);
    int in_b = is_subsequence(common, length, b);
    printf("in the first: %d, in the second: %d\n", in_a, in_b);
    return 0;
}
