/* The same lines as steps.py's source writes, by checked additions: for the count of instructions. */
#include <stdio.h>
#include <stdlib.h>

int main(void) {
    volatile long one = 1;
    for (int call = 0; call < 5000; call++) {
        long sum = one;
        for (int term = 1; term < 1000; term++) {
            if (__builtin_add_overflow(sum, one, &sum)) {
                abort();
            }
        }
        printf("0 M x %ld\n", sum);
    }
    printf("ended at 0\n");
    return 0;
}
