#define N 16

/* Sorts by comparing pairs in an order that does not depend on the data. A comparison reads two elements and writes two. */
void bitonic_sort(int a[N]) {
    for (int size = 2; size <= N; size = size + size) {
        for (int gap = size >> 1; gap > 0; gap = gap >> 1) {
            for (int k = 0; k < N / 2; k++) {
                int i = (k & -gap) + k;
                int j = i + gap;
                int x = a[i], y = a[j];
                int is_rising = (i & size) == 0;
                int swaps = (x > y) == is_rising;
                a[i] = swaps ? y : x;
                a[j] = swaps ? x : y;
            }
        }
    }
}
