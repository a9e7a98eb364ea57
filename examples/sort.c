#define N 16

/* Sorts by insertion. */
void sort(int a[N]) {
    for (int i = 1; i < N; i++) {
        int value = a[i];
        int j = i;
        while (j > 0 && a[j - 1] > value) {
            a[j] = a[j - 1];
            j--;
        }
        a[j] = value;
    }
}
