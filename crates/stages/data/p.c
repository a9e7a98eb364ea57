#define N 32

/* Each element becomes the sum of all up to it. */
int prefix_sum(int a[N]) {
    int sum = 0;
    for (int i = 0; i < N; i++) {
        sum = sum + a[i];
        a[i] = sum;
    }
    return sum;
}
