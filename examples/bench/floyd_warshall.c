#include <stdint.h>
#define N 60

/* The lengths of the shortest paths between all pairs of nodes. Row k, which round k does not change, is copied before it is used. */
void floyd_warshall(int32_t path[N][N]) {
    int32_t row[N];
    for (int k = 0; k < N; k++) {
        for (int j = 0; j < N; j++)
            row[j] = path[k][j];
        for (int i = 0; i < N; i++) {
            int32_t first = path[i][k];
            for (int j = 0; j < N; j++) {
                int32_t other = first + row[j];
                int32_t old = path[i][j];
                path[i][j] = other < old ? other : old;
            }
        }
    }
}
