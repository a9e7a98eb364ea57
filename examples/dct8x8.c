#include <stdint.h>
#define N 8

/* The discrete cosine transform of a block of a picture, first of its rows and then of its columns. The cosines have 12 bits behind the point. */
static const int16_t cosine[N][N] = {
    {1448, 1448, 1448, 1448, 1448, 1448, 1448, 1448},
    {2009, 1703, 1138, 400, -400, -1138, -1703, -2009},
    {1892, 784, -784, -1892, -1892, -784, 784, 1892},
    {1703, -400, -2009, -1138, 1138, 2009, 400, -1703},
    {1448, -1448, -1448, 1448, 1448, -1448, -1448, 1448},
    {1138, -2009, 400, 1703, -1703, -400, 2009, -1138},
    {784, -1892, 1892, -784, -784, 1892, -1892, 784},
    {400, -1138, 1703, -2009, 2009, -1703, 1138, -400},
};

void dct8x8(int16_t block[N][N]) {
    int16_t half[N][N];
    for (int i = 0; i < N; i++) {
        for (int u = 0; u < N; u++) {
            int32_t sum = 2048;
            for (int x = 0; x < N; x++)
                sum += cosine[u][x] * block[i][x];
            half[i][u] = (int16_t)(sum >> 12);
        }
    }
    for (int u = 0; u < N; u++) {
        for (int v = 0; v < N; v++) {
            int32_t sum = 2048;
            for (int y = 0; y < N; y++)
                sum += cosine[v][y] * half[y][u];
            block[v][u] = (int16_t)(sum >> 12);
        }
    }
}
