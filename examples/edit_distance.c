#include <stdint.h>
#define LENGTH 16

/* How many letters have to be inserted, removed or replaced to make one word of another. */
int edit_distance(const uint8_t a[LENGTH], const uint8_t b[LENGTH], int n, int m) {
    int row[LENGTH + 1];
    for (int j = 0; j <= m; j++)
        row[j] = j;
    for (int i = 0; i < n; i++) {
        uint8_t letter = a[i];
        int corner = row[0];
        int left = i + 1;
        row[0] = left;
        for (int j = 0; j < m; j++) {
            int above = row[j + 1];
            int replaced = corner + (letter != b[j]);
            int less = above < left ? above : left;
            left = less < replaced ? less + 1 : replaced;
            row[j + 1] = left;
            corner = above;
        }
    }
    return row[m];
}
