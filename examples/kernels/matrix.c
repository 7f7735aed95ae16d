/* The product of two matrices of 4 by 4 numbers. Loops: 4 rows, 4 columns, 4 terms. */
#include "kernel.h"

enum { SIZE = 4 };

DATA int16_t matrix_left[SIZE][SIZE] = {{1, 2, 3, 4}, {5, 6, 7, 8}};
DATA int16_t matrix_right[SIZE][SIZE] = {{-1, 1}, {2, -2}};
int32_t matrix_product[SIZE][SIZE];

void matrix(void)
{
    for (uint32_t i = 0; i < SIZE; i++)
        for (uint32_t j = 0; j < SIZE; j++) {
            uint32_t total = 0;

            for (uint32_t k = 0; k < SIZE; k++)
                total += (uint32_t)(matrix_left[i][k] * matrix_right[k][j]);
            matrix_product[i][j] = (int32_t)total;
        }
}
