/* Three ways to sort, and what they make of one list. */
#include "io.h"

#define COUNT 64

static int list[COUNT], other[COUNT];

static void fill(unsigned seed) {
    for (int i = 0; i < COUNT; i++) {
        seed = seed * 1664525u + 1013904223u;
        list[i] = (int) (seed >> 8) % 1000 - 500;
    }
}

static void insert(int *a, int n) {
    for (int i = 1; i < n; i++) {
        int x = a[i], j = i;
        for (; j && a[j - 1] > x; j--)
            a[j] = a[j - 1];
        a[j] = x;
    }
}

static void quick(int *a, int low, int high) {
    while (low < high) {
        int pivot = a[(low + high) / 2], i = low, j = high;
        while (i <= j) {
            while (a[i] < pivot) i++;
            while (a[j] > pivot) j--;
            if (i <= j) {
                int t = a[i];
                a[i++] = a[j];
                a[j--] = t;
            }
        }
        quick(a, low, j);
        low = i;
    }
}

static void merge(int *a, int *b, int n) {
    if (n < 2)
        return;
    int half = n / 2, i = 0, j = half;
    merge(a, b, half);
    merge(a + half, b, n - half);
    for (int k = 0; k < n; k++)
        b[k] = j == n || (i < half && a[i] <= a[j]) ? a[i++] : a[j++];
    for (int k = 0; k < n; k++)
        a[k] = b[k];
}

static void show(void) {
    unsigned sum = 0;
    for (int i = 0; i < COUNT; i++)
        sum = sum * 31 + list[i];
    put_hex(sum);
    put(' ');
    put_number(list[0] + 500);
    put('\n');
}

int main(void) {
    fill(1);
    show();
    insert(list, COUNT);
    show();
    fill(1);
    quick(list, 0, COUNT - 1);
    show();
    fill(1);
    merge(list, other, COUNT);
    show();
    return 0;
}
