/* Six ways to sort the same numbers. Each must give them in order, and with the sum that they had. */
#include <stdio.h>
#include <stdlib.h>
#include <string.h>

#define COUNT 200

static unsigned state = 12345;

static int draw(void) {
    state = state * 1103515245 + 12345;
    return (int) (state >> 8) % 2000 - 1000;
}

static void insertion_sort(int *numbers, int count) {
    for (int i = 1; i < count; i++) {
        int number = numbers[i], j = i;
        for (; j > 0 && numbers[j - 1] > number; j--)
            numbers[j] = numbers[j - 1];
        numbers[j] = number;
    }
}

static void shell_sort(int *numbers, int count) {
    for (int gap = count / 2; gap > 0; gap /= 2)
        for (int i = gap; i < count; i++) {
            int number = numbers[i], j = i;
            for (; j >= gap && numbers[j - gap] > number; j -= gap)
                numbers[j] = numbers[j - gap];
            numbers[j] = number;
        }
}

static void swap(int *left, int *right) {
    int number = *left;
    *left = *right;
    *right = number;
}

static void quick_sort(int *numbers, int count) {
    if (count < 2)
        return;
    int pivot = numbers[count / 2], low = 0, high = count - 1;
    while (low <= high) {
        while (numbers[low] < pivot)
            low++;
        while (numbers[high] > pivot)
            high--;
        if (low <= high)
            swap(&numbers[low++], &numbers[high--]);
    }
    quick_sort(numbers, high + 1);
    quick_sort(numbers + low, count - low);
}

static void merge_sort(int *numbers, int count) {
    int merged[COUNT], half = count / 2, left = 0, right = half;
    if (count < 2)
        return;
    merge_sort(numbers, half);
    merge_sort(numbers + half, count - half);
    for (int i = 0; i < count; i++)
        merged[i] = right == count || (left < half && numbers[left] <= numbers[right]) ? numbers[left++] : numbers[right++];
    memcpy(numbers, merged, count * sizeof *numbers);
}

static void radix_sort(int *numbers, int count) {
    int sorted[COUNT];
    for (int shift = 0; shift < 32; shift += 8) {
        int starts[257] = {0};
        for (int i = 0; i < count; i++)
            starts[(((unsigned) numbers[i] ^ 0x80000000) >> shift & 255) + 1]++;
        for (int i = 0; i < 256; i++)
            starts[i + 1] += starts[i];
        for (int i = 0; i < count; i++)
            sorted[starts[((unsigned) numbers[i] ^ 0x80000000) >> shift & 255]++] = numbers[i];
        memcpy(numbers, sorted, count * sizeof *numbers);
    }
}

static int compare(const void *left, const void *right) {
    int a = *(const int *) left, b = *(const int *) right;
    return (a > b) - (a < b);
}

static void library_sort(int *numbers, int count) {
    qsort(numbers, count, sizeof *numbers, compare);
}

static const struct {
    const char *name;
    void (*sort)(int *numbers, int count);
} sorts[] = {
    {"insertion", insertion_sort}, {"shell", shell_sort}, {"quick", quick_sort},
    {"merge", merge_sort},         {"radix", radix_sort}, {"qsort", library_sort},
};

int main(void) {
    int drawn[COUNT], numbers[COUNT], sum = 0, faults = 0;
    for (int i = 0; i < COUNT; i++)
        sum += drawn[i] = draw();
    for (unsigned i = 0; i < sizeof sorts / sizeof *sorts; i++) {
        memcpy(numbers, drawn, sizeof numbers);
        sorts[i].sort(numbers, COUNT);
        int is_sorted = 1, left = sum - numbers[0];
        for (int j = 1; j < COUNT; j++) {
            is_sorted &= numbers[j - 1] <= numbers[j];
            left -= numbers[j];
        }
        faults += !is_sorted || left != 0;
        printf("%-9s %s, from %d to %d\n", sorts[i].name, is_sorted && left == 0 ? "sorted" : "WRONG", numbers[0], numbers[COUNT - 1]);
    }
    return faults;
}
