/* See common.c. */
int shared[64];

void fill(void) {
    for (int i = 0; i < 64; i++)
        shared[i] = i + 5;
}
