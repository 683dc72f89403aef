/* A halfword at an odd address that only the run knows. */
static short halves[4] = {1, 2, 3, 4};

__attribute__((noinline)) int second(char *bytes, int at) {
    return *(short *)(bytes + at);
}

int main(int argc, char **argv) {
    return second((char *)halves, argc);
}
