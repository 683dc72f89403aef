/* Its input, each word turned around. */
#include "io.h"

static char word[80];

int main(void) {
    int count = 0, c;
    do {
        c = get();
        if (c > ' ' && count < 80) {
            word[count++] = c;
        } else {
            while (count)
                put(word[--count]);
            if (c >= 0)
                put(c);
        }
    } while (c >= 0);
    return 0;
}
