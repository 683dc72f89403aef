/* A code of bits for the characters of the input, short for those that are frequent. The two rarest trees are joined until one is
   left; the lengths give the code, which is canonical: codes of one length are numbers in order. The text is packed and unpacked. */
#include <stdio.h>
#include <string.h>

#define ROOM 4096
#define SYMBOLS 256
#define LONGEST 32
#define ROUNDS 4

struct node {
    int weight, left, right;        /* a leaf has its symbol as left, and -1 as right */
};

static struct node nodes[2 * SYMBOLS];
static int heap[SYMBOLS], heaped, made;
static unsigned code[SYMBOLS];
static int length_of[SYMBOLS];
static int first_symbol[LONGEST + 1], count_of[LONGEST + 1];
static unsigned first_code[LONGEST + 1];
static unsigned char symbols[SYMBOLS];

static int is_lighter(int left, int right) {
    return nodes[left].weight < nodes[right].weight || (nodes[left].weight == nodes[right].weight && left < right);
}

static void push(int node) {
    int at = heaped++;
    for (; at && is_lighter(node, heap[(at - 1) / 2]); at = (at - 1) / 2)
        heap[at] = heap[(at - 1) / 2];
    heap[at] = node;
}

static int pop(void) {
    int lightest = heap[0], node = heap[--heaped], at = 0;
    for (int below; (below = 2 * at + 1) < heaped; at = below) {
        if (below + 1 < heaped && is_lighter(heap[below + 1], heap[below]))
            below++;
        if (is_lighter(node, heap[below]))
            break;
        heap[at] = heap[below];
    }
    heap[at] = node;
    return lightest;
}

static void set_lengths(int node, int depth) {
    if (nodes[node].right < 0) {
        length_of[nodes[node].left] = depth ? depth : 1;
        return;
    }
    set_lengths(nodes[node].left, depth + 1);
    set_lengths(nodes[node].right, depth + 1);
}

static void build(const unsigned char *text, int length) {
    int weights[SYMBOLS] = {0};
    made = heaped = 0;
    memset(length_of, 0, sizeof length_of);
    for (int i = 0; i < length; i++)
        weights[text[i]]++;
    for (int symbol = 0; symbol < SYMBOLS; symbol++)
        if (weights[symbol]) {
            nodes[made] = (struct node){weights[symbol], symbol, -1};
            push(made++);
        }
    while (heaped > 1) {
        int left = pop(), right = pop();
        nodes[made] = (struct node){nodes[left].weight + nodes[right].weight, left, right};
        push(made++);
    }
    set_lengths(heap[0], 0);
}

/* Codes from lengths. */
static void number_codes(void) {
    unsigned next = 0;
    int placed = 0;
    for (int length = 1; length <= LONGEST; length++) {
        first_code[length] = next;
        first_symbol[length] = placed;
        for (int symbol = 0; symbol < SYMBOLS; symbol++)
            if (length_of[symbol] == length) {
                symbols[placed++] = symbol;
                code[symbol] = next++;
            }
        count_of[length] = placed - first_symbol[length];
        next <<= 1;
    }
}

static int pack(const unsigned char *text, int length, unsigned char *to) {
    int bit = 0;
    memset(to, 0, ROOM);
    for (int i = 0; i < length; i++)
        for (int left = length_of[text[i]]; left-- > 0; bit++)
            to[bit / 8] |= (code[text[i]] >> left & 1) << (7 - bit % 8);
    return bit;
}

static void unpack(const unsigned char *from, unsigned char *text, int length) {
    int bit = 0;
    for (int i = 0; i < length; i++) {
        unsigned read = 0;
        for (int size = 1; size <= LONGEST; size++, bit++) {
            read = read << 1 | (from[bit / 8] >> (7 - bit % 8) & 1);
            if (read - first_code[size] < (unsigned) count_of[size]) {
                text[i] = symbols[first_symbol[size] + read - first_code[size]];
                bit++;
                break;
            }
        }
    }
}

int main(void) {
    static unsigned char text[ROOM], packed[ROOM], again[ROOM];
    int length = fread(text, 1, ROOM, stdin), bits = 0;
    for (int round = 0; round < ROUNDS; round++) {
        build(text, length);
        number_codes();
        bits = pack(text, length, packed);
        memset(again, 0, sizeof again);
        unpack(packed, again, length);
    }
    for (int i = 0; i < SYMBOLS; i++) {
        int symbol = symbols[i];
        if (i && !symbol)
            break;
        printf("%02x ", symbol);
        for (int left = length_of[symbol]; left-- > 0;)
            putchar('0' + (code[symbol] >> left & 1));
        putchar(i % 4 == 3 ? '\n' : '\t');
    }
    printf("\n%d bytes in %d bits, %d bytes; %s\n", length, bits, (bits + 7) / 8, memcmp(text, again, length) ? "DIFFERENT" : "the same again");
    return 0;
}
