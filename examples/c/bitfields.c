/* Bit fields: signed and unsigned, across bytes and words, read and written; and what they are as words. */
#include <stdint.h>
#include <stdio.h>
#include <string.h>

/* The head of an Internet packet, as its fields stand in memory, the most significant first. */
struct head {
    unsigned version : 4, length : 4, service : 8, total : 16;
    unsigned number : 16, flags : 3, offset : 13;
    unsigned lives : 8, protocol : 8, sum : 16;
    uint32_t from, to;
};

static unsigned sum_of(const struct head *head) {
    const unsigned char *bytes = (const unsigned char *) head;
    unsigned sum = 0;
    for (unsigned i = 0; i < sizeof *head; i += 2)
        sum += bytes[i] << 8 | bytes[i + 1];
    while (sum >> 16)
        sum = (sum & 65535) + (sum >> 16);
    return ~sum & 65535;
}

struct mixed {
    int small : 3;
    unsigned one : 1;
    int wide : 20;
    long long longer : 40;
    unsigned char byte : 5, rest : 3;
    short part : 9;
};

static void tell(const struct mixed *m) {
    printf("%d %u %d %lld %u %u %d\n", m->small, m->one, m->wide, (long long) m->longer, m->byte, m->rest, m->part);
}

int main(void) {
    struct head head = {4, 5, 0, 60, 0x1c46, 2, 0, 64, 6, 0, 0xac100a63, 0xac100a0c};
    head.sum = sum_of(&head);
    printf("sum %04x, then %04x\n", head.sum, sum_of(&head));
    uint32_t words[5];
    memcpy(words, &head, sizeof words);
    for (int i = 0; i < 5; i++)
        printf("%08x ", (unsigned) words[i]);
    putchar('\n');
    struct mixed mixed = {0};
    for (int i = 0; i < 12; i++) {
        mixed.small = i;
        mixed.one += 1;
        mixed.wide = mixed.wide * 7 - i * 1001;
        mixed.longer = mixed.longer * 1000003 + i;
        mixed.byte += 11;
        mixed.rest ^= i;
        mixed.part -= 77;
        tell(&mixed);
    }
    return 0;
}
