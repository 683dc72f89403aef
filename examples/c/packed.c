/* Packed structs: numbers that stand at odd addresses, and arrays of them, as they come in files and messages. */
#include <stdint.h>
#include <stdio.h>
#include <string.h>

struct __attribute__((packed)) record {
    uint8_t kind;
    uint32_t number;
    int16_t change;
    uint64_t time;
    char name[5];
    uint16_t sum;
};

static uint16_t sum_of(const struct record *record) {
    const uint8_t *bytes = (const uint8_t *) record;
    uint16_t sum = 0;
    for (unsigned i = 0; i < sizeof *record - sizeof record->sum; i++)
        sum = sum * 31 + bytes[i];
    return sum;
}

static void fill(struct record *record, int i) {
    record->kind = i + 'a';
    record->number = 0x01020304u * (i + 1);
    record->change = -1000 * i;
    record->time = 0x0102030405060708ull * (i + 3);
    memcpy(record->name, "name", 5);
    record->name[3] = '0' + i;
    record->sum = sum_of(record);
}

int main(void) {
    static struct record records[5];
    static unsigned char copy[sizeof records + 1];
    printf("%d bytes each\n", (int) sizeof *records);
    for (int i = 0; i < 5; i++)
        fill(&records[i], i);
    memmove(copy + 1, records, sizeof records);
    const struct record *moved = (const struct record *) (copy + 1);
    uint32_t numbers = 0;
    uint64_t times = 0;
    int changes = 0;
    for (int i = 0; i < 5; i++) {
        numbers ^= moved[i].number;
        times += moved[i].time;
        changes += moved[i].change;
        printf("%c %08x %6d %016llx %s %s\n", moved[i].kind, (unsigned) moved[i].number, moved[i].change,
               (unsigned long long) moved[i].time, moved[i].name, moved[i].sum == sum_of(&moved[i]) ? "ok" : "WRONG");
    }
    printf("%08x %016llx %d\n", (unsigned) numbers, (unsigned long long) times, changes);
    return 0;
}
