/* Everyday code, as programs of offices have it: records with strings, one of several kinds of contents, small functions that call each
   other, tables, comparisons of names. The input has orders; they are booked in a store round after round. */
#include <stdio.h>
#include <string.h>

#define ITEMS 12
#define NAME 20
#define ROUNDS 60
#define BOOKED 64

enum kind { SALE, PURCHASE, COUNT };

struct order {
    struct order *next;
    enum kind kind;
    char item[NAME];
    union {
        struct {
            int number, price;
        } trade;
        struct {
            int found;
        } count;
    } contents;
};

struct item {
    char name[NAME];
    int stock, price, missing;
    int months[12];
};

static struct item store[ITEMS];
static struct order orders[BOOKED];
static int item_count, order_count, compared;
static long cash;

static int is_same_name(const char *left, const char *right) {
    compared++;
    return left[0] == right[0] && !strcmp(left, right);
}

static struct item *find(const char *name) {
    for (struct item *item = store; item < store + item_count; item++)
        if (is_same_name(item->name, name))
            return item;
    if (item_count == ITEMS)
        return NULL;
    strcpy(store[item_count].name, name);
    return store + item_count++;
}

static int least(int left, int right) {
    return left < right ? left : right;
}

/* A discount for many, in per cent. */
static int discount(int number) {
    return number >= 100 ? 10 : number >= 50 ? 5 : number >= 20 ? 2 : 0;
}

static long sum_of(int number, int price) {
    long sum = (long) number * price;
    return sum - sum * discount(number) / 100;
}

static void sell(struct item *item, const struct order *order, int month) {
    int number = least(item->stock, order->contents.trade.number);
    item->missing += order->contents.trade.number - number;
    item->stock -= number;
    item->months[month] += number;
    cash += sum_of(number, order->contents.trade.price);
}

static void buy(struct item *item, const struct order *order) {
    item->stock += order->contents.trade.number;
    item->price = (item->price + order->contents.trade.price + 1) / 2;
    cash -= sum_of(order->contents.trade.number, order->contents.trade.price);
}

static int book(const struct order *order, int month) {
    struct item *item = find(order->item);
    if (!item)
        return 0;
    switch (order->kind) {
    case SALE:
        sell(item, order, month);
        break;
    case PURCHASE:
        buy(item, order);
        break;
    case COUNT:
        item->missing += item->stock > order->contents.count.found;
        item->stock = least(item->stock, order->contents.count.found);
    }
    return 1;
}

static struct order *read_orders(void) {
    static const char *const kinds[] = {"sale", "purchase", "count"};
    struct order *first = NULL, **end = &first;
    char kind[NAME];
    while (order_count < BOOKED && scanf("%19s", kind) == 1) {
        struct order *order = orders + order_count++;
        while (order->kind < COUNT && strcmp(kinds[order->kind], kind))
            order->kind++;
        if (scanf("%19s", order->item) != 1)
            break;
        if (order->kind == COUNT)
            scanf("%d", &order->contents.count.found);
        else
            scanf("%d %d", &order->contents.trade.number, &order->contents.trade.price);
        *end = order;
        end = &order->next;
    }
    return first;
}

int main(void) {
    struct order *first = read_orders();
    int booked = 0;
    for (int round = 0; round < ROUNDS; round++)
        for (const struct order *order = first; order; order = order->next) {
            struct order copy = *order;
            if (copy.kind == SALE)
                copy.contents.trade.number += round % 5;
            booked += book(&copy, round % 12);
        }
    printf("%d orders, %d booked, %d names compared, cash %ld\n", order_count, booked, compared, cash);
    for (const struct item *item = store; item < store + item_count; item++) {
        printf("%-10s stock %4d price %4d missing %4d sold", item->name, item->stock, item->price, item->missing);
        for (int month = 0; month < 12; month++)
            printf(" %d", item->months[month]);
        putchar('\n');
    }
    return 0;
}
