/* Shortest routes: the input has roads, two towns and a distance each. From every town the distance to every other one is found by
   always going on from the nearest town that is not done, which a heap knows; and the same by trying each town as a stop. */
#include <stdio.h>
#include <stdlib.h>
#include <string.h>

#define TOWNS 48
#define ROADS 256
#define NAME 16
#define FAR 1000000

struct road {
    int to, length, next;           /* next: another road of the same town, or -1 */
};

static char names[TOWNS][NAME];
static struct road roads[ROADS];
static int first_road[TOWNS], towns, road_count;
static int distance[TOWNS], before[TOWNS], place[TOWNS];    /* place: in the heap, or -1 */
static int heap[TOWNS], heaped;
static int table[TOWNS][TOWNS];

static int town_of(const char *name) {
    for (int town = 0; town < towns; town++)
        if (!strcmp(names[town], name))
            return town;
    if (towns == TOWNS) {
        puts("too many towns");
        exit(1);
    }
    strcpy(names[towns], name);
    first_road[towns] = -1;
    return towns++;
}

static void add_road(int from, int to, int length) {
    roads[road_count] = (struct road){to, length, first_road[from]};
    first_road[from] = road_count++;
}

static void put(int at, int town) {
    heap[at] = town;
    place[town] = at;
}

static void move_up(int town) {
    int at = place[town];
    for (; at && distance[heap[(at - 1) / 2]] > distance[town]; at = (at - 1) / 2)
        put(at, heap[(at - 1) / 2]);
    put(at, town);
}

static int take_nearest(void) {
    int nearest = heap[0], town = heap[--heaped], at = 0;
    for (int below; (below = 2 * at + 1) < heaped; at = below) {
        if (below + 1 < heaped && distance[heap[below + 1]] < distance[heap[below]])
            below++;
        if (distance[town] <= distance[heap[below]])
            break;
        put(at, heap[below]);
    }
    put(at, town);
    place[nearest] = -1;
    return nearest;
}

static void find_routes(int from) {
    heaped = 0;
    for (int town = 0; town < towns; town++) {
        distance[town] = town == from ? 0 : FAR;
        before[town] = -1;
        put(heaped++, town);
    }
    move_up(from);
    while (heaped) {
        int town = take_nearest();
        for (int i = first_road[town]; i >= 0; i = roads[i].next) {
            int length = distance[town] + roads[i].length;
            if (length < distance[roads[i].to]) {
                distance[roads[i].to] = length;
                before[roads[i].to] = town;
                move_up(roads[i].to);
            }
        }
    }
}

static void fill_table(void) {
    for (int from = 0; from < towns; from++) {
        for (int to = 0; to < towns; to++)
            table[from][to] = from == to ? 0 : FAR;
        for (int i = first_road[from]; i >= 0; i = roads[i].next)
            if (roads[i].length < table[from][roads[i].to])
                table[from][roads[i].to] = roads[i].length;
    }
    for (int stop = 0; stop < towns; stop++)
        for (int from = 0; from < towns; from++)
            for (int to = 0; to < towns; to++)
                if (table[from][stop] + table[stop][to] < table[from][to])
                    table[from][to] = table[from][stop] + table[stop][to];
}

static void print_route(int town) {
    if (before[town] >= 0) {
        print_route(before[town]);
        printf(" - ");
    }
    printf("%s", names[town]);
}

int main(void) {
    char from[NAME], to[NAME];
    int length, farthest = 0, wrong = 0;
    long sum = 0;
    while (road_count + 2 <= ROADS && scanf("%15s %15s %d", from, to, &length) == 3) {
        int start = town_of(from), end = town_of(to);
        add_road(start, end, length);
        add_road(end, start, length);
    }
    fill_table();
    for (int start = towns - 1; start >= 0; start--) {
        find_routes(start);
        for (int town = 0; town < towns; town++) {
            wrong += distance[town] != table[start][town] && (distance[town] < FAR || table[start][town] < FAR);
            if (distance[town] < FAR) {
                sum += distance[town];
                farthest = distance[town] > farthest ? distance[town] : farthest;
            }
        }
    }
    printf("%d towns, %d roads, all distances %ld, the largest %d, %d differ\n", towns, road_count / 2, sum, farthest, wrong);
    for (int town = 1; town < towns; town++) {
        if (distance[town] == FAR) {
            printf("no way to %s\n", names[town]);
            continue;
        }
        printf("%4d ", distance[town]);
        print_route(town);
        putchar('\n');
    }
    return 0;
}
