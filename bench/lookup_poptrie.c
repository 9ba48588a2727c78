/* Longest match by a Poptrie in C, with the nodes, the leaves, the direct words and the places of crates/poptrie_build, over the
 * routes of a printed text, to be compared with crates/part_count.
 *
 *   lookup_poptrie ROWS 4|6 COUNT APART CHAINED DIRECT
 *
 * draws the COUNT addresses that part_count draws, and looks each of them up APART times by itself and CHAINED times with the
 * answer before put into its lowest bits; it prints how many nodes and leaves the family's trie needs, how many nodes one round of
 * look-ups visits, and the sums of the numbers of the hops. Hops are numbered in the order of the text.
 *
 * Build: cc -O3 -march=x86-64-v2 lookup_poptrie.c -o lookup_poptrie
 */
#include <arpa/inet.h>
#include <inttypes.h>
#include <stdint.h>
#include <stdio.h>
#include <stdlib.h>
#include <string.h>

typedef unsigned __int128 u128;

enum { LINE = 256, NODE_ORDER = 22, LEAF_ORDER = 24, NONE = UINT32_MAX };

static const uint32_t HOP = 1u << 31;

/* The bits stand from the most significant of 128 on. */
struct route {
    u128 bits;
    uint16_t hop;
    uint8_t length;
};

static struct route *routes;
static size_t route_count;
static char (*hops)[48];
static size_t hop_count;

static void die(const char *what)
{
    fprintf(stderr, "lookup_poptrie: %s\n", what);
    exit(1);
}

static void *room_for(void *old, size_t octets)
{
    void *room = realloc(old, octets);
    if (!room)
        die("no memory");
    return room;
}

/* The number of a next hop, from 1 in the order of first use. */
static uint16_t hop_number(const char *text)
{
    static size_t last;
    if (hop_count && strcmp(hops[last], text) == 0)
        return last + 1;
    for (size_t i = 0; i < hop_count; i++)
        if (strcmp(hops[i], text) == 0) {
            last = i;
            return i + 1;
        }
    hops = room_for(hops, (hop_count + 1) * sizeof *hops);
    snprintf(hops[hop_count], sizeof *hops, "%s", text);
    last = hop_count;
    return ++hop_count;
}

/* Reads the routes of a family. */
static void read_routes(const char *name, int is_v6)
{
    FILE *file = fopen(name, "r");
    char line[LINE];
    size_t room = 0;
    if (!file)
        die(name);
    while (fgets(line, sizeof line, file)) {
        if (strncmp(line, "route,", 6) != 0)
            continue;
        char *prefix = line + 6, *hop = strchr(prefix, ',');
        if ((memchr(prefix, ':', hop - prefix) != NULL) != is_v6)
            continue;
        *hop++ = 0;
        hop[strcspn(hop, "\n")] = 0;
        char *slash = strchr(prefix, '/');
        *slash = 0;
        if (route_count == room) {
            room = room ? room * 2 : 1024;
            routes = room_for(routes, room * sizeof *routes);
        }
        uint8_t octets[16] = { 0 };
        if (inet_pton(is_v6 ? AF_INET6 : AF_INET, prefix, octets) != 1)
            die(prefix);
        struct route *route = &routes[route_count++];
        route->bits = 0;
        for (int i = 0; i < 16; i++)
            route->bits = route->bits << 8 | octets[i];
        route->length = atoi(slash + 1);
        route->hop = hop_number(hop);
    }
    fclose(file);
}

/* ---- a tree of the routes, in which each region of one answer ends */

struct region {
    uint32_t halves[2]; /* 0 where the region has one answer */
    uint16_t hop;
};

static struct region *regions;
static uint32_t region_count;

static uint32_t new_region(uint16_t hop)
{
    static uint32_t room;
    if (region_count == room) {
        room = room ? room * 2 : 1 << 20;
        regions = room_for(regions, room * sizeof *regions);
    }
    regions[region_count] = (struct region){ { 0, 0 }, hop };
    return region_count++;
}

static void add_route(const struct route *route)
{
    uint32_t at = 0;
    for (int i = 0; i < route->length; i++) {
        int bit = route->bits >> (127 - i) & 1;
        if (!regions[at].halves[bit]) {
            uint32_t half = new_region(0);
            regions[at].halves[bit] = half;
        }
        at = regions[at].halves[bit];
    }
    regions[at].hop = route->hop;
}

/* Gives every region without a route the hop around it, and lets regions of one answer end. */
static void settle(uint32_t at, uint16_t around)
{
    uint16_t hop = regions[at].hop ? regions[at].hop : around;
    regions[at].hop = hop;
    if (!regions[at].halves[0] && !regions[at].halves[1])
        return;
    for (int bit = 0; bit < 2; bit++) {
        if (!regions[at].halves[bit]) {
            uint32_t half = new_region(0);
            regions[at].halves[bit] = half;
        }
        settle(regions[at].halves[bit], hop);
    }
    const struct region *low = &regions[regions[at].halves[0]], *high = &regions[regions[at].halves[1]];
    if (!low->halves[0] && !high->halves[0] && low->hop == high->hop)
        regions[at] = (struct region){ { 0, 0 }, low->hop };
}

/* The region of so many further bits, or the one around it that has one answer. */
static uint32_t below(uint32_t at, uint32_t bits, int count)
{
    while (count-- && regions[at].halves[0])
        at = regions[at].halves[bits >> count & 1];
    return at;
}

static int has_one_answer(uint32_t at)
{
    return !regions[at].halves[0];
}

/* ---- places, from the lowest on, in blocks of powers of two */

/* Where nothing is given back no two free blocks are equally large. */
struct places {
    uint32_t free[32]; /* the first place of the free block of each order, or NONE */
    uint32_t taken;
};

static struct places all_free(int order)
{
    struct places places = { .taken = 0 };
    for (int i = 0; i < 32; i++)
        places.free[i] = i == order ? 0 : NONE;
    return places;
}

static uint32_t take(struct places *places, uint32_t count)
{
    int order = 0, at;
    if (!count)
        return 0;
    while (1u << order < count)
        order++;
    for (at = order; at < 32 && places->free[at] == NONE; at++)
        ;
    if (at == 32)
        die("no room");
    uint32_t place = places->free[at];
    places->free[at] = NONE;
    while (at-- > order)
        places->free[at] = place + (1u << at);
    places->taken += 1u << order;
    return place;
}

/* ---- the trie */

/* A slot is a node where its bit of `vector` is set, else a leaf; `leafvec` marks where runs of equal leaves begin. */
struct node {
    uint64_t vector, leafvec;
    uint32_t base0, base1;
};

static struct node *nodes;
static uint16_t *leaves;
static uint32_t *words;
static struct places node_places, leaf_places;
static int direct;

static struct node node_of(uint32_t at)
{
    struct node node = { 0, 0, 0, 0 };
    uint32_t slots[64], last = NONE;
    for (int i = 0; i < 64; i++) {
        slots[i] = below(at, i, 6);
        if (!has_one_answer(slots[i]))
            node.vector |= 1ull << i;
        else if (regions[slots[i]].hop != last) {
            node.leafvec |= 1ull << i;
            last = regions[slots[i]].hop;
        }
    }
    node.base1 = take(&node_places, __builtin_popcountll(node.vector));
    node.base0 = take(&leaf_places, __builtin_popcountll(node.leafvec));
    uint32_t child = node.base1, leaf = node.base0;
    for (int i = 0; i < 64; i++)
        if (node.vector >> i & 1)
            nodes[child++] = node_of(slots[i]);
        else if (node.leafvec >> i & 1)
            leaves[leaf++] = regions[slots[i]].hop;
    return node;
}

static void *cells(size_t octets)
{
    void *made = calloc(octets, 1);
    if (!made)
        die("no memory");
    memset(made, 1, octets);
    return made;
}

static void build(void)
{
    new_region(0);
    for (size_t i = 0; i < route_count; i++)
        add_route(&routes[i]);
    settle(0, 0);
    node_places = all_free(NODE_ORDER);
    leaf_places = all_free(LEAF_ORDER);
    nodes = cells(sizeof *nodes << NODE_ORDER);
    leaves = cells(sizeof *leaves << LEAF_ORDER);
    words = cells(sizeof *words << direct);
    for (uint32_t i = 0; i < 1u << direct; i++) {
        uint32_t at = below(0, i, direct);
        if (has_one_answer(at)) {
            words[i] = HOP | regions[at].hop;
            continue;
        }
        words[i] = take(&node_places, 1);
        nodes[words[i]] = node_of(at);
    }
}

/* ---- look-ups */

/* How many of the slots up to this one have their bit set. */
static inline uint32_t rank(uint64_t vector, int slot)
{
    return __builtin_popcountll(vector << (63 - slot));
}

/* The keys of a family in numbers of its width: the look-up of one, and rounds of all. The memory that isn't touched between two
 * rounds keeps the compiler from taking one for all. */
#define FAMILY(NAME, KEY, WIDTH)                                                                                               \
    static inline uint16_t look_up_##NAME(KEY key, uint64_t *visits)                                                           \
    {                                                                                                                          \
        uint32_t word = words[key >> (WIDTH - direct)];                                                                        \
        if (word >= HOP)                                                                                                       \
            return word;                                                                                                       \
        for (KEY left = key << direct;; left <<= 6) {                                                                          \
            const struct node *node = &nodes[word];                                                                            \
            int slot = left >> (WIDTH - 6);                                                                                    \
            if (visits)                                                                                                        \
                ++*visits;                                                                                                     \
            if (!(node->vector >> slot & 1))                                                                                   \
                return leaves[node->base0 + rank(node->leafvec, slot) - 1];                                                    \
            word = node->base1 + rank(node->vector, slot) - 1;                                                                 \
        }                                                                                                                      \
    }                                                                                                                          \
                                                                                                                               \
    static uint64_t look_apart_##NAME(const KEY *keys, size_t count, uint64_t rounds)                                          \
    {                                                                                                                          \
        uint64_t sum = 0;                                                                                                      \
        for (; rounds; rounds--) {                                                                                             \
            for (size_t i = 0; i < count; i++)                                                                                 \
                sum += look_up_##NAME(keys[i], NULL);                                                                          \
            __asm__ volatile("" ::: "memory");                                                                                 \
        }                                                                                                                      \
        return sum;                                                                                                            \
    }                                                                                                                          \
                                                                                                                               \
    static uint64_t look_chained_##NAME(const KEY *keys, size_t count, uint64_t rounds)                                        \
    {                                                                                                                          \
        uint64_t sum = 0;                                                                                                      \
        uint16_t hop = 0;                                                                                                      \
        for (; rounds; rounds--) {                                                                                             \
            for (size_t i = 0; i < count; i++) {                                                                               \
                hop = look_up_##NAME(keys[i] ^ hop, NULL);                                                                     \
                sum += hop;                                                                                                    \
            }                                                                                                                  \
            __asm__ volatile("" ::: "memory");                                                                                 \
        }                                                                                                                      \
        return sum;                                                                                                            \
    }                                                                                                                          \
                                                                                                                               \
    static uint64_t visits_##NAME(const KEY *keys, size_t count)                                                               \
    {                                                                                                                          \
        uint64_t visits = 0;                                                                                                   \
        for (size_t i = 0; i < count; i++)                                                                                     \
            look_up_##NAME(keys[i], &visits);                                                                                  \
        return visits;                                                                                                         \
    }

FAMILY(v4, uint32_t, 32)
FAMILY(v6, u128, 128)

/* ---- addresses, drawn as crates/part_count draws them */

static uint64_t state = 1;

static uint64_t draw(void)
{
    state = 6364136223846793005u * state + 1442695040888963407u;
    return state >> 32;
}

/* An address within a route that is drawn: its further bits are drawn too. */
static u128 draw_addr(int is_v6)
{
    const struct route *route = &routes[draw() % route_count];
    u128 drawn = 0;
    for (int i = 0; i < 4; i++)
        drawn = drawn << 32 | draw();
    if (!is_v6)
        drawn <<= 96;
    return route->bits | (route->length < 128 ? drawn >> route->length : 0);
}

int main(int argc, char **argv)
{
    if (argc != 7)
        die("usage: ROWS 4|6 COUNT APART CHAINED DIRECT");
    int is_v6 = argv[2][0] == '6';
    size_t count = strtoull(argv[3], NULL, 10);
    uint64_t apart = strtoull(argv[4], NULL, 10), chained = strtoull(argv[5], NULL, 10);
    direct = atoi(argv[6]);
    read_routes(argv[1], is_v6);
    if (!route_count || direct < 1 || direct > 18)
        die("no route of the family, or not 1 to 18 direct bits");
    build();
    uint32_t *keys_v4 = cells(is_v6 ? 1 : count * sizeof *keys_v4);
    u128 *keys_v6 = cells(is_v6 ? count * sizeof *keys_v6 : 1);
    for (size_t i = 0; i < count; i++) {
        u128 addr = draw_addr(is_v6);
        if (is_v6)
            keys_v6[i] = addr;
        else
            keys_v4[i] = addr >> 96;
    }
    printf("nodes,%" PRIu32 "\nleaves,%" PRIu32 "\n", node_places.taken, leaf_places.taken);
    printf("visits,%" PRIu64 "\n", is_v6 ? visits_v6(keys_v6, count) : visits_v4(keys_v4, count));
    printf("apart,%" PRIu64 "\n", is_v6 ? look_apart_v6(keys_v6, count, apart) : look_apart_v4(keys_v4, count, apart));
    printf("chained,%" PRIu64 "\n", is_v6 ? look_chained_v6(keys_v6, count, chained) : look_chained_v4(keys_v4, count, chained));
    return 0;
}
