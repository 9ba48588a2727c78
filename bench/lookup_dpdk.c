/* Longest match by DPDK's tables over the routes of a printed text, to be compared with: rte_fib (DIR24_8) for IPv4 and rte_fib6
 * (trie) for IPv6.
 *
 *   lookup_dpdk answers ROWS ASKS     the answer row of each address asked for, by DPDK
 *   lookup_dpdk time ROWS 4|6 COUNT   nanoseconds a look-up, one by one and 32 at once, over COUNT addresses drawn from the routes
 *
 * Build: cc -O3 -march=native lookup_dpdk.c $(pkg-config --cflags --libs libdpdk) -o lookup_dpdk
 */
#include <arpa/inet.h>
#include <inttypes.h>
#include <stdint.h>
#include <stdio.h>
#include <stdlib.h>
#include <string.h>
#include <time.h>

#include <rte_eal.h>
#include <rte_fib.h>
#include <rte_fib6.h>
#include <rte_malloc.h>

enum { BATCH = 32, LINE = 256 };

struct route {
    uint8_t addr[16];
    uint64_t hop;
    uint8_t depth;
    uint8_t is_v6;
};

static struct route *routes;
static size_t route_count;
static char (*hops)[48];
static size_t hop_count;

static void die(const char *what)
{
    fprintf(stderr, "lookup_dpdk: %s\n", what);
    exit(1);
}

/* The number of a next hop, from 1 in the order of first use. */
static uint64_t hop_number(const char *text)
{
    static size_t last;
    if (hop_count && strcmp(hops[last], text) == 0)
        return last + 1;
    for (size_t i = 0; i < hop_count; i++)
        if (strcmp(hops[i], text) == 0) {
            last = i;
            return i + 1;
        }
    hops = realloc(hops, (hop_count + 1) * sizeof *hops);
    snprintf(hops[hop_count], sizeof *hops, "%s", text);
    last = hop_count;
    return ++hop_count;
}

static void read_routes(const char *name)
{
    FILE *file = fopen(name, "r");
    char line[LINE];
    size_t room = 0;
    if (!file)
        die(name);
    while (fgets(line, sizeof line, file)) {
        if (strncmp(line, "route,", 6) != 0)
            continue;
        char *prefix = line + 6, *hop = strchr(prefix, ',');
        *hop++ = 0;
        hop[strcspn(hop, "\n")] = 0;
        char *slash = strchr(prefix, '/');
        *slash = 0;
        if (route_count == room) {
            room = room ? room * 2 : 1024;
            routes = realloc(routes, room * sizeof *routes);
        }
        struct route *route = &routes[route_count++];
        memset(route, 0, sizeof *route);
        route->is_v6 = strchr(prefix, ':') != NULL;
        route->depth = atoi(slash + 1);
        route->hop = hop_number(hop);
        if (inet_pton(route->is_v6 ? AF_INET6 : AF_INET, prefix, route->addr) != 1)
            die(prefix);
    }
    fclose(file);
}

static struct rte_fib *make_fib(void)
{
    struct rte_fib_conf conf = {
        .type = RTE_FIB_DIR24_8,
        .default_nh = 0,
        .max_routes = 1 << 22,
        .rib_ext_sz = 0,
        .dir24_8 = { .nh_sz = RTE_FIB_DIR24_8_4B, .num_tbl8 = 1 << 17 },
    };
    struct rte_fib *fib = rte_fib_create("fib4", SOCKET_ID_ANY, &conf);
    if (!fib)
        die("no rte_fib");
    for (size_t i = 0; i < route_count; i++)
        if (!routes[i].is_v6) {
            uint32_t addr;
            memcpy(&addr, routes[i].addr, 4);
            if (rte_fib_add(fib, ntohl(addr), routes[i].depth, routes[i].hop) != 0)
                die("no room in rte_fib");
        }
    return fib;
}

static struct rte_fib6 *make_fib6(void)
{
    struct rte_fib6_conf conf = {
        .type = RTE_FIB6_TRIE,
        .default_nh = 0,
        .max_routes = 1 << 21,
        .rib_ext_sz = 0,
        .trie = { .nh_sz = RTE_FIB6_TRIE_4B, .num_tbl8 = 1 << 20 },
    };
    struct rte_fib6 *fib = rte_fib6_create("fib6", SOCKET_ID_ANY, &conf);
    if (!fib)
        die("no rte_fib6");
    for (size_t i = 0; i < route_count; i++)
        if (routes[i].is_v6 && rte_fib6_add(fib, routes[i].addr, routes[i].depth, routes[i].hop) != 0)
            die("no room in rte_fib6");
    return fib;
}

static size_t heap_in_use(void)
{
    struct rte_malloc_socket_stats stats;
    rte_malloc_get_socket_stats(0, &stats);
    return stats.heap_allocsz_bytes;
}

static double seconds(void)
{
    struct timespec now;
    clock_gettime(CLOCK_PROCESS_CPUTIME_ID, &now);
    return now.tv_sec + now.tv_nsec / 1e9;
}

static void answers(const char *name)
{
    struct rte_fib *fib = make_fib();
    struct rte_fib6 *fib6 = make_fib6();
    FILE *file = fopen(name, "r");
    char line[LINE];
    if (!file)
        die(name);
    while (fgets(line, sizeof line, file)) {
        uint64_t hop = 0;
        line[strcspn(line, "\n")] = 0;
        if (strchr(line, ':')) {
            uint8_t addr[1][16];
            inet_pton(AF_INET6, line, addr[0]);
            rte_fib6_lookup_bulk(fib6, addr, &hop, 1);
        } else {
            uint32_t addr;
            inet_pton(AF_INET, line, &addr);
            addr = ntohl(addr);
            rte_fib_lookup_bulk(fib, &addr, &hop, 1);
        }
        printf("answer,%s,%s\n", line, hop ? hops[hop - 1] : "none");
    }
    fclose(file);
}

/* Knuth's generator, as bench's other programs use it. */
static uint64_t state = 1;
static uint64_t draw(void)
{
    state = 6364136223846793005u * state + 1442695040888963407u;
    return state >> 33;
}

/* An address within a route that is drawn, its further bits drawn too. */
static void draw_addr(int is_v6, uint8_t addr[16])
{
    const struct route *route;
    do
        route = &routes[draw() % route_count];
    while (route->is_v6 != is_v6);
    memcpy(addr, route->addr, 16);
    for (int bit = route->depth; bit < (is_v6 ? 128 : 32); bit++)
        if (draw() & 1)
            addr[bit / 8] |= 0x80 >> bit % 8;
}

static void time_v4(size_t count)
{
    size_t before = heap_in_use();
    double start = seconds();
    struct rte_fib *fib = make_fib();
    double built = seconds() - start;
    size_t octets = heap_in_use() - before;
    uint32_t *addrs = malloc(count * sizeof *addrs);
    uint64_t sum = 0;
    for (size_t i = 0; i < count; i++) {
        uint8_t addr[16];
        draw_addr(0, addr);
        memcpy(&addrs[i], addr, 4);
        addrs[i] = ntohl(addrs[i]);
    }
    start = seconds();
    for (size_t i = 0; i < count; i++) {
        uint64_t hop;
        rte_fib_lookup_bulk(fib, &addrs[i], &hop, 1);
        sum += hop;
    }
    double single = seconds() - start;
    start = seconds();
    for (size_t i = 0; i + BATCH <= count; i += BATCH) {
        uint64_t got[BATCH];
        rte_fib_lookup_bulk(fib, &addrs[i], got, BATCH);
        for (int k = 0; k < BATCH; k++)
            sum += got[k];
    }
    double bulk = seconds() - start;
    printf("rte_fib DIR24_8: built in %.2f s, %zu octets (rib too), single %.2f ns, bulk %.2f ns, sum %" PRIu64 "\n", built, octets,
           single / count * 1e9, bulk / count * 1e9, sum);
}

static void time_v6(size_t count)
{
    size_t before = heap_in_use();
    double start = seconds();
    struct rte_fib6 *fib = make_fib6();
    double built = seconds() - start;
    size_t octets = heap_in_use() - before;
    uint8_t(*addrs)[16] = malloc(count * sizeof *addrs);
    uint64_t sum = 0;
    for (size_t i = 0; i < count; i++)
        draw_addr(1, addrs[i]);
    start = seconds();
    for (size_t i = 0; i < count; i++) {
        uint64_t hop;
        rte_fib6_lookup_bulk(fib, &addrs[i], &hop, 1);
        sum += hop;
    }
    double single = seconds() - start;
    start = seconds();
    for (size_t i = 0; i + BATCH <= count; i += BATCH) {
        uint64_t got[BATCH];
        rte_fib6_lookup_bulk(fib, &addrs[i], got, BATCH);
        for (int k = 0; k < BATCH; k++)
            sum += got[k];
    }
    double bulk = seconds() - start;
    printf("rte_fib6 trie: built in %.2f s, %zu octets (rib too), single %.2f ns, bulk %.2f ns, sum %" PRIu64 "\n", built, octets,
           single / count * 1e9, bulk / count * 1e9, sum);
}

int main(int argc, char **argv)
{
    char *eal[] = { argv[0], "--no-huge", "--no-pci", "-m", "6144", "--no-shconf", "--no-telemetry", "--log-level=1", "-l", "0" };
    if (rte_eal_init(sizeof eal / sizeof *eal, eal) < 0)
        die("DPDK doesn't start");
    if (argc == 4 && strcmp(argv[1], "answers") == 0) {
        read_routes(argv[2]);
        answers(argv[3]);
    } else if (argc == 5 && strcmp(argv[1], "time") == 0) {
        read_routes(argv[2]);
        if (argv[3][0] == '4')
            time_v4(strtoul(argv[4], NULL, 10));
        else
            time_v6(strtoul(argv[4], NULL, 10));
    } else
        die("usage: answers ROWS ASKS | time ROWS 4|6 COUNT");
    return 0;
}
