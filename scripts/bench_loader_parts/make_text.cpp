// Writes an edge list of drawn edges, each with an Int or without one.
//
//     make_text KIND NODES EDGES STEP FIELDS
//
// KIND is `even`, where each end is any node with the same chance, or `skewed`, where few nodes have most of the edges.
// The numbers of nodes are 0, STEP, 2 * STEP .., and FIELDS is 3 with an Int and 2 without.
#include <cstdint>
#include <cstdio>
#include <cstdlib>
#include <cstring>

static uint64_t drawn(uint64_t k) {
    uint64_t m = k * 0x9e3779b97f4a7c15ull;
    m = (m ^ (m >> 29)) * 0xbf58476d1ce4e5b9ull;
    return (m ^ (m >> 32)) * 0x94d049bb133111ebull;
}

// The ends of an edge of a recursive matrix: each bit of both is drawn with chances of 57, 19, 19 and 5 percent.
static void skewed(uint64_t edge, int bits, uint64_t &from, uint64_t &to) {
    from = to = 0;
    for (int bit = 0; bit < bits; bit++) {
        unsigned chance = drawn(edge * 64 + bit) >> 48;
        int quarter = chance < 37355 ? 0 : chance < 49807 ? 1 : chance < 62259 ? 2 : 3;
        from = from << 1 | quarter >> 1;
        to = to << 1 | (quarter & 1);
    }
}

int main(int, char **words) {
    bool even = !strcmp(words[1], "even");
    uint64_t nodes = strtoull(words[2], 0, 10), edges = strtoull(words[3], 0, 10), step = strtoull(words[4], 0, 10);
    bool values = words[5][0] == '3';
    int bits = 0;
    while ((1ull << bits) < nodes) bits++;
    for (uint64_t e = 0; e < edges; e++) {
        uint64_t from = drawn(2 * e) >> 20, to = drawn(2 * e + 1) >> 20;
        if (!even) {
            skewed(e, bits, from, to);
            from *= 0x9e3779b1ull;
            to *= 0x9e3779b1ull;
        }
        printf("%llu\t%llu", (unsigned long long)(from % nodes * step), (unsigned long long)(to % nodes * step));
        if (values) printf("\t%llu", (unsigned long long)(e % 100000));
        printf("\n");
    }
}
