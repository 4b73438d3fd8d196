/* Two mirrors of one record. Both have the same minutes, but filed them in different orders, so that they quote different compares for the
 * same query. Rebuilt, they quote the same: what a search compares and reads then depends on the filed signatures alone. */
#include "sigtree.h"

#include <inttypes.h>
#include <stdio.h>

enum { BLOCKS = 4, WIDTH = 3 };

struct mirror {
    const char *name;
    uint64_t signatures[BLOCKS], nodes[SIGTREE_NODES(BLOCKS)];
    uint32_t links[SIGTREE_LINKS(BLOCKS)];
};

#define TABLES(m) (m)->signatures, BLOCKS, (m)->links, SIGTREE_LINKS(BLOCKS), (m)->nodes, SIGTREE_NODES(BLOCKS)

static const uint64_t minutes[BLOCKS] = {1, 2, 4, 5}; /* 001, 010, 100, 101 */

static void fill(struct mirror *mirror, const uint32_t order[BLOCKS]) {
    uint32_t refused = sigtree_clear(TABLES(mirror), WIDTH);
    for (int i = 0; i < BLOCKS; i++) refused |= sigtree_file(TABLES(mirror), order[i], &minutes[order[i] - 1], 1);
    if (refused != 0) printf("%s: a call was refused\n", mirror->name);
}

static void quote(const struct mirror *mirror, uint64_t query) {
    uint8_t marks[BLOCKS];
    uint32_t output[BLOCKS], found, compares, bits_read;
    uint32_t answer = sigtree_search(TABLES(mirror), &query, 1, marks, BLOCKS, output, BLOCKS, &found, &compares, &bits_read);
    printf("%s: answer %" PRIu32 ", %" PRIu32 " compares, %" PRIu32 " bits read, blocks", mirror->name, answer, compares, bits_read);
    for (uint32_t i = 0; i < found; i++) printf(" %" PRIu32, output[i]);
    printf("\n");
}

int main(void) {
    static struct mirror mirrors[2] = {{.name = "east"}, {.name = "west"}};
    static const uint32_t orders[2][BLOCKS] = {{1, 2, 3, 4}, {3, 4, 1, 2}};
    uint32_t scratch[BLOCKS];
    for (int i = 0; i < 2; i++) {
        fill(&mirrors[i], orders[i]);
        quote(&mirrors[i], 2);
    }
    for (int i = 0; i < 2; i++) {
        printf("%s rebuilt: %" PRIu32 "\n", mirrors[i].name, sigtree_rebuild(TABLES(&mirrors[i]), scratch, BLOCKS));
        quote(&mirrors[i], 2);
    }
    return 0;
}
