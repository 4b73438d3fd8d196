/* A store that was filled in the form of 5 * B + 2 links: packed, searched, unpacked and compared; then packed with a word written over,
 * which is refused and leaves the packed tables as they are. It is the tree of the README, with room for a fifth block. */
#include "sigtree.h"

#include <inttypes.h>
#include <stdio.h>
#include <string.h>

enum { BLOCKS = 5 };

static const uint64_t signatures[BLOCKS] = {0xb, 0x6, 0xe, 0x6, 0};
static uint32_t old_links[SIGTREE_OLD_LINKS(BLOCKS)] = {
    4, 5, 6, 3, 4,                      /* width, blocks, root, first free node, count of filed blocks */
    0, 1, 4, 1, 0, 1, 0, 1, 0, 0,       /* blocks 1 to 5: next, filed */
    1, 2, 7, 2, 1, 3, 0, 4, 0, 0, 0, 0, /* nodes 1 to 4: position, left, right; 3 and 4 are free */
};
static uint32_t links[SIGTREE_LINKS(BLOCKS)];
static uint64_t nodes[SIGTREE_NODES(BLOCKS)];

static uint32_t pack(void) {
    return sigtree_pack(signatures, BLOCKS, old_links, SIGTREE_OLD_LINKS(BLOCKS), links, SIGTREE_LINKS(BLOCKS), nodes,
                        SIGTREE_NODES(BLOCKS));
}

static void show_nodes(void) {
    for (size_t i = 0; i < SIGTREE_NODES(BLOCKS); i++)
        printf("node %zu: 0x%016" PRIx64 ", position %" PRIu64 ", left %" PRIu64 ", right %" PRIu64 "\n", i + 1, nodes[i],
               nodes[i] >> 34, nodes[i] >> 17 & 0x1ffff, nodes[i] & 0x1ffff);
}

static void search(uint64_t query) {
    uint8_t marks[BLOCKS];
    uint32_t output[BLOCKS], found, compares, bits_read;
    uint32_t answer = sigtree_search(signatures, BLOCKS, links, SIGTREE_LINKS(BLOCKS), nodes, SIGTREE_NODES(BLOCKS), &query, 1, marks,
                                     BLOCKS, output, BLOCKS, &found, &compares, &bits_read);
    printf("search: answer %" PRIu32 ", %" PRIu32 " compares, blocks", answer, compares);
    for (uint32_t i = 0; i < found; i++) printf(" %" PRIu32, output[i]);
    printf("\n");
}

int main(void) {
    uint32_t back[SIGTREE_OLD_LINKS(BLOCKS)];
    printf("pack: %" PRIu32 "\n", pack());
    show_nodes();
    search(0x8);
    printf("unpack: %" PRIu32 "\n", sigtree_unpack(signatures, BLOCKS, links, SIGTREE_LINKS(BLOCKS), nodes, SIGTREE_NODES(BLOCKS), back,
                                                   SIGTREE_OLD_LINKS(BLOCKS)));
    printf("the same words: %s\n", memcmp(back, old_links, sizeof back) == 0 ? "yes" : "no");
    old_links[15] += 64;
    printf("pack with a word written over: %" PRIu32 "\n", pack());
    search(0x8);
    return 0;
}
