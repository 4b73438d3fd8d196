/* The station logger in small: signs each minute's conditions, files it, sells a search, withdraws, rebuilds and audits. Then the same
 * index serves the price list of seventy conditions, one position for each: a signature has two words there, so it is cleared with
 * another slice. */
#include "sigtree.h"

#include <inttypes.h>
#include <stdio.h>
#include <string.h>

enum { BLOCKS = 6, WIDTH = 24, POSITIONS = 3, CONDITIONS = 70 };

static uint64_t texts[SIGTREE_SIGNATURES(BLOCKS, WIDTH)], listed[SIGTREE_SIGNATURES(BLOCKS, CONDITIONS)], nodes[SIGTREE_NODES(BLOCKS)];
static uint32_t links[SIGTREE_LINKS(BLOCKS)];
static uint32_t scratch[BLOCKS], output[BLOCKS];
static uint8_t marks[BLOCKS];

#define LENGTH(array) (sizeof(array) / sizeof *(array))
#define TABLES(signatures) signatures, LENGTH(signatures), links, LENGTH(links), nodes, LENGTH(nodes)
#define LENT marks, LENGTH(marks), output, LENGTH(output)

static const char *const minutes[BLOCKS] = {
    "drift step", "drift", "leap pending", "step backup", "drift step leap", "quiet",
};

/* The conditions of each minute by their numbers in the price list, and 0 after the last. */
static const uint32_t occurred[BLOCKS][5] = {{1, 6, 70}, {7, 70}, {1, 6, 7, 70}, {64, 65}, {6, 70}, {1, 6, 70}};

/* The signature of a text. */
static void sign(const char *text, uint64_t signature[SIGTREE_WORDS(WIDTH)]) {
    uint32_t answer = sigtree_sign((const uint8_t *)text, strlen(text), WIDTH, POSITIONS, signature, SIGTREE_WORDS(WIDTH));
    if (answer != 0) printf("sign \"%s\": refused with %" PRIu32 "\n", text, answer);
}

/* The signature with these positions set. */
static void set(const uint32_t *positions, uint64_t signature[SIGTREE_WORDS(CONDITIONS)]) {
    memset(signature, 0, sizeof(uint64_t) * SIGTREE_WORDS(CONDITIONS));
    for (; *positions != 0; positions++) {
        uint32_t k = CONDITIONS - *positions;
        signature[SIGTREE_WORDS(CONDITIONS) - 1 - k / 64] |= (uint64_t)1 << k % 64;
    }
}

static void show(const uint32_t *positions) {
    for (; *positions != 0; positions++) printf(" %" PRIu32, *positions);
}

static void show_list(uint32_t answer, uint32_t found, uint32_t compares) {
    printf(": answer %" PRIu32 ", %" PRIu32 " compares, blocks", answer, compares);
    for (uint32_t i = 0; i < found; i++) printf(" %" PRIu32, output[i]);
    printf("\n");
}

static void sell(const char *text) {
    uint64_t query[SIGTREE_WORDS(WIDTH)];
    uint32_t found, compares, bits_read;
    sign(text, query);
    uint32_t answer = sigtree_search(TABLES(texts), query, LENGTH(query), LENT, &found, &compares, &bits_read);
    printf("search \"%s\"", text);
    show_list(answer, found, compares);
}

static void sell_conditions(const uint32_t *positions) {
    uint64_t query[SIGTREE_WORDS(CONDITIONS)];
    uint32_t found, compares, bits_read;
    set(positions, query);
    uint32_t answer = sigtree_search(TABLES(listed), query, LENGTH(query), LENT, &found, &compares, &bits_read);
    printf("search for");
    show(positions);
    show_list(answer, found, compares);
}

static void log_texts(void) {
    printf("clear: %" PRIu32 "\n", sigtree_clear(TABLES(texts), WIDTH));
    for (uint32_t block = 1; block <= BLOCKS; block++) {
        uint64_t signature[SIGTREE_WORDS(WIDTH)];
        sign(minutes[block - 1], signature);
        uint32_t answer = sigtree_file(TABLES(texts), block, signature, LENGTH(signature));
        printf("file %" PRIu32 " \"%s\": %" PRIu32 "\n", block, minutes[block - 1], answer);
    }
    sell("drift");
    sell("step");
    sell("leap step");
    printf("withdraw 2: %" PRIu32 "\n", sigtree_withdraw(TABLES(texts), 2));
    printf("rebuild: %" PRIu32 "\n", sigtree_rebuild(TABLES(texts), scratch, LENGTH(scratch)));
    sell("drift");
}

static void log_conditions(void) {
    printf("clear to 70 conditions: %" PRIu32 "\n", sigtree_clear(TABLES(listed), CONDITIONS));
    for (uint32_t block = 1; block <= BLOCKS; block++) {
        uint64_t signature[SIGTREE_WORDS(CONDITIONS)];
        set(occurred[block - 1], signature);
        uint32_t answer = sigtree_file(TABLES(listed), block, signature, LENGTH(signature));
        printf("file %" PRIu32 " with", block);
        show(occurred[block - 1]);
        printf(": %" PRIu32 "\n", answer);
    }
    sell_conditions((const uint32_t[]){6, 70, 0});
    sell_conditions((const uint32_t[]){1, 7, 0});
    sell_conditions((const uint32_t[]){64, 0});
}

int main(void) {
    log_texts();
    printf("audit: %" PRIu32 "\n", sigtree_audit(TABLES(texts)));
    log_conditions();
    printf("audit: %" PRIu32 "\n", sigtree_audit(TABLES(listed)));
    nodes[0] ^= 1;
    printf("audit with a node written over: %" PRIu32 "\n", sigtree_audit(TABLES(listed)));
    return 0;
}
