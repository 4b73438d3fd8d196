/* sigtree: a signature tree over three lent tables. This header is the manual of its calls.
 *
 * A signature is a number below 2^F; F, the width, is 1 to 512. Position j, 1 to F, counts from the left and has weight 2^(F - j). A
 * signature s covers a query q when every position set in q is set in s. A block is 1 to B and has at most one signature.
 *
 * A signature or a query is lent and stored as W words of 64 bits, W being F / 64 rounded up, high word first: the weight 2^k stands in
 * word W - 1 - k / 64, at bit k % 64. The bits of word 0 from 2^F on are 0. So s covers q when (s[i] & q[i]) == q[i] for each word i. At a
 * width up to 64 it is one word, the number itself. At width 70:
 *
 *     word 0: 58 bits 0, then positions 1 to 6          word 1: positions 7 to 70
 *
 * The caller owns all memory. The index lives in three slices, the tables; B, the number of blocks, is 1 to 65,535 and is told from the
 * length of the links:
 *
 *    signatures   B * W words of 64 bits       block b's words at (b - 1) * W to b * W - 1
 *    links        5 + 2 * B words of 32 bits   F, B, root, first free node, count of filed blocks; then two words a block: next, filed
 *    nodes        B - 1 words of 64 bits       node i at index i - 1; any pointer will do where B - 1 is 0
 *
 * Clear them once, then lend the same three slices, with exactly these lengths, to every call. A clear to another width is lent a
 * signature slice of that width's B * W words, the same memory or other; where it is refused, the index goes on with the old one. No
 * caller needs to read the tables. Who does finds a node in one word:
 *
 *     63                                34 33               17 16                0
 *    +------------------------------------+-------------------+-------------------+
 *    |              position              |       left        |       right       |   position * 2^34 + left * 2^17 + right
 *    +------------------------------------+-------------------+-------------------+
 *
 * left is followed where a signature has bit 0 at the position, right where it has bit 1. Each is a leaf (1 to B: the first block of a
 * chain) or node i (B + i). A free node has position 0, right 0 and in left the number of the next free node, 0 for none.
 *
 * The form of 5 * B + 2 links holds the same tables in two slices: there each node is three links after the rows of the blocks: its
 * position, its left, its right. Stores filled in that form are converted by sigtree_pack, and back by sigtree_unpack.
 *
 * Every call answers 0, or the number of the first question that says no; it asks them in the order that stands beside it:
 *
 *    1  slip: it is empty, or not as long as its kind has it: 16 bytes for kind 0, 8 + 8 * W for kinds 1 to 4
 *    2  slip: its kind, the first byte, is not 0 to 4
 *    3  slip: a field that its kind does not use is not 0
 *    4  the lengths of the tables, B, F or words 0 and 1 of the links do not fit; F and W are those of word 0, for a clear those of its
 *       own width, and words 0 and 1 are then not looked at; file, search: or the signature or query is not W words long; pack, unpack:
 *       or the lengths of the target do not fit; sign: the width is not 1 to 512, or the signature is not W words long
 *    5  file, withdraw: the block is not 1 to B
 *    6  file, search: the signature or query is not below 2^F
 *    7  file: the block is filed
 *    8  withdraw: the block is not filed
 *    9  rebuild, search: the scratch or the marks are shorter than B
 *   10  search: the output is shorter than B
 *   11  rebuild, audit, pack, unpack: the tables are not sound
 *   12  sign, word: the text is longer than 4,096 bytes
 *   13  sign: k is not 1 to 8
 *
 * A call that is refused has changed nothing that it was lent, but sets its counts to 0. On tables that are not sound (a program has
 * written over them), file, withdraw and search may also answer 11: file and withdraw have then changed nothing, search at most the
 * first B marks. No call ever reads or writes outside the lent slices, and every call ends, whatever the slices hold.
 *
 * Proved of the library, for every width, every call and every list of calls: see docs/PROVED.md. For the caller to see to: each pointer
 * is valid for its length (any pointer will do for length 0), lent slices do not overlap, and the pointers to single numbers are not null.
 *
 * The ceiling of a search, known before it: its compares are at most the number of distinct signatures filed, and at most 2^z, where z
 * is the number of positions 1 to F that the query does not set. Its bits read are at most F times its compares.
 *
 * Equal quotes: from a rebuild on, until a call changes the tables, the compares and bits read of a search depend on the query, the
 * width and the set of filed signatures alone. Two indexes that hold the same set, each rebuilt after its last change, report the same,
 * however they were filled and however many blocks they have. See docs/PRICE.md and examples/mirrors.c.
 */
#ifndef SIGTREE_H
#define SIGTREE_H

#include <stddef.h>
#include <stdint.h>

#ifdef __cplusplus
extern "C" {
#endif

/* W, the words of a signature or query of a width; how many words the signature slice has; how many links and how many nodes B blocks
 * have, and how many links in the form without nodes; how long a slip of kinds 1 to 4 is. */
#define SIGTREE_WORDS(width) (((size_t)(width) + 63) / 64)
#define SIGTREE_SIGNATURES(blocks, width) ((size_t)(blocks) * SIGTREE_WORDS(width))
#define SIGTREE_LINKS(blocks) (5 + 2 * (size_t)(blocks))
#define SIGTREE_NODES(blocks) ((size_t)(blocks) - 1)
#define SIGTREE_OLD_LINKS(blocks) (5 * (size_t)(blocks) + 2)
#define SIGTREE_SLIP(width) (8 + 8 * SIGTREE_WORDS(width))

/* Empties the index and sets its width; the old words may be anything. The signature slice has B * W words, W of this width. Asks 4
 * (lengths, B and this width). */
uint32_t sigtree_clear(uint64_t *signatures, size_t signatures_length, uint32_t *links, size_t links_length, uint64_t *nodes,
                       size_t nodes_length, uint32_t width);

/* Files a block with its signature of W words. Asks 4, 5, 6, 7. */
uint32_t sigtree_file(uint64_t *signatures, size_t signatures_length, uint32_t *links, size_t links_length, uint64_t *nodes,
                      size_t nodes_length, uint32_t block, const uint64_t *signature, size_t signature_length);

/* Takes a block out. Asks 4, 5, 8. */
uint32_t sigtree_withdraw(uint64_t *signatures, size_t signatures_length, uint32_t *links, size_t links_length, uint64_t *nodes,
                          size_t nodes_length, uint32_t block);

/* Makes the tree anew from the filed signatures, so that each node parts its signatures as evenly as it can; how the tree had grown leaves
 * no trace. Borrows B words of scratch, free afterwards; words beyond B are unchanged. Asks 4, 9, 11. */
uint32_t sigtree_rebuild(const uint64_t *signatures, size_t signatures_length, uint32_t *links, size_t links_length, uint64_t *nodes,
                         size_t nodes_length, uint32_t *scratch, size_t scratch_length);

/* Lists the filed blocks whose signature covers the query of W words: ascending, each once, at the front of the output; later words are
 * unchanged. The first B marks are 1 for each listed block and else 0; later marks are unchanged. Sets found (how many are listed),
 * compares (how many distinct signatures were compared) and bits_read (how many nodes were passed). Asks 4, 6, 9, 10. */
uint32_t sigtree_search(const uint64_t *signatures, size_t signatures_length, const uint32_t *links, size_t links_length,
                        const uint64_t *nodes, size_t nodes_length, const uint64_t *query, size_t query_length, uint8_t *marks,
                        size_t marks_length, uint32_t *output, size_t output_length, uint32_t *found, uint32_t *compares,
                        uint32_t *bits_read);

/* Says whether the tables are sound, and only reads them. Asks 4, 11. */
uint32_t sigtree_audit(const uint64_t *signatures, size_t signatures_length, const uint32_t *links, size_t links_length,
                       const uint64_t *nodes, size_t nodes_length);

/* Converts sound tables of 5 * B + 2 links, old_links, into links and nodes. The signatures serve both forms. The source is only read;
 * the target's old words may be anything, and are unchanged where the call is refused. Asks 4 of the source and of the target's
 * lengths, 11 of the source. sigtree_unpack of what is left gives the same old_links. */
uint32_t sigtree_pack(const uint64_t *signatures, size_t signatures_length, const uint32_t *old_links, size_t old_links_length,
                      uint32_t *links, size_t links_length, uint64_t *nodes, size_t nodes_length);

/* Converts sound tables into old_links of 5 * B + 2 links, in the same way. Asks 4 of the source and of the target's length, 11 of the
 * source. sigtree_pack of what is left gives the same links and nodes. */
uint32_t sigtree_unpack(const uint64_t *signatures, size_t signatures_length, const uint32_t *links, size_t links_length,
                        const uint64_t *nodes, size_t nodes_length, uint32_t *old_links, size_t old_links_length);

/* Carries out a slip: kind (0 clear, 1 file, 2 withdraw, 3 rebuild, 4 search), three zero bytes, block (for a clear the width) in 4
 * bytes, then the signature or query, word after word in 8 bytes each, high byte first throughout. A slip of kind 0 is 16 bytes, with one
 * word that is 0; the others are 8 + 8 * W, W of the index's width. An empty slip gets 1. Else it asks 2; then 1 and 3 for kind 0, or 4, 1
 * and 3 for kinds 1 to 4; then the call's own questions. The counts are those of a search, and 0 for every other call and every refusal. */
uint32_t sigtree_slip(const uint8_t *slip, size_t slip_length, uint64_t *signatures, size_t signatures_length, uint32_t *links,
                      size_t links_length, uint64_t *nodes, size_t nodes_length, uint32_t *scratch, size_t scratch_length,
                      uint8_t *marks, size_t marks_length, uint32_t *output, size_t output_length, uint32_t *found,
                      uint32_t *compares, uint32_t *bits_read);

/* Fills the W words of signature with the signature of a text: words of the text are the longest runs of bytes other than 32 and 10; each
 * sets, for its overlapping runs of three bytes a, b, c from left to right, the first k different positions 1 + ((961a + 31b + c) mod
 * width). The text's signature is the OR over its words. Asks 4 (this width, and W words), 12, 13; refused, the words are untouched. */
uint32_t sigtree_sign(const uint8_t *text, size_t text_length, uint32_t width, uint32_t k, uint64_t *signature, size_t signature_length);

/* Where word n of a text, counted from 1, stands: its first byte's index and its size in bytes; the text's length and 0 where there is
 * no such word or the text is refused. Answers 0 or 12. */
uint32_t sigtree_word(const uint8_t *text, size_t text_length, uint32_t n, size_t *start, size_t *size);

#ifdef __cplusplus
}
#endif

#endif
