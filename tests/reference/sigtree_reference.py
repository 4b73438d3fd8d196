"""An independent reading of the customer's request (document 01 and Ticket 9), for tests alone: no code of the library is used.

A signature is a number below 2^width, of any width: words appear only where a slip's length is told from the width. Index keeps the
ledger and the tables in the form of 5B + 2 links, word for word: the form that the request's rules are about. sigrun's tables have one
word per node, and its lines are the same. A search's list comes from a linear scan of the ledger; its counts come from the paths of the
plain tree. The tables come from walking the links as the request tells it. `check` holds the three to each other.
"""

WIDEST, MOST_BLOCKS = 512, 65535


def bit(width, signature, position):
    return (signature >> (width - position)) & 1


def first_difference(width, a, b):
    return next(p for p in range(1, width + 1) if bit(width, a, p) != bit(width, b, p))


def best_position(width, group):
    """The position where the smaller side is largest, the lowest on a tie."""
    def smaller(p):
        ones = sum(bit(width, s, p) for s in group)
        return min(ones, len(group) - ones)
    return max(range(1, width + 1), key=lambda p: (smaller(p), -p))


class Index:
    """Tables of `blocks` blocks; `signatures` (numbers) and the 5B + 2 `links` are plain lists, all 0 at the start."""

    def __init__(self, blocks):
        self.blocks = blocks
        self.signatures = [0] * blocks
        self.links = [0] * (5 * blocks + 2)
        self.ledger = {}      # block -> signature
        self.width = 0

    # addresses
    def next_at(self, b): return 5 + 2 * (b - 1)
    def filed_at(self, b): return 6 + 2 * (b - 1)
    def node_at(self, i): return 5 + 2 * self.blocks + 3 * (i - 1)

    # question 4 on the tables' own words
    def fits(self):
        return 1 <= self.width <= WIDEST and 1 <= self.blocks <= MOST_BLOCKS

    def clear(self, width):
        if not (1 <= self.blocks <= MOST_BLOCKS and 1 <= width <= WIDEST): return 4
        B = self.blocks
        self.width, self.ledger, self.signatures = width, {}, [0] * B
        self.links = [width, B, 0, 1 if B > 1 else 0, 0] + [0] * (2 * B)
        for i in range(1, B): self.links += [0, i + 1 if i + 1 < B else 0, 0]
        return 0

    def spot(self, s):
        """Addresses of the references passed on the walk by s; the last holds a leaf or nothing."""
        at = [2]
        while self.links[at[-1]] > self.blocks:
            row = self.node_at(self.links[at[-1]] - self.blocks)
            at.append(row + 1 + bit(self.width, s, self.links[row]))
        return at

    def file(self, b, s):
        if not self.fits(): return 4
        if not 1 <= b <= self.blocks: return 5
        if s >= 1 << self.width: return 6
        if b in self.ledger: return 7
        L, at = self.links, self.spot(s)[-1]
        self.ledger[b] = self.signatures[b - 1] = s
        L[self.filed_at(b)] = 1
        L[4] += 1
        leaf = L[at]
        if leaf == 0:
            L[2] = b
        elif self.signatures[leaf - 1] == s:
            L[self.next_at(b)] = L[self.next_at(leaf)]
            L[self.next_at(leaf)] = b
        else:
            p = first_difference(self.width, s, self.signatures[leaf - 1])
            free = L[3]
            row = self.node_at(free)
            L[3] = L[row + 1]
            L[row] = p
            L[row + 1 + bit(self.width, s, p)] = b
            L[row + 2 - bit(self.width, s, p)] = leaf
            L[at] = self.blocks + free
        return 0

    def withdraw(self, b):
        if not self.fits(): return 4
        if not 1 <= b <= self.blocks: return 5
        if b not in self.ledger: return 8
        L, s = self.links, self.ledger.pop(b)
        way = self.spot(s)
        head, after = L[way[-1]], L[self.next_at(b)]
        if head != b:
            c = head
            while L[self.next_at(c)] != b: c = L[self.next_at(c)]
            L[self.next_at(c)] = after
        elif after:
            L[way[-1]] = after
        elif len(way) == 1:
            L[2] = 0
        else:
            parent = L[way[-2]] - self.blocks
            row = self.node_at(parent)
            L[way[-2]] = L[row + 2] if way[-1] == row + 1 else L[row + 1]
            L[row:row + 3] = [0, L[3], 0]
            L[3] = parent
        L[self.next_at(b)] = L[self.filed_at(b)] = self.signatures[b - 1] = 0
        L[4] -= 1
        return 0

    def heads(self, r):
        if r == 0: return []
        if r <= self.blocks: return [r]
        row = self.node_at(r - self.blocks)
        return self.heads(self.links[row + 1]) + self.heads(self.links[row + 2])

    def rebuild(self, scratch):
        if not self.fits(): return 4
        if scratch < self.blocks: return 9
        L, B = self.links, self.blocks
        head = {self.signatures[h - 1]: h for h in self.heads(L[2])}
        count = 0

        def place(group):
            nonlocal count
            if len(group) == 1: return head[group[0]]
            count += 1
            i, p = count, best_position(self.width, group)
            left = place([s for s in group if not bit(self.width, s, p)])
            right = place([s for s in group if bit(self.width, s, p)])
            row = self.node_at(i)
            L[row:row + 3] = [p, left, right]
            return B + i

        L[2] = place(sorted(head)) if head else 0
        L[3] = count + 1 if count + 1 < B else 0
        for i in range(count + 1, B):
            row = self.node_at(i)
            L[row:row + 3] = [0, i + 1 if i + 1 < B else 0, 0]
        return 0

    # the plain tree as nested tuples, and each signature's path
    def tree(self, r=None):
        r = self.links[2] if r is None else r
        if r == 0: return None
        if r <= self.blocks: return self.signatures[r - 1]
        row = self.node_at(r - self.blocks)
        return (self.links[row], self.tree(self.links[row + 1]), self.tree(self.links[row + 2]))

    def paths(self):
        found = {}

        def go(t, path):
            if isinstance(t, tuple):
                go(t[1], path + [(t[0], 0)])
                go(t[2], path + [(t[0], 1)])
            elif t is not None:
                found[t] = path
        go(self.tree(), [])
        return found

    def search(self, q, marks, output):
        """answer, found, compares, bits read, blocks"""
        if not self.fits(): return 4, 0, 0, 0, []
        if q >= 1 << self.width: return 6, 0, 0, 0, []
        if marks < self.blocks: return 9, 0, 0, 0, []
        if output < self.blocks: return 10, 0, 0, 0, []
        blocks = [b for b in range(1, self.blocks + 1) if b in self.ledger and self.ledger[b] & q == q]
        compared, nodes = 0, set()
        for path in self.paths().values():
            if all(e == 1 or not bit(self.width, q, p) for p, e in path):
                compared += 1
                nodes.update(tuple(path[:n]) for n in range(len(path)))
        return 0, len(blocks), compared, len(nodes), blocks

    def audit(self):
        return 0 if self.fits() else 4

    def check(self):
        """The ledger, the tree and the tables agree."""
        paths = self.paths()
        assert set(paths) == set(self.ledger.values())
        for s, path in paths.items(): assert all(bit(self.width, s, p) == e for p, e in path)
        assert self.links[4] == len(self.ledger)


def field_size(width):
    """The bytes of a signature: 8 for each 64 positions begun."""
    return len(range(0, width, 64)) * 8


def slip(kind, block=0, signature=0, width=64):
    """A slip for an index of this width; kind 0 has one word."""
    size = 8 if kind == 0 else field_size(width)
    return bytes([kind, 0, 0, 0]) + block.to_bytes(4, 'big') + signature.to_bytes(size, 'big')


def carry_out(index, data, scratch=1024, marks=1024, output=1024):
    """A slip's line as numbers: kind, answer, found, compares, bits read, then the blocks; the kind is None for an empty slip."""
    kind = data[0] if data else None

    def refused(n): return [kind, n, 0, 0, 0]
    if not data: return refused(1)
    if kind > 4: return refused(2)
    if kind != 0 and not index.fits(): return refused(4)
    if len(data) != 8 + (8 if kind == 0 else field_size(index.width)): return refused(1)
    block, signature = int.from_bytes(data[4:8], 'big'), int.from_bytes(data[8:], 'big')
    if any(data[1:4]) or (kind in (3, 4) and block) or (kind in (0, 2, 3) and signature): return refused(3)
    if kind == 0: return refused(index.clear(block))
    if kind == 1: return refused(index.file(block, signature))
    if kind == 2: return refused(index.withdraw(block))
    if kind == 3: return refused(index.rebuild(scratch))
    answer, found, compares, bits, blocks = index.search(signature, marks, output)
    return [kind, answer, found, compares, bits] + blocks


def slip_size(index, kind):
    """How many bytes sigrun takes for a slip that begins with this byte: 16 for a clear, for what is no kind, and before the first clear."""
    return 8 + field_size(index.width) if 1 <= kind <= 4 and index.width else 16


def serve(index, stream):
    """The slips that sigrun takes from a stream, each with its line; the last one may be short."""
    at = 0
    while at < len(stream):
        data = stream[at:at + slip_size(index, stream[at])]
        at += len(data)
        yield data, carry_out(index, data)
