"""Whether pages are well formed: a plain reading of what that means, which shares nothing with the program.

A level of a tree is a chain of pages by `next`. What is wrong is told by its number, and all that is wrong is told, where the program
tells the first that it meets:

    1  a root names no page
    2  a chain meets a page twice, or a page stands on two levels
    3  a chain does not begin at the empty key, has a gap, or ends before the unbounded end
    4  a pointer or `next` names no page, or a pointer names a page that is neither in the chain below nor merging and received
    5  a pointer's key is not where its page begins, or an index's first key is not where the index begins
    6  a page both merging and with a merging child, a merging page that is not its parent's merging child, or a merging child that is
       the first pointer or no pointer
    7  more than 33 entries, or a merging child with more than 17
    8  entries not ascending or outside the bounds, or an index without pointers
    9  leaves and indexes on one level, or a page in two trees
"""


def of_page(node, is_leaf):
    """What is wrong with a page by itself, on a level of leaves or of indexes."""
    keys = [key for key, _ in node.entries]
    pointers = [] if node.leaf else [pid for _, pid in node.entries]
    tests = [
        (7, len(keys) > 33),
        (8, keys != sorted(set(keys))),
        (8, any(key < node.lo or node.hi != b'' and node.hi <= key for key in keys)),
        (8, not node.leaf and not keys),
        (5, not node.leaf and keys[:1] not in ([], [node.lo])),
        (6, node.merging and node.child is not None),
        (6, node.child is not None and node.child not in pointers[1:]),
        (9, node.leaf != is_leaf),
    ]
    return {code for code, is_so in tests if is_so}


class Check:
    """A check of all trees: what is wrong, and where each page stands, as its tree and its level from the root down."""

    def __init__(self, read, roots):
        self.read, self.wrong, self.places = read, set(), {}
        for name, root in sorted(roots.items()):
            self.tree(name, root)

    def place(self, pid, name, level):
        """A page stands here."""
        tree, other = self.places.setdefault(pid, (name, level))
        if tree != name:
            self.wrong.add(9)
        elif other != level:
            self.wrong.add(2)

    def tree(self, name, root):
        if self.read(root) is None:
            self.wrong.add(1)
            return
        pid, level, above, passed = root, 0, [], set()
        while pid is not None:
            if pid in passed:
                self.wrong |= {2, 3} if self.read(pid).lo else {2}
                self.wrong |= {4 for node in above.values() for _, under in node.entries if self.read(under) is None}
                return
            chain = self.chain(pid, name, level)
            passed.update(chain)
            self.level(chain, above, name, level)
            first = self.read(pid)
            above, pid, level = chain, first.entries[0][1] if not first.leaf and first.entries else None, level + 1
            if pid is not None and self.read(pid) is None:
                self.wrong.add(4)
                return

    def chain(self, pid, name, level):
        """The pages of a level, by their numbers."""
        chain, end = {}, b''
        while pid is not None:
            node = self.read(pid)
            if node is None:
                self.wrong.add(4)
                break
            if node.lo != end:
                self.wrong.add(3)
            if pid in chain:
                self.wrong.add(2)
                break
            if node.next is not None and (node.hi == b'' or node.hi <= node.lo):
                self.wrong.add(3)
            self.place(pid, name, level)
            chain[pid], end, pid = node, node.hi, node.next
        else:
            if end != b'':
                self.wrong.add(3)
        return chain

    def level(self, chain, above, name, level):
        """The pages of a level by themselves, and beside those of the level above."""
        is_leaf = next(iter(chain.values())).leaf
        children = {node.child for node in above.values()} if above else set()
        for pid, node in chain.items():
            self.wrong |= of_page(node, is_leaf)
            if node.merging and pid not in children:
                self.wrong.add(6)
        for node in above.values() if above else []:
            for key, pid in [] if node.leaf else node.entries:
                self.pointer(node, key, pid, chain, is_leaf, name, level)

    def pointer(self, parent, key, pid, chain, is_leaf, name, level):
        """A pointer of a page of the level above."""
        node = self.read(pid)
        if node is None or pid not in chain and not node.merging:
            self.wrong.add(4)
        if node is None:
            return
        if node.lo != key:
            self.wrong.add(5)
        if node.merging and parent.child != pid:
            self.wrong.add(6)
        if parent.child == pid and len(node.entries) > 17:
            self.wrong.add(7)
        if pid not in chain:
            self.wrong |= of_page(node, is_leaf)
            self.place(pid, name, level)


def faults(read, roots):
    """The numbers of all that is wrong with the pages that the roots lead to, by what reads a page by its number."""
    return Check(read, roots).wrong
