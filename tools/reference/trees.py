"""The answers that the player of trees and their proofs must give, from the definitions.

    python3 tools/reference/trees.py < crates/trees_player/stdin > crates/trees_player/stdout

A tree is the digests of the nodes that it keeps, by position, and every digest is computed anew from the forest of
`forest.py`. crates/trees_player/README.md has the words of a line.
"""

import forest as trees
import merkle_proofs as proofs
from lines import BadLine, play
from merkle_proofs import Proof, Refusal


# The texts of refusals that are fixed by more than their number.
TEXTS = {
    ("M13",): "M13: the batch begins from another tree",
    ("M20", "3"): "M20: node 3 is missing",
}


class Tree:
    """A tree: how many leaves it has, the leaf before which it is pruned, and the digests that it keeps."""

    def __init__(self, family, leaves=0, boundary=0, nodes=None):
        self.family = family
        self.leaves = leaves
        self.boundary = boundary
        self.nodes = dict(nodes or {})

    def copy(self):
        return Tree(self.family, self.leaves, self.boundary, self.nodes)

    def forest(self):
        return trees.grow(self.family, self.leaves)

    def size(self):
        return len(self.forest().nodes)

    def peaks(self):
        return [self.nodes[peak.position] for peak in self.forest().peaks]

    def prune(self, location):
        if location > self.leaves:
            raise Refusal("M7", location)
        if location <= self.boundary:
            return
        pruned = trees.grow(self.family, location)
        pinned = {peak.position for peak in pruned.peaks}
        self.boundary = location
        self.nodes = {
            position: digest
            for position, digest in self.nodes.items()
            if position >= len(pruned.nodes) or position in pinned
        }

    def apply(self, made):
        """Brings what the tree lacks of the batch and of those below it."""
        layers = [made] + made.below
        for count, layer in enumerate(layers):
            if (layer.base_leaves, layer.base_peaks) == (self.leaves, self.peaks()):
                break
        else:
            oldest = layers[-1].base_leaves
            raise Refusal("M14" if made.dropped and self.leaves < oldest else "M13")
        for layer in reversed(layers[: count + 1]):
            for position, digest in layer.changed.items():
                if position in self.nodes:
                    self.nodes[position] = digest
            self.nodes.update(layer.added)
            self.leaves = layer.leaves


def tree_of_parts(family, boundary, nodes, pinned):
    """The tree that is pruned before a boundary, with these nodes from there on, and these pinned ones."""
    if boundary > trees.MAX_LEAVES:
        raise Refusal("M3", boundary)
    pruned = trees.grow(family, boundary)
    leaves = trees.leaves_of_size(family, len(pruned.nodes) + len(nodes))
    if leaves is None:
        raise Refusal("M6")
    if len(pinned) != len(pruned.peaks):
        raise Refusal("M12")
    kept = {peak.position: digest for peak, digest in zip(pruned.peaks, pinned)}
    kept.update(enumerate(nodes, len(pruned.nodes)))
    return Tree(family, leaves, boundary, kept)


class Batch:
    """A batch that is put together: its base, the digests that it adds, and its updates, the last of which counts."""

    def __init__(self, family, base_leaves, base_peaks, boundary, below=(), dropped=False):
        self.family = family
        self.base_leaves = base_leaves
        self.base_peaks = base_peaks
        self.boundary = boundary
        self.below = list(below)
        self.dropped = dropped
        self.added = []
        self.updates = {}

    def leaves(self):
        return self.base_leaves + len(self.added)

    def position(self, location):
        return trees.grow(self.family, location + 1).leaf(location).position

    def add(self, digest):
        self.added.append(digest)

    def add_element(self, element):
        self.add(trees.leaf_digest(self.position(self.leaves()), element))

    def update(self, updates):
        for location, _ in updates:
            if location >= self.leaves():
                raise Refusal("M7", location)
            if location < self.boundary:
                raise Refusal("M10", self.position(location))
        self.updates.update(updates)

    def forget(self):
        self.dropped = self.dropped or bool(self.below)
        self.below = []

    def made(self, tree):
        """The batch whose nodes are made, from those of the batches below and of the tree."""
        base, whole = trees.grow(self.family, self.base_leaves), trees.grow(self.family, self.leaves())
        changed = {}

        def known(position):
            for layer in self.below:
                for nodes in (layer.changed, layer.added):
                    if position in nodes:
                        return nodes[position]
            if position in tree.nodes:
                return tree.nodes[position]
            if self.dropped and position >= tree.size():
                raise Refusal("M14")
            raise Refusal("M20", position)

        def renewed(node):
            if not any(leaf in self.updates for leaf in node.leaves()):
                return known(node.position)
            if node.left is None:
                digest = self.updates[node.first]
            else:
                left = renewed(node.left)
                digest = trees.branch_digest(node.position, left, renewed(node.right))
            changed[node.position] = digest
            return digest

        digests = {peak.position: renewed(peak) for peak in base.peaks}
        added = {}
        for node in whole.nodes[len(base.nodes) :]:
            if node.left is None:
                plain = self.added[node.first - self.base_leaves]
                digest = self.updates.get(node.first, plain)
            else:
                left, right = digests[node.left.position], digests[node.right.position]
                digest = trees.branch_digest(node.position, left, right)
            digests[node.position] = added[node.position] = digest
        peaks = [digests[peak.position] for peak in whole.peaks]
        return Made(self, added, changed, peaks)


class Made:
    """A batch whose nodes are made."""

    def __init__(self, batch, added, changed, peaks):
        self.family = batch.family
        self.base_leaves = batch.base_leaves
        self.base_peaks = batch.base_peaks
        self.boundary = batch.boundary
        self.leaves = batch.leaves()
        self.below = batch.below
        self.dropped = batch.dropped
        self.added = added
        self.changed = changed
        self.own_peaks = peaks
        self.nodes = {}
        for layer in reversed([self] + self.below):
            self.nodes.update(layer.added)
            self.nodes.update(layer.changed)

    def size(self):
        return len(trees.grow(self.family, self.leaves).nodes)

    def peaks(self):
        return self.own_peaks

    def over(self):
        below = [self] + self.below
        return Batch(self.family, self.leaves, self.own_peaks, self.boundary, below, self.dropped)


class Store:
    """What is kept of a verified proof of a range."""

    def __init__(self, family, bagging, proof, start, elements, root):
        self.nodes = dict(proofs.extract(family, bagging, proof, start, elements, root))
        self.forest = trees.grow(family, proof.leaves)
        self.bagging = bagging
        self.leaves = proof.leaves
        self.inactive = proof.inactive
        self.start = start
        self.stop = start + len(elements)
        _, self.folds = proofs.known_nodes(self.forest, proof, bagging, start, elements)

    def suffix(self):
        """The peaks after the range that stand in the proof as one digest, from the right."""
        if self.bagging == "forward":
            return []
        return [peak.position for peak in self.forest.peaks[self.inactive :] if peak.first >= self.stop]

    def part(self, start, stop):
        if start >= stop:
            raise Refusal("M4")
        if start < self.start or stop > self.stop:
            raise Refusal("M5", stop)
        digests = []
        for part in proofs.range_parts(self.forest, self.bagging, self.inactive, start, stop):
            items, skip = [], 0
            for node in part.nodes:
                if skip:
                    skip -= 1
                elif part.side and node.position in self.folds:
                    fold, digest = self.folds[node.position]
                    items.append(digest)
                    skip = len(fold.nodes) - 1
                else:
                    items.append(self.nodes[node.position])
            fold = trees.fold_backward if part.side == "right" else trees.fold_forward
            digests.append(fold(items))
        return Proof(self.leaves, self.inactive, digests)

    def many(self, locations, supplied):
        proofs.check_locations(self.leaves, locations)
        digests = []
        for position in proofs.multi_positions(self.forest, locations):
            if position in self.nodes:
                digests.append(self.nodes[position])
            elif position in supplied:
                digests.append(supplied[position])
            else:
                raise Refusal("M11" if position in self.suffix() else "M10", position)
        return Proof(self.leaves, self.inactive, digests)


def root(bagging, nodes, inactive):
    found = trees.root(bagging, nodes.leaves, inactive, nodes.peaks())
    if found is None:
        raise Refusal("M16")
    return found


def looked_up(nodes, positions):
    for position in positions:
        if position not in nodes.nodes:
            raise Refusal("M10", position)
    return nodes.nodes


def check_plan(leaves, start, stop):
    if start >= stop:
        raise Refusal("M4")
    if stop > leaves:
        raise Refusal("M5", stop)
    if leaves > trees.MAX_LEAVES:
        raise Refusal("M3", leaves)


def proved(bagging, nodes, leaves, start, stop, inactive):
    """The proof of a range of the first so many leaves."""
    check_plan(leaves, start, stop)
    forest = trees.grow(nodes.family, leaves)
    if inactive > len(forest.peaks):
        raise Refusal("M16")
    digests = looked_up(nodes, proofs.plan_positions(forest, start, stop))
    return Proof(leaves, inactive, proofs.honest_range(forest, digests, bagging, inactive, start, stop))


def proved_many(nodes, inactive, locations):
    proofs.check_locations(nodes.leaves, locations)
    forest = trees.grow(nodes.family, nodes.leaves)
    if inactive > len(forest.peaks):
        raise Refusal("M16")
    positions = proofs.multi_positions(forest, locations)
    digests = looked_up(nodes, positions)
    return Proof(nodes.leaves, inactive, [digests[position] for position in positions])


def count(word):
    """A number of 64 bits, in decimal digits alone."""
    if not word.isdigit() or int(word) >= 2**64:
        raise BadLine
    return int(word)


def digest(word):
    data = bytes.fromhex(word)
    if len(data) != 32:
        raise BadLine
    return data


def element(word):
    return b"" if word == "-" else bytes.fromhex(word)


def pairs(words, value):
    if len(words) % 2:
        raise BadLine
    return [(count(words[at]), value(words[at + 1])) for at in range(0, len(words), 2)]


def split(words):
    if "/" not in words:
        raise BadLine
    at = words.index("/")
    return words[:at], words[at + 1 :]


def joined(words):
    return " ".join(str(word) for word in words) or "none"


def shown(value):
    if value is None:
        return "none"
    if isinstance(value, bool):
        return "true" if value else "false"
    return value.hex() if isinstance(value, bytes) else str(value)


def fields(proof):
    return joined([proof.leaves, proof.inactive] + [one.hex() for one in proof.digests])


class Player:
    """What a case has made, by the names that it gave."""

    def __init__(self, family="mmr", bagging="forward"):
        self.family = family
        self.bagging = bagging
        self.trees, self.batches, self.made, self.proofs, self.stores = {}, {}, {}, {}, {}

    def answer(self, words):
        first, rest = words[0], words[1:]
        if first in trees.FAMILIES or first == "fold":
            (bagging,) = rest
            if bagging not in trees.BAGGINGS:
                raise BadLine
            if first == "fold":
                self.bagging = bagging
            else:
                self.__init__(first, bagging)
            return "ok"
        subject = getattr(self, "on_" + first.replace("-", "_"), None)
        if subject is None:
            raise BadLine
        return subject(*rest)

    def on_tree(self, name, call, *words):
        if call in ("new", "init", "components", "copy"):
            if call == "new":
                () = words
                made = Tree(self.family)
            elif call == "copy":
                made = self.trees[words[0]].copy()
            else:
                nodes, pinned = split(words[1:])
                made = tree_of_parts(
                    self.family, count(words[0]), [digest(one) for one in nodes], [digest(one) for one in pinned]
                )
            self.trees[name] = made
            return "ok"
        tree = self.trees[name]
        if call == "grow":
            batch = Batch(self.family, tree.leaves, tree.peaks(), tree.boundary)
            for word in words:
                batch.add_element(element(word))
            tree.apply(batch.made(tree))
        elif call == "apply":
            tree.apply(self.made[words[0]])
        elif call == "wait":
            return self.waited(name, *words)
        elif call == "prune":
            tree.prune(count(words[0]))
        elif call == "prune-all":
            tree.prune(tree.leaves)
        else:
            return self.asked(tree, call, words)
        return "ok"

    def waited(self, name, made, end, *steps):
        """What steps ask of a tree for which a batch waits, that is taken away; then it is applied, or the tree stays."""
        if end not in ("apply", "cancel"):
            raise BadLine
        made, after = self.made.pop(made), self.trees[name].copy()
        after.apply(made)
        told = [self.asked(after, *((it, ()) if it in ("leaves", "boundary") else ("node", (it,)))) for it in steps]
        if end == "apply":
            self.trees[name] = after
        return joined(told)

    def asked(self, nodes, call, words):
        if call == "leaves":
            return str(nodes.leaves)
        if call == "size":
            return str(nodes.size())
        if call == "boundary":
            return str(nodes.boundary)
        if call == "bounds":
            return joined([nodes.boundary, nodes.leaves])
        if call == "peaks":
            return joined(one for peak in nodes.forest().peaks for one in (peak.position, peak.height))
        if call == "kept":
            return joined(sorted(nodes.nodes))
        if call in ("pinned", "listed"):
            start = len(trees.grow(self.family, nodes.boundary).nodes)
            return joined(it for it in sorted(nodes.nodes) if (it < start) == (call == "pinned"))
        if call == "base-size":
            return str(len(trees.grow(self.family, nodes.base_leaves).nodes))
        if call == "node":
            return shown(nodes.nodes.get(count(words[0])))
        if call == "read":
            return joined([nodes.leaves, nodes.size(), shown(nodes.nodes.get(count(words[0])))])
        if call == "root":
            return root(self.bagging, nodes, count(words[0])).hex()
        raise BadLine

    def on_batch(self, name, call, *words):
        if call == "over":
            if words[0] == "tree":
                tree = self.trees[words[1]]
                self.batches[name] = Batch(self.family, tree.leaves, tree.peaks(), tree.boundary)
            else:
                self.batches[name] = self.made[words[1]].over()
            return "ok"
        if call == "new":
            (parent,) = words
            self.batches[name] = self.made[parent].over()
            return "ok"
        if call == "leaves":
            return str(self.batches[name].leaves())
        # A call that is refused gives the batch up.
        batch = self.batches.pop(name)
        if call == "add":
            for word in words:
                batch.add_element(element(word))
        elif call in ("add-digest", "add-digests"):
            for word in words:
                batch.add(digest(word))
        elif call == "update":
            location = count(words[0])
            position = batch.position(location) if location < batch.leaves() else 0
            batch.update([(location, trees.leaf_digest(position, element(words[1])))])
        elif call in ("update-digest", "update-digests"):
            batch.update(pairs(words, digest))
        elif call == "forget":
            batch.forget()
        else:
            raise BadLine
        self.batches[name] = batch
        return "ok"

    def on_made(self, name, call, *words):
        if call == "of":
            self.made[name] = self.batches.pop(words[0]).made(self.trees[words[1]])
            return "ok"
        if call == "from":
            tree = self.trees[words[0]]
            batch = Batch(self.family, tree.leaves, tree.peaks(), tree.boundary)
            self.made[name] = Made(batch, {}, {}, tree.peaks())
            return "ok"
        return self.asked(self.made[name], call, words)

    def on_plan(self, call, *words):
        leaves, *rest = [count(word) for word in words]
        if call == "many":
            proofs.check_locations(leaves, rest)
            return joined(proofs.multi_positions(trees.grow(self.family, leaves), rest))
        if call == "range":
            start, stop = rest
        else:
            start, stop = rest[0], rest[0] + 1
            if start >= leaves:
                raise Refusal("M7", start)
        check_plan(leaves, start, stop)
        positions = proofs.plan_positions(trees.grow(self.family, leaves), start, stop)
        return joined([start if call == "element" else leaves] + positions)

    def on_prove(self, name, kind, source, call, *words):
        nodes = self.trees[source] if kind == "tree" else self.made[source]
        numbers = [count(word) for word in words]
        if call in ("element", "own-element"):
            location, inactive = numbers
            if location >= nodes.leaves:
                raise Refusal("M7", location)
            proof = proved(self.bagging, nodes, nodes.leaves, location, location + 1, inactive)
        elif call in ("range", "own-range"):
            proof = proved(self.bagging, nodes, nodes.leaves, *numbers)
        elif call == "earlier":
            if numbers[0] > nodes.leaves:
                raise Refusal("M5", numbers[0])
            proof = proved(self.bagging, nodes, *numbers)
        elif call == "planned":
            proof = proved(self.bagging, nodes, *numbers)
        elif call == "many":
            proof = proved_many(nodes, numbers[0], numbers[1:])
        else:
            raise BadLine
        self.proofs[name] = proof
        return fields(proof)

    def on_proof(self, name, call, *words):
        if call == "empty":
            self.proofs[name] = Proof(0, 0, [])
            return "ok"
        if call == "new":
            self.proofs[name] = Proof(count(words[0]), count(words[1]), [digest(word) for word in words[2:]])
            return "ok"
        if call == "decode":
            self.proofs[name] = proofs.decode(element(words[1]), count(words[0]))
            return "ok"
        if call == "copy":
            (other,) = words
            proof = self.proofs[other]
            self.proofs[name] = Proof(proof.leaves, proof.inactive, list(proof.digests))
            return "ok"
        proof = self.proofs[name]
        if call == "equals":
            other = self.proofs[words[0]]
            return shown(
                (proof.leaves, proof.inactive, proof.digests) == (other.leaves, other.inactive, other.digests)
            )
        if call == "set":
            part, value = words
            if part == "leaves":
                proof.leaves = count(value)
            elif part == "inactive":
                proof.inactive = count(value)
            elif part == "first":
                del proof.digests[count(value) :]
            else:
                raise BadLine
            return "ok"
        if call == "more":
            proof.digests.append(digest(words[0]))
            return "ok"
        if call == "show":
            return fields(proof)
        if call == "encode":
            return proofs.encode(proof).hex()
        if call == "encode-size":
            return str(len(proofs.encode(proof)))
        if call == "canonical":
            if proof.leaves > trees.MAX_LEAVES:
                return "false"
            forest = trees.grow(self.family, proof.leaves)
            return shown(trees.inactive_peaks(forest, count(words[0])) == proof.inactive)
        raise BadLine

    def on_check(self, name, call, *words):
        proof = self.proofs[name]
        setting = (self.family, self.bagging, proof)
        if call == "element":
            shown_element = [element(words[2])]
            return shown(proofs.check_range(*setting, count(words[1]), shown_element, digest(words[0])))
        if call == "many":
            found = proofs.rebuild_multi(*setting, pairs(words[1:], element))
            return shown(found == digest(words[0]))
        if call == "rebuild-many":
            return shown(proofs.rebuild_multi(*setting, pairs(words, element)))
        if call in ("rebuild", "rebuild-range"):
            return proofs.rebuild_range(*setting, count(words[0]), [element(one) for one in words[1:]]).hex()
        wanted, start = digest(words[0]), count(words[1])
        if call == "pinned":
            elements, pinned = split(words[2:])
            elements = [element(one) for one in elements]
            return shown(proofs.check_pinned(*setting, start, elements, [digest(one) for one in pinned], wanted))
        elements = [element(one) for one in words[2:]]
        if call == "range":
            return shown(proofs.check_range(*setting, start, elements, wanted))
        if call == "extract":
            told = proofs.extract(*setting, start, elements, wanted)
            return joined(one for position, found in told for one in (position, found.hex()))
        raise BadLine

    def on_store(self, name, call, *words):
        if call == "of":
            elements = [element(one) for one in words[3:]]
            proof = self.proofs[words[0]]
            self.stores[name] = Store(
                self.family, self.bagging, proof, count(words[2]), elements, digest(words[1])
            )
            return "ok"
        store = self.stores[name]
        if call == "suffix":
            return joined(store.suffix())
        if call == "node":
            return shown(store.nodes.get(count(words[0]), dict(pairs(words[1:], digest)).get(count(words[0]))))
        if call == "range":
            proof = store.part(count(words[1]), count(words[2]))
        elif call == "many":
            locations, supplied = split(words[1:])
            proof = store.many([count(word) for word in locations], dict(pairs(supplied, digest)))
        else:
            raise BadLine
        self.proofs[words[0]] = proof
        return fields(proof)

    def on_digests(self, start, stop, *words):
        elements = [element(word) for word in words]
        forest = trees.grow(self.family, len(elements))
        digests = trees.node_digests(forest, trees.element_digests(forest, elements))
        found = proofs.honest_range(forest, digests, self.bagging, 0, count(start), count(stop))
        return joined(one.hex() for one in found)

    def on_width(self, width, call, *words):
        if width not in ("1", "2", "32"):
            raise BadLine
        if call == "greatest":
            return shown(proofs.greatest_size(count(width), count(words[0])))
        proof = proofs.decode(element(words[1]), count(words[0]), count(width))
        return fields(proof) if call == "read" else proofs.encode(proof).hex()

    def on_limit(self, name):
        # Of the greatest tree: the most digests of the proof of one element, and the most peaks of its beginnings.
        return {"digests": "122", "pinned": "62"}[name]

    def on_text(self, *words):
        return TEXTS[words]


if __name__ == "__main__":
    play(lambda: Player().answer, Refusal, (BadLine, KeyError, ValueError, IndexError, TypeError))
