"""The rules of crates/yaml_grammar over the places of a text: gaps, nodes in brackets and by columns, and documents."""

import bisect
import collections

from grammar_leaves import (
    UNNAMED, at, block_at, double_rest, is_gap, is_indicator, is_safe, is_text, is_triple, name_end, names_at,
    parts, plain_rest, run_end, single_rest,
)

MOST_NESTINGS = 128


class TwoReadings(Exception):
    pass


# ---- Nodes: a mark is a place and a line or column of its own, and a node is a tuple that begins with its kind

Alias = collections.namedtuple("Alias", "start anchor")
Scalar = collections.namedtuple("Scalar", "start names how said end")
Sequence = collections.namedtuple("Sequence", "start names nodes end")
Mapping = collections.namedtuple("Mapping", "start names pairs end")
Document = collections.namedtuple("Document", "start root end")

# A derivation: the rule, the places that its other parts do not tell, and its premises, of which a number is so many
# tests.
Rule = collections.namedtuple("Rule", "name places premises")


def by(name, *premises, **places):
    return Rule(name, places, premises)



class Text:
    """The rules over the places of a text. Each relation gives the end, what stands there and the rule, or None."""

    def __init__(self, text):
        self.text = text
        self.starts = [0] + [i + 1 for i, c in enumerate(text) if c == 10]
        self.ascii = text.isascii()
        self.gaps, self.flow_nodes = {}, {}

    def only(self, found):
        found = [one for one in found if one is not None]
        if len(found) > 1:
            raise TwoReadings([one[-1].name for one in found])
        return found[0] if found else None

    # ---- Gaps

    def place_of(self, i):
        line = bisect.bisect_right(self.starts, i) - 1
        part = self.text[self.starts[line]:i]
        return line, len(part) if self.ascii else sum(not 0x80 <= c <= 0xBF for c in part)

    def column(self, i):
        return self.place_of(i)[1]

    def is_over(self, i):
        return i >= len(self.text) or (self.text[i] in b"-." and self.column(i) == 0 and parts(self.text, i))

    def is_mark(self, c, i):
        return at(self.text, i) == c and is_gap(at(self.text, i + 1))

    def gap(self, i):
        if i in self.gaps:
            return self.gaps[i]
        start, text, broken = i, self.text, False
        apart = i == 0 or text[i - 1] in (32, 10)
        while i < len(text):
            if text[i] == 10:
                broken = True
            elif text[i] == 35 and apart:
                end = text.find(b"\n", i)
                i = len(text) if end < 0 else end
                continue
            elif text[i] != 32:
                break
            apart = True
            i += 1
        self.gaps[start] = i, broken
        return i, broken

    def next(self, i):
        return self.gap(i)[0]

    def breaks(self, i):
        return self.gap(i)[1]

    def ends_its_line(self, i):
        return self.breaks(i) or self.next(i) >= len(self.text)

    def is_within(self, least, i):
        return not self.is_over(i) and least <= self.column(i)

    def is_at(self, c, i):
        return not self.is_over(i) and self.column(i) == c

    def is_item(self, c, i):
        return self.is_mark(45, i) and self.column(i) == c

    def follows(self, least, i):
        return not self.ends_its_line(i) or self.is_within(least, self.next(i))

    # ---- Nodes

    def mark(self, i):
        return (i, *self.place_of(i))

    def end_mark(self, c, i):
        line, column = self.place_of(i)
        if i == len(self.text) and column != 0 and c <= column:
            return i, line + 1, 0
        return i, line, column

    def scalar_at(self, i, names, how, said, end):
        return Scalar(self.mark(i), names, how, said, end)

    # ---- Leaves

    def begins_plain(self, flow, i):
        c = at(self.text, i)
        return (
            not is_gap(c) and not is_indicator(c) and not (c in b"-." and self.column(i) == 0 and parts(self.text, i))
            and (c not in b"-?:" or is_safe(flow, c, at(self.text, i + 1)))
        )

    def leaf_at(self, context, i):
        """What it is, what it says and the place behind it."""
        text, c = self.text, at(self.text, i)
        flow = context == "brackets"
        if c == 42:
            end = name_end(text, flow, i + 1)
            return None if end is None else (("alias", text[i + 1:end]), end)
        if c == 39:
            how, rest = "'", single_rest(text, i + 1)
        elif c == 34:
            how, rest = '"', double_rest(text, i + 1)
        else:
            how = ":"
            rest = plain_rest(text, context, self.column(i), i) if self.begins_plain(flow, i) else None
        return None if rest is None else ((how, rest[1]), rest[0])

    def leaf_node(self, i, names, leaf, end):
        if leaf[0] == "alias":
            return Alias(self.mark(i), leaf[1]) if names == UNNAMED else None
        return self.scalar_at(i, names, *leaf, end)

    # ---- Brackets

    def part_after(self, close, i):
        c = at(self.text, i)
        return i if c == close else self.next(i + 1) if c == 44 else None

    def has_colon(self, i, end):
        colon = self.next(end)
        return at(self.text, colon) == 58 and b"\n" not in self.text[i:colon] and colon <= i + 1024

    def nothing_here(self, i):
        return Scalar(self.mark(i), UNNAMED, ":", b"", i)

    def flow_node(self, d, i):
        if (d, i) not in self.flow_nodes:
            rules = (self.flow_leaf, self.flow_collection, self.flow_names)
            self.flow_nodes[d, i] = self.only([rule(d, i) for rule in rules])
        return self.flow_nodes[d, i]

    def names_in_line(self, flow, i):
        named = names_at(self.text, flow, i)
        return None if named is None or self.breaks(named[1]) else named

    def flow_leaf(self, d, i):
        named = self.names_in_line(True, i)
        leaf = named and self.leaf_at("brackets", self.next(named[1]))
        node = leaf and self.leaf_node(i, named[0], *leaf)
        return node and (leaf[1], node, by("flow_leaf", 4))

    def flow_collection(self, d, i):
        named = self.names_in_line(True, i)
        found = named and self.brackets(d, i, named[0], self.next(named[1]))
        return found and (*found[:2], by("flow_collection", 2, found[2]))

    def flow_names(self, d, i):
        named = self.names_in_line(True, i)
        if not named or named[1] == i or at(self.text, self.next(named[1])) not in b",]}:":
            return None
        node = Scalar(self.mark(i), named[0], ":", b"", named[1])
        return named[1], node, by("flow_names", 4)

    def brackets(self, d, i, names, k):
        return self.only([self.square(d, i, names, k), self.curly(d, i, names, k)]) if d > 0 else None

    def square(self, d, i, names, k):
        found = self.flow_items(d - 1, self.next(k + 1)) if at(self.text, k) == 91 else None
        return found and (found[0] + 1, Sequence(self.mark(i), names, found[1], self.mark(found[0])),
                          by("square", 1, found[2]))

    def curly(self, d, i, names, k):
        found = self.flow_entries(d - 1, self.next(k + 1)) if at(self.text, k) == 123 else None
        return found and (found[0] + 1, Mapping(self.mark(i), names, found[1], self.mark(found[0])),
                          by("curly", 1, found[2]))

    def parts_in_brackets(self, d, i, close, part, names):
        """The parts from a token on, up to the bracket that closes the collection."""
        start, found, rules = i, [], []
        while at(self.text, i) != close:
            one = part(d, i)
            after = one and self.part_after(close, self.next(one[0]))
            if after is None:
                return None
            found.append(one[1])
            rules.append((one[0], after, one[2]))
            i = after
        rule = by(names[0], 1)
        for j, k, one in reversed(rules):
            rule = by(names[1], one, 1, rule, j=j, k=k)
        return i, found, rule

    def flow_items(self, d, i):
        return self.parts_in_brackets(d, i, 93, self.flow_item, ("no_flow_item", "a_flow_item"))

    def begins_collection(self, i):
        named = names_at(self.text, True, i)
        return bool(named) and at(self.text, self.next(named[1])) in b"[{"

    def flow_item(self, d, i):
        single, two = self.flow_node(d, i), None
        if d > 0 and not self.begins_collection(i):
            two = self.flow_pair(d - 1, i)
        if two:
            pair = Mapping(self.mark(i), UNNAMED, [two[1]], self.mark(self.next(two[0])))
            return two[0], pair, by("a_pair", 1, two[2])
        return single and (*single[:2], by("a_single", single[2]))

    def flow_pair(self, d, i):
        key = self.flow_node(d, i)
        if not key or not self.has_colon(i, key[0]):
            return None
        found = self.flow_value(d, self.next(self.next(key[0]) + 1))
        return found and (found[0], (key[1], found[1]), by("key_and_value", key[2], 1, found[2], k=key[0]))

    def flow_value(self, d, i):
        node, none = self.flow_node(d, i), None
        if at(self.text, i) in b",]}":
            none = i, self.nothing_here(i), by("no_flow_value", 1)
        return self.only([node and (*node[:2], by("a_flow_value", node[2])), none])

    def flow_entries(self, d, i):
        return self.parts_in_brackets(d, i, 125, self.flow_entry, ("no_flow_entry", "a_flow_entry"))

    def flow_entry(self, d, i):
        pair, alone = self.flow_pair(d, i), self.flow_node(d, i)
        if pair:
            return *pair[:2], by("whole_entry", pair[2])
        if not alone or at(self.text, self.next(alone[0])) not in b",}":
            return None
        nothing = self.nothing_here(self.next(alone[0]))
        return alone[0], (alone[1], nothing), by("flow_key_alone", alone[2])

    # ---- Blocks

    def is_own(self, room, least, i):
        return room != "anything" and least > 0 and self.is_item(least - 1, i)

    def ends_key(self, i, end):
        return self.has_colon(i, end) and self.is_mark(58, self.next(end))

    def is_value(self, c, i):
        return self.is_mark(58, i) and self.is_at(c, i)

    def key(self, d, i):
        return self.only([self.leaf_key(d, i), self.collection_key(d, i), self.names_key(d, i)])

    def leaf_key(self, d, i):
        named = self.names_in_line(False, i)
        leaf = named and self.leaf_at("key", self.next(named[1]))
        node = leaf and self.leaf_node(i, named[0], *leaf)
        if not node or not self.ends_key(i, leaf[1]):
            return None
        return self.next(leaf[1]), node, by("leaf_key", 5)

    def collection_key(self, d, i):
        named = self.names_in_line(False, i)
        found = named and self.brackets(d, i, named[0], self.next(named[1]))
        if not found or not self.ends_key(i, found[0]):
            return None
        rule = by("collection_key", 2, found[2], 1)
        return self.next(found[0]), found[1], rule

    def names_key(self, d, i):
        named = self.names_in_line(False, i)
        if not named or i >= named[1] or not self.ends_key(i, named[1]):
            return None
        node = Scalar(self.mark(i), named[0], ":", b"", named[1])
        return self.next(named[1]), node, by("names_key", 4)

    def block_node(self, d, least, room, i):
        rules = (self.a_leaf, self.a_block, self.a_collection, self.a_sequence, self.a_mapping, self.named_sequence,
                 self.named_mapping, self.names_alone)
        return self.only([rule(d, least, room, i) for rule in rules])

    def names_followed(self, least, i):
        named = names_at(self.text, False, i)
        return named if named and self.follows(least, named[1]) else None

    def a_leaf(self, d, least, room, i):
        named = self.names_followed(least, i)
        leaf = named and self.leaf_at(least, self.next(named[1]))
        node = leaf and self.leaf_node(i, named[0], *leaf)
        if not node or not self.ends_its_line(leaf[1]):
            return None
        rule = by("a_leaf", 5)
        return self.next(leaf[1]), node, rule

    def a_block(self, d, least, room, i):
        named = self.names_followed(least, i)
        found = named and block_at(self.text, least, self.next(named[1]))
        if not found:
            return None
        node = self.scalar_at(i, named[0], chr(self.text[self.next(named[1])]), found[1], found[0])
        rule = by("a_block", 3)
        return self.next(found[0]), node, rule

    def a_collection(self, d, least, room, i):
        named = self.names_followed(least, i)
        found = named and self.brackets(d, i, named[0], self.next(named[1]))
        if not found or not self.ends_its_line(found[0]):
            return None
        rule = by("a_collection", 2, found[2], 1)
        return self.next(found[0]), found[1], rule

    def a_sequence(self, d, least, room, i):
        if room == "value" or not self.is_mark(45, i) or d == 0:
            return None
        found = self.items(d - 1, self.column(i), i)
        return found and (found[0], Sequence(self.mark(i), UNNAMED, found[1], self.end_mark(self.column(i), found[0])),
                          by("a_sequence", 2, found[2]))

    def a_mapping(self, d, least, room, i):
        if room == "value" or self.is_over(i) or d == 0:
            return None
        found = self.entries(d - 1, self.column(i), i)
        return found and (found[0], Mapping(self.mark(i), UNNAMED, found[1], self.end_mark(self.column(i), found[0])),
                          by("a_mapping", 2, found[2]))

    def named_sequence(self, d, least, room, i):
        named = names_at(self.text, False, i)
        if d == 0 or not named or not self.ends_its_line(named[1]):
            return None
        k = self.next(named[1])
        if not (self.is_within(least, k) or self.is_own(room, least, k)) or not self.is_mark(45, k):
            return None
        found = self.items(d - 1, self.column(k), k)
        rule = found and by("named_sequence", 4, found[2])
        return found and (found[0], Sequence(self.mark(i), named[0], found[1],
                                             self.end_mark(self.column(k), found[0])), rule)

    def named_mapping(self, d, least, room, i):
        named = names_at(self.text, False, i)
        if d == 0 or not named or not self.ends_its_line(named[1]) or not self.is_within(least, self.next(named[1])):
            return None
        k = self.next(named[1])
        found = self.entries(d - 1, self.column(k), k)
        rule = found and by("named_mapping", 3, found[2])
        return found and (found[0], Mapping(self.mark(i), named[0], found[1],
                                            self.end_mark(self.column(k), found[0])), rule)

    def names_alone(self, d, least, room, i):
        named = names_at(self.text, False, i)
        if not named or named[1] == i or not self.ends_its_line(named[1]):
            return None
        k = self.next(named[1])
        if self.is_within(least, k) or self.is_own(room, least, k):
            return None
        node = Scalar(self.mark(i), named[0], ":", b"", named[1])
        return k, node, by("names_alone", 5)

    def behind(self, d, c, room, i):
        k = self.next(i)
        if not self.ends_its_line(i):
            found = self.block_node(d, c + 1, room, k)
            return found and (*found[:2], by("in_its_line", 1, found[2]))
        if self.is_within(c + 1, k):
            found = self.block_node(d, c + 1, "part" if room == "value" else room, k)
            return found and (*found[:2], by("in_a_later_line", 2, found[2]))
        if self.is_own(room, c + 1, k):
            found = self.items(d - 1, c, k) if d > 0 else None
            return found and (found[0], Sequence(self.mark(k), UNNAMED, found[1], self.end_mark(c, found[0])),
                              by("in_its_own_column", 2, found[2]))
        return k, self.nothing_here(i), by("nothing", 3)

    def block_parts(self, d, c, i, is_part, part, names):
        found, rules = [], []
        while is_part(c, i):
            one = part(d, c, i)
            if not one:
                return None
            found.append(one[1])
            rules.append((one[0], one[2]))
            i = one[0]
        if self.is_within(c + 1, i):
            return None
        rule = by(names[0], 2)
        for k, one in reversed(rules):
            rule = by(names[1], 1, one, rule, k=k)
        return i, found, rule

    def items(self, d, c, i):
        def item(d, c, i):
            return self.behind(d, c, "anything", i + 1)
        return self.block_parts(d, c, i, self.is_item, item, ("no_item", "an_item"))

    def entries(self, d, c, i):
        return self.block_parts(d, c, i, self.is_at, self.entry, ("no_entry", "an_entry"))

    def entry(self, d, c, i):
        return self.only([self.in_line(d, c, i), self.behind_mark(d, c, i)])

    def in_line(self, d, c, i):
        key = self.key(d, i)
        found = key and self.behind(d, c, "value", key[0] + 1)
        return found and (found[0], (key[1], found[1]), by("in_line", key[2], found[2], k=key[0]))

    def behind_mark(self, d, c, i):
        """with_marks, or key_alone."""
        key = self.behind(d, c, "part", i + 1) if self.is_mark(63, i) else None
        if not key:
            return None
        k = key[0]
        if not self.is_value(c, k):
            nothing = Scalar(self.end_mark(c, k), UNNAMED, ":", b"", k)
            return k, (key[1], nothing), by("key_alone", 1, key[2], 1)
        found = self.behind(d, c, "part", k + 1)
        return found and (found[0], (key[1], found[1]), by("with_marks", 1, key[2], 1, found[2], k=k))

    # ---- Documents

    def begins_document(self, i):
        return self.column(i) == 0 and is_triple(45, self.text, i)

    def ends_document(self, i):
        return self.column(i) == 0 and is_triple(46, self.text, i)

    def directive_end(self, i):
        if self.column(i) != 0 or self.text[i:i + 6] != b"%YAML ":
            return None
        number = run_end(b" ", self.text, i + 6)
        return number + 3 if self.text[number:number + 3] in (b"1.1", b"1.2") else None

    def marker_at(self, earlier, i):
        if self.begins_document(i):
            return i
        end = self.directive_end(i) if earlier != "a_document" else None
        if end is None or not self.ends_its_line(end) or not self.begins_document(self.next(end)):
            return None
        return self.next(end)

    def root(self, i):
        k, least = self.next(i), 0
        if not self.ends_its_line(i):
            found = self.block_node(MOST_NESTINGS, least, "value", k)
            return found and (*found[:2], by("root_in_its_line", 1, found[2]))
        if not self.is_over(k):
            found = self.block_node(MOST_NESTINGS, least, "anything", k)
            return found and (*found[:2], by("root_in_a_later_line", 2, found[2]))
        return k, Scalar(self.end_mark(0, k), UNNAMED, ":", b"", k), by("no_root", 2)

    def documents(self):
        """The documents and the rule of the first, or None."""
        i, earlier, found, rules = self.next(0), "none", [], []
        while i < len(self.text):
            if earlier != "none" and self.ends_document(i) and self.ends_its_line(i + 3):
                rules.append(("end_marker", (3,), {}))
                i, earlier = self.next(i + 3), "an_end"
                continue
            m, places = self.marker_at(earlier, i), {}
            if m is not None:
                root, name, places = self.root(m + 3), "marked_document", {"m": m}
            elif earlier == "none" and not self.is_over(i):
                root, name = self.block_node(MOST_NESTINGS, 0, "anything", i), "bare_document"
            else:
                return None
            if not root or not self.is_over(root[0]):
                return None
            found.append(Document(self.mark(i), root[1], self.end_mark(0, root[0])))
            rules.append((name, (1, root[2], 1), {**places, "j": root[0]}))
            i, earlier = root[0], "a_document"
        rule = by("no_document", 1)
        for name, premises, places in reversed(rules):
            rule = by(name, *premises, rule, **places)
        return found, rule

    def stands(self):
        return self.documents() if is_text(self.text) else None
