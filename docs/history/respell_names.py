# Names that tools/respell.py turns by hand: old name, new name.
# These lemmas and fields keep their dash, since a definition has the same words: `next_for` and the law `next-for`.
BY_HAND = {n: n for n in (
    "at-start", "name-at", "body-loadable", "clauses-loadable", "new-variable", "next-for", "no-fault", "old-variable", "past-token", "with-literal", "one-item",
)}
# These lemmas had a dash before the kit's script took it for a name of the library's.
BY_HAND.update({
    "end_by": "end-by", "first_by": "first-by", "goes_on": "goes-on", "tail_of": "tail-of", "head_at": "head-at", "right_of": "right-of", "one_more": "one-more",
})
IN_CRATE = {
    "unifier": {"read_right": "read-right"},
    "load_words": {"term_words": "term-words"},
    "loader": {"term_words": "term-words"},
}
# These stand already as labels of clauses alone.
LABELS = {"atom_at", "clause_at", "literal_at", "term_at"}
