"""Wrong answers, each of which the judge has to find."""

from .judge import Judge, WrongRow
from .rows import Row
from .texts import cut_row, is_answer

WRONG_TEXTS = (
    "map\ninsert 1 10\nremove 1\ninsert 2 20\n=\n-\n10\nmemory",
    "map\ninsert 1 10\ninsert 1 20\n=\n-\nmemory",
    "cache 1\ninsert 1 10\ninsert 2 20\niter\n=\n-\n-\n1:10 2:20",
    "weighted 5\ninsert 1 10 6\n=\nmemory",
)

LINES = (
    "insert 1.2 10\nother insert 5 50\niter next left\nremove 1\ninsert 2 20\nreserve 9\ncost\n"
    "extend_kept 3 30 4 40 5 50\nextend_by_trait 6 60 7 70 8 80\niter times 2 next\n"
    "from_iter_kept 6 60 6 61 7 70 7 71\nclones\nforgotten_drain next, lost"
)
ROW = Row("none", 1, "a row", "map", LINES, 3)
SAID = """= -
+ 1 4 1.2:10
+ 0 0
= -
+ 1 4 1.2:10
+ 1 4 5:50
= 1.2:10 0
+ 1 4 1.2:10
+ 1 4 5:50
= 10
+ 0 4
+ 1 4 5:50
= -
+ 1 4 2:20
+ 1 4 5:50
= ok
+ 1 16 2:20
+ 1 4 5:50
= 5 1
+ 1 16 2:20
+ 1 4 5:50
= memory 4:40 1 1
+ 2 16 2:20 3:30
+ 1 4 5:50
= memory 1
+ 3 16 2:20 3:30 6:60
+ 1 4 5:50
= 2:20 3:30
+ 3 16 2:20 3:30 6:60
+ 1 4 5:50
= memory 3
+ 3 16 2:20 3:30 6:60
+ 1 4 5:50
= 3
+ 3 16 2:20 3:30 6:60
+ 1 4 5:50
= 2:20
+ 0 16
+ 1 4 5:50
= 2
+ 0 16
+ 1 4 5:50
"""
SUMMARY = (
    "1 rows: each answer is right, and {refused} of them refused; "
    "{left_out} rows had no memory of their own\n"
)
#: what is wrong, what to replace in the right words, and its replacement
WRONG_WORDS = (
    ("another value", "= 10\n", "= 11\n"),
    ("another pair of equal keys", "= 1.2:10 0", "= 1:10 0"),
    ("another length of what is left", "= 1.2:10 0", "= 1.2:10 1"),
    ("a hint that is not the length", "= 1.2:10 0", "= 1.2:10 0 wrong"),
    ("a pair too many", "+ 1 4 2:20", "+ 2 4 1:10 2:20"),
    ("another length of the map", "+ 1 4 2:20", "+ 2 4 2:20"),
    ("another stored key", "+ 1 4 1.2:10\n+ 0 0", "+ 1 4 1:10\n+ 0 0"),
    ("no room for a free node", "+ 0 4", "+ 0 0"),
    ("the other map is changed", "= 10\n+ 0 4\n+ 1 4 5:50", "= 10\n+ 0 4\n+ 0 4"),
    ("a refusal although a node is free", "= -\n+ 1 4 2:20", "= memory 2:20\n+ 0 4"),
    (
        "a refusal that changes the entries",
        "= -\n+ 1 4 1.2:10\n+ 0 0",
        "= memory 1.2:10\n+ 1 4 1.2:10\n+ 0 0",
    ),
    ("a refusal of another pair", "= -\n+ 1 4 1.2:10\n+ 0 0", "= memory 1:10\n+ 0 0\n+ 0 0"),
    ("a cost that is no number", "= 5 1", "= 5 -"),
    ("a cost of one number", "= 5 1", "= 5"),
    ("an item read after the one that is handed back", "= memory 4:40 1 1", "= memory 4:40 1 0"),
    ("an item read after the one that std's Extend did not put in", "= memory 1\n", "= memory 0\n"),
    (
        "an item that std's Extend did not put in before it gave up",
        "= memory 1\n+ 3 16 2:20 3:30 6:60",
        "= memory 1\n+ 2 16 2:20 3:30",
    ),
    ("an item read after the one for which a map was not made", "= memory 3\n", "= memory 2\n"),
    ("all items read though a map was not made", "= memory 3\n", "= memory 0\n"),
    ("a count of clones that is no number", "= 3\n", "= -\n"),
    ("another number of lost entries", "= 2\n+ 0 16", "= 3\n+ 0 16"),
    ("one step is missing", "= 2:20 3:30", "= 2:20"),
    ("no answer to the last line", "= 3\n+ 3 16 2:20 3:30 6:60\n+ 1 4 5:50\n", ""),
    ("an answer too many", "= ok\n", "= ok\n= ok\n"),
)


def whole(said, more=0, left_out=0):
    """The output for the row under each hasher, and at the end how many answers are refusals, and more."""
    heads = (f"row 3 {hasher}\n" for hasher in ("default", "same_hash", "two_hashes"))
    refused = 3 * said.count("memory") + more
    return "".join(head + said for head in heads) + SUMMARY.format(refused=refused, left_out=left_out)


def is_told(said):
    try:
        Judge().judge([ROW], said)
    except WrongRow:
        return True
    return False


def untold():
    """The wrong answers that the judge does not find, and right answers that it rejects."""
    for text in WRONG_TEXTS:
        if is_answer(*cut_row(text)):
            yield text
    right = whole(SAID)
    if is_told(right):
        yield "a right row"
    for what, old, new in WRONG_WORDS:
        assert old in SAID
        if not is_told(whole(SAID.replace(old, new, 1))):
            yield what
    others_live = "none:4: a row: remove 1\n  other keys and values live then than those that are held\n"
    forgotten = right[: right.index("1 rows")] + others_live
    for what, said in (
        ("items that are not dropped", forgotten),
        ("no summary", right[: right.index("1 rows")]),
        ("a hasher that is left out", right.replace("row 3 same_hash\n" + SAID, "")),
        ("another count of refusals", whole(SAID, more=1)),
        ("a row that is left out, and says so at its end alone", whole(SAID, left_out=1)),
    ):
        if not is_told(said):
            yield what
