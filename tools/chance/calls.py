"""The calls of random rows: how often a row is of each kind, and a call of each group.

The lines of the calls are in plain_list, beside their answers. A word in capitals is a symbol. It stands for
a number or an item, which rows.py draws, or for one of the lines of SYMBOLS. A symbol with `?` may be left
out, and one with `*` may occur any number of times. A number in front of a line is its weight among the
lines.
"""

from plain_list.caches import CacheModel, WeightedModel
from plain_list.commands import ENTRY_NUMBERS, NUMBERS, OFTEN, SELDOM, STEP_NUMBERS
from plain_list.curves import CurveModel
from plain_list.model import Model
from plain_list.sets import SetModel
from plain_list.texts import PAIR_WORDS


def spelled(numbers):
    """Each word with the number of numbers that it takes."""
    often = {**dict.fromkeys(OFTEN, 30), **dict.fromkeys(SELDOM, 1)}
    return tuple(f"{often.get(word, 10)} {word}{' NUMBER' * count}" for word, count in numbers.items())


SYMBOLS = {
    "END": ("front", "back"),
    "WAY": ("key", "hash", "test", "of_key", "of_hash", "of_test"),
    "KEEP": ("3 even", "2 odd", "others", "without_odd"),
    "SET_KEEP": ("odd", "others"),
    "CACHE_KEEP": ("even", "odd"),
    "PAIR": ("KEY VALUE",),
    "WHOLE": ("whole",),
    # steps of iterators
    "STEP": ("3 next", "3 back", "left", "3 times COUNT GOES"),
    "GOES": ("next", "back"),
    "CLONED": ("clone STEP*",),
    "PAIR_STEP": (
        *("2 next NUMBER?", "2 back NUMBER?", "value NUMBER?", "value_back NUMBER?", "2 peek", "left"),
        *("2 times COUNT GOES", "times COUNT value", "times COUNT value_back"),
    ),
    "VALUE_STEP": ("3 next NUMBER?", "3 back NUMBER?", "left", "3 times COUNT GOES"),
    # steps of cursors
    "MOVE": (
        *("4 next", "4 prev", "2 at", "3 before KEY VALUE", "3 after KEY VALUE"),
        *("write VALUE", "write_pair VALUE", "write_next VALUE", "write_prev VALUE"),
    ),
    "LAST": ("entry", "2 take_entry", "2 take_into_entry"),
    # calls of entries
    "MADE": ("3 VALUE NEW?", "fail VALUE"),
    "ENTRY": (
        *("key", "get", "get_mut NEW?", "into_mut NEW?", "and_modify VALUE", "into_key"),
        *("2 or_insert VALUE NEW?", "2 or_insert_with VALUE NEW?", "2 or_try_insert_with MADE"),
        *("insert VALUE", "insert_entry VALUE", "replace_entry VALUE", "raw_replace_value VALUE"),
        *("to_front", "to_back", "replace_key", "2 remove", "2 remove_entry", "2 cursor MOVE*"),
        *("vacant key", "vacant into_key", "2 vacant insert VALUE NEW?", "2 vacant insert_entry VALUE"),
        *("2 vacant take VALUE", "vacant raw"),
    ),
    "FOUND": (
        *("get", "get_key_value", "to_front", "to_back", "into_key", "remove", "remove_entry"),
        *("and_modify VALUE", "get_mut NEW?", "get_key_value_mut NEW?", "into_mut NEW?"),
        *("into_key_value NEW?", "replace_value VALUE", "2 cursor MOVE*"),
    ),
    "OR_INSERT": ("or_insert VALUE NEW?", "or_insert_with VALUE NEW?"),
    "RAW": (
        *("6 FOUND", "2 OR_INSERT", "replace_key"),
        *("insert VALUE NEW?", "insert_hashed VALUE NEW?", "insert_with_hasher VALUE NEW?"),
        *("insert_entry VALUE NEW?", "insert_entry_hashed VALUE NEW?"),
        "insert_entry_with_hasher VALUE NEW?",
    ),
}

# the steps of commands
SYMBOLS["COMMAND_MOVE"] = spelled(STEP_NUMBERS)
SYMBOLS["COMMAND_ENTRY"] = (*spelled(ENTRY_NUMBERS), "5 replace_key", "5 remove_entry")

ENTRY_COMMAND = "60 entry NUMBER COMMAND_ENTRY"
COMMANDS = {
    "command": (
        *(*spelled(NUMBERS["map"]), ENTRY_COMMAND, "60 cursor COMMAND_MOVE COMMAND_MOVE*"),
        "5 remove_entry NUMBER",
    )
}
# Only texts ask for the length of a cache.
CACHE_WORDS = {word: count for word, count in NUMBERS["cache"].items() if word != "len"}
CACHE_COMMANDS = {"command": (*spelled(CACHE_WORDS), ENTRY_COMMAND)}
PAIR_COMMANDS = {"command": spelled({word: NUMBERS["cache"][word] for word in PAIR_WORDS})}
USES = {"command": ("use NUMBER NUMBER",)}

COPIED_MAP = {"many": ("extend_ref PAIR*", "extend_by_trait PAIR*")}
COPIED_SET = {"many": ("extend_ref KEY*", "extend_by_trait KEY*")}

#: the second lines of rows, their weights, and the calls of their lines
KINDS = {
    "map": (8, Model.LINES),
    "set": (6, SetModel.LINES),
    "cache CAPACITY": (6, CacheModel.LINES),
    "weighted CAPACITY": (2, WeightedModel.LINES),
    "curve": (0.5, CurveModel.LINES),
    "commands WHOLE?": (1, COMMANDS),
    "cache_commands CAPACITY WHOLE?": (1, CACHE_COMMANDS),
    "pair_commands CAPACITY CAPACITY": (0.4, PAIR_COMMANDS),
    "uses CAPACITY": (0.3, USES),
    "copied_map": (0.2, COPIED_MAP),
    "copied_set": (0.2, COPIED_SET),
}

#: the weight of each group of calls
GROUPS = {
    **dict(read=4, put=9, take=4, lend=4, entry=8, raw=8, cursor=9, walk=8, drain=1.5, retain=1.5),
    **dict(room=4, many=2, make=1, both=9, inside=12, command=1),
}
#: in half of the rows: the weight of each group at times, and after a call of these groups. So the state that
#: one of them leaves, such as a table without room, soon meets an insert of each form
LEAVING = dict(room=6, retain=0.5, drain=0.3, make=0.1)
AFTER = {**GROUPS, **dict(put=12, entry=30, raw=60, cursor=15, retain=4, drain=2, room=4, many=4, both=15)}
#: the factor of a group's weight while a container has to grow, or to shrink
MOODS = {
    "as it comes": {},
    "grow": dict(put=3, many=3, take=0.3, drain=0.3, retain=0.5, make=0.3),
    "shrink": dict(put=0.4, many=0.3, take=3, retain=2),
}
#: after a call of these groups a container may be empty, and in half of the cases it has to grow
EMPTYING = ("drain", "make")
#: the groups of the calls that change a container in the simplest way
SIMPLE = ("put", "take", "lend", "command")
