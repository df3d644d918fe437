"""Wrong answers to rows of random calls, each of which the judge has to find."""

import re

from plain_list.judge import KINDS, Judge, WrongRow

OTHER_WORDS = {"yes": "no", "no": "yes", "ok": "no", "-": "0", "overflow": "no", "heavy": "memory"}
#: the words of maps and sets that the reference model does not know, and the rows in which they occur
ASKED = ("room", "capacity", "under")
SHOW_ROOM = ("map", "set", "copied_map", "copied_set", "commands")


def judged(row, said):
    """What is wrong with the output for the row, or nothing."""
    try:
        counts = Judge().judge([row], said)
    except WrongRow as wrong:
        return str(wrong)
    except Exception as error:  # the row has to be shown, whatever it is
        return f"{type(error).__name__}: {error}"
    return None if counts == (0, 0) else f"refusals although no request failed, or no output: {said}"


def damaged(row, said, random):
    """The output with an error in one line: a word is replaced, left out, repeated or added, or two are
    swapped."""
    lines = said.split("\n")
    at, is_capacity_known = random.choice(known_lines(row, lines))
    words = lines[at].split(" ")
    places = [place for place in range(1, len(words)) if place != 2 or is_capacity_known]
    lines[at] = " ".join(with_damage(words, places, random))
    return "\n".join(lines)


def known_lines(row, lines):
    """The numbers of the lines that the model knows, and whether it knows the second word of each."""
    calls = [words.words for _, _, words in row.calls()]
    kind = row.mode.split(" ")[0]
    known, count = [], 0
    for at, line in enumerate(lines):
        if line.startswith("row "):
            count = 0
        elif line.startswith(("=", "+")):
            is_answer = line.startswith("=")
            # There are three lines for each call, if the row is not a list of commands.
            is_asked = is_answer and kind in KINDS and set(ASKED) & set(calls[count // 3])
            if not is_asked:
                known.append((at, is_answer or kind not in SHOW_ROOM))
            count += 1
    return known


def with_damage(words, places, random):
    """The words of a line with an error. The model knows the words at these places."""
    damage = random.randrange(5)
    if damage == 0 or not places:
        return [*words, "-"]
    at = random.choice(places)
    if damage == 1:
        return words[:at] + words[at + 1 :]
    if damage == 2:
        return words[:at] + words[at : at + 1] + words[at:]
    if damage == 3 and words[at] != words[at - 1] and at - 1 in places:
        return words[: at - 1] + [words[at], words[at - 1]] + words[at + 1 :]
    return [*words[:at], other_word(words[at]), *words[at + 1 :]]


def other_word(word):
    """Another word, or another number in it."""
    return OTHER_WORDS.get(word) or re.sub(r"\d+$", lambda found: str(int(found[0]) + 1), word)
