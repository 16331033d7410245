"""left.py OLD_TEXT OLD_STATES NEW_TEXT NEW_STATES: what an ended run left in this folder, judged. An empty name stands for no file.

The table's text is the old one or the new one, and so is the states'. Of the tubes that the table has, those that count as released are
released in the pair of the old texts or in the pair of the new ones."""
import sys


def bytes_of(name):
    if not name:
        return None
    try:
        with open(name, "rb") as file:
            return file.read()
    except FileNotFoundError:
        return None


def live(text):
    """The numbers of the vertex lines of a frame text."""
    return {int(line[2:10], 16) for line in (text or b"").split() if line.startswith(b"01")}


def released(text, states):
    lines = [line.split() for line in (states or b"").splitlines()]
    return {int(number) for word, number in lines if word == b"released"} & live(text)


old_text, old_states, new_text, new_states = map(bytes_of, sys.argv[1:])
text, states = bytes_of("day.frames"), bytes_of("day.frames.desk")
assert text in (old_text, new_text), "the text is neither the old one nor the new one"
assert (states or b"") in (old_states or b"", new_states or b"", b""), "the states are neither the old ones nor the new ones"
if old_text is not None:
    assert (states or b"") in (old_states or b"", new_states or b""), "the states are lost"
allowed = set()
if text == old_text:
    allowed |= released(old_text, old_states)
if text == new_text:
    allowed |= released(new_text, new_states)
    if old_text is not None:
        allowed |= released(old_text, old_states) & live(new_text)
assert released(text, states) <= allowed, f"released {released(text, states)}, and {allowed} are"
