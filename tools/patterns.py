"""Rows of benches that write one byte throughout. A server must be equally fast for each byte.

A payload of 0x61 has the bit of FUA wherever it is cut, one of 0x62 has not. A server that takes
bytes of a payload for the flags of a request is slower for one of them."""
PATTERNS = ["0x61", "0x62"]
# Rounds of these rows: with fewer the figures of two equal servers often do not overlap.
ROUNDS = 5


def words_for(pattern):
    """The words of fio by which each byte that it writes is this one."""
    return [f"--buffer_pattern={pattern}"]


def compare(figures):
    """Prints whether the figures of both patterns agree within their spread, and returns that."""
    one, other = (figures[it] for it in PATTERNS)
    agree = max(min(one), min(other)) <= min(max(one), max(other))
    told = ", ".join(f"{it} {min(figures[it]):,.0f} to {max(figures[it]):,.0f}" for it in PATTERNS)
    word = "agree within" if agree else "DIFFER by more than"
    print(f"{' and '.join(PATTERNS)} {word} their spread: {told}", flush=True)
    return agree
