"""Write key, Read key, and the frames that are right: an implementation of the later requests that
is independent of the library. A stored key is one line as in the sheet, without the sheet's first.

No slice is changed: the writer answers with the number of its refusal, or 0, the bytes written, and
its slice; the reader with that number, the number of the wrong line, or 0, and the key.
"""

from sheets import hex_line, line_bytes
from signatures import EDITIONS, ZERO, Profile, SigningKey, mark_counts, profile_causes
from zarosnik import first_cause

KIND = 7
# What a refused read gives.
NO_KEY = SigningKey(Profile(0, 0, 0, 0, 0), ZERO, ZERO, 0, 0)


def frame_bytes(p, seed, secret, next_leaf, mark):
    """With these bytes for the mark. The last byte says edition 2, and edition 1 has none."""
    numbers = bytes([KIND, p.l, p.w, p.h]) + p.s.to_bytes(2, "big")
    state = next_leaf.to_bytes(4, "big") + mark
    return numbers + seed + secret + state + b"\x02" * (p.edition == 2)


def right_frame(key):
    """The line, in which a mark that does not count is none."""
    return hex_line(frame_bytes(*key[:4], bytes([mark_counts(key)])))


def frame_length(p):
    """In characters, the line's end included."""
    return 89 if p.edition == 2 else 87


def write_key(key, frame):
    """The outcome, the number of bytes written, the frame's slice."""
    p = key.profile
    refused = first_cause(profile_causes(p) + [(6, lambda: len(frame) < frame_length(p))])
    if refused:
        return refused, 0, frame
    written = right_frame(key)
    return 0, len(written), written + frame[len(written) :]


def key_in(frame):
    """The key in the bytes of a line, or None where there is none. Any next leaf is taken."""
    head, rest = frame[:6], frame[6:]
    seeds, state, last = rest[:32], rest[32:37], rest[37:]
    if len(state) < 5 or head[0] != KIND or state[4] not in (0, 1) or last not in (b"", b"\x02"):
        return None
    l, w, h, s = *head[1:4], int.from_bytes(head[4:], "big")
    p = Profile(l, w, s, h, EDITIONS[len(last)])
    if first_cause(profile_causes(p)):
        return None
    key = SigningKey(p, seeds[:16], seeds[16:], int.from_bytes(state[:4], "big"), state[4])
    return key._replace(mark=int(mark_counts(key)))


def read_key(frame):
    """The outcome, the wrong line, the key."""
    line, end, more = frame.partition(b"\n")
    data = line_bytes(line) if end and not more else None
    key = key_in(data) if data else None
    return (17, 1, NO_KEY) if key is None else (0, 0, key)
