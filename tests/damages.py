"""How inputs are damaged: cut, and with an octet changed. Octets flow in, their damaged forms flow out. What reads them is tests/fuzz's and
damaged_replica's."""
from __future__ import annotations

# What an octet is changed by (exclusive or), the most telling first: single bits, the ends of ranges, and so on through all.
_FIRST = [0x01, 0x80, 0xFF, 0x20, 0x40, 0x10, 0x02, 0x04, 0x08, 0x7F, 0x81, 0x03, 0x0F, 0xF0, 0x55, 0xA0]
STEPS = _FIRST + [step for step in range(1, 256) if step not in _FIRST]


def fronts(inputs: list[bytes]) -> list[bytes]:
    """Each proper front of each that is not empty."""
    return sorted({octets[:length] for octets in inputs for length in range(1, len(octets))})


def changes(inputs: list[bytes], count: int) -> list[bytes]:
    """Each octet of each, changed to so many others."""
    return [octets[:place] + bytes([octets[place] ^ step]) + octets[place + 1:] for octets in inputs for place in range(len(octets)) for step in STEPS[:count]]
