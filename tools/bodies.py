"""What the tools of recordings (edition 1) share: where a dual voice stands in a frame, and a recording read, each of its bodies changed, and written."""

import os
import struct
import sys


# Of each dual voice its words, its records and its switches: trig, oscillator 1's wave, oscillator 2's code from its last bit on (2, 3 and 6), FM, and ring, which is on where its switch is clear.
DUALS = {"BD": (90, 360, [12, 44, 8, 47, 46, 45, 40]), "SD": (98, 392, [0, 32, 36, 35, 34, 33, 56]), "RS": (106, 424, [28, 4, 24, 7, 6, 5, 60])}


class Fault(Exception):
    pass


def change(usage, each):
    """Takes the two files from the command line and gives each body to `each`, which changes it or raises a Fault. The file written and how many bodies it has."""
    if len(sys.argv) != 3:
        sys.exit(usage)
    tool, recording, changed = os.path.basename(sys.argv[0]), *sys.argv[1:]
    try:
        with open(recording, "rb") as file:
            made = memoryview(bytearray(file.read()))
        if len(made) < 20:
            raise Fault("under 20 bytes")
        letters, edition, ideal, zero, _, steps, bodies = struct.unpack(">4sBBHIII", made[:20])
        if letters != b"RVBR" or edition != 1 or ideal > 1 or zero or not 1 <= steps <= 65536 or not 1 <= bodies <= 4096:
            raise Fault("its opening is not one of edition 1")
        first = 20 + 4 * steps
        if len(made) != first + 768 * bodies:
            raise Fault(f"{len(made)} bytes, where its opening asks for {first + 768 * bodies}")
        for body in range(first, len(made), 768):
            each(made[body:body + 768])
        with open(changed, "wb") as file:
            file.write(made)
    except Fault as e:
        sys.exit(f"{tool}: {recording}: {e}")
    except OSError as e:
        sys.exit(f"{tool}: {e}")
    return changed, bodies
