"""Numbers that look like noise, the same for a seed at each run."""
import struct

ALL = 2**64 - 1


class Noise:
    """splitmix64, as fits_bench has it."""

    def __init__(self, seed):
        self.state = seed

    def bits(self):
        """The next 64 bits."""
        self.state = (self.state + 0x9E37_79B9_7F4A_7C15) & ALL
        mixed = (self.state ^ self.state >> 30) * 0xBF58_476D_1CE4_E5B9 & ALL
        mixed = (mixed ^ mixed >> 27) * 0x94D0_49BB_1331_11EB & ALL
        return mixed ^ mixed >> 31

    def within(self, low, high):
        """A number from one to another."""
        return low + (self.bits() >> 16) % (high - low + 1)

    def words(self, count, mask=ALL):
        """The bytes of so many words of 64 bits, each below a mask."""
        return struct.pack(f">{count}Q", *(self.bits() & mask for _ in range(count)))
