"""The table of schemes: modes, and sizes in bytes."""
from collections import namedtuple

KEY = 16

Scheme = namedtuple("Scheme", "mode block nonce body")  # body: its longest

SCHEMES = {
    1: Scheme("PAEF", 8, 6, 65528),
    2: Scheme("PAEF", 16, 14, 131056),
    3: Scheme("SAEF", 16, 15, 1048576),
    4: Scheme("Umbreon", 8, 6, 262136),
    5: Scheme("Jolteon", 8, 6, 262136),
    6: Scheme("Umbreon", 16, 14, 524272),
    7: Scheme("Jolteon", 16, 14, 524272),
}
