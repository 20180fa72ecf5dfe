"""How the C library's allocator is set for the program."""
TYPE_CHECKING = False
if TYPE_CHECKING:
    from typing import Dict

# The GNU C library keeps freed blocks for the next calls, seven of each size where nobody says
# otherwise, and 127 at most in its older versions. With 127 checks take about a twentieth less
# time, and no more memory. Thousands of them make a long check slower and larger.
NAME = b"GLIBC_TUNABLES"
SETTING = b"glibc.malloc.tcache_count=127"


def set_for_programs() -> None:
    """Sets it for what is started from now on, where the environment doesn't set the allocator
    already."""
    import os

    os.environb.setdefault(NAME, SETTING)


def set_in(environment: "Dict[bytes, bytes]") -> "Dict[bytes, bytes]":
    """An environment in which it is set, where this one doesn't set the allocator already."""
    return {NAME: SETTING, **environment}
