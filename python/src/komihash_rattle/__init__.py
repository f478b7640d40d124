"""The hash komihash in version 5. Don't use it where an attacker may choose the messages.

`komihash_rattle.v4` has the same names for version 4, for hashes that exist already."""
from . import v4, v5
from .v5 import Komirand, komihash, komihash_digest, komihash_hexdigest, komihash_int

__version__ = "1.2.0"
__all__ = ["Komirand", "komihash", "komihash_digest", "komihash_hexdigest", "komihash_int", "v4",
           "v5"]
