from .v5 import _Komihash, _Komirand, komihash_digest as komihash_digest
from .v5 import komihash_hexdigest as komihash_hexdigest, komihash_int as komihash_int

class komihash(_Komihash): """A stream, like hashlib's objects."""
class Komirand(_Komirand): """A pseudorandom generator, which is not for secrets."""
