// Hashes the keys of a std::unordered_map.
#include <cinttypes>
#include <cstdio>
#include <komihash_rattle.h>
#include <string>
#include <string_view>
#include <unordered_map>

// The hash of a key, for containers of the standard library.
struct KomiHash {
    std::uint64_t seed;

    std::size_t operator()(std::string_view key) const noexcept {
        return komihash_v5(key.data(), key.size(), seed);
    }
};

int main() {
    std::unordered_map<std::string, int, KomiHash> numbers(8, KomiHash{7});
    numbers["port"] = 443;
    if (numbers.count("port") == 1 && numbers.count("host") == 0)
        std::printf("%016" PRIx64 "\n", std::uint64_t{numbers.hash_function()("port")});
}
