// SHA-256 (FIPS 180-4), fed in pieces.
#pragma once

#include <array>
#include <cstdint>
#include <string_view>

using Digest = std::array<unsigned char, 32>;

class Sha256 {
public:
    void feed(std::string_view bytes);
    Digest finish();

private:
    void compress(const unsigned char* block);

    std::array<uint32_t, 8> state_ = {0x6a09e667, 0xbb67ae85, 0x3c6ef372, 0xa54ff53a,
                                      0x510e527f, 0x9b05688c, 0x1f83d9ab, 0x5be0cd19};
    std::array<unsigned char, 64> block_{};
    size_t filled_ = 0;
    uint64_t length_ = 0;
};

Digest sha256(std::string_view bytes);
