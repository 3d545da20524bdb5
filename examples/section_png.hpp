/* Writes a picture of four colours as a PNG file: two bits a pixel with a palette, no library needed. */
#ifndef SECTION_PNG_HPP
#define SECTION_PNG_HPP

#include <array>
#include <cstddef>
#include <cstdint>
#include <fstream>
#include <stdexcept>
#include <string>
#include <vector>

namespace png {

using Bytes = std::vector<std::uint8_t>;
using Palette = std::array<std::array<std::uint8_t, 3>, 4>;

// Pixels are places in the palette, row after row.
struct Picture {
    std::size_t width, height;
    Bytes pixels;

    Picture(std::size_t w, std::size_t h) : width(w), height(h), pixels(w * h) {}
    std::uint8_t &at(std::size_t column, std::size_t row) { return pixels[row * width + column]; }
    std::uint8_t at(std::size_t column, std::size_t row) const { return pixels[row * width + column]; }
};

inline void append(Bytes &bytes, const Bytes &more) { bytes.insert(bytes.end(), more.begin(), more.end()); }

inline Bytes big_endian(std::uint32_t number) {
    return {std::uint8_t(number >> 24), std::uint8_t(number >> 16), std::uint8_t(number >> 8),
            std::uint8_t(number)};
}

inline std::uint32_t crc32(const Bytes &bytes) {
    std::uint32_t crc = 0xFFFFFFFF;
    for (std::uint8_t byte : bytes) {
        crc ^= byte;
        for (int bit = 0; bit < 8; ++bit) crc = (crc >> 1) ^ (crc & 1 ? 0xEDB88320 : 0);
    }
    return ~crc;
}

inline std::uint32_t adler32(const Bytes &bytes) {
    std::uint32_t sum = 1, sums = 0;
    for (std::uint8_t byte : bytes) {
        sum = (sum + byte) % 65521;
        sums = (sums + sum) % 65521;
    }
    return sums << 16 | sum;
}

// One block of deflate with the fixed Huffman codes (RFC 1951). The only matches are runs, at distance 1.
class Deflate {
public:
    explicit Deflate(const Bytes &bytes) {
        put(0b011, 3); // the last block, with fixed codes
        for (std::size_t i = 0; i < bytes.size();) i += step(bytes, i);
        symbol(256); // the end of the block
        if (used > 0) out.push_back(last);
    }
    const Bytes &result() const { return out; }

private:
    Bytes out;
    std::uint8_t last = 0;
    unsigned used = 0;

    // Writes the byte at i, or the run from i on, and returns how many bytes that are.
    std::size_t step(const Bytes &bytes, std::size_t i) {
        std::size_t run = 0;
        while (i > 0 && run < 257 && i + run < bytes.size() && bytes[i + run] == bytes[i - 1]) ++run;
        if (run < 3) {
            symbol(bytes[i]);
            return 1;
        }
        length(unsigned(run));
        put(0, 5); // distance 1
        return run;
    }

    // A symbol for the three highest bits of the length less 3, then the bits below them.
    void length(unsigned run) {
        const unsigned rest = run - 3;
        unsigned extra = 0;
        while (rest >> extra >= 8) ++extra;
        symbol(257 + 4 * extra + (rest >> extra));
        put(rest, extra);
    }

    void symbol(unsigned s) {
        if (s < 144) code(0x30 + s, 8);
        else if (s < 256) code(0x190 + (s - 144), 9);
        else if (s < 280) code(s - 256, 7);
        else code(0xC0 + (s - 280), 8);
    }

    // Codes go out from their highest bit on, all else from the lowest.
    void code(unsigned value, unsigned bits) {
        while (bits-- > 0) put(value >> bits & 1, 1);
    }

    void put(unsigned value, unsigned bits) {
        for (unsigned bit = 0; bit < bits; ++bit) {
            last = std::uint8_t(last | (value >> bit & 1) << used);
            if (++used == 8) {
                out.push_back(last);
                last = 0;
                used = 0;
            }
        }
    }
};

inline Bytes zlib(const Bytes &bytes) {
    Bytes stream{0x78, 0x01};
    append(stream, Deflate(bytes).result());
    append(stream, big_endian(adler32(bytes)));
    return stream;
}

// The rows packed four pixels a byte, each less the row above (PNG's filter 2): most bytes become 0.
inline Bytes scanlines(const Picture &picture) {
    const std::size_t row_length = (picture.width + 3) / 4;
    Bytes lines, above(row_length);
    for (std::size_t row = 0; row < picture.height; ++row) {
        Bytes packed(row_length);
        for (std::size_t column = 0; column < picture.width; ++column)
            packed[column / 4] =
                std::uint8_t(packed[column / 4] | picture.at(column, row) << (6 - column % 4 * 2));
        lines.push_back(2);
        for (std::size_t i = 0; i < row_length; ++i) lines.push_back(std::uint8_t(packed[i] - above[i]));
        above = packed;
    }
    return lines;
}

inline void append_chunk(Bytes &file, const std::string &type, const Bytes &data) {
    Bytes typed(type.begin(), type.end());
    append(typed, data);
    append(file, big_endian(std::uint32_t(data.size())));
    append(file, typed);
    append(file, big_endian(crc32(typed)));
}

inline void write(const std::string &path, const Picture &picture, const Palette &palette) {
    Bytes header = big_endian(std::uint32_t(picture.width));
    append(header, big_endian(std::uint32_t(picture.height)));
    append(header, {2, 3, 0, 0, 0}); // two bits a pixel, places in a palette
    Bytes colours;
    for (const auto &colour : palette) colours.insert(colours.end(), colour.begin(), colour.end());

    Bytes file{0x89, 'P', 'N', 'G', '\r', '\n', 0x1A, '\n'};
    append_chunk(file, "IHDR", header);
    append_chunk(file, "PLTE", colours);
    append_chunk(file, "IDAT", zlib(scanlines(picture)));
    append_chunk(file, "IEND", {});

    std::ofstream stream(path, std::ios::binary);
    for (std::uint8_t byte : file) stream.put(char(byte));
    stream.close();
    if (!stream) throw std::runtime_error("cannot write " + path);
}

} // namespace png

#endif
