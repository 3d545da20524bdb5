/* The desks' viewer in small: a C++ program that calls the engine's C functions.

     target/viewer check
         calls csx_point_list and csx_sphere with good and with bad input, prints what they return, and checks
         each returned number and each byte that was lent
     target/viewer picture FILE.png
         draws a section through an antenna, each cell coloured by the answer of csx_contains_list

   Compile it in the repository's root, after `make library`:

     g++ -std=c++17 -O2 -Wall -Wextra -Wpedantic -Wconversion -Wshadow -Werror -Iinclude examples/viewer.cpp
         -Ltarget -lzirwennach -lm -o target/viewer */
#include <algorithm>
#include <array>
#include <cstdint>
#include <cstdio>
#include <exception>
#include <limits>
#include <map>
#include <stdexcept>
#include <string>
#include <utility>
#include <vector>
#include "section_parts.hpp"
#include "section_png.hpp"
#include "zirwennach.h"

namespace {

// ---- returned numbers

constexpr std::uint64_t refusal_unit = 1'000'000;

// A returned number as text; a refusal with its number and its place.
std::string read_back(std::uint64_t returned) {
    if (returned < refusal_unit) return std::to_string(returned);
    return std::to_string(returned) + ", refusal " + std::to_string(returned / refusal_unit) + " at place " +
           std::to_string(returned % refusal_unit);
}

std::uint64_t accepted(const char *function, std::uint64_t returned) {
    if (returned >= refusal_unit)
        throw std::runtime_error(std::string(function) + " returned " + read_back(returned));
    return returned;
}

// ---- check

void report(const std::string &call, std::uint64_t returned, std::uint64_t expected) {
    std::printf("%s: %s\n", call.c_str(), read_back(returned).c_str());
    if (returned != expected) throw std::runtime_error(call + ": expected " + read_back(expected));
}

constexpr std::size_t guard = 64;
constexpr char untouched = '\xA5'; // no byte of a listing

// Bytes to lend, with guards before and behind them.
struct Lent {
    std::string bytes;

    explicit Lent(const std::string &content)
        : bytes(std::string(guard, untouched) + content + std::string(guard, untouched)) {}
    std::size_t size() const { return bytes.size() - 2 * guard; }
    std::uint8_t *data() { return reinterpret_cast<std::uint8_t *>(&bytes[guard]); }
};

void expect(const std::string &call, const char *what, const Lent &lent, const std::string &content) {
    if (lent.bytes != Lent(content).bytes)
        throw std::runtime_error(call + ": wrong bytes in " + what + " or around it");
}

// `listing` is what the call has to write, which is nothing if it is refused.
void check_point_list(const std::string &what, const std::string &column, std::size_t room,
                      std::uint64_t expected, const std::string &listing = "") {
    const std::string call = "csx_point_list, " + what + ", room " + std::to_string(room);
    Lent text(column), buffer(std::string(room, untouched));
    report(call, csx_point_list(text.data(), text.size(), buffer.data(), buffer.size()), expected);
    expect(call, "the text", text, column);
    expect(call, "the buffer", buffer, listing + std::string(room - listing.size(), untouched));
}

// The seven numbers are the centre, the radius and the point.
void check_sphere(const std::string &what, const std::array<double, 7> &n, std::uint64_t expected) {
    report("csx_sphere, " + what, csx_sphere(n[0], n[1], n[2], n[3], n[4], n[5], n[6]), expected);
}

constexpr std::size_t line_length = 36, listing_line_length = 10;

std::string line(int kind, long long a, long long b, long long c) {
    char text[line_length + 1];
    std::snprintf(text, sizeof text, "%2d%11lld%11lld%11lld\n", kind, a, b, c);
    return text;
}

std::string listing_row(int point, int answer) {
    char text[listing_line_length + 1];
    std::snprintf(text, sizeof text, "%6d%3d\n", point, answer);
    return text;
}

// The text with another line at this place, counted from 1.
std::string with_line(std::string text, std::size_t place, const std::string &other) {
    return text.replace((place - 1) * line_length, line_length, other);
}

// Document 01's example.
const std::string example = " 1          0          0          0\n"
                            " 1       1000          0          0\n"
                            " 1          0       1000          0\n"
                            " 1          0          0       1000\n"
                            " 2          0          2          1\n"
                            " 2          0          1          3\n"
                            " 2          0          3          2\n"
                            " 2          1          2          3\n"
                            " 3        100        100        100\n"
                            " 3       2000          0          0\n"
                            " 3          0          0          0\n"
                            " 3        900        900        900\n";

const std::string header = "  0     0\n";

const std::string example_listing = header + "     0  1\n"
                                             "     1  0\n"
                                             "     2  1\n"
                                             "     3  0\n";

// A pyramid 10 m high on a base 6 nm wide, and a point in it. A ray casts no vote if it meets a side within
// 1e-9 of the side's height from the base, here 10 nm, and from this point all three do.
std::string pyramid() {
    return line(1, -3, -3, 0) + line(1, 3, -3, 0) + line(1, 3, 3, 0) + line(1, -3, 3, 0) +
           line(1, 0, 0, 9999999999) + line(2, 0, 2, 1) + line(2, 0, 3, 2) + line(2, 0, 1, 4) +
           line(2, 1, 2, 4) + line(2, 2, 3, 4) + line(2, 3, 0, 4) + line(3, 0, 0, 1);
}

// 512 lines of a kind, the most that there may be.
std::string most(int kind) {
    std::string text;
    for (int i = 0; i < 512; ++i) text += line(kind, i, i, i);
    return text;
}

void check_listings() {
    check_point_list("document 01's example", example, 50, 50, example_listing);
    check_point_list("document 01's example", example, 80, 50, example_listing);
    check_point_list("an empty text", "", 10, 10, header);
    check_point_list("a point without a mesh", line(3, 1, 2, 3), 20, 20, header + listing_row(0, 0));
    check_point_list("a point that no ray decides", pyramid(), 20, 20, header + listing_row(0, 2));

    std::string longest = header;
    for (int i = 0; i < 512; ++i) longest += listing_row(i, 0);
    check_point_list("512 vertices and 512 points", most(1) + most(3), 5130, 5130, longest);
}

void check_bad_lines() {
    const std::string leading_zero = " 1          0       0100          0\n";
    const std::string minus_zero = " 3        900         -0        900\n";
    check_point_list("a leading zero in line 3", with_line(example, 3, leading_zero), 50, 12'000'003);
    check_point_list("a minus zero in line 12", with_line(example, 12, minus_zero), 50, 12'000'012);
    check_point_list("a vertex behind triangles in line 8", with_line(example, 8, line(1, 0, 0, 0)), 50,
                     12'000'008);
    check_point_list("no final line feed", example.substr(0, example.size() - 1), 50, 12'000'012);
    check_point_list("513 vertices", most(1) + line(1, 0, 0, 0), 50, 12'000'513);
    check_point_list("512 vertices, 512 points and a line", most(1) + most(3) + line(3, 0, 0, 0), 5140,
                     12'001'025);
}

// 12 is asked before 4, and 4 before 6.
void check_bad_corners() {
    const std::string bad_corner = with_line(example, 7, line(2, 0, 4, 2));
    const std::string what = "a corner of face 2 at the vertex count";
    check_point_list(what, bad_corner, 50, 4'000'002);
    check_point_list(what, bad_corner, 0, 4'000'002);
    check_point_list(what + " and a bad line 13", bad_corner + "\n", 50, 12'000'013);
}

void check_short_buffers() {
    check_point_list("document 01's example", example, 49, 6'000'000);
    check_point_list("document 01's example", example, 0, 6'000'000);
    check_point_list("an empty text", "", 9, 6'000'000);
    check_point_list("an empty text", "", 0, 6'000'000);
}

// A length of 0 may come with a null pointer.
void check_null_pointers() {
    const std::string no_room = "csx_point_list, document 01's example, no buffer";
    Lent text(example);
    report(no_room, csx_point_list(text.data(), text.size(), nullptr, 0), 6'000'000);
    expect(no_room, "the text", text, example);

    const std::string no_text = "csx_point_list, no text, room 10";
    Lent buffer(std::string(10, untouched));
    report(no_text, csx_point_list(nullptr, 0, buffer.data(), buffer.size()), 10);
    expect(no_text, "the buffer", buffer, header);
}

void check_spheres() {
    const double infinity = std::numeric_limits<double>::infinity();
    const double nan = std::numeric_limits<double>::quiet_NaN();
    check_sphere("a point inside", {1, 2, 3, 1, 1.5, 2.5, 3.5}, 1);
    check_sphere("a point outside", {1, 2, 3, 1, 0, 0, 0}, 0);
    check_sphere("radius 0, its centre", {1, 2, 3, 0, 1, 2, 3}, 1);
    check_sphere("radius -1, its centre", {1, 2, 3, -1, 1, 2, 3}, 0);
    check_sphere("an infinite radius", {1, 2, 3, infinity, 1, 2, 3}, 10'000'000);
    check_sphere("a radius that is NaN", {1, 2, 3, nan, 1, 2, 3}, 10'000'000);
    check_sphere("an infinite centre", {1, -infinity, 3, 1, 1, 2, 3}, 10'000'000);
    check_sphere("a centre that is NaN", {nan, 2, 3, 1, 1, 2, 3}, 10'000'000);
    check_sphere("an infinite point", {1, 2, 3, 1, 1, 2, infinity}, 9'000'000);
    check_sphere("a point that is NaN", {1, 2, 3, 1, nan, 2, 3}, 9'000'000);
    check_sphere("a radius and a point that are NaN", {1, 2, 3, nan, 1, nan, 3}, 10'000'000);
}

void check() {
    check_listings();
    check_bad_lines();
    check_bad_corners();
    check_short_buffers();
    check_null_pointers();
    check_spheres();
}

// ---- picture

using section::Mesh;

// A mesh and its tree.
class Part {
public:
    explicit Part(Mesh part) : mesh(std::move(part)) {
        const std::size_t triangles = mesh.corners.size() - 2 * mesh.ends.size();
        boxes.resize(6 * triangles);
        nodes.resize(2 * triangles);
        items.resize(triangles);
        const std::uint64_t returned =
            csx_build_tree(mesh.coords.data(), mesh.coords.size(), mesh.corners.data(), mesh.corners.size(),
                           mesh.ends.data(), mesh.ends.size(), boxes.data(), boxes.size(), nodes.data(),
                           nodes.size(), items.data(), items.size());
        const std::size_t count = accepted("csx_build_tree", returned);
        boxes.resize(6 * count);
        nodes.resize(2 * count);
    }

    std::vector<std::uint8_t> contains_list(const std::vector<double> &points) const {
        std::vector<std::uint64_t> work(mesh.corners.size());
        std::vector<std::uint8_t> answers(points.size() / 3);
        const std::uint64_t returned = csx_contains_list(
            mesh.coords.data(), mesh.coords.size(), mesh.corners.data(), mesh.corners.size(),
            mesh.ends.data(), mesh.ends.size(), boxes.data(), boxes.size(), nodes.data(), nodes.size(),
            items.data(), items.size(), work.data(), work.size(), points.data(), points.size(),
            answers.data(), answers.size());
        accepted("csx_contains_list", returned);
        return answers;
    }

private:
    Mesh mesh;
    std::vector<double> boxes;
    std::vector<std::uint32_t> nodes, items;
};

// The plane y = 0, x to the right and z down, in square cells.
constexpr std::size_t width = 800, height = 520;
constexpr double left = -0.212, top = -0.110, cell = 0.0005;

void append_centre(std::vector<double> &points, std::size_t place) {
    const double column = double(place % width), row = double(place / width);
    points.insert(points.end(), {left + (column + 0.5) * cell, 0, top + (row + 0.5) * cell});
}

// Colours each cell by its answer. Where parts have different answers the highest counts: undecided before
// inside before outside.
void draw(png::Picture &picture, const Part &part) {
    constexpr std::size_t longest = 65'536;
    for (std::size_t first = 0; first < picture.pixels.size(); first += longest) {
        const std::size_t last = std::min(first + longest, picture.pixels.size());
        std::vector<double> points;
        for (std::size_t place = first; place < last; ++place) append_centre(points, place);
        const std::vector<std::uint8_t> answers = part.contains_list(points);
        for (std::size_t place = first; place < last; ++place)
            picture.pixels[place] = std::max(picture.pixels[place], answers[place - first]);
    }
}

// The palette has a colour for each answer, and one for the legend's words.
constexpr std::uint8_t outside = 0, inside = 1, undecided = 2, ink = 3;
constexpr png::Palette palette{
    {{0xF6, 0xF3, 0xEC}, {0x3B, 0x5B, 0x7A}, {0xE0, 0xA0, 0x4A}, {0x24, 0x2F, 0x3A}}};

void fill(png::Picture &picture, std::size_t column, std::size_t row, std::size_t w, std::size_t h,
          std::uint8_t colour) {
    for (std::size_t j = row; j < row + h; ++j)
        for (std::size_t i = column; i < column + w; ++i) picture.at(i, j) = colour;
}

// The letters of the three words, five pixels wide and seven high.
const std::map<char, std::array<std::uint8_t, 7>> font{
    {'c', {0b00000, 0b00000, 0b01110, 0b10001, 0b10000, 0b10001, 0b01110}},
    {'d', {0b00001, 0b00001, 0b01101, 0b10011, 0b10001, 0b10011, 0b01101}},
    {'e', {0b00000, 0b00000, 0b01110, 0b10001, 0b11111, 0b10000, 0b01110}},
    {'i', {0b00100, 0b00000, 0b01100, 0b00100, 0b00100, 0b00100, 0b01110}},
    {'n', {0b00000, 0b00000, 0b10110, 0b11001, 0b10001, 0b10001, 0b10001}},
    {'o', {0b00000, 0b00000, 0b01110, 0b10001, 0b10001, 0b10001, 0b01110}},
    {'s', {0b00000, 0b00000, 0b01111, 0b10000, 0b01110, 0b00001, 0b11110}},
    {'t', {0b01000, 0b01000, 0b11100, 0b01000, 0b01000, 0b01001, 0b00110}},
    {'u', {0b00000, 0b00000, 0b10001, 0b10001, 0b10001, 0b10011, 0b01101}},
};

void write(png::Picture &picture, std::size_t column, std::size_t row, const std::string &word) {
    constexpr std::size_t scale = 2;
    for (char letter : word) {
        const auto &rows = font.at(letter);
        for (std::size_t j = 0; j < rows.size(); ++j)
            for (std::size_t i = 0; i < 5; ++i)
                if (rows[j] >> (4 - i) & 1)
                    fill(picture, column + i * scale, row + j * scale, scale, scale, ink);
        column += 6 * scale;
    }
}

void legend(png::Picture &picture, std::size_t row, std::uint8_t colour, const std::string &word) {
    constexpr std::size_t column = 630, side = 22;
    fill(picture, column, row, side, side, ink);
    fill(picture, column + 1, row + 1, side - 2, side - 2, colour);
    write(picture, column + side + 12, row + 4, word);
}

void picture(const std::string &path) {
    png::Picture drawing(width, height);
    draw(drawing, Part(revolve(section::housing(), section::horn_axis)));
    draw(drawing, Part(revolve(section::horn(), section::horn_axis)));
    draw(drawing, Part(revolve(section::collar(), section::mast_axis)));
    draw(drawing, Part(revolve(section::mast(), section::mast_axis)));
    legend(drawing, 402, outside, "outside");
    legend(drawing, 436, inside, "inside");
    legend(drawing, 470, undecided, "undecided");
    png::write(path, drawing, palette);
}

} // namespace

int main(int argc, char **argv) {
    const std::vector<std::string> words(argv + 1, argv + argc);
    try {
        if (words.size() == 1 && words[0] == "check") check();
        else if (words.size() == 2 && words[0] == "picture") picture(words[1]);
        else throw std::runtime_error("call it with: check, or picture FILE.png");
    } catch (const std::exception &error) {
        std::fflush(stdout);
        std::fprintf(stderr, "viewer: %s\n", error.what());
        return 1;
    }
}
