/* The parts of an antenna as meshes: bodies that a profile makes when it is turned around an axis. */
#ifndef SECTION_PARTS_HPP
#define SECTION_PARTS_HPP

#include <algorithm>
#include <array>
#include <cmath>
#include <cstddef>
#include <cstdint>
#include <vector>

namespace section {

using Vertex = std::array<double, 3>;

// The three lists that the engine is lent.
struct Mesh {
    std::vector<double> coords;
    std::vector<std::uint32_t> corners, ends;

    std::uint32_t vertex(const Vertex &v) {
        coords.insert(coords.end(), v.begin(), v.end());
        return std::uint32_t(coords.size() / 3 - 1);
    }
    void face(const std::vector<std::uint32_t> &vertices) {
        corners.insert(corners.end(), vertices.begin(), vertices.end());
        ends.push_back(std::uint32_t(corners.size()));
    }
};

// A corner of a profile, which is a closed polygon, in millimetres.
struct Corner {
    double along, radius;
};
using Profile = std::vector<Corner>;

// Where a place along an axis and two places across it lie.
using Axis = Vertex (*)(double along, double u, double v);

using Ring = std::vector<std::uint32_t>;

constexpr double pi = 3.14159265358979323846;
constexpr double millimetre = 1e-3; // meshes are in metres

// The vertices of a corner: one on the axis, else a ring of them around it.
inline Ring turn(Mesh &mesh, const Corner &corner, Axis axis) {
    constexpr std::size_t steps = 96;
    const double along = corner.along * millimetre, radius = corner.radius * millimetre;
    if (radius == 0) return {mesh.vertex(axis(along, 0, 0))};
    Ring ring;
    for (std::size_t k = 0; k < steps; ++k) {
        const double angle = 2 * pi * double(k) / double(steps);
        ring.push_back(mesh.vertex(axis(along, radius * std::cos(angle), radius * std::sin(angle))));
    }
    return ring;
}

// The faces between two rings. A side on the axis has none.
inline void join(Mesh &mesh, const Ring &a, const Ring &b) {
    const std::size_t steps = std::max(a.size(), b.size());
    for (std::size_t k = 0; k < steps && steps > 1; ++k) {
        const std::size_t next = (k + 1) % steps;
        if (a.size() == 1) mesh.face({a[0], b[next], b[k]});
        else if (b.size() == 1) mesh.face({a[k], a[next], b[0]});
        else mesh.face({a[k], a[next], b[next], b[k]});
    }
}

// The mesh is closed: each side of the profile shares a ring with the side before and with the side after it.
inline Mesh revolve(const Profile &profile, Axis axis) {
    Mesh mesh;
    std::vector<Ring> rings;
    for (const Corner &corner : profile) rings.push_back(turn(mesh, corner, axis));
    for (std::size_t i = 0; i < rings.size(); ++i) join(mesh, rings[i], rings[(i + 1) % rings.size()]);
    return mesh;
}

// Each axis is chosen so that the faces of its profiles are turned outwards. z points down.
inline Vertex horn_axis(double along, double u, double v) { return {along, v, u}; }

inline Vertex mast_axis(double along, double u, double v) { return {-26 * millimetre + u, v, along}; }

inline Corner on_dome(double rim, double bulge, double radius, double angle) {
    return {rim + bulge * std::sin(angle), radius * std::cos(angle)};
}

// A can with an opening in its back for the waveguide, closed in front by a thinner dome, the radome. The
// profile runs along the walls of the cavity to the dome's tip, and back outside.
inline Profile housing() {
    constexpr double back = -112, rim = 50, opening = 15, inner = 82, outer = 87, bulge = 62, wall = 3;
    constexpr int steps = 48;
    Profile profile{{back + 6, opening}, {back + 6, inner}};
    for (int i = 0; i < steps; ++i) profile.push_back(on_dome(rim, bulge, inner, pi / 2 * i / steps));
    profile.insert(profile.end(), {{rim + bulge, 0}, {rim + bulge + wall, 0}});
    for (int i = steps - 1; i >= 0; --i)
        profile.push_back(on_dome(rim, bulge + wall, inner + wall, pi / 2 * i / steps));
    profile.insert(profile.end(), {{rim, outer}, {back, outer}, {back, opening}});
    return profile;
}

// A corrugated horn: a round waveguide with a flange at its back, then slots and teeth, each wider than the
// one before, up to the aperture's flange, which touches the housing.
inline Profile horn() {
    constexpr double back = -140, throat = -72, bore = 11, wall = 3;
    constexpr double pitch = 8.5, tooth = 3, step = 3.5, depth = 9;
    constexpr int slots = 13;
    constexpr double front = throat + pitch * slots, aperture = bore + step * slots;
    Profile profile{{back, bore}};
    for (int i = 0; i < slots; ++i) {
        const double radius = bore + step * i, bottom = radius + depth;
        const double start = throat + pitch * i + tooth, end = throat + pitch * (i + 1);
        profile.insert(profile.end(),
                       {{start, radius}, {start, bottom}, {end, bottom}, {end, radius + step}});
    }
    profile.insert(profile.end(), {{front + 5, aperture},
                                   {front + 5, 82},
                                   {front, 82},
                                   {front, aperture + depth + wall},
                                   {throat, bore + depth + wall},
                                   {throat, bore + wall},
                                   {back + 6, bore + wall},
                                   {back + 6, 28},
                                   {back, 28}});
    return profile;
}

// The ring under the housing that holds the mast.
inline Profile collar() { return {{84, 19}, {84, 40}, {92, 40}, {98, 27}, {118, 25}, {118, 19}}; }

// A rod whose foot, at 200 mm, is given in nanometres where metres are meant. A ray that meets a face within
// 1e-9 of its height from an edge casts no vote. Here that is 200 mm, more than the picture shows, so no ray
// from within the mast casts one, and its points are undecided.
inline Profile mast() {
    constexpr double top = 93, foot = 200e9;
    return {{top, 0}, {top, 18}, {foot, 18}, {foot, 0}};
}

} // namespace section

#endif
