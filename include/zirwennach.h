/* The C functions of the point membership engine. Link with libzirwennach.a and the C mathematics library. */
#ifndef ZIRWENNACH_H
#define ZIRWENNACH_H

#include <stddef.h>
#include <stdint.h>

#ifdef __cplusplus
extern "C" {
#endif

/* A list is a pointer and its length in numbers. A length of 0 may come with any pointer. Nothing that
   is lent as const is changed. Nothing is promised of a call whose buffers overlap, where one of them is
   written to.

   Each function but csx_root returns a number below 1,000,000, or a refusal: the number of the question that
   turned the call down times 1,000,000, plus a place below 1,000,000.

   Every shape question returns 0 if the point x, y, z lies outside, 1 if it lies inside, or a refusal.
   The questions are asked in this order:
     11,000,000  the list of a polygon, wire or multi-box is no whole number of entries (2, 3 and 6
                 numbers each), or has more than 4,096
     10,000,000  a number of the shape or of its list is infinite or NaN
      9,000,000  a coordinate of the point is infinite or NaN */

/* The sphere around c. */
uint64_t csx_sphere(double cx, double cy, double cz, double radius, double x, double y, double z);

/* The box with opposite corners a and b; its faces count as inside. */
uint64_t csx_box(double ax, double ay, double az, double bx, double by, double bz, double x, double y,
                 double z);

/* The same with corners and point in cylindrical coordinates: radius, angle in radians, height. */
uint64_t csx_box_cylindrical(double ax, double ay, double az, double bx, double by, double bz, double x,
                             double y, double z);

/* A union of boxes: for each the six numbers of two opposite corners. */
uint64_t csx_multi_box(const double *list, size_t length, double x, double y, double z);

/* The points within half the shell width of the sphere's surface; the width's sign is ignored. */
uint64_t csx_spherical_shell(double cx, double cy, double cz, double radius, double shell_width,
                             double x, double y, double z);

/* The solid cylinder around the axis from a to b. */
uint64_t csx_cylinder(double ax, double ay, double az, double bx, double by, double bz, double radius,
                      double x, double y, double z);

/* The points between the ends of that axis within half the shell width of the cylinder's mantle. */
uint64_t csx_cylindrical_shell(double ax, double ay, double az, double bx, double by, double bz,
                               double radius, double shell_width, double x, double y, double z);

/* The polygon in the plane at the elevation normal to axis 0, 1 or 2 (any other number: no point is
   inside). Each vertex is two numbers, along the next axis and the one after it in cyclic order. */
uint64_t csx_polygon(uint64_t normal_direction, double elevation, const double *list, size_t length,
                     double x, double y, double z);

/* That polygon extruded along the axis from the elevation over the extent, which may be negative. */
uint64_t csx_lin_poly(uint64_t normal_direction, double elevation, double extent, const double *list,
                      size_t length, double x, double y, double z);

/* The points within the radius of the polyline through the list's points, three numbers each. */
uint64_t csx_wire(const double *list, size_t length, double radius, double x, double y, double z);

/* The polyline itself, which holds no point: 0 or a refusal. */
uint64_t csx_curve(const double *list, size_t length, double x, double y, double z);

/* The single point a, which holds no point: 0 or a refusal. */
uint64_t csx_point(double ax, double ay, double az, double x, double y, double z);

/* Welds triangles into a mesh. `triangles` has nine numbers a triangle. Corners that are equal as numbers
   become one vertex; a triangle two of whose corners are one vertex is dropped. Written are x, y, z of
   each vertex in order of first appearance (coords), three vertex numbers a kept triangle (corners), where
   each face's corners end (ends: 3, 6, 9, ..), and the numbers of vertices and of faces (sizes, two
   places). What lies past the written part is unchanged. The buffers must not overlap. Returns 0, or:
     1,000,000          the list is no multiple of 9 numbers, or has more than 21,845 triangles
     5,000,000 + place  the corner at this place, counted from 0 through all triangles, is not finite
     6,000,000          coords has fewer than 9, corners fewer than 3 or ends fewer than 1 place a
                        triangle, or sizes has fewer than 2
   A refused call changes nothing. */
uint64_t csx_from_triangles(const double *triangles, size_t triangles_length, double *coords,
                            size_t coords_length, uint32_t *corners, size_t corners_length,
                            uint32_t *ends, size_t ends_length, uint64_t *sizes, size_t sizes_length);

/* A mesh is lent as three lists: x, y, z of each vertex (coords), vertex numbers, face after face
   (corners), and for each face the place in corners at which it ends (ends). Its triangles are the fan of
   each face from its first corner, numbered through all faces from 0.

   A stored box tree of a mesh is lent as three lists: six numbers a node, min x, y, z and max x, y, z of
   its box (boxes), two numbers a node, its start and its count (nodes), and triangle numbers (items). Its
   rules:
   - Node 0 is the root. There are no nodes exactly if there are no triangles.
   - Count 0 marks an inner node: its left child is the next node, its right child is its start. Each
     subtree fills consecutive nodes, left before right.
   - A leaf has count 1 to 4; its start is the place of its first item. Leaves in node order cover all
     item places from 0 on, without gap or overlap.
   - Items name each triangle once.
   - A node's box encloses the box of each triangle below it, compared as numbers.
   - A path from the root to a leaf has at most 32 nodes.
   - The lists have exactly the lengths that this needs. */

/* Builds the tree of a mesh: each node with more than four triangles is split in half. boxes needs 6 and
   nodes 2 places a triangle, items 1. The first places of each then hold the tree; what lies past them is
   unchanged. The buffers must not overlap. Returns the number of nodes n: boxes has 6 * n and nodes 2 * n
   written places, items one a triangle, and the lists are lent on cut to these lengths. Or:
     1,000,000           coords is no multiple of 3 numbers, or has more than 65,536 vertices
     2,000,000           there are more than 65,536 faces or 262,144 corners, the ends fall, or the last
                         of them (0 if there is none) is not the number of corners
     3,000,000 + face    this face, counted from 0, has fewer than three corners
     4,000,000 + face    a corner of this face is no vertex; asked of each face right after 3
     5,000,000 + vertex  a coordinate of this vertex, counted from 0, is infinite or NaN
     6,000,000           boxes, nodes or items has fewer places than are needed
   A refused call changes nothing. */
uint64_t csx_build_tree(const double *coords, size_t coords_length, const uint32_t *corners,
                        size_t corners_length, const uint32_t *ends, size_t ends_length, double *boxes,
                        size_t boxes_length, uint32_t *nodes, size_t nodes_length, uint32_t *items,
                        size_t items_length);

/* Checks that a tree keeps these rules for a mesh. The buffers must not overlap. Returns 0 if it does, or:
     1,000,000 to 5,000,000 + vertex   as csx_build_tree says of the mesh
     6,000,000           work has fewer places than there are corners
     7,000,000           the tree does not keep the rules
   A call that is refused by 1 to 6 changes nothing. Any other leaves 0 in the first places of work, one
   a corner, and what lies past them unchanged. */
uint64_t csx_check_tree(const double *coords, size_t coords_length, const uint32_t *corners,
                        size_t corners_length, const uint32_t *ends, size_t ends_length,
                        const double *boxes, size_t boxes_length, const uint32_t *nodes,
                        size_t nodes_length, const uint32_t *items, size_t items_length,
                        uint64_t *work, size_t work_length);

/* Answers a list of points: which of them lie inside a mesh. points has x, y, z of each point, answers a place
   for each; a point is answered 0 outside, 1 inside, 2 undecided. Which tree is lent changes no answer, as
   long as it keeps the rules. The buffers must not overlap. Returns 0, or:
     1,000,000 to 5,000,000 + vertex   as csx_build_tree says of the mesh
     6,000,000           work has fewer places than there are corners
     7,000,000           the tree does not keep the rules
     8,000,000           points is no multiple of 3 numbers or has more than 65,536 points, or answers is not
                         exactly a third as long
     9,000,000 + point   this point, counted from 0, is infinite or NaN
   A call that is refused by 1 to 6 changes nothing, and no refused call changes answers. One that is refused
   by 7, 8 or 9 leaves 0 in the first places of work, one a corner; one that is not refused leaves there the
   keys of the edges, smaller vertex * 65536 + larger, ascending. What lies past them is unchanged. */
uint64_t csx_contains_list(const double *coords, size_t coords_length, const uint32_t *corners,
                           size_t corners_length, const uint32_t *ends, size_t ends_length,
                           const double *boxes, size_t boxes_length, const uint32_t *nodes,
                           size_t nodes_length, const uint32_t *items, size_t items_length,
                           uint64_t *work, size_t work_length, const double *points,
                           size_t points_length, uint8_t *answers, size_t answers_length);

/* Column text in, a listing out. text is lines of exactly 36 bytes: a kind of width 2 and three whole numbers of
   width 11, right-justified with blanks before them, and a line feed, the last line's included. Kinds: 1 a
   vertex and 3 a point, in nanometres within +-9,999,999,999; 2 a triangle by vertex numbers from 0 to 511. All
   1s come first, then 2s, then 3s; at most 1,024 lines and 512 of a kind. A minus stands against its digit;
   there are no leading zeros and no minus zero.
   Written is a listing, lines of 10 bytes: a header with two zeros (widths 3 and 6), then for each point its
   number from 0 (width 6) and its answer (width 3): 0 outside, 1 inside, 2 undecided. The two buffers must not
   overlap. What lies past the listing is unchanged. Returns how many bytes the listing has, or:
     12,000,000 + line   this line, counted from 1, is not as described, or the first over a limit or of a kind
                         out of order
     1,000,000 to 5,000,000 + vertex   as csx_build_tree says of the mesh; with such a text only 4 can come up
     6,000,000           listing is shorter than the whole listing: 10 bytes and 10 a point, 5,130 at most
   A refused call writes nothing. */
uint64_t csx_point_list(const uint8_t *text, size_t text_length, uint8_t *listing, size_t listing_length);

/* The square root of x, rounded to the nearest double: IEEE 754's. NaN of NaN and of every negative
   number, a zero of the same zero. */
double csx_root(double x);

#ifdef __cplusplus
}
#endif

#endif
