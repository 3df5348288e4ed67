/* spoonferret.h: mesh surgery on lent arrays, every function proved.

   Link with target/staticlib/libstation.a, which `scripts/staticlib station` writes (x86-64 Linux). Nothing else is needed: no function
   here allocates, prints, keeps state between calls or fails to return.

   THE NET. Five arrays that the caller lends, and the counts of what is in use of each. An array is passed as a pointer and
   the number of its ELEMENTS (not rows). The rows behind those in use, up to the capacity, are free: an operation that appends writes there. A
   capacity is the rows lent or the bound (below, with the counts), whichever is less; the triangle capacity is the least over
   half-edges (by thirds) and over those of normals and references that are in use.

     halfedges    int32_t, SPOONFERRET_HALFEDGE_NUMBERS (4) a row: start_vert, end_vert, paired_halfedge, prop_vert. Rows 3t, 3t+1 and 3t+2 are triangle t.
     positions    uint64_t, 3 a row: the bit patterns of x, y, z (an array of doubles will do, by a cast of the pointer).
     normals      uint64_t, 3 a row, as positions: none, or a row for each triangle.
     references   int32_t, 3 a row: mesh_id, coplanar_id, face_id: none, or a row for each triangle.
     properties   uint64_t, num_prop a row, bit patterns.

   A range a..b is half-open: b is not in it. Elements behind the last whole row of an array are never read or written. Where num_prop is 0, a property row has no
   elements: the array is not looked at, and used.properties is held to its bound alone.

   WHAT A CALLER OWES. An array that a function may write (its pointer is not const) overlaps no other. A pointer is aligned for
   its type and is not NULL, even where the length is 0 (the functions of spoonferret_net.h allow NULL). No other thread writes the arrays during a call.
   Nothing is shared between calls, so calls on different nets may run at once. An array of doubles may be passed as uint64_t by a cast of the pointer:
   no C code looks at it by that type, and what the library reads and writes are its bytes, so a compiler's rules on aliasing are kept.

   WHAT A CALL SAYS. Each function answers a struct whose field `number` is
     0 done            1 shape           2 short buffer     3 unsound          4 number           5 dead
     6 no room         7 stopped         8 long             9 open fan        10 no owners
   and each says below which of these it gives, tested in the order in which they stand there. A field that the answer does not carry
   is 0. After any answer but 0 the rows in use of all five arrays are as they were. */
#ifndef SPOONFERRET_H
#define SPOONFERRET_H

#include <stdbool.h>
#include <stddef.h>
#include <stdint.h>

#define SPOONFERRET_VERSION_MAJOR 0
#define SPOONFERRET_VERSION_MINOR 1
#define SPOONFERRET_VERSION_PATCH 0
#define SPOONFERRET_VERSION "0.1.0"

/* The numbers of a half-edge row. */
#define SPOONFERRET_HALFEDGE_NUMBERS 4

#ifdef __cplusplus
extern "C" {
#endif

/* The answers by name: what `number` holds. */
enum {
    SPOONFERRET_DONE = 0,
    SPOONFERRET_SHAPE = 1,
    SPOONFERRET_SHORT_BUFFER = 2,
    SPOONFERRET_UNSOUND = 3,
    SPOONFERRET_NUMBER = 4,
    SPOONFERRET_DEAD = 5,
    SPOONFERRET_NO_ROOM = 6,
    SPOONFERRET_STOPPED = 7,
    SPOONFERRET_LONG = 8,
    SPOONFERRET_OPEN_FAN = 9,
    SPOONFERRET_NO_OWNERS = 10
};

/* An answer in words, for a message. */
static inline const char *spoonferret_answer_text(uint32_t number) {
    switch (number) {
    case SPOONFERRET_DONE:
        return "done";
    case SPOONFERRET_SHAPE:
        return "shape: the counts do not fit the arrays, one another or the bounds";
    case SPOONFERRET_SHORT_BUFFER:
        return "short buffer: a work buffer, list or spare is too short";
    case SPOONFERRET_UNSOUND:
        return "unsound: a row is not in order";
    case SPOONFERRET_NUMBER:
        return "number: it names no half-edge in use or no vertex in use, or has no next";
    case SPOONFERRET_DEAD:
        return "dead: a named half-edge is dead";
    case SPOONFERRET_NO_ROOM:
        return "no room: the next append would pass a capacity";
    case SPOONFERRET_STOPPED:
        return "stopped: a row that is not there would be read or written, or a walk never ends";
    case SPOONFERRET_LONG:
        return "long: the squared length is not below the limit";
    case SPOONFERRET_OPEN_FAN:
        return "open fan: a fan does not close";
    case SPOONFERRET_NO_OWNERS:
        return "no owners: a pair does not point back, or an eligible half-edge's fan is open";
    default:
        return "no answer of this library";
    }
}

/* How many rows of each array are in use, and how many numbers a property row has.
   In shape: halfedges is a multiple of 3, at most 3,000,000 and at most the rows lent; vertices at most 1,000,000 and the rows lent;
   properties at most 3,000,000 and the rows lent; num_prop at most 32; normals and references each 0 or halfedges / 3, and at most
   the rows lent. Anything else is answer 1. */
typedef struct {
    size_t halfedges;
    size_t vertices;
    size_t normals;
    size_t references;
    size_t properties;
    size_t num_prop;
} spoonferret_used;

typedef struct {
    double x;
    double y;
    double z;
} spoonferret_point;

typedef struct {
    uint32_t number;
} spoonferret_answer;

typedef struct {
    uint32_t number;
    int32_t next;
} spoonferret_next_answer;

typedef struct {
    uint32_t number;
    int32_t first;
    int32_t second;
    int32_t third;
} spoonferret_tri_answer;

/* squared_length and limit are the bit patterns of doubles; a NaN is always 0x7FF8000000000000. */
typedef struct {
    uint32_t number;
    uint64_t squared_length;
    uint64_t limit;
} spoonferret_length_answer;

/* row: the least row not in order. */
typedef struct {
    uint32_t number;
    size_t row;
} spoonferret_row_answer;

/* As of check_net; update_vert's own. */
typedef struct {
    uint32_t number;
    size_t row;
} spoonferret_update_answer;

/* clause: the first clause of "in order" that the row breaks, 0 for none; other: the other row that this concerns. */
typedef struct {
    uint32_t number;
    uint32_t clause;
    size_t other;
} spoonferret_explain_answer;

/* added: vertices copied; steps: half-edges visited; row: the least row not in order. */
typedef struct {
    uint32_t number;
    size_t row;
    size_t added;
    size_t steps;
} spoonferret_split_answer;

/* vertices: vertex rows in use afterwards; row: the least row not in order. */
typedef struct {
    uint32_t number;
    size_t row;
    size_t vertices;
} spoonferret_loop_answer;

/* halfedges and vertices: rows in use afterwards (normals and references, where in use, have a row for each triangle); row: the least row
   not in order. */
typedef struct {
    uint32_t number;
    size_t row;
    size_t halfedges;
    size_t vertices;
} spoonferret_dedupe_edge_answer;

/* As of dedupe_edge. */
typedef struct {
    uint32_t number;
    size_t row;
    size_t halfedges;
    size_t vertices;
} spoonferret_dedupe_edges_answer;

/* As of dedupe_edge. */
typedef struct {
    uint32_t number;
    size_t row;
    size_t halfedges;
    size_t vertices;
} spoonferret_cleanup_topology_answer;

/* vertices: vertex rows in use afterwards; row: the least row not in order; squared_length and limit: the bit patterns of doubles, where the
   edge is long; a NaN is always 0x7FF8000000000000. */
typedef struct {
    uint32_t number;
    size_t row;
    size_t vertices;
    uint64_t squared_length;
    uint64_t limit;
} spoonferret_collapse_edge_answer;

/* count: half-edges listed. */
typedef struct {
    uint32_t number;
    size_t count;
} spoonferret_owners_answer;

/* The next half-edge of h's triangle: h + 1, or h - 2 where h + 1 divides by 3. Negative numbers too: next of -1 is -3.
   0: next holds it. 4: h is 2147483647 or -2147483647, which have none. */
spoonferret_next_answer spoonferret_next_halfedge(int32_t h);

/* The triangle of h, from h on: h, next of h, next of that.
   0: first, second, third. 4: one of the two nexts is not there. */
spoonferret_tri_answer spoonferret_tri_of(int32_t h);

/* Whether the edge between two positions is short: the squared length, x*x + y*y and then + z*z of the difference, each operation
   rounded once, is strictly below a limit. The limit is tol * tol where end_vert < first_new_vert, else epsilon * epsilon; a tol
   below 0 stands for epsilon.
   0: short. 8: long (also with a NaN); squared_length and limit say why. */
spoonferret_length_answer spoonferret_short_test(spoonferret_point from, spoonferret_point to, int32_t end_vert,
                                                 int32_t first_new_vert, double tol, double epsilon);

/* Whether a net is sound: each triangle's three rows dead (start, end and pair -1), or live (pairs that point back and run the
   opposite way, vertices that are there, ends that meet the next start, three different starts). Reads only.
   0: sound. 1: shape. 3: not sound; row is the least row that is not in order. */
spoonferret_row_answer spoonferret_check_net(spoonferret_used used, const int32_t *halfedges, size_t halfedges_length,
                                             const uint64_t *positions, size_t positions_length, const uint64_t *normals,
                                             size_t normals_length, const int32_t *references, size_t references_length,
                                             const uint64_t *properties, size_t properties_length);

/* Why a row is not in order: the first clause that it breaks. Reads only; the net need not be sound.
   0: clause says which, and other the other row that it concerns (0 where there is none):
     0 the row is in order                                   5 its end is not the start of its next; other: that next
     1 its pair is not in 0..used.halfedges                  6 its partner's ends are not its own, exchanged; other: the partner
     2 its partner's pair is another row; other: the partner 7 two of its triangle's three starts agree
     3 its start or its end is not in 0..used.vertices       8 it is empty and another row of its triangle is not; other: that row
     4 another row of its triangle has no pair; other: that row
   1: shape. 4: row is not in 0..used.halfedges. */
spoonferret_explain_answer spoonferret_explain_row(spoonferret_used used, const int32_t *halfedges, size_t halfedges_length,
                                                   const uint64_t *positions, size_t positions_length, const uint64_t *normals,
                                                   size_t normals_length, const int32_t *references, size_t references_length,
                                                   const uint64_t *properties, size_t properties_length, int32_t row);

/* Makes two half-edges each other's partner: writes two pair fields and nothing else. The same number twice pairs a row with
   itself. The net need not be sound.
   0: done. 1: shape. 4: first or second is not in 0..used.halfedges. */
spoonferret_answer spoonferret_pair_up(spoonferret_used used, int32_t *halfedges, size_t halfedges_length,
                                       const uint64_t *positions, size_t positions_length, const uint64_t *normals,
                                       size_t normals_length, const int32_t *references, size_t references_length,
                                       const uint64_t *properties, size_t properties_length, int32_t first, int32_t second);

/* Walks about a vertex from half-edge start to half-edge end: the end of the half-edge where it is becomes vertex, and the start of that one's
   next; then it goes to that next's partner. At end it stops: end is not written, and start equal to end writes nothing. Only start_vert
   and end_vert of rows on the way are written; the net is as a rule not sound afterwards, which the caller mends.
   0: done. 1: shape. 3: not sound; row. 4: vertex is not in 0..used.vertices, or start or end not in 0..used.halfedges. 5: start or end is
   dead. 7: the walk does not come to end. */
spoonferret_update_answer spoonferret_update_vert(spoonferret_used used, int32_t *halfedges, size_t halfedges_length,
                                                  const uint64_t *positions, size_t positions_length, const uint64_t *normals,
                                                  size_t normals_length, const int32_t *references, size_t references_length,
                                                  const uint64_t *properties, size_t properties_length, int32_t vertex,
                                                  int32_t start, int32_t end);

/* Takes the triangle of halfedge out. Its rows in order are halfedge, the next and the next of that: the partners of the second and the third
   become each other's; then start_vert, end_vert and paired_halfedge of the three rows become -1, and prop_vert stays. The partner of
   halfedge itself still points to it, which the caller mends.
   0: done. 1: shape. 3: not sound; row. 4: halfedge is not in 0..used.halfedges. 5: it is dead. */
spoonferret_row_answer spoonferret_collapse_tri(spoonferret_used used, int32_t *halfedges, size_t halfedges_length,
                                                const uint64_t *positions, size_t positions_length, const uint64_t *normals,
                                                size_t normals_length, const int32_t *references, size_t references_length,
                                                const uint64_t *properties, size_t properties_length, int32_t halfedge);

/* Takes out the two triangles at the edge of halfedge where they are folded: they have the same opposite vertex and meet at a second edge, the
   first's second row paired with the other's third or its third with the other's second. What lies beside them is joined, all four
   fields of the six rows become -1, and a vertex that nothing is left of gets the bits 0x7FF8000000000000 (NaN) for x, y and z: of both,
   the first triangle's three starts; else the vertex where the two edges meet. Where they are not folded nothing changes, and the answer is 0.
   The net is sound afterwards. 0: done, or not folded. 1: shape. 3: not sound; row. 4: halfedge is not in 0..used.halfedges. 5: it is dead. */
spoonferret_row_answer spoonferret_remove_if_folded(spoonferret_used used, int32_t *halfedges, size_t halfedges_length,
                                                    uint64_t *positions, size_t positions_length, const uint64_t *normals,
                                                    size_t normals_length, const int32_t *references, size_t references_length,
                                                    const uint64_t *properties, size_t properties_length, int32_t halfedge);

/* Joins the net the other way across two half-edges that run between the same two vertices: appends copies of the positions where first
   starts and ends; does update_vert with the first copy from first's partner to second's partner, and with the other from second to
   first; exchanges the two pairs; and does remove_if_folded at second. The same half-edge twice appends two positions and does
   remove_if_folded.
   spare_halfedges needs SPOONFERRET_HALFEDGE_NUMBERS * used.halfedges elements, spare_positions 3 * used.vertices.
   0: done; vertices is used.vertices + 2, and over so many the net is sound. 1: shape. 2: a spare is too short. 3: not sound; row. 4: first or second is not in
   0..used.halfedges. 5: one of them is dead. 6: fewer than two vertex rows are free. 7: there is room, and the walk from
   first's partner to second's, or from second to first, does not come to its end.
   After 6 and 7 the free rows that had been filled read zero, the others are as they were. After 0, 6 and 7 the spares hold the rows in use as
   they were at the call, over the needed lengths, and are unchanged beyond; after 1 to 5 the spares are as they were. */
spoonferret_loop_answer spoonferret_form_loop(spoonferret_used used, int32_t *halfedges, size_t halfedges_length,
                                              uint64_t *positions, size_t positions_length, const uint64_t *normals,
                                              size_t normals_length, const int32_t *references, size_t references_length,
                                              const uint64_t *properties, size_t properties_length, int32_t *spare_halfedges,
                                              size_t spare_halfedges_length, uint64_t *spare_positions,
                                              size_t spare_positions_length, int32_t first, int32_t second);

/* The owner of each fan. A fan is what is reached from a half-edge by turning, to the next of its partner. A half-edge is eligible if its
   start is 0 or more, and with end_too its end as well; a fan's owner is the least of its eligible half-edges. Reads the net, which need
   not be sound, in time linear in used.halfedges.
   work and list need used.halfedges elements each.
   0: list's first count elements are the owners, rising; the rest of list is as it was. 1: shape. 2: work or list is too short. 10: a pair of 0
   or more is not in 0..used.halfedges or does not point back, or some eligible half-edge, after no or more turns, is at a row without pair;
   list is as it was.
   After 0 and 10 work reads zero over the needed length and is unchanged beyond; after 1 and 2 work and list are as they were. */
spoonferret_owners_answer spoonferret_orbit_owners(spoonferret_used used, const int32_t *halfedges, size_t halfedges_length,
                                                   const uint64_t *positions, size_t positions_length, const uint64_t *normals,
                                                   size_t normals_length, const int32_t *references, size_t references_length,
                                                   const uint64_t *properties, size_t properties_length, uint8_t *work,
                                                   size_t work_length, uint32_t *list, size_t list_length, bool end_too);

/* Gives each fan a start vertex of its own. Rising over half-edges, the first fan at a vertex keeps it; each later fan gets a copy of
   the position, appended behind the used.vertices rows, and its number on every start in the fan and on the end of every partner.
   work needs used.halfedges + used.vertices elements, visit used.halfedges.
   0: done; the net has used.vertices + added vertices, and visit's first steps elements are the half-edges in visiting order: of each fan
   each half-edge after a turn, so that its first comes last. 1: shape. 2: work or visit is too short. 3: not sound; row. 9: a fan does not
   close (a sound net's fans all close). 6: more copies than free vertex rows; those rows read zero.
   After 0, 6 and 9 work reads zero over the needed length; after 1, 2 and 3 work and visit are as they were; visit is written only on 0. */
spoonferret_split_answer spoonferret_split_pinched_verts(spoonferret_used used, int32_t *halfedges, size_t halfedges_length,
                                                         uint64_t *positions, size_t positions_length, const uint64_t *normals,
                                                         size_t normals_length, const int32_t *references,
                                                         size_t references_length, const uint64_t *properties,
                                                         size_t properties_length, uint32_t *work, size_t work_length,
                                                         uint32_t *visit, size_t visit_length);

/* Takes a duplicate edge apart. A half-edge is duplicated where another of its fan (those that start at the same vertex and that turning
   joins) ends at the same vertex. The search goes about the end of halfedge, from partner of next to partner of next, and stops the moment it
   meets a half-edge that starts where halfedge starts, or comes back to halfedge. Where it meets one, a copy of the end's position is appended
   and set on the half-edges between, and two triangles are appended that fill the gap, with the props, references and normals of what lies beside
   them. Where it comes back, the whole fan of the end gets a copy of the end's position. Then the same search goes about the start, for a half-edge
   that starts where halfedge ended: where it comes back, a copy of the END's position is appended and set on the whole fan of the start.
   So it is meant for a half-edge that is duplicated: on another it moves corners, as the original does.
   New rows go behind those in use of halfedges, positions, and normals and references where they are in use. Room is counted at the call: the half-edge
   capacity is three times the least of the triangles lent in halfedges, in normals and in references (those in use) and 1,000,000; the vertex
   capacity the rows lent of positions and at most 1,000,000.
   spare_halfedges needs SPOONFERRET_HALFEDGE_NUMBERS * used.halfedges elements, spare_positions 3 * used.vertices.
   0: done; halfedges is used.halfedges or 6 more, vertices 1 or 2 more than used.vertices, and over so many the net is sound. 1: shape. 2: a spare is
   too short. 3: not sound; row. 4: halfedge is not in 0..used.halfedges. 5: it is dead. 6: a copy or a triangle finds no free row. 7: a step would read a
   row that is not there, or a walk does not end; a sound net never comes to it.
   After 6 and 7 the rows in use are as they were, and the free rows that had been filled read zero, of all four arrays; the others are as they were.
   After 0, 6 and 7 the spares hold the rows in use as they were at the call, over the needed lengths, and are unchanged beyond; after 1 to 5
   the spares are as they were. */
spoonferret_dedupe_edge_answer spoonferret_dedupe_edge(spoonferret_used used, int32_t *halfedges, size_t halfedges_length,
                                                       uint64_t *positions, size_t positions_length, uint64_t *normals,
                                                       size_t normals_length, int32_t *references, size_t references_length,
                                                       const uint64_t *properties, size_t properties_length,
                                                       int32_t *spare_halfedges, size_t spare_halfedges_length,
                                                       uint64_t *spare_positions, size_t spare_positions_length,
                                                       int32_t halfedge);

/* Takes the duplicate edges of a net apart, in rounds. Each lists the duplicates: fan by fan, each fan from its least half-edge on, those of
   which a smaller half-edge of the fan ends at the same vertex; and does dedupe_edge at each that is still duplicated when its turn comes. It ends with a
   round that lists none, or after used.halfedges rounds. On a net with pinched vertices a corner can move: do cleanup_topology there.
   Room is counted as for dedupe_edge. spare_halfedges needs SPOONFERRET_HALFEDGE_NUMBERS * used.halfedges elements, spare_positions 3 * used.vertices; work and list need the half-edge
   capacity each.
   0: done; halfedges and vertices are in use then, and over so many the net is sound. 1: shape. 2: a spare, work or list is too short. 3: not
   sound; row. 6: a copy or a triangle finds no free row. 7: as of dedupe_edge: a sound net never comes to it.
   After 6 and 7 the rows in use are as they were, and the free rows that had been filled read zero, of all four arrays; the others are as they were.
   After 0, 6 and 7 the spares hold the rows in use as they were at the call, work and list read zero, over the needed lengths, and all are unchanged
   beyond; after 1 to 3 spares, work and list are as they were. */
spoonferret_dedupe_edges_answer spoonferret_dedupe_edges(spoonferret_used used, int32_t *halfedges, size_t halfedges_length,
                                                         uint64_t *positions, size_t positions_length, uint64_t *normals,
                                                         size_t normals_length, int32_t *references, size_t references_length,
                                                         const uint64_t *properties, size_t properties_length,
                                                         int32_t *spare_halfedges, size_t spare_halfedges_length,
                                                         uint64_t *spare_positions, size_t spare_positions_length,
                                                         uint32_t *work, size_t work_length, uint32_t *list,
                                                         size_t list_length);

/* Gives each fan a start vertex of its own, as split_pinched_verts does, and then takes the duplicate edges apart, as dedupe_edges does. An empty net is
   done.
   Room is counted as for dedupe_edge. spare_halfedges needs SPOONFERRET_HALFEDGE_NUMBERS * used.halfedges elements, spare_positions 3 * used.vertices; work needs the half-edge
   capacity and used.vertices more, list the half-edge capacity.
   0: done; halfedges and vertices are in use then, and over so many the net is sound. 1: shape. 2: a spare, work or list is too short. 3: not
   sound; row. 6: a copy or a triangle finds no free row. 7: as of dedupe_edge: a sound net never comes to it.
   After 6 and 7 the rows in use are as they were, and the free rows that had been filled read zero, of all four arrays; the others are as they were.
   After 0, 6 and 7 the spares hold the rows in use as they were at the call, work and list read zero, over the needed lengths, and all are unchanged
   beyond; after 1 to 3 spares, work and list are as they were. */
spoonferret_cleanup_topology_answer spoonferret_cleanup_topology(spoonferret_used used, int32_t *halfedges, size_t halfedges_length,
                                                                 uint64_t *positions, size_t positions_length, uint64_t *normals,
                                                                 size_t normals_length, int32_t *references, size_t references_length,
                                                                 const uint64_t *properties, size_t properties_length,
                                                                 int32_t *spare_halfedges, size_t spare_halfedges_length,
                                                                 uint64_t *spare_positions, size_t spare_positions_length,
                                                                 uint32_t *work, size_t work_length, uint32_t *list,
                                                                 size_t list_length);

/* Takes a short edge out: its two triangles go, and what met its start meets its end. Short is what short_test says of the two positions, with the
   half-edge's end vertex and first_new_vert, tol and epsilon; first_new_vert is a limit and names no row.
   The neighbours of the end are listed. The start's position becomes the bits 0x7FF8000000000000 (NaN) for x, y and z. The partner's triangle is taken out as
   by collapse_tri. About the start each corner gets the end vertex; where num_prop is above 0 and references are in use, its prop_vert becomes that of the end in
   the edge's triangle if it has the same reference, else that of the partner if it has the same as the partner's triangle. A neighbour that is listed
   already forms a loop, as form_loop does, with two vertices appended, and the list is cut to before it. Then the edge's triangle is taken out, and
   remove_if_folded is done where the last loop left off.
   A net with no pinched vertex and no duplicate edge is sound afterwards in all runs; on others 0 may leave a net that is not sound. Do
   cleanup_topology before.
   spare_halfedges needs SPOONFERRET_HALFEDGE_NUMBERS * used.halfedges elements, spare_positions 3 * used.vertices; list needs the half-edge capacity (as for dedupe_edge).
   0: done; vertices are in use then. 1: shape. 2: a spare or list is too short. 3: not sound; row. 4: halfedge is not in 0..used.halfedges. 5: it is dead.
   8: long (also with a NaN); squared_length and limit say why. 6: positions has no two free rows for a loop. 7: a walk does not end.
   After 6 and 7 the rows in use are as they were, and the vertex rows that had been filled read zero; the others are as they were. After 0, 6 and 7 the
   spares hold the rows in use as they were at the call, list reads zero, over the needed lengths, and all are unchanged beyond; after 1 to 5 and 8 spares
   and list are as they were. */
spoonferret_collapse_edge_answer spoonferret_collapse_edge(spoonferret_used used, int32_t *halfedges, size_t halfedges_length,
                                                           uint64_t *positions, size_t positions_length, const uint64_t *normals,
                                                           size_t normals_length, const int32_t *references,
                                                           size_t references_length, const uint64_t *properties,
                                                           size_t properties_length, int32_t *spare_halfedges,
                                                           size_t spare_halfedges_length, uint64_t *spare_positions,
                                                           size_t spare_positions_length, uint32_t *list, size_t list_length,
                                                           int32_t halfedge, int32_t first_new_vert, double tol,
                                                           double epsilon);

#ifdef __cplusplus
}
#endif

#endif
