/* spoonferret_net.h: the functions of spoonferret.h over one struct for a net and one for the buffers, inline.

   A net is five arrays of the caller's with their lengths, and the counts of what is in use; the buffers are those that calls borrow.
   spoonferret_net_needs says how long they must be. A call that is done brings the net's counts up to date; after a refusal they are as they
   were, as all rows in use are. Each function here does what the function of spoonferret.h does whose name it has without `net_`, and says what that one says.

   A pointer that is NULL counts as an array of length 0, whatever its length says. */
#ifndef SPOONFERRET_NET_H
#define SPOONFERRET_NET_H

#include "spoonferret.h"

#ifdef __cplusplus
extern "C" {
#endif

/* The five arrays, each with the number of its ELEMENTS, and the counts of the rows in use. The rows behind those in use are free: what an operation appends goes
   there. Positions, normals and properties are doubles here; the functions of spoonferret.h take their bit patterns, which are the same bytes. */
typedef struct {
    spoonferret_used used;
    int32_t *halfedges;
    size_t halfedges_length;
    double *positions;
    size_t positions_length;
    double *normals;
    size_t normals_length;
    int32_t *references;
    size_t references_length;
    double *properties;
    size_t properties_length;
} spoonferret_net;

/* What calls borrow, each with the number of its elements. A call takes of them what it needs. */
typedef struct {
    int32_t *spare_halfedges;
    size_t spare_halfedges_length;
    double *spare_positions;
    size_t spare_positions_length;
    uint32_t *words;
    size_t words_length;
    uint32_t *list;
    size_t list_length;
    uint8_t *bytes;
    size_t bytes_length;
} spoonferret_buffers;

/* A place for an array of length 0, and the length that counts. */
static inline void *spoonferret_place(const void *at) {
    static const uint64_t none = 0;
    return (void *)(uintptr_t)(at ? at : &none);
}

static inline size_t spoonferret_length(const void *at, size_t length) {
    return at ? length : 0;
}

#define SPOONFERRET_AT(type, array) (type *)spoonferret_place(array), spoonferret_length(array, array##_length)
#define SPOONFERRET_ROWS(net)                                                                                                            \
    (net)->used, SPOONFERRET_AT(int32_t, (net)->halfedges), SPOONFERRET_AT(uint64_t, (net)->positions),                                  \
        SPOONFERRET_AT(uint64_t, (net)->normals), SPOONFERRET_AT(int32_t, (net)->references), SPOONFERRET_AT(uint64_t, (net)->properties)
#define SPOONFERRET_SPARES(buffers) SPOONFERRET_AT(int32_t, (buffers)->spare_halfedges), SPOONFERRET_AT(uint64_t, (buffers)->spare_positions)

/* How many triangles the arrays have room for, those in use among them: the least over half-edges (by thirds) and over those of normals and references that are
   in use, and at most 1,000,000. */
static inline size_t spoonferret_net_triangle_capacity(const spoonferret_net *net) {
    size_t most = spoonferret_length(net->halfedges, net->halfedges_length) / (3 * SPOONFERRET_HALFEDGE_NUMBERS);
    if (net->used.normals != 0 && spoonferret_length(net->normals, net->normals_length) / 3 < most) {
        most = spoonferret_length(net->normals, net->normals_length) / 3;
    }
    if (net->used.references != 0 && spoonferret_length(net->references, net->references_length) / 3 < most) {
        most = spoonferret_length(net->references, net->references_length) / 3;
    }
    return most < 1000000 ? most : 1000000;
}

/* Buffers that are long enough for every call on this net, as it is now: the lengths; the pointers are NULL, for the caller to fill. In bytes, of a net with T triangles,
   room for C and V vertices: 48 T + 24 V for the spares, 12 C + 4 V and 12 C for words and list, 3 T for bytes. */
static inline spoonferret_buffers spoonferret_net_needs(const spoonferret_net *net) {
    spoonferret_buffers needed;
    const size_t capacity = 3 * spoonferret_net_triangle_capacity(net);
    const size_t rows = capacity < net->used.halfedges ? net->used.halfedges : capacity;
    needed.spare_halfedges = NULL;
    needed.spare_halfedges_length = SPOONFERRET_HALFEDGE_NUMBERS * net->used.halfedges;
    needed.spare_positions = NULL;
    needed.spare_positions_length = 3 * net->used.vertices;
    needed.words = NULL;
    needed.words_length = rows + net->used.vertices;
    needed.list = NULL;
    needed.list_length = rows;
    needed.bytes = NULL;
    needed.bytes_length = net->used.halfedges;
    return needed;
}

/* What is in use after a call that appended; normals and references, where in use, have a row for each triangle. */
static inline void spoonferret_net_grew(spoonferret_net *net, size_t halfedges, size_t vertices) {
    net->used.halfedges = halfedges;
    net->used.vertices = vertices;
    if (net->used.normals != 0) {
        net->used.normals = halfedges / 3;
    }
    if (net->used.references != 0) {
        net->used.references = halfedges / 3;
    }
}

static inline spoonferret_row_answer spoonferret_net_check(const spoonferret_net *net) {
    return spoonferret_check_net(SPOONFERRET_ROWS(net));
}

static inline spoonferret_explain_answer spoonferret_net_explain_row(const spoonferret_net *net, int32_t row) {
    return spoonferret_explain_row(SPOONFERRET_ROWS(net), row);
}

static inline spoonferret_answer spoonferret_net_pair_up(spoonferret_net *net, int32_t first, int32_t second) {
    return spoonferret_pair_up(SPOONFERRET_ROWS(net), first, second);
}

static inline spoonferret_update_answer spoonferret_net_update_vert(spoonferret_net *net, int32_t vertex, int32_t start, int32_t end) {
    return spoonferret_update_vert(SPOONFERRET_ROWS(net), vertex, start, end);
}

static inline spoonferret_row_answer spoonferret_net_collapse_tri(spoonferret_net *net, int32_t halfedge) {
    return spoonferret_collapse_tri(SPOONFERRET_ROWS(net), halfedge);
}

static inline spoonferret_row_answer spoonferret_net_remove_if_folded(spoonferret_net *net, int32_t halfedge) {
    return spoonferret_remove_if_folded(SPOONFERRET_ROWS(net), halfedge);
}

/* Borrows the spares. */
static inline spoonferret_loop_answer spoonferret_net_form_loop(spoonferret_net *net, spoonferret_buffers *buffers, int32_t first,
                                                                int32_t second) {
    const spoonferret_loop_answer told =
        spoonferret_form_loop(SPOONFERRET_ROWS(net), SPOONFERRET_SPARES(buffers), first, second);
    if (told.number == SPOONFERRET_DONE) {
        net->used.vertices = told.vertices;
    }
    return told;
}

/* Borrows bytes for its work; the owners stand in list. */
static inline spoonferret_owners_answer spoonferret_net_orbit_owners(const spoonferret_net *net, spoonferret_buffers *buffers,
                                                                     bool end_too) {
    return spoonferret_orbit_owners(SPOONFERRET_ROWS(net), SPOONFERRET_AT(uint8_t, buffers->bytes),
                                    SPOONFERRET_AT(uint32_t, buffers->list), end_too);
}

/* Borrows words for its work; the half-edges visited stand in list. */
static inline spoonferret_split_answer spoonferret_net_split_pinched_verts(spoonferret_net *net, spoonferret_buffers *buffers) {
    const spoonferret_split_answer told = spoonferret_split_pinched_verts(
        SPOONFERRET_ROWS(net), SPOONFERRET_AT(uint32_t, buffers->words), SPOONFERRET_AT(uint32_t, buffers->list));
    if (told.number == SPOONFERRET_DONE) {
        net->used.vertices += told.added;
    }
    return told;
}

/* Borrows the spares. */
static inline spoonferret_dedupe_edge_answer spoonferret_net_dedupe_edge(spoonferret_net *net, spoonferret_buffers *buffers,
                                                                         int32_t halfedge) {
    const spoonferret_dedupe_edge_answer told =
        spoonferret_dedupe_edge(SPOONFERRET_ROWS(net), SPOONFERRET_SPARES(buffers), halfedge);
    if (told.number == SPOONFERRET_DONE) {
        spoonferret_net_grew(net, told.halfedges, told.vertices);
    }
    return told;
}

/* Borrows the spares, words and list. */
static inline spoonferret_dedupe_edges_answer spoonferret_net_dedupe_edges(spoonferret_net *net, spoonferret_buffers *buffers) {
    const spoonferret_dedupe_edges_answer told =
        spoonferret_dedupe_edges(SPOONFERRET_ROWS(net), SPOONFERRET_SPARES(buffers), SPOONFERRET_AT(uint32_t, buffers->words),
                                 SPOONFERRET_AT(uint32_t, buffers->list));
    if (told.number == SPOONFERRET_DONE) {
        spoonferret_net_grew(net, told.halfedges, told.vertices);
    }
    return told;
}

/* Borrows the spares, words and list. */
static inline spoonferret_cleanup_topology_answer spoonferret_net_cleanup_topology(spoonferret_net *net, spoonferret_buffers *buffers) {
    const spoonferret_cleanup_topology_answer told =
        spoonferret_cleanup_topology(SPOONFERRET_ROWS(net), SPOONFERRET_SPARES(buffers), SPOONFERRET_AT(uint32_t, buffers->words),
                                     SPOONFERRET_AT(uint32_t, buffers->list));
    if (told.number == SPOONFERRET_DONE) {
        spoonferret_net_grew(net, told.halfedges, told.vertices);
    }
    return told;
}

/* Borrows the spares and list. */
static inline spoonferret_collapse_edge_answer spoonferret_net_collapse_edge(spoonferret_net *net, spoonferret_buffers *buffers,
                                                                             int32_t halfedge, int32_t first_new_vert, double tol,
                                                                             double epsilon) {
    const spoonferret_collapse_edge_answer told =
        spoonferret_collapse_edge(SPOONFERRET_ROWS(net), SPOONFERRET_SPARES(buffers), SPOONFERRET_AT(uint32_t, buffers->list), halfedge,
                                  first_new_vert, tol, epsilon);
    if (told.number == SPOONFERRET_DONE) {
        net->used.vertices = told.vertices;
    }
    return told;
}

#undef SPOONFERRET_AT
#undef SPOONFERRET_ROWS
#undef SPOONFERRET_SPARES

#ifdef __cplusplus
}
#endif

#endif
