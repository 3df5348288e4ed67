/* The library through spoonferret_net.h, on nets whose counts, lengths, rows and numbers are told from one another: each count, each length and each buffer is
   moved by itself, and what answers then is the one that was moved. Prints 'N passed, M failed'. */
#include "../spoonferret_net.h"

#include <stdio.h>
#include <string.h>

static int passed, failed;

static void expect(int holds, const char *what, int line) {
    if (holds) {
        passed++;
    } else {
        failed++;
        printf("not so, line %d: %s\n", line, what);
    }
}

#define EXPECT(holds) expect((holds), #holds, __LINE__)

/* document 01's example: two two-sided triangles that meet at vertex 0 */
static const int32_t example[48] = {0, 1, 3, 20, 1, 2, 5,  21, 2, 0, 4,  22, 1, 0, 0, 23, 0, 2, 2, 24, 2, 1, 1, 25,
                                    0, 3, 9, 26, 3, 4, 11, 27, 4, 0, 10, 28, 3, 0, 6, 29, 0, 4, 8, 30, 4, 3, 7, 31};
/* two pillows with the edge from 0 to 1 in common: half-edges 0 and 9 */
static const int32_t pillows[48] = {0, 1, 6, 20, 1, 2, 5,  21, 2, 0, 4,  22, 1, 0, 9, 23, 0, 2, 2, 24, 2, 1, 1, 25,
                                    1, 0, 0, 26, 0, 3, 11, 27, 3, 1, 10, 28, 0, 1, 3, 29, 1, 3, 8, 30, 3, 0, 7, 31};

/* room for four triangles and five vertices more */
static int32_t halfedges[96], references[24], spare_halfedges[48];
static double positions[30], normals[24], properties[33], spare_positions[15];
static uint32_t words[29], list[24];
static uint8_t bytes[12];

static spoonferret_net fresh(const int32_t *rows, size_t vertices) {
    memset(halfedges, 0x11, sizeof halfedges);
    memcpy(halfedges, rows, 48 * sizeof *rows);
    for (int i = 0; i < 30; i++) {
        positions[i] = 100 + i;
    }
    for (int i = 0; i < 24; i++) {
        normals[i] = 200 + i;
        references[i] = 300 + i;
    }
    return (spoonferret_net){
        .used = {.halfedges = 12, .vertices = vertices, .normals = 4, .references = 4, .properties = 7, .num_prop = 2},
        .halfedges = halfedges, .halfedges_length = 96,
        .positions = positions, .positions_length = 30,
        .normals = normals, .normals_length = 24,
        .references = references, .references_length = 24,
        .properties = properties, .properties_length = 14,
    };
}

static spoonferret_buffers lent(const spoonferret_net *net) {
    spoonferret_buffers b = spoonferret_net_needs(net);
    b.spare_halfedges = spare_halfedges;
    b.spare_positions = spare_positions;
    b.words = words;
    b.list = list;
    b.bytes = bytes;
    return b;
}

enum { SPARES = 1, WORDS = 2, LIST = 4, BYTES = 8, CAPACITY = 16, VERTICES = 32 };

static uint32_t check(spoonferret_net *n, spoonferret_buffers *b) { return (void)b, spoonferret_net_check(n).number; }
static uint32_t explain(spoonferret_net *n, spoonferret_buffers *b) { return (void)b, spoonferret_net_explain_row(n, 0).number; }
static uint32_t pair(spoonferret_net *n, spoonferret_buffers *b) { return (void)b, spoonferret_net_pair_up(n, 0, 7).number; }
static uint32_t update(spoonferret_net *n, spoonferret_buffers *b) { return (void)b, spoonferret_net_update_vert(n, 3, 0, 5).number; }
static uint32_t collapse_tri(spoonferret_net *n, spoonferret_buffers *b) { return (void)b, spoonferret_net_collapse_tri(n, 0).number; }
static uint32_t fold(spoonferret_net *n, spoonferret_buffers *b) { return (void)b, spoonferret_net_remove_if_folded(n, 0).number; }
static uint32_t loop(spoonferret_net *n, spoonferret_buffers *b) { return spoonferret_net_form_loop(n, b, 0, 0).number; }
static uint32_t owners(spoonferret_net *n, spoonferret_buffers *b) { return spoonferret_net_orbit_owners(n, b, false).number; }
static uint32_t split(spoonferret_net *n, spoonferret_buffers *b) { return spoonferret_net_split_pinched_verts(n, b).number; }
static uint32_t dedupe(spoonferret_net *n, spoonferret_buffers *b) { return spoonferret_net_dedupe_edge(n, b, 0).number; }
static uint32_t dedupe_all(spoonferret_net *n, spoonferret_buffers *b) { return spoonferret_net_dedupe_edges(n, b).number; }
static uint32_t clean(spoonferret_net *n, spoonferret_buffers *b) { return spoonferret_net_cleanup_topology(n, b).number; }
static uint32_t collapse(spoonferret_net *n, spoonferret_buffers *b) {
    return spoonferret_net_collapse_edge(n, b, 0, 9, 1e9, 1e9).number;
}

/* what each borrows; its words and list are of the half-edges in use, or of the capacity, and vertices besides */
static const struct {
    const char *name;
    uint32_t (*call)(spoonferret_net *, spoonferret_buffers *);
    int needs;
} calls[13] = {
    {"check", check, 0},
    {"explain_row", explain, 0},
    {"pair_up", pair, 0},
    {"update_vert", update, 0},
    {"collapse_tri", collapse_tri, 0},
    {"remove_if_folded", fold, 0},
    {"form_loop", loop, SPARES},
    {"orbit_owners", owners, BYTES | LIST},
    {"split_pinched_verts", split, WORDS | LIST | VERTICES},
    {"dedupe_edge", dedupe, SPARES},
    {"dedupe_edges", dedupe_all, SPARES | WORDS | LIST | CAPACITY},
    {"cleanup_topology", clean, SPARES | WORDS | LIST | CAPACITY | VERTICES},
    {"collapse_edge", collapse, SPARES | LIST | CAPACITY},
};

/* one count or length moved by itself, and what is owed then */
static void moved(int k, size_t offset, size_t value, uint32_t owed, int line) {
    spoonferret_net net = fresh(example, 5);
    spoonferret_buffers b = lent(&net);
    memcpy((char *)&net + offset, &value, sizeof value);
    expect(calls[k].call(&net, &b) == owed, calls[k].name, line);
}

#define MOVED(field, value, owed) moved(k, offsetof(spoonferret_net, field), value, owed, __LINE__)

static void counts_and_lengths(void) {
    for (int k = 0; k < 13; k++) {
        MOVED(used.num_prop, 2, 0);
        /* each count one more than its array has rows for, or than fits the others */
        MOVED(used.halfedges, 13, 1);
        MOVED(used.halfedges, 27, 1);
        MOVED(used.vertices, 11, 1);
        MOVED(used.normals, 5, 1);
        MOVED(used.normals, 3, 1);
        MOVED(used.references, 5, 1);
        MOVED(used.references, 3, 1);
        MOVED(used.properties, 8, 1);
        MOVED(used.num_prop, 3, 1);
        MOVED(used.num_prop, 33, 1);
        /* each array an element short of its rows in use; the other counts are not those */
        MOVED(halfedges_length, 47, 1);
        MOVED(positions_length, 14, 1);
        MOVED(normals_length, 11, 1);
        MOVED(references_length, 11, 1);
        MOVED(properties_length, 13, 1);
        MOVED(used.normals, 0, 0);
        MOVED(used.references, 0, 0);
        MOVED(used.properties, 0, 0);
    }
}

/* what is not in use need not be lent, whatever is of its like: every call is done */
static void in_shape(void) {
    for (int k = 0; k < 13; k++) {
        spoonferret_net net = fresh(example, 5);
        spoonferret_buffers b = lent(&net);
        net.used.normals = net.normals_length = 0;
        expect(calls[k].call(&net, &b) == 0, calls[k].name, __LINE__);
        net = fresh(example, 5);
        net.used.references = net.references_length = 0;
        expect(calls[k].call(&net, &b) == 0, calls[k].name, __LINE__);
        /* more property rows than a row may have numbers */
        net = fresh(example, 5);
        net.used.properties = net.properties_length = 33;
        net.used.num_prop = 1;
        expect(calls[k].call(&net, &b) == 0, calls[k].name, __LINE__);
    }
}

/* one buffer an element short */
static void short_of(int k, size_t offset, size_t length, int owed, int line) {
    spoonferret_net net = fresh(example, 5);
    spoonferret_buffers b = lent(&net);
    const size_t cut = length - 1;
    memcpy((char *)&b + offset, &length, sizeof length);
    expect(calls[k].call(&net, &b) == 0, calls[k].name, line);
    net = fresh(example, 5);
    memcpy((char *)&b + offset, &cut, sizeof cut);
    expect(calls[k].call(&net, &b) == (owed ? 2u : 0u), calls[k].name, line);
}

#define SHORT(field, length, owed) short_of(k, offsetof(spoonferret_buffers, field), length, owed, __LINE__)

static void buffers(void) {
    for (int k = 0; k < 13; k++) {
        const int needs = calls[k].needs;
        const size_t rows = needs & CAPACITY ? 24 : 12;
        SHORT(spare_halfedges_length, 48, needs & SPARES);
        SHORT(spare_positions_length, 15, needs & SPARES);
        SHORT(words_length, needs & WORDS ? rows + (needs & VERTICES ? 5 : 0) : 1, needs & WORDS);
        SHORT(list_length, needs & LIST ? rows : 1, needs & LIST);
        SHORT(bytes_length, needs & BYTES ? 12 : 1, needs & BYTES);
    }
}

/* the rows that each call writes, and the numbers that it is asked with, each in its place */
static void places(void) {
    spoonferret_net net = fresh(example, 5);
    spoonferret_buffers b = lent(&net);
    halfedges[SPOONFERRET_HALFEDGE_NUMBERS * 10 + 2] = 6;
    spoonferret_explain_answer why = spoonferret_net_explain_row(&net, 8);
    EXPECT(why.number == 0 && why.clause == 2 && why.other == 10);
    EXPECT(spoonferret_net_explain_row(&net, 7).clause == 0 && spoonferret_net_explain_row(&net, 12).number == 4);
    net = fresh(example, 5);
    EXPECT(spoonferret_net_pair_up(&net, 0, 7).number == 0 && halfedges[2] == 7 && halfedges[30] == 0);

    net = fresh(example, 5);
    EXPECT(spoonferret_net_update_vert(&net, 5, 0, 3).number == 4);
    EXPECT(spoonferret_net_update_vert(&net, 3, 0, 12).number == 4 && spoonferret_net_update_vert(&net, 3, 12, 0).number == 4);
    EXPECT(spoonferret_net_update_vert(&net, 4, 0, 5).number == 0 && halfedges[1] == 4 && halfedges[4] == 4 && halfedges[21] == 1);

    net = fresh(example, 5);
    EXPECT(spoonferret_net_collapse_tri(&net, 2).number == 0 && halfedges[2 + 12] == 5 && halfedges[2 + 20] == 3 && halfedges[2 + 16] == 2);
    EXPECT(halfedges[3] == 20 && halfedges[7] == 21 && halfedges[11] == 22 && halfedges[0] == -1);

    net = fresh(example, 5);
    EXPECT(spoonferret_net_remove_if_folded(&net, 6).number == 0 && halfedges[27] == -1 && positions[0] != positions[0]);
    EXPECT(positions[3] == 103 && positions[9] != positions[9] && positions[12] != positions[12]);

    /* form_loop of 0 and 9: the copies are of where the first starts and ends, and the pairs are exchanged */
    net = fresh(pillows, 4);
    b = lent(&net);
    const spoonferret_loop_answer looped = spoonferret_net_form_loop(&net, &b, 0, 9);
    EXPECT(looped.number == 0 && net.used.vertices == 6 && net.used.halfedges == 12);
    EXPECT(memcmp(spare_halfedges, pillows, sizeof pillows) == 0 && spare_positions[11] == 111);
    EXPECT(halfedges[2] == 3 && halfedges[14] == 0);
    net = fresh(pillows, 4);
    EXPECT(spoonferret_net_form_loop(&net, &b, 0, 12).number == 4 && spoonferret_net_form_loop(&net, &b, 12, 0).number == 4);

    net = fresh(example, 5);
    b = lent(&net);
    halfedges[1] = -1;
    EXPECT(spoonferret_net_orbit_owners(&net, &b, false).count == 6 && list[0] == 0);
    EXPECT(spoonferret_net_orbit_owners(&net, &b, true).count == 6 && list[0] == 1 && bytes[0] == 0);

    net = fresh(example, 5);
    const spoonferret_split_answer splat = spoonferret_net_split_pinched_verts(&net, &b);
    static const uint32_t visit[12] = {4, 0, 3, 1, 5, 2, 10, 6, 9, 7, 11, 8};
    EXPECT(splat.number == 0 && splat.added == 1 && splat.steps == 12 && memcmp(list, visit, sizeof visit) == 0);
    EXPECT(net.used.vertices == 6 && positions[15] == 100 && positions[16] == 101 && positions[17] == 102 && positions[18] == 118);
    EXPECT(halfedges[24] == 5 && halfedges[40] == 5 && halfedges[33] == 5 && halfedges[37] == 5);

    /* dedupe at 9: triangles 4 and 5 stand beside 1 and 2, with their normals and references; the vertex is a copy of 1 */
    for (int all = 0; all < 2; all++) {
        net = fresh(pillows, 4);
        b = lent(&net);
        const uint32_t number = all ? spoonferret_net_dedupe_edges(&net, &b).number : spoonferret_net_dedupe_edge(&net, &b, 9).number;
        EXPECT(number == 0 && net.used.halfedges == 18 && net.used.vertices == 5 && net.used.normals == 6 && net.used.references == 6);
        EXPECT(net.used.properties == 7 && net.used.num_prop == 2);
        EXPECT(positions[12] == 103 && positions[13] == 104 && positions[14] == 105 && positions[15] == 115);
        for (int i = 0; i < 6; i++) {
            EXPECT(normals[12 + i] == 203 + i && references[12 + i] == 303 + i);
        }
        EXPECT(normals[18] == 218 && references[18] == 318);
        EXPECT(spoonferret_net_check(&net).number == 0);
    }
    net = fresh(example, 5);
    b = lent(&net);
    EXPECT(spoonferret_net_cleanup_topology(&net, &b).number == 0 && net.used.vertices == 6 && net.used.halfedges == 12);

    /* collapse_edge: the edge is three long; tol counts where its end is below first_new_vert, else epsilon */
    static const double short_and_long[4][2] = {{4, 2}, {2, 4}, {4, 2}, {2, 4}};
    for (int i = 0; i < 4; i++) {
        net = fresh(example, 5);
        b = lent(&net);
        positions[3] = 103, positions[4] = 101, positions[5] = 102;
        const spoonferret_collapse_edge_answer told =
            spoonferret_net_collapse_edge(&net, &b, 0, i < 2 ? 2 : 1, short_and_long[i][0], short_and_long[i][1]);
        EXPECT(told.number == (i == 0 || i == 3 ? 0u : 8u));
        if (told.number == 8) {
            double squared, limit;
            memcpy(&squared, &told.squared_length, 8);
            memcpy(&limit, &told.limit, 8);
            EXPECT(squared == 9 && limit == 4 && halfedges[0] == 0);
        } else {
            EXPECT(halfedges[0] == -1 && halfedges[3] == 20 && positions[0] != positions[0] && positions[3] == 103 && told.vertices == 5);
        }
    }
    EXPECT(spoonferret_net_collapse_edge(&net, &b, 12, 0, 1, 1).number == 4);
}

int main(void) {
    counts_and_lengths();
    in_shape();
    buffers();
    places();
    printf("%d passed, %d failed\n", passed, failed);
    return failed != 0;
}
