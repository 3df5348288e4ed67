/* Calls each function from C on the cases that document 01 works out. Prints 'N passed, M failed'. */
#include "../spoonferret.h"

#include <stdio.h>
#include <string.h>

static int passed, failed;

static void expect(int holds, const char *what) {
    if (holds) {
        passed++;
    } else {
        failed++;
        printf("not so: %s\n", what);
    }
}

#define EXPECT(holds) expect((holds), #holds)

/* half-edge row h */
#define ROW(rows, h) ((rows) + SPOONFERRET_HALFEDGE_NUMBERS * (h))

/* two two-sided triangles that meet at vertex 0 */
static const int32_t example[48] = {0, 1, 3,  -1, 1, 2, 5, -1, 2, 0, 4,  -1, 1, 0, 0, -1, 0, 2, 2, -1, 2, 1, 1, -1,
                                    0, 3, 9,  -1, 3, 4, 11, -1, 4, 0, 10, -1, 3, 0, 6, -1, 0, 4, 8, -1, 4, 3, 7, -1};
static const double points[15] = {0, 0, 0, 1, 0, 0, 0, 1, 0, -1, 0, 0, 0, 2, 0};

static void next_and_tri(void) {
    EXPECT(spoonferret_next_halfedge(2).number == 0 && spoonferret_next_halfedge(2).next == 0);
    EXPECT(spoonferret_next_halfedge(3).next == 4);
    EXPECT(spoonferret_next_halfedge(-1).next == -3);
    EXPECT(spoonferret_next_halfedge(-2).next == -1);
    EXPECT(spoonferret_next_halfedge(2147483647).number == 4);
    EXPECT(spoonferret_next_halfedge(-2147483647).number == 4);
    spoonferret_tri_answer tri = spoonferret_tri_of(4);
    EXPECT(tri.number == 0 && tri.first == 4 && tri.second == 5 && tri.third == 3);
    EXPECT(spoonferret_tri_of(2147483646).number == 4);
}

static double of_bits(uint64_t bits) {
    double x;
    memcpy(&x, &bits, sizeof x);
    return x;
}

static void short_or_long(void) {
    spoonferret_point from = {0, 0, 0}, to = {3, 4, 0};
    spoonferret_length_answer is_long = spoonferret_short_test(from, to, 1, 2, 5, 0);
    EXPECT(is_long.number == 8 && of_bits(is_long.squared_length) == 25 && of_bits(is_long.limit) == 25);
    EXPECT(spoonferret_short_test(from, to, 1, 2, -1, 6).number == 0);
    EXPECT(spoonferret_short_test(from, to, 2, 2, 5, 6).number == 0);
    /* each coordinate of each point told from every other; the squared length from the limit; tol from epsilon, and the two numbers */
    from = (spoonferret_point){1, 2, 4}, to = (spoonferret_point){3, 10, 20};
    is_long = spoonferret_short_test(from, to, 1, 2, 3, 5);
    EXPECT(is_long.number == 8 && of_bits(is_long.squared_length) == 324 && of_bits(is_long.limit) == 9);
    EXPECT(of_bits(spoonferret_short_test(from, to, 2, 1, 3, 5).limit) == 25);
    /* the order of the sum: 2.25 and 2.25 and then 2 to the 54, where the others would round up twice */
    from = (spoonferret_point){0, 0, 0}, to = (spoonferret_point){1.5, 1.5, 134217728};
    EXPECT(of_bits(spoonferret_short_test(from, to, 1, 2, 3, 5).squared_length) == 18014398509481988);
}

/* an array of no elements still has a place */
static const uint64_t no_numbers[1];
static const int32_t no_rows[1];

/* the counts, the five arrays; rows and positions are written by what follows */
#define NET used, rows, SPOONFERRET_HALFEDGE_NUMBERS * lent_rows, positions, 3 * lent_positions, no_numbers, 0, no_rows, 0, no_numbers, 0

static void nets(void) {
    spoonferret_used used = {.halfedges = 12, .vertices = 5};
    size_t lent_rows = 12, lent_positions = 5;
    int32_t rows[48];
    uint64_t positions[15];
    memcpy(rows, example, sizeof rows);
    memcpy(positions, points, sizeof positions);
    EXPECT(spoonferret_check_net(NET).number == 0);
    used.vertices = 6;
    EXPECT(spoonferret_check_net(NET).number == 1);
    used.vertices = 4;
    spoonferret_row_answer unsound = spoonferret_check_net(NET);
    EXPECT(unsound.number == 3 && unsound.row == 7);
    used.vertices = 5;

    EXPECT(spoonferret_pair_up(NET, 0, 12).number == 4);
    EXPECT(memcmp(rows, example, sizeof rows) == 0);
    EXPECT(spoonferret_pair_up(NET, 0, 7).number == 0);
    EXPECT(ROW(rows, 0)[2] == 7 && ROW(rows, 7)[2] == 0);
    ROW(rows, 0)[2] = 3;
    ROW(rows, 7)[2] = 11;
    EXPECT(memcmp(rows, example, sizeof rows) == 0);
}

#define NAN_BITS UINT64_C(0x7FF8000000000000)

static int all(const uint64_t *values, size_t count, uint64_t wanted) {
    for (size_t i = 0; i < count; i++) {
        if (values[i] != wanted) {
            return 0;
        }
    }
    return 1;
}

/* P: the first six rows of the example, here with a fourth vertex that is loose, and a triangle that is dead */
static void fresh(int32_t *rows, uint64_t *positions) {
    static const int32_t dead[12] = {-1, -1, -1, 5, -1, -1, -1, 6, -1, -1, -1, 7};
    memcpy(rows, example, 24 * sizeof *rows);
    memcpy(rows + 24, dead, sizeof dead);
    memcpy(positions, points, 12 * sizeof *positions);
}

static void surgery(void) {
    spoonferret_used used = {.halfedges = 9, .vertices = 4};
    size_t lent_rows = 9, lent_positions = 4;
    int32_t rows[36], before[36];
    uint64_t positions[12], positions_before[12];
    fresh(before, positions_before);
    fresh(rows, positions);

    /* from 0 to 1 the walk goes round between 0 and 5; from 0 to 0 it does nothing */
    EXPECT(spoonferret_update_vert(NET, 3, 0, 1).number == 7);
    EXPECT(spoonferret_update_vert(NET, 3, 0, 0).number == 0);
    EXPECT(spoonferret_update_vert(NET, 4, 0, 5).number == 4);
    EXPECT(spoonferret_update_vert(NET, 3, 9, 5).number == 4);
    EXPECT(spoonferret_update_vert(NET, 3, 0, 6).number == 5);
    EXPECT(memcmp(rows, before, sizeof rows) == 0);
    EXPECT(spoonferret_update_vert(NET, 3, 0, 5).number == 0);
    EXPECT(ROW(rows, 0)[1] == 3 && ROW(rows, 1)[0] == 3);
    ROW(rows, 0)[1] = 1;
    ROW(rows, 1)[0] = 1;
    EXPECT(memcmp(rows, before, sizeof rows) == 0);
    used.halfedges = 8;
    EXPECT(spoonferret_update_vert(NET, 3, 0, 5).number == 1);
    used.halfedges = 9;
    rows[1] = 2;
    spoonferret_update_answer unsound = spoonferret_update_vert(NET, 3, 0, 5);
    EXPECT(unsound.number == 3 && unsound.row == 0);

    /* the second and third rows from 0 have partners 5 and 4 */
    fresh(rows, positions);
    EXPECT(spoonferret_collapse_tri(NET, -1).number == 4 && spoonferret_collapse_tri(NET, 9).number == 4);
    EXPECT(spoonferret_collapse_tri(NET, 8).number == 5);
    EXPECT(memcmp(rows, before, sizeof rows) == 0);
    rows[3] = 8;
    EXPECT(spoonferret_collapse_tri(NET, 0).number == 0);
    static const int32_t emptied[12] = {-1, -1, -1, 8, -1, -1, -1, -1, -1, -1, -1, -1};
    EXPECT(memcmp(rows, emptied, sizeof emptied) == 0);
    EXPECT(ROW(rows, 5)[2] == 4 && ROW(rows, 4)[2] == 5 && ROW(rows, 3)[2] == 0);
    EXPECT(memcmp(rows + 24, before + 24, 12 * sizeof *rows) == 0);

    /* P is folded at 0: all dead, props -1, three NaN positions; the rest as it was */
    fresh(rows, positions);
    rows[3] = 8;
    EXPECT(spoonferret_remove_if_folded(NET, 9).number == 4 && spoonferret_remove_if_folded(NET, 6).number == 5);
    EXPECT(spoonferret_remove_if_folded(NET, 0).number == 0);
    static const int32_t gone[24] = {-1, -1, -1, -1, -1, -1, -1, -1, -1, -1, -1, -1, -1, -1, -1, -1, -1, -1, -1, -1, -1, -1, -1, -1};
    EXPECT(memcmp(rows, gone, sizeof gone) == 0);
    EXPECT(memcmp(rows + 24, before + 24, 12 * sizeof *rows) == 0);
    EXPECT(all(positions, 9, NAN_BITS) && memcmp(positions + 9, positions_before + 9, 3 * sizeof *positions) == 0);
}

/* the edge from 0 to 1 is there twice, as half-edges 0 and 6 */
static const int32_t twice[48] = {0, 1, 9, -1, 1, 2, 5,  -1, 2, 0, 4,  -1, 1, 0, 6, -1, 0, 2, 2, -1, 2, 1, 1, -1,
                                  0, 1, 3, -1, 1, 3, 11, -1, 3, 0, 10, -1, 1, 0, 0, -1, 0, 3, 8, -1, 3, 1, 7, -1};

static void loops(void) {
    spoonferret_used used = {.halfedges = 12, .vertices = 4};
    size_t lent_rows = 12, lent_positions = 7;
    int32_t rows[48], spare_rows[50];
    uint64_t positions[21], before[21], spare_positions[14];
    memset(before, 0x55, sizeof before);
    memcpy(before, points, 12 * sizeof *before);
    memcpy(rows, twice, sizeof rows);
    memcpy(positions, before, sizeof positions);
    memset(spare_rows, 0x66, sizeof spare_rows);
    memset(spare_positions, 0x66, sizeof spare_positions);
    const uint64_t filled = UINT64_C(0x6666666666666666);

    /* refused before the steps: nothing is written */
    EXPECT(spoonferret_form_loop(NET, spare_rows, 47, spare_positions, 12, 0, 6).number == 2);
    EXPECT(spoonferret_form_loop(NET, spare_rows, 48, spare_positions, 11, 0, 6).number == 2);
    EXPECT(spoonferret_form_loop(NET, spare_rows, 50, spare_positions, 14, 0, 12).number == 4);
    EXPECT(spare_rows[0] == 0x66666666 && all(spare_positions, 14, filled));
    EXPECT(memcmp(positions, before, sizeof positions) == 0);

    /* one free row, and none: the one that was filled reads zero */
    lent_positions = 4;
    EXPECT(spoonferret_form_loop(NET, spare_rows, 50, spare_positions, 14, 0, 6).number == 6);
    EXPECT(memcmp(positions, before, sizeof positions) == 0);
    lent_positions = 5;
    EXPECT(spoonferret_form_loop(NET, spare_rows, 50, spare_positions, 14, 0, 6).number == 6);
    EXPECT(memcmp(rows, twice, sizeof rows) == 0 && memcmp(positions, before, 12 * sizeof *positions) == 0);
    EXPECT(all(positions + 12, 3, 0) && memcmp(positions + 15, before + 15, 6 * sizeof *positions) == 0);
    lent_positions = 7;

    /* the spares hold the rows as they were, and are unchanged beyond */
    EXPECT(memcmp(spare_rows, twice, sizeof twice) == 0 && spare_rows[48] == 0x66666666 && spare_rows[49] == 0x66666666);
    EXPECT(memcmp(spare_positions, before, 12 * sizeof *before) == 0 && all(spare_positions + 12, 2, filled));

    /* a walk that does not come to its end: two rows were filled */
    EXPECT(spoonferret_form_loop(NET, spare_rows, 50, spare_positions, 14, 0, 1).number == 7);
    EXPECT(memcmp(rows, twice, sizeof rows) == 0 && all(positions + 12, 6, 0));
    EXPECT(memcmp(positions + 18, before + 18, 3 * sizeof *positions) == 0);

    /* done: the first's triangles stand by themselves, the second's were folded then, and vertices 3, 4, 5 are lost with them */
    spoonferret_loop_answer done = spoonferret_form_loop(NET, spare_rows, 50, spare_positions, 14, 0, 6);
    EXPECT(done.number == 0 && done.row == 0 && done.vertices == 6);
    EXPECT(memcmp(rows, example, 24 * sizeof *rows) == 0);
    for (int i = 24; i < 48; i++) {
        EXPECT(rows[i] == -1);
    }
    EXPECT(memcmp(positions, before, 9 * sizeof *positions) == 0 && all(positions + 9, 9, NAN_BITS));
    EXPECT(memcmp(positions + 18, before + 18, 3 * sizeof *positions) == 0);
    EXPECT(spoonferret_form_loop(NET, spare_rows, 50, spare_positions, 14, 0, 6).number == 5);
    rows[0] = 7;
    spoonferret_loop_answer unsound = spoonferret_form_loop(NET, spare_rows, 50, spare_positions, 14, 0, 0);
    EXPECT(unsound.number == 3 && unsound.row == 0 && unsound.vertices == 0);
}

static void owners(void) {
    spoonferret_used used = {.halfedges = 12, .vertices = 5};
    size_t lent_rows = 12, lent_positions = 5;
    int32_t rows[48];
    uint64_t positions[15];
    uint8_t work[14];
    uint32_t list[14];
    memcpy(rows, example, sizeof rows);
    memcpy(positions, points, sizeof positions);
    memset(work, 7, sizeof work);
    memset(list, 0x77, sizeof list);
    EXPECT(spoonferret_orbit_owners(NET, work, 11, list, 14, false).number == 2);
    EXPECT(spoonferret_orbit_owners(NET, work, 14, list, 11, false).number == 2);
    EXPECT(work[0] == 7 && list[0] == 0x77777777);

    /* six fans: three at each two-sided triangle */
    spoonferret_owners_answer told = spoonferret_orbit_owners(NET, work, 14, list, 14, false);
    static const uint32_t owed[6] = {0, 1, 2, 6, 7, 8};
    EXPECT(told.number == 0 && told.count == 6 && memcmp(list, owed, sizeof owed) == 0 && list[6] == 0x77777777);
    EXPECT(work[0] == 0 && work[11] == 0 && work[12] == 7 && work[13] == 7);

    /* 0 is not eligible by its end; its fan has 4 besides */
    rows[1] = -1;
    told = spoonferret_orbit_owners(NET, work, 14, list, 14, true);
    static const uint32_t without[6] = {1, 2, 4, 6, 7, 8};
    EXPECT(told.number == 0 && told.count == 6 && memcmp(list, without, sizeof without) == 0);

    rows[2] = -1;
    memset(list, 0x77, sizeof list);
    told = spoonferret_orbit_owners(NET, work, 14, list, 14, false);
    EXPECT(told.number == 10 && told.count == 0 && list[0] == 0x77777777);
}

static void split(void) {
    spoonferret_used used = {.halfedges = 12, .vertices = 5};
    size_t lent_rows = 12, lent_positions = 5;
    int32_t rows[48];
    uint64_t positions[21];
    uint32_t work[18], visit[13];
    memcpy(rows, example, sizeof rows);
    memset(positions, 0x55, sizeof positions);
    memcpy(positions, points, sizeof points);
    memset(work, 0x44, sizeof work);
    memset(visit, 0x77, sizeof visit);
    EXPECT(spoonferret_split_pinched_verts(NET, work, 16, visit, 13).number == 2);
    EXPECT(spoonferret_split_pinched_verts(NET, work, 18, visit, 11).number == 2);
    EXPECT(work[0] == 0x44444444);

    /* capacity 5: no room for the copy */
    EXPECT(spoonferret_split_pinched_verts(NET, work, 18, visit, 13).number == 6);
    EXPECT(memcmp(rows, example, sizeof rows) == 0 && visit[0] == 0x77777777);
    EXPECT(work[0] == 0 && work[16] == 0 && work[17] == 0x44444444);

    /* capacity 6: rows 6 and 10 start at 5, rows 8 and 9 end at 5 */
    lent_positions = 6;
    spoonferret_split_answer told = spoonferret_split_pinched_verts(NET, work, 18, visit, 13);
    EXPECT(told.number == 0 && told.row == 0 && told.added == 1 && told.steps == 12);
    static const uint32_t visited[12] = {4, 0, 3, 1, 5, 2, 10, 6, 9, 7, 11, 8};
    EXPECT(memcmp(visit, visited, sizeof visited) == 0 && visit[12] == 0x77777777);
    EXPECT(ROW(rows, 6)[0] == 5 && ROW(rows, 10)[0] == 5 && ROW(rows, 8)[1] == 5 && ROW(rows, 9)[1] == 5);
    ROW(rows, 6)[0] = ROW(rows, 10)[0] = ROW(rows, 8)[1] = ROW(rows, 9)[1] = 0;
    EXPECT(memcmp(rows, example, sizeof rows) == 0);
    EXPECT(memcmp(positions, points, sizeof points) == 0 && all(positions + 15, 3, 0) && positions[18] == UINT64_C(0x5555555555555555));
    rows[2] = 4;
    told = spoonferret_split_pinched_verts(NET, work, 18, visit, 13);
    EXPECT(told.number == 3 && told.row == 0 && told.added == 0 && told.steps == 0);
}

/* the edge from 0 to 1 is there twice, as half-edges 0 and 9; prop_vert is the row's number */
static const int32_t pillows[48] = {0, 1, 6, 0, 1, 2, 5,  1, 2, 0, 4,  2, 1, 0, 9, 3, 0, 2, 2, 4,  2, 1, 1, 5,
                                    1, 0, 0, 6, 0, 3, 11, 7, 3, 1, 10, 8, 0, 1, 3, 9, 1, 3, 8, 10, 3, 0, 7, 11};
/* what taking 9 apart leaves: two triangles more, and a vertex 4 where vertex 1 is */
static const int32_t apart[72] = {0, 1, 6,  0, 1, 2, 14, 1, 2, 0, 4,  2, 4, 0, 9,  3, 0, 2, 2,  4, 2, 4, 13, 5,
                                  1, 0, 0,  6, 0, 3, 11, 7, 3, 1, 16, 8, 0, 4, 3,  9, 4, 3, 17, 10, 3, 0, 7, 11,
                                  1, 4, 15, 10, 4, 2, 5,  10, 2, 1, 1,  5, 4, 1, 12, 10, 1, 3, 8, 10, 3, 4, 10, 8};

/* a net with room behind it, faces, and everything that the repairs borrow */
typedef struct {
    spoonferret_used used;
    size_t lent_rows, lent_positions, lent_faces;
    int32_t rows[84], references[24], spare_rows[74];
    uint64_t positions[24], normals[24], spare_positions[17];
    uint32_t work[30], list[26];
} lent_net;

#define ROOMY                                                                                                             \
    n.used, n.rows, SPOONFERRET_HALFEDGE_NUMBERS * n.lent_rows, n.positions, 3 * n.lent_positions, n.normals, 3 * n.lent_faces, \
        n.references, 3 * n.lent_faces, no_numbers, 0
#define SPARES n.spare_rows, 74, n.spare_positions, 17

static lent_net roomy(size_t triangles, size_t vertices) {
    lent_net n;
    memset(&n, 0x55, sizeof n);
    n.used = (spoonferret_used){.halfedges = 12, .vertices = 4, .normals = 4, .references = 4};
    n.lent_rows = 12 + 3 * triangles;
    n.lent_positions = 4 + vertices;
    n.lent_faces = 4 + triangles;
    memcpy(n.rows, pillows, sizeof pillows);
    memcpy(n.positions, points, 12 * sizeof *n.positions);
    for (int i = 0; i < 12; i++) {
        n.references[i] = i;
        n.normals[i] = 100 + (uint64_t)i;
    }
    return n;
}

/* as it was, but for so many free half-edge rows, faces and vertices, which read zero, and the spares, which are filled */
static int put_back(const lent_net *n, size_t triangles, size_t vertices) {
    lent_net owed = roomy(0, 0);
    memset(owed.rows + 48, 0, 12 * triangles * sizeof *owed.rows);
    memset(owed.references + 12, 0, 3 * triangles * sizeof *owed.references);
    memset(owed.normals + 12, 0, 3 * triangles * sizeof *owed.normals);
    memset(owed.positions + 12, 0, 3 * vertices * sizeof *owed.positions);
    return memcmp(n->rows, owed.rows, sizeof owed.rows) == 0 && memcmp(n->references, owed.references, sizeof owed.references) == 0 &&
           memcmp(n->normals, owed.normals, sizeof owed.normals) == 0 && memcmp(n->positions, owed.positions, sizeof owed.positions) == 0;
}

/* the spares hold the rows as they were, and are unchanged beyond; or nothing was written there */
static int spares_hold(const lent_net *n, int taken) {
    lent_net owed = roomy(0, 0);
    if (taken) {
        memcpy(owed.spare_rows, owed.rows, 48 * sizeof *owed.rows);
        memcpy(owed.spare_positions, owed.positions, 12 * sizeof *owed.positions);
    }
    return memcmp(n->spare_rows, owed.spare_rows, sizeof owed.spare_rows) == 0 &&
           memcmp(n->spare_positions, owed.spare_positions, sizeof owed.spare_positions) == 0;
}

static int words(const uint32_t *values, size_t count, uint32_t wanted) {
    for (size_t i = 0; i < count; i++) {
        if (values[i] != wanted) {
            return 0;
        }
    }
    return 1;
}

static void dedupe_one(void) {
    /* refused before the steps: nothing is written, the spares neither */
    lent_net n = roomy(2, 1);
    EXPECT(spoonferret_dedupe_edge(ROOMY, n.spare_rows, 47, n.spare_positions, 12, 9).number == 2);
    EXPECT(spoonferret_dedupe_edge(ROOMY, n.spare_rows, 48, n.spare_positions, 11, 9).number == 2);
    EXPECT(spoonferret_dedupe_edge(ROOMY, SPARES, 12).number == 4 && spoonferret_dedupe_edge(ROOMY, SPARES, -1).number == 4);
    n.used.references = 3;
    EXPECT(spoonferret_dedupe_edge(ROOMY, SPARES, 9).number == 1);
    n.used.references = 4;
    EXPECT(put_back(&n, 0, 0) && spares_hold(&n, 0));
    n.rows[1] = 2;
    spoonferret_dedupe_edge_answer unsound = spoonferret_dedupe_edge(ROOMY, SPARES, 9);
    EXPECT(unsound.number == 3 && unsound.row == 0 && unsound.halfedges == 0 && unsound.vertices == 0);

    /* 6 at the copy, the first triangle and the second: what had been filled reads zero */
    for (size_t triangles = 0; triangles < 3; triangles++) {
        n = roomy(triangles, triangles == 2 ? 0 : 1);
        spoonferret_dedupe_edge_answer told = spoonferret_dedupe_edge(ROOMY, SPARES, 9);
        EXPECT(told.number == 6 && told.row == 0 && told.halfedges == 0 && told.vertices == 0);
        EXPECT(put_back(&n, triangles == 2 ? 0 : triangles, triangles == 2 ? 0 : 1) && spares_hold(&n, 1));
    }
    /* 6 at the second copy: P, of which nothing is there twice, with room for one vertex */
    n = roomy(0, 0);
    n.used = (spoonferret_used){.halfedges = 6, .vertices = 3};
    memcpy(n.rows, example, 24 * sizeof *n.rows);
    memset(n.positions + 9, 0x55, 15 * sizeof *n.positions);
    n.lent_positions = 4;
    EXPECT(spoonferret_dedupe_edge(ROOMY, SPARES, 0).number == 6);
    EXPECT(memcmp(n.rows, example, 24 * sizeof *n.rows) == 0 && all(n.positions + 9, 3, 0) && n.positions[12] == UINT64_C(0x5555555555555555));
    /* with room for two both are there, at the END's position */
    n.lent_positions = 5;
    spoonferret_dedupe_edge_answer both = spoonferret_dedupe_edge(ROOMY, SPARES, 0);
    static const int32_t renamed[24] = {4, 3, 3, -1, 3, 2, 5, -1, 2, 4, 4, -1, 3, 4, 0, -1, 4, 2, 2, -1, 2, 3, 1, -1};
    EXPECT(both.number == 0 && both.row == 0 && both.halfedges == 6 && both.vertices == 5);
    EXPECT(memcmp(n.rows, renamed, sizeof renamed) == 0);
    EXPECT(memcmp(n.positions + 9, n.positions + 3, 3 * sizeof *n.positions) == 0);
    EXPECT(memcmp(n.positions + 12, n.positions + 3, 3 * sizeof *n.positions) == 0);

    /* done: the new triangles have the faces of those beside them */
    n = roomy(2, 1);
    spoonferret_dedupe_edge_answer told = spoonferret_dedupe_edge(ROOMY, SPARES, 9);
    EXPECT(told.number == 0 && told.row == 0 && told.halfedges == 18 && told.vertices == 5);
    EXPECT(memcmp(n.rows, apart, sizeof apart) == 0 && n.rows[72] == 0x55555555);
    EXPECT(memcmp(n.positions + 12, n.positions + 3, 3 * sizeof *n.positions) == 0 && n.positions[15] == UINT64_C(0x5555555555555555));
    EXPECT(memcmp(n.references + 12, n.references + 3, 6 * sizeof *n.references) == 0 && n.references[18] == 0x55555555);
    EXPECT(memcmp(n.normals + 12, n.normals + 3, 6 * sizeof *n.normals) == 0 && n.normals[18] == UINT64_C(0x5555555555555555));
    EXPECT(spares_hold(&n, 1));
    n.used = (spoonferret_used){.halfedges = 18, .vertices = 5, .normals = 6, .references = 6};
    EXPECT(spoonferret_check_net(ROOMY).number == 0);
}

static void dedupe_all(void) {
    const uint32_t filled = 0x55555555;
    /* the half-edge capacity is 18: work and list need so much */
    lent_net n = roomy(2, 1);
    EXPECT(spoonferret_dedupe_edges(ROOMY, SPARES, n.work, 17, n.list, 26).number == 2);
    EXPECT(spoonferret_dedupe_edges(ROOMY, SPARES, n.work, 30, n.list, 17).number == 2);
    EXPECT(spoonferret_dedupe_edges(ROOMY, n.spare_rows, 47, n.spare_positions, 17, n.work, 30, n.list, 26).number == 2);
    EXPECT(put_back(&n, 0, 0) && spares_hold(&n, 0) && words(n.work, 30, filled) && words(n.list, 26, filled));
    spoonferret_dedupe_edges_answer told = spoonferret_dedupe_edges(ROOMY, SPARES, n.work, 30, n.list, 26);
    EXPECT(told.number == 0 && told.row == 0 && told.halfedges == 18 && told.vertices == 5);
    EXPECT(memcmp(n.rows, apart, sizeof apart) == 0 && spares_hold(&n, 1));
    EXPECT(words(n.work, 18, 0) && words(n.work + 18, 12, filled) && words(n.list, 18, 0) && words(n.list + 18, 8, filled));

    /* with room for one triangle the capacity is 15 */
    n = roomy(1, 3);
    told = spoonferret_dedupe_edges(ROOMY, SPARES, n.work, 15, n.list, 15);
    EXPECT(told.number == 6 && told.halfedges == 0 && told.vertices == 0 && put_back(&n, 1, 1) && spares_hold(&n, 1));
    EXPECT(words(n.work, 15, 0) && words(n.work + 15, 15, filled) && words(n.list, 15, 0) && words(n.list + 15, 11, filled));

    /* no net at all, and nothing to do */
    n = roomy(2, 1);
    n.used = (spoonferret_used){0};
    n.lent_rows = n.lent_positions = n.lent_faces = 0;
    told = spoonferret_dedupe_edges(ROOMY, n.spare_rows, 0, n.spare_positions, 0, n.work, 0, n.list, 0);
    EXPECT(told.number == 0 && told.halfedges == 0 && told.vertices == 0);
    n = roomy(2, 1);
    n.rows[9] = 3;
    told = spoonferret_dedupe_edges(ROOMY, SPARES, n.work, 30, n.list, 26);
    EXPECT(told.number == 3 && told.row == 2 && words(n.work, 30, filled));
}

static void cleanup(void) {
    const uint32_t filled = 0x55555555;
    /* work needs the half-edge capacity and the vertices in use */
    lent_net n = roomy(2, 1);
    EXPECT(spoonferret_cleanup_topology(ROOMY, SPARES, n.work, 21, n.list, 26).number == 2 && words(n.work, 30, filled));
    spoonferret_cleanup_topology_answer told = spoonferret_cleanup_topology(ROOMY, SPARES, n.work, 30, n.list, 26);
    EXPECT(told.number == 0 && told.row == 0 && told.halfedges == 18 && told.vertices == 5);
    EXPECT(memcmp(n.rows, apart, sizeof apart) == 0 && spares_hold(&n, 1));
    EXPECT(words(n.work, 22, 0) && words(n.work + 22, 8, filled) && words(n.list, 18, 0) && words(n.list + 18, 8, filled));

    /* document 01's example is split, and no edge of it is there twice */
    n = roomy(0, 2);
    n.used = (spoonferret_used){.halfedges = 12, .vertices = 5};
    memcpy(n.rows, example, sizeof example);
    memcpy(n.positions, points, sizeof points);
    n.lent_positions = 5;
    EXPECT(spoonferret_cleanup_topology(ROOMY, SPARES, n.work, 30, n.list, 26).number == 6);
    EXPECT(memcmp(n.rows, example, sizeof example) == 0);
    n.lent_positions = 6;
    told = spoonferret_cleanup_topology(ROOMY, SPARES, n.work, 30, n.list, 26);
    EXPECT(told.number == 0 && told.halfedges == 12 && told.vertices == 6);
    EXPECT(ROW(n.rows, 6)[0] == 5 && ROW(n.rows, 10)[0] == 5 && ROW(n.rows, 8)[1] == 5 && ROW(n.rows, 9)[1] == 5);
    n.rows[2] = 4;
    told = spoonferret_cleanup_topology(ROOMY, SPARES, n.work, 30, n.list, 26);
    EXPECT(told.number == 3 && told.row == 0);
    n.used = (spoonferret_used){0};
    n.lent_rows = n.lent_positions = n.lent_faces = 0;
    EXPECT(spoonferret_cleanup_topology(ROOMY, n.spare_rows, 0, n.spare_positions, 0, n.work, 0, n.list, 0).number == 0);
}

static void collapse(void) {
    const uint32_t filled = 0x55555555;
    /* P: the edge from (0, 0, 0) to (1, 0, 0) */
    lent_net n = roomy(0, 0);
    n.used = (spoonferret_used){.halfedges = 6, .vertices = 3};
    memcpy(n.rows, example, 24 * sizeof *n.rows);
    n.rows[3] = 8;
    n.lent_rows = 7;
    n.lent_positions = 3;
    lent_net before = n;
    EXPECT(spoonferret_collapse_edge(ROOMY, SPARES, n.list, 5, 0, 2, 2, 0).number == 2);
    EXPECT(spoonferret_collapse_edge(ROOMY, n.spare_rows, 23, n.spare_positions, 17, n.list, 26, 0, 2, 2, 0).number == 2);
    EXPECT(spoonferret_collapse_edge(ROOMY, SPARES, n.list, 26, 6, 2, 2, 0).number == 4);
    /* 1 is not below 1; beyond first_new_vert the limit is epsilon's; a tol below 0 stands for epsilon, and -0 is not below 0 */
    spoonferret_collapse_edge_answer told = spoonferret_collapse_edge(ROOMY, SPARES, n.list, 26, 0, 2, 1, 9);
    EXPECT(told.number == 8 && told.row == 0 && told.vertices == 0 && of_bits(told.squared_length) == 1 && of_bits(told.limit) == 1);
    told = spoonferret_collapse_edge(ROOMY, SPARES, n.list, 26, 0, 1, 9, 0.5);
    EXPECT(told.number == 8 && of_bits(told.squared_length) == 1 && of_bits(told.limit) == 0.25);
    told = spoonferret_collapse_edge(ROOMY, SPARES, n.list, 26, 0, 2, -0.0, 9);
    EXPECT(told.number == 8 && of_bits(told.limit) == 0);
    told = spoonferret_collapse_edge(ROOMY, SPARES, n.list, 26, 0, 2, of_bits(NAN_BITS | 5), 9);
    EXPECT(told.number == 8 && of_bits(told.squared_length) == 1 && told.limit == NAN_BITS);
    EXPECT(memcmp(&n, &before, sizeof n) == 0);
    /* all rows dead, props kept, position 0 NaN */
    told = spoonferret_collapse_edge(ROOMY, SPARES, n.list, 26, 0, 2, -1, 1.5);
    static const int32_t gone[24] = {-1, -1, -1, 8, -1, -1, -1, -1, -1, -1, -1, -1, -1, -1, -1, -1, -1, -1, -1, -1, -1, -1, -1, -1};
    EXPECT(told.number == 0 && told.row == 0 && told.vertices == 3 && told.squared_length == 0 && told.limit == 0);
    EXPECT(memcmp(n.rows, gone, sizeof gone) == 0 && memcmp(n.rows + 24, before.rows + 24, 4 * sizeof *n.rows) == 0);
    EXPECT(all(n.positions, 3, NAN_BITS) && memcmp(n.positions + 3, before.positions + 3, 21 * sizeof *n.positions) == 0);
    EXPECT(memcmp(n.spare_rows, before.rows, 24 * sizeof *n.rows) == 0 && n.spare_rows[24] == 0x55555555);
    EXPECT(words(n.list, 6, 0) && words(n.list + 6, 20, filled));
    EXPECT(spoonferret_collapse_edge(ROOMY, SPARES, n.list, 26, 0, 2, -1, 1.5).number == 5);

    /* three triangles between two apexes: the loop at vertex 2 needs two vertices; then nothing is left */
    static const int32_t apexes[72] = {0, 1, 3,  -1, 1, 3, 8,  -1, 3, 0, 13, -1, 1, 0, 0,  -1, 0, 4, 17, -1, 4, 1, 10, -1,
                                       1, 2, 9,  -1, 2, 3, 14, -1, 3, 1, 1,  -1, 2, 1, 6,  -1, 1, 4, 5,  -1, 4, 2, 16, -1,
                                       2, 0, 15, -1, 0, 3, 2,  -1, 3, 2, 7,  -1, 0, 2, 12, -1, 2, 4, 11, -1, 4, 0, 4,  -1};
    n = roomy(2, 0);
    n.used = (spoonferret_used){.halfedges = 18, .vertices = 5};
    memcpy(n.rows, apexes, sizeof apexes);
    memcpy(n.positions, points, sizeof points);
    n.lent_positions = 6;
    told = spoonferret_collapse_edge(ROOMY, SPARES, n.list, 26, 0, 2, 9, 9);
    EXPECT(told.number == 6 && told.vertices == 0 && memcmp(n.rows, apexes, sizeof apexes) == 0);
    EXPECT(memcmp(n.positions, points, sizeof points) == 0 && all(n.positions + 15, 3, 0) && n.positions[18] == UINT64_C(0x5555555555555555));
    EXPECT(words(n.list, 18, 0) && words(n.list + 18, 8, filled));
    n.lent_positions = 7;
    told = spoonferret_collapse_edge(ROOMY, SPARES, n.list, 26, 0, 2, 9, 9);
    EXPECT(told.number == 0 && told.vertices == 7 && all(n.positions, 21, NAN_BITS));
    for (int h = 0; h < 18; h++) {
        EXPECT(ROW(n.rows, h)[0] == -1 && ROW(n.rows, h)[1] == -1 && ROW(n.rows, h)[2] == -1);
    }

    /* a walk that does not end: two rows had been filled */
    static const int32_t endless[48] = {0, 1, 3, -1, 1, 2, 5,  -1, 2, 0, 6,  -1, 1, 0, 0, -1, 0, 2, 9, -1, 2, 1, 1, -1,
                                        0, 2, 2, -1, 2, 1, 11, -1, 1, 0, 10, -1, 2, 0, 4, -1, 0, 1, 8, -1, 1, 2, 7, -1};
    n = roomy(0, 0);
    n.used = (spoonferret_used){.halfedges = 12, .vertices = 3};
    memcpy(n.rows, endless, sizeof endless);
    memset(n.positions + 9, 0x55, 15 * sizeof *n.positions);
    n.lent_positions = 6;
    told = spoonferret_collapse_edge(ROOMY, SPARES, n.list, 26, 2, 2, 9, 9);
    EXPECT(told.number == 7 && told.row == 0 && told.vertices == 0 && memcmp(n.rows, endless, sizeof endless) == 0);
    EXPECT(memcmp(n.positions, points, 9 * sizeof *n.positions) == 0 && all(n.positions + 9, 6, 0));
    EXPECT(all(n.positions + 15, 3, UINT64_C(0x5555555555555555)));
    n.rows[0] = 7;
    told = spoonferret_collapse_edge(ROOMY, SPARES, n.list, 26, 2, 2, 9, 9);
    EXPECT(told.number == 3 && told.row == 0 && told.vertices == 0);
}

int main(void) {
    next_and_tri();
    short_or_long();
    nets();
    surgery();
    loops();
    owners();
    split();
    dedupe_one();
    dedupe_all();
    cleanup();
    collapse();
    printf("%d passed, %d failed\n", passed, failed);
    return failed != 0;
}
