/* That the inline functions of spoonferret_net.h pass every field and every parameter to its own place: the library's functions are written here anew, to note what
   they are given. Nothing else is linked. Prints 'N passed, M failed'. */
#include "../spoonferret_net.h"

#include <stdio.h>
#include <string.h>

static int passed, failed;

static void expect(int holds, const char *name, int line) {
    if (holds) {
        passed++;
    } else {
        failed++;
        printf("not so: %s, line %d\n", name, line);
    }
}

#define EXPECT(holds) expect((holds), noted.name, __LINE__)

/* what a call was given: places and lengths in the order of the parameters behind the counts, then the numbers */
static struct {
    const char *name;
    spoonferret_used used;
    const void *at[9];
    size_t length[9];
    int arrays;
    int32_t numbers[3];
    double floats[2];
    bool choice;
} noted;

#define FIVE                                                                                                                             \
    halfedges, halfedges_length, positions, positions_length, normals, normals_length, references, references_length, properties,       \
        properties_length

static void note(const char *name, spoonferret_used used, const void *halfedges, size_t halfedges_length, const void *positions,
                 size_t positions_length, const void *normals, size_t normals_length, const void *references, size_t references_length,
                 const void *properties, size_t properties_length) {
    memset(&noted, 0, sizeof noted);
    noted.name = name;
    noted.used = used;
    const void *at[5] = {halfedges, positions, normals, references, properties};
    const size_t length[5] = {halfedges_length, positions_length, normals_length, references_length, properties_length};
    memcpy(noted.at, at, sizeof at);
    memcpy(noted.length, length, sizeof length);
    noted.arrays = 5;
}

static void more(const void *at, size_t length) {
    noted.at[noted.arrays] = at;
    noted.length[noted.arrays] = length;
    noted.arrays++;
}

static void numbers(int32_t a, int32_t b, int32_t c) {
    noted.numbers[0] = a;
    noted.numbers[1] = b;
    noted.numbers[2] = c;
}

/* what the next call answers; the values are all different */
static uint32_t answer;
enum { ROW = 901, ADDED = 902, STEPS = 903, COUNT = 904, CLAUSE = 905, OTHER = 910, HALFEDGES = 906, VERTICES = 907, SQUARED = 908, LIMIT = 909 };

#define NET_CONST                                                                                                                        \
    spoonferret_used used, const int32_t *halfedges, size_t halfedges_length, const uint64_t *positions, size_t positions_length,        \
        const uint64_t *normals, size_t normals_length, const int32_t *references, size_t references_length, const uint64_t *properties, \
        size_t properties_length
#define NET_ROWS                                                                                                                         \
    spoonferret_used used, int32_t *halfedges, size_t halfedges_length, const uint64_t *positions, size_t positions_length,              \
        const uint64_t *normals, size_t normals_length, const int32_t *references, size_t references_length, const uint64_t *properties, \
        size_t properties_length
#define NET_POSITIONS                                                                                                                    \
    spoonferret_used used, int32_t *halfedges, size_t halfedges_length, uint64_t *positions, size_t positions_length,                    \
        const uint64_t *normals, size_t normals_length, const int32_t *references, size_t references_length, const uint64_t *properties, \
        size_t properties_length
#define NET_ALL                                                                                                                          \
    spoonferret_used used, int32_t *halfedges, size_t halfedges_length, uint64_t *positions, size_t positions_length, uint64_t *normals, \
        size_t normals_length, int32_t *references, size_t references_length, const uint64_t *properties, size_t properties_length
#define SPARES int32_t *spare_halfedges, size_t spare_halfedges_length, uint64_t *spare_positions, size_t spare_positions_length
#define NOTE note(__func__, used, FIVE)
#define NOTE_SPARES                                                                                                                      \
    NOTE;                                                                                                                                \
    more(spare_halfedges, spare_halfedges_length);                                                                                       \
    more(spare_positions, spare_positions_length)

spoonferret_row_answer spoonferret_check_net(NET_CONST) {
    NOTE;
    return (spoonferret_row_answer){answer, ROW};
}

spoonferret_explain_answer spoonferret_explain_row(NET_CONST, int32_t row) {
    NOTE;
    numbers(row, 0, 0);
    return (spoonferret_explain_answer){answer, CLAUSE, OTHER};
}

spoonferret_answer spoonferret_pair_up(NET_ROWS, int32_t first, int32_t second) {
    NOTE;
    numbers(first, second, 0);
    return (spoonferret_answer){answer};
}

spoonferret_update_answer spoonferret_update_vert(NET_ROWS, int32_t vertex, int32_t start, int32_t end) {
    NOTE;
    numbers(vertex, start, end);
    return (spoonferret_update_answer){answer, ROW};
}

spoonferret_row_answer spoonferret_collapse_tri(NET_ROWS, int32_t halfedge) {
    NOTE;
    numbers(halfedge, 0, 0);
    return (spoonferret_row_answer){answer, ROW};
}

spoonferret_row_answer spoonferret_remove_if_folded(NET_POSITIONS, int32_t halfedge) {
    NOTE;
    numbers(halfedge, 0, 0);
    return (spoonferret_row_answer){answer, ROW};
}

spoonferret_loop_answer spoonferret_form_loop(NET_POSITIONS, SPARES, int32_t first, int32_t second) {
    NOTE_SPARES;
    numbers(first, second, 0);
    return (spoonferret_loop_answer){answer, ROW, VERTICES};
}

spoonferret_owners_answer spoonferret_orbit_owners(NET_CONST, uint8_t *work, size_t work_length, uint32_t *list, size_t list_length,
                                                   bool end_too) {
    NOTE;
    more(work, work_length);
    more(list, list_length);
    noted.choice = end_too;
    return (spoonferret_owners_answer){answer, COUNT};
}

spoonferret_split_answer spoonferret_split_pinched_verts(NET_POSITIONS, uint32_t *work, size_t work_length, uint32_t *visit,
                                                         size_t visit_length) {
    NOTE;
    more(work, work_length);
    more(visit, visit_length);
    return (spoonferret_split_answer){answer, ROW, ADDED, STEPS};
}

spoonferret_dedupe_edge_answer spoonferret_dedupe_edge(NET_ALL, SPARES, int32_t halfedge) {
    NOTE_SPARES;
    numbers(halfedge, 0, 0);
    return (spoonferret_dedupe_edge_answer){answer, ROW, HALFEDGES, VERTICES};
}

spoonferret_dedupe_edges_answer spoonferret_dedupe_edges(NET_ALL, SPARES, uint32_t *work, size_t work_length, uint32_t *list,
                                                         size_t list_length) {
    NOTE_SPARES;
    more(work, work_length);
    more(list, list_length);
    return (spoonferret_dedupe_edges_answer){answer, ROW, HALFEDGES, VERTICES};
}

spoonferret_cleanup_topology_answer spoonferret_cleanup_topology(NET_ALL, SPARES, uint32_t *work, size_t work_length, uint32_t *list,
                                                                 size_t list_length) {
    NOTE_SPARES;
    more(work, work_length);
    more(list, list_length);
    return (spoonferret_cleanup_topology_answer){answer, ROW, HALFEDGES, VERTICES};
}

spoonferret_collapse_edge_answer spoonferret_collapse_edge(NET_POSITIONS, SPARES, uint32_t *list, size_t list_length, int32_t halfedge,
                                                           int32_t first_new_vert, double tol, double epsilon) {
    NOTE_SPARES;
    more(list, list_length);
    numbers(halfedge, first_new_vert, 0);
    noted.floats[0] = tol;
    noted.floats[1] = epsilon;
    return (spoonferret_collapse_edge_answer){answer, ROW, VERTICES, SQUARED, LIMIT};
}

/* places and lengths that are all different */
static int32_t halfedges[40], references[40], spare_halfedges[40];
static double positions[40], normals[40], properties[40], spare_positions[40];
static uint32_t words[40], list[40];
static uint8_t bytes[40];

static spoonferret_net fresh(void) {
    return (spoonferret_net){
        .used = {.halfedges = 11, .vertices = 12, .normals = 13, .references = 14, .properties = 15, .num_prop = 16},
        .halfedges = halfedges, .halfedges_length = 21,
        .positions = positions, .positions_length = 22,
        .normals = normals, .normals_length = 23,
        .references = references, .references_length = 24,
        .properties = properties, .properties_length = 25,
    };
}

static spoonferret_buffers buffers = {
    .spare_halfedges = spare_halfedges, .spare_halfedges_length = 26,
    .spare_positions = spare_positions, .spare_positions_length = 27,
    .words = words, .words_length = 28,
    .list = list, .list_length = 29,
    .bytes = bytes, .bytes_length = 30,
};

static int is(int k, const void *at, size_t length) {
    return noted.at[k] == at && noted.length[k] == length;
}

/* the counts at the call and the five arrays, and so many arrays in all */
static void net_as_given(const char *name, int arrays, int line) {
    const spoonferret_used *u = &noted.used;
    expect(strcmp(noted.name, name) == 0 && noted.arrays == arrays, name, line);
    expect(u->halfedges == 11 && u->vertices == 12 && u->normals == 13 && u->references == 14 && u->properties == 15 && u->num_prop == 16,
           name, line);
    expect(is(0, halfedges, 21) && is(1, positions, 22) && is(2, normals, 23) && is(3, references, 24) && is(4, properties, 25), name, line);
}

#define GIVEN(name, arrays) net_as_given(name, arrays, __LINE__)
#define SPARES_GIVEN EXPECT(is(5, spare_halfedges, 26) && is(6, spare_positions, 27))

/* the counts afterwards */
static int counts(const spoonferret_net *net, size_t rows, size_t vertices, size_t net_normals, size_t net_references) {
    return net->used.halfedges == rows && net->used.vertices == vertices && net->used.normals == net_normals &&
           net->used.references == net_references && net->used.properties == 15 && net->used.num_prop == 16;
}

/* every function once, with this answer */
static void each(uint32_t said) {
    answer = said;
    const int done = said == SPOONFERRET_DONE;
    spoonferret_net net = fresh();

    spoonferret_row_answer row = spoonferret_net_check(&net);
    GIVEN("spoonferret_check_net", 5);
    EXPECT(row.number == said && row.row == ROW && counts(&net, 11, 12, 13, 14));

    spoonferret_explain_answer explained = spoonferret_net_explain_row(&net, 41);
    GIVEN("spoonferret_explain_row", 5);
    EXPECT(explained.number == said && explained.clause == CLAUSE && explained.other == OTHER);
    EXPECT(noted.numbers[0] == 41 && counts(&net, 11, 12, 13, 14));

    EXPECT(spoonferret_net_pair_up(&net, 41, 42).number == said);
    GIVEN("spoonferret_pair_up", 5);
    EXPECT(noted.numbers[0] == 41 && noted.numbers[1] == 42 && counts(&net, 11, 12, 13, 14));

    spoonferret_update_answer update = spoonferret_net_update_vert(&net, 41, 42, 43);
    GIVEN("spoonferret_update_vert", 5);
    EXPECT(update.number == said && update.row == ROW);
    EXPECT(noted.numbers[0] == 41 && noted.numbers[1] == 42 && noted.numbers[2] == 43 && counts(&net, 11, 12, 13, 14));

    row = spoonferret_net_collapse_tri(&net, 41);
    GIVEN("spoonferret_collapse_tri", 5);
    EXPECT(row.number == said && row.row == ROW && noted.numbers[0] == 41 && counts(&net, 11, 12, 13, 14));

    row = spoonferret_net_remove_if_folded(&net, 41);
    GIVEN("spoonferret_remove_if_folded", 5);
    EXPECT(row.number == said && row.row == ROW && noted.numbers[0] == 41 && counts(&net, 11, 12, 13, 14));

    spoonferret_loop_answer loop = spoonferret_net_form_loop(&net, &buffers, 41, 42);
    GIVEN("spoonferret_form_loop", 7);
    SPARES_GIVEN;
    EXPECT(noted.numbers[0] == 41 && noted.numbers[1] == 42);
    EXPECT(loop.number == said && loop.row == ROW && loop.vertices == VERTICES);
    EXPECT(counts(&net, 11, done ? VERTICES : 12, 13, 14));

    for (int end_too = 0; end_too < 2; end_too++) {
        net = fresh();
        spoonferret_owners_answer owners = spoonferret_net_orbit_owners(&net, &buffers, end_too);
        GIVEN("spoonferret_orbit_owners", 7);
        EXPECT(is(5, bytes, 30) && is(6, list, 29) && noted.choice == end_too);
        EXPECT(owners.number == said && owners.count == COUNT && counts(&net, 11, 12, 13, 14));
    }

    spoonferret_split_answer split = spoonferret_net_split_pinched_verts(&net, &buffers);
    GIVEN("spoonferret_split_pinched_verts", 7);
    EXPECT(is(5, words, 28) && is(6, list, 29));
    EXPECT(split.number == said && split.row == ROW && split.added == ADDED && split.steps == STEPS);
    EXPECT(counts(&net, 11, done ? 12 + ADDED : 12, 13, 14));

    net = fresh();
    spoonferret_dedupe_edge_answer edge = spoonferret_net_dedupe_edge(&net, &buffers, 41);
    GIVEN("spoonferret_dedupe_edge", 7);
    SPARES_GIVEN;
    EXPECT(noted.numbers[0] == 41);
    EXPECT(edge.number == said && edge.row == ROW && edge.halfedges == HALFEDGES && edge.vertices == VERTICES);
    EXPECT(done ? counts(&net, HALFEDGES, VERTICES, HALFEDGES / 3, HALFEDGES / 3) : counts(&net, 11, 12, 13, 14));

    net = fresh();
    spoonferret_dedupe_edges_answer edges = spoonferret_net_dedupe_edges(&net, &buffers);
    GIVEN("spoonferret_dedupe_edges", 9);
    SPARES_GIVEN;
    EXPECT(is(7, words, 28) && is(8, list, 29));
    EXPECT(edges.number == said && edges.row == ROW && edges.halfedges == HALFEDGES && edges.vertices == VERTICES);
    EXPECT(done ? counts(&net, HALFEDGES, VERTICES, HALFEDGES / 3, HALFEDGES / 3) : counts(&net, 11, 12, 13, 14));

    net = fresh();
    spoonferret_cleanup_topology_answer cleanup = spoonferret_net_cleanup_topology(&net, &buffers);
    GIVEN("spoonferret_cleanup_topology", 9);
    SPARES_GIVEN;
    EXPECT(is(7, words, 28) && is(8, list, 29));
    EXPECT(cleanup.number == said && cleanup.row == ROW && cleanup.halfedges == HALFEDGES && cleanup.vertices == VERTICES);
    EXPECT(done ? counts(&net, HALFEDGES, VERTICES, HALFEDGES / 3, HALFEDGES / 3) : counts(&net, 11, 12, 13, 14));

    net = fresh();
    spoonferret_collapse_edge_answer collapse = spoonferret_net_collapse_edge(&net, &buffers, 41, 42, 4.5, 5.5);
    GIVEN("spoonferret_collapse_edge", 8);
    SPARES_GIVEN;
    EXPECT(is(7, list, 29) && noted.numbers[0] == 41 && noted.numbers[1] == 42 && noted.floats[0] == 4.5 && noted.floats[1] == 5.5);
    EXPECT(collapse.number == said && collapse.row == ROW && collapse.vertices == VERTICES);
    EXPECT(collapse.squared_length == SQUARED && collapse.limit == LIMIT);
    EXPECT(counts(&net, 11, done ? VERTICES : 12, 13, 14));
}

/* NULL counts as length 0, and is never passed on; normals and references that are not in use stay so */
static void nulls(void) {
    spoonferret_net net = {.used = {.halfedges = 3}, .halfedges_length = 12, .positions_length = 3, .properties_length = 1};
    spoonferret_buffers none = {.spare_halfedges_length = 1, .words_length = 2, .list_length = 3, .bytes_length = 4};
    answer = SPOONFERRET_DONE;
    spoonferret_net_dedupe_edges(&net, &none);
    for (int k = 0; k < 9; k++) {
        EXPECT(noted.at[k] != NULL && noted.length[k] == 0);
    }
    EXPECT(net.used.normals == 0 && net.used.references == 0);
    spoonferret_net_orbit_owners(&net, &none, false);
    EXPECT(noted.at[5] != NULL && noted.length[5] == 0 && noted.at[6] != NULL && noted.length[6] == 0);
}

static void needs(void) {
    spoonferret_net net = fresh();
    noted.name = "needs";
    net.used = (spoonferret_used){.halfedges = 6, .vertices = 4};
    net.halfedges_length = 3 * SPOONFERRET_HALFEDGE_NUMBERS * 5 + 11;
    net.normals_length = 3 * 4 + 2;
    net.references_length = 3 * 3 + 1;
    EXPECT(spoonferret_net_triangle_capacity(&net) == 5);
    net.used.normals = 2;
    EXPECT(spoonferret_net_triangle_capacity(&net) == 4);
    net.used.references = 2;
    EXPECT(spoonferret_net_triangle_capacity(&net) == 3);
    spoonferret_buffers needed = spoonferret_net_needs(&net);
    EXPECT(needed.spare_halfedges_length == SPOONFERRET_HALFEDGE_NUMBERS * 6 && needed.spare_positions_length == 12 && needed.words_length == 13);
    EXPECT(needed.list_length == 9 && needed.bytes_length == 6);
    EXPECT(!needed.spare_halfedges && !needed.spare_positions && !needed.words && !needed.list && !needed.bytes);
    net.used.normals = net.used.references = 0;
    net.halfedges_length = 3 * SPOONFERRET_HALFEDGE_NUMBERS * (size_t)1000001;
    EXPECT(spoonferret_net_triangle_capacity(&net) == 1000000);
    net.halfedges = NULL;
    EXPECT(spoonferret_net_triangle_capacity(&net) == 0 && spoonferret_net_needs(&net).list_length == 6);
}

static void texts(void) {
    static const char *const first_words[12] = {"done",  "shape:", "short buffer:", "unsound:", "number:",   "dead:",
                                                "no room:", "stopped:", "long:", "open fan:", "no owners:", "no answer"};
    noted.name = "texts";
    for (uint32_t number = 0; number < 12; number++) {
        EXPECT(strncmp(spoonferret_answer_text(number), first_words[number], strlen(first_words[number])) == 0);
    }
    EXPECT(SPOONFERRET_SHAPE == 1 && SPOONFERRET_SHORT_BUFFER == 2 && SPOONFERRET_UNSOUND == 3 && SPOONFERRET_NUMBER == 4);
    EXPECT(SPOONFERRET_DEAD == 5 && SPOONFERRET_NO_ROOM == 6 && SPOONFERRET_STOPPED == 7 && SPOONFERRET_LONG == 8);
    EXPECT(SPOONFERRET_OPEN_FAN == 9 && SPOONFERRET_NO_OWNERS == 10);
    char version[16];
    snprintf(version, sizeof version, "%d.%d.%d", SPOONFERRET_VERSION_MAJOR, SPOONFERRET_VERSION_MINOR, SPOONFERRET_VERSION_PATCH);
    EXPECT(strcmp(version, SPOONFERRET_VERSION) == 0);
}

int main(void) {
    each(SPOONFERRET_DONE);
    for (uint32_t number = 1; number <= 10; number++) {
        each(number);
    }
    nulls();
    needs();
    texts();
    printf("%d passed, %d failed\n", passed, failed);
    return failed != 0;
}
