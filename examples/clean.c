/* Reads a mesh file (form 1, docs/MANUAL.md), checks the net, cleans it and says what happened.
     clean FILE        0: cleaned; 1: the net was refused, and why; 2: the file cannot be read */
#include "spoonferret_net.h"

#include <inttypes.h>
#include <stdio.h>
#include <stdlib.h>
#include <string.h>

/* room for so many triangles and vertices more, at first; doubled where it is too little */
enum { ROOM = 64, MOST = 1000000 };

static void *memory(size_t count, size_t size) {
    void *at = calloc(count ? count : 1, size);
    if (!at) {
        fprintf(stderr, "no memory\n");
        exit(2);
    }
    return at;
}

/* the rows of a file, with free ones behind them */
static int read_net(FILE *file, size_t room, spoonferret_net *net) {
    size_t vertices, triangles;
    memset(net, 0, sizeof *net);
    rewind(file);
    if (fscanf(file, "form=1 verts=%zu tris=%zu", &vertices, &triangles) != 2 || vertices > MOST || triangles > MOST) {
        return 0;
    }
    net->used.halfedges = 3 * triangles;
    net->used.vertices = vertices;
    net->halfedges_length = 3 * SPOONFERRET_HALFEDGE_NUMBERS * (triangles + room);
    net->positions_length = 3 * (vertices + room);
    net->halfedges = memory(net->halfedges_length, sizeof *net->halfedges);
    net->positions = memory(net->positions_length, sizeof *net->positions);
    for (size_t v = 0; v < vertices; v++) {
        uint64_t bits[3];
        if (fscanf(file, " p=%16" SCNx64 ",%16" SCNx64 ",%16" SCNx64, &bits[0], &bits[1], &bits[2]) != 3) {
            return 0;
        }
        memcpy(net->positions + 3 * v, bits, sizeof bits);
    }
    for (size_t h = 0; h < 3 * triangles; h++) {
        int32_t *row = net->halfedges + SPOONFERRET_HALFEDGE_NUMBERS * h;
        if (fscanf(file, " h=%" SCNd32 ",%" SCNd32 ",%" SCNd32 ",%" SCNd32, &row[0], &row[1], &row[2], &row[3]) != 4) {
            return 0;
        }
    }
    return 1;
}

static void release(spoonferret_net *net, spoonferret_buffers *buffers) {
    free(net->halfedges);
    free(net->positions);
    free(buffers->spare_halfedges);
    free(buffers->spare_positions);
    free(buffers->words);
    free(buffers->list);
    free(buffers->bytes);
}

int main(int count, char **words) {
    FILE *file = count == 2 ? fopen(words[1], "r") : NULL;
    if (!file) {
        fprintf(stderr, "clean FILE\n");
        return 2;
    }
    for (size_t room = ROOM;; room *= 2) {
        spoonferret_net net;
        spoonferret_buffers buffers = {0};
        if (!read_net(file, room, &net)) {
            fprintf(stderr, "not a mesh file of form 1\n");
            release(&net, &buffers);
            return 2;
        }
        const size_t vertices = net.used.vertices, triangles = net.used.halfedges / 3;

        /* the lengths that every call on this net is content with */
        buffers = spoonferret_net_needs(&net);
        buffers.spare_halfedges = memory(buffers.spare_halfedges_length, sizeof *buffers.spare_halfedges);
        buffers.spare_positions = memory(buffers.spare_positions_length, sizeof *buffers.spare_positions);
        buffers.words = memory(buffers.words_length, sizeof *buffers.words);
        buffers.list = memory(buffers.list_length, sizeof *buffers.list);

        const spoonferret_row_answer checked = spoonferret_net_check(&net);
        if (checked.number != SPOONFERRET_DONE) {
            printf("refused by %" PRIu32 "\n", checked.number);
            if (checked.number == SPOONFERRET_UNSOUND) {
                printf("row %zu, in triangle %zu\n", checked.row, checked.row / 3);
                const spoonferret_explain_answer why = spoonferret_net_explain_row(&net, (int32_t)checked.row);
                fprintf(stderr, "it breaks clause %" PRIu32 " first (docs/MANUAL.md, answer 3), with row %zu\n", why.clause, why.other);
            }
            fprintf(stderr, "%s\n", spoonferret_answer_text(checked.number));
            release(&net, &buffers);
            return 1;
        }
        if (room == ROOM) {
            printf("sound: %zu vertices, %zu triangles\n", vertices, triangles);
        }

        const spoonferret_cleanup_topology_answer cleaned = spoonferret_net_cleanup_topology(&net, &buffers);
        if (cleaned.number == SPOONFERRET_NO_ROOM && room < MOST) {
            release(&net, &buffers);
            continue;
        }
        if (cleaned.number != SPOONFERRET_DONE) {
            printf("refused by %" PRIu32 "\n", cleaned.number);
            fprintf(stderr, "%s\n", spoonferret_answer_text(cleaned.number));
            release(&net, &buffers);
            return 1;
        }
        /* the counts of the net are those after the call */
        printf("cleaned: %zu vertices more, %zu triangles more\n", net.used.vertices - vertices, net.used.halfedges / 3 - triangles);
        for (size_t v = vertices; v < net.used.vertices; v++) {
            const double *at = net.positions + 3 * v;
            printf("vertex %zu at %g %g %g\n", v, at[0], at[1], at[2]);
        }
        release(&net, &buffers);
        fclose(file);
        return 0;
    }
}
