/* Draws a small network through include/tansygate.h, and audits the drawing.
 *
 *   reference/library && cc -O2 -Wall -Iinclude -o target/draw examples/draw.c target/staticlib/libexports.a && target/draw
 *
 * An intake at 66 and 11 kV (station 0) feeds a mill (1) and a dock (2) over two lines each; a tie from mill to dock is open.
 */
#include <stdio.h>
#include <string.h>
#include "tansygate.h"

#define LEN(list) list, sizeof(list) / sizeof(list[0])
enum { N = 4, M = 6, K = 3, PIECES = 3 * M, SORTING = N + 2 * M, INDEX = 5 * N };

static uint64_t bits(double x) {
    uint64_t b;
    memcpy(&b, &x, sizeof b);
    return b;
}

int main(void) {
    const uint32_t sub[N] = {0, 0, 1, 2};
    const uint64_t kv[N] = {bits(66), bits(11), bits(11), bits(11)};
    const double xy[2 * N] = {0, 0, 0, 0, 400, 100, 300, -200};
    const int64_t from[M] = {0, 1, 1, 1, 1, 2}, to[M] = {1, 2, 2, 3, 3, 3};
    const uint8_t service[M] = {1, 1, 1, 1, 1, 0};
    const uint32_t mesh[1] = {0};
    tansygate_settings options = TANSYGATE_DEFAULTS;
    options.route_iterations = 0;

    double positions[2 * N], bars[4 * N], boxes[4 * K], scales[K], pieces[4 * PIECES];
    uint8_t roles[M];
    uint32_t branches[PIECES];
    uint32_t stations[2 * N], buses[3 * N], ends[4 * M + 4], sorted[INDEX], spare[SORTING];
    uint64_t keys[SORTING];
    double places[2 * N + 4 * M], blocks[3 * N], frames[4 * N], path[2 * N + 16];
    uint32_t crossing_numbers[3];
    double crossing_places[1], crossing_ways[2];

    tansygate_plotted plot = tansygate_plot(
        LEN(positions), LEN(bars), LEN(boxes), LEN(scales), LEN(roles), LEN(pieces), LEN(branches),
        LEN(stations), LEN(buses), LEN(ends), LEN(sorted), LEN(spare), LEN(keys), LEN(places), LEN(blocks),
        LEN(frames), LEN(path), LEN(crossing_numbers), LEN(crossing_places), LEN(crossing_ways),
        options, LEN(sub), LEN(kv), LEN(from), LEN(to), LEN(service), LEN(xy), mesh, 0, mesh, 0);
    if (plot.number != TANSYGATE_DONE) {
        printf("refused %u\n", (unsigned)plot.number);
        return 1;
    }
    printf("unit %g, bounds %g %g %g %g\n", plot.unit, plot.left, plot.top, plot.right, plot.bottom);
    for (size_t s = 0; s < K; s++)
        printf("station %zu: box %g %g %g %g\n", s, boxes[4 * s], boxes[4 * s + 1], boxes[4 * s + 2], boxes[4 * s + 3]);
    for (size_t i = 0; i < N; i++)
        printf("bus %zu: bar %g %g %g %g\n", i, bars[4 * i], bars[4 * i + 1], bars[4 * i + 2], bars[4 * i + 3]);
    for (size_t p = 0; p < plot.pieces; p++)
        printf("branch %u, role %u: %g %g to %g %g\n", (unsigned)branches[p], (unsigned)roles[branches[p]], pieces[4 * p],
               pieces[4 * p + 1], pieces[4 * p + 2], pieces[4 * p + 3]);

    double displacement[K], spacing[K], relative[PIECES];
    uint32_t index[INDEX];
    double points[2 * N];
    tansygate_audited audit = tansygate_audit(
        LEN(displacement), LEN(spacing), LEN(relative),
        LEN(stations), LEN(index), LEN(spare), LEN(keys), LEN(points), path, 2 * N,
        LEN(sub), LEN(kv), LEN(from), LEN(to), LEN(xy), LEN(boxes), LEN(roles), pieces, 4 * plot.pieces,
        branches, plot.pieces);
    if (audit.number != TANSYGATE_DONE) {
        printf("audit refused %u\n", (unsigned)audit.number);
        return 1;
    }
    printf("%zu stations, %zu overlapping pairs, %zu pieces through boxes, %zu lines\n", audit.stations, audit.overlaps,
           audit.through, audit.relative);
    return 0;
}
