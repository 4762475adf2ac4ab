/* Tansygate: lays out wall drawings of substation networks, and audits them.
 *
 * The functions allocate nothing and keep nothing between calls: the caller
 * lends every list, as a pointer and a number of elements (not bytes). A list
 * that a function writes must not overlap another list of the call; a list of
 * 0 elements may have any pointer but a null one. A list may be longer than
 * needed; a result list keeps what stands in it past its used length. The
 * lists that a call writes come first, then the options, then those that it
 * reads.
 *
 * n is the number of buses, m of branches, k one more than the highest station
 * number (0 without buses), L the mesh length: corners_len, counted as at most
 * 24,576. docs/RULES.md of the repository has the rules of a drawing, and
 * docs/WORK.md what each work list holds.
 *
 * Link with target/staticlib/libexports.a, which reference/library builds, x86-64 Linux.
 */
#ifndef TANSYGATE_H
#define TANSYGATE_H

#include <stddef.h>
#include <stdint.h>

#ifdef __cplusplus
extern "C" {
#endif

/* Answers: 0, or the first refusal that applies (docs/RULES.md, 'Order of refusals'): they are tested
 * by their numbers, but 15 directly after 4, and 13 before 8 in the audit.
 * Where a call is refused, its result lists are as they were. After 1 to 7 and 15 the work lists are as
 * they were too; after every other answer they are zero throughout. */
enum {
    TANSYGATE_DONE = 0,               /* drawn or audited */
    TANSYGATE_TOO_MANY = 1,           /* above 4,096 buses, or above 8,192 branches */
    TANSYGATE_KV_LENGTH = 2,          /* kv and sub differ in length */
    TANSYGATE_TO_LENGTH = 3,          /* to and from differ in length */
    TANSYGATE_STATION_NUMBER = 4,     /* a station number of n or more */
    TANSYGATE_OPTION = 5,             /* an option is out of range */
    TANSYGATE_TOO_FAR = 6,            /* both coordinates of a bus are finite, one is beyond 10^12 */
    TANSYGATE_LIST_TOO_SHORT = 7,     /* a list is shorter than its needed length */
    TANSYGATE_ILL_SIZED = 8,          /* the longest side of the occupied stations' boxes is 0, or a corner of
                                         these, or in the audit a piece's end, divided by that side
                                         isn't within 2^40 */
    TANSYGATE_MESH = 9,               /* the mesh fails its test */
    TANSYGATE_CROSSINGS = 10,         /* more crossings, cleared walks counted, than the crossing list holds */
    TANSYGATE_PIECES = 11,            /* more pieces than the piece lists hold */
    TANSYGATE_NO_FIT = 13,            /* the drawing handed in doesn't belong to the network */
    TANSYGATE_VOLTAGE = 15,           /* a voltage that is 0, negative, infinite or NaN */
    TANSYGATE_NO_FILL = 18            /* of the 64 fills none is drawn with a free place for each box */
};

/* A twin that isn't there. */
#define TANSYGATE_NO_TWIN UINT32_C(4294967295)

/* Roles of branches. */
enum {
    TANSYGATE_LINE = 0,
    TANSYGATE_INTERNAL = 1,
    TANSYGATE_OPEN = 2                /* open or undrawn */
};

typedef struct {
    double fill;                      /* above 0, at most 16: typical box size, in median spacings */
    double tier_radius;               /* 0 to 1,000: neighbours are counted within so many spacings */
    uint32_t tier_count_1;            /* from so many neighbours a station is drawn at tier_scale_1, */
    uint32_t tier_count_2;            /* from so many at tier_scale_2 */
    double tier_scale_1;              /* 1/64 to 1 */
    double tier_scale_2;              /* 1/64 to 1 */
    int32_t search;                   /* 0 to 20: offsets either side of a seed */
    uint32_t route_iterations;        /* 0 to 100: rounds of channel spacing; 0 draws lines straight */
    /* the grid inside a box, in blocks (a block is the unit times the station's scale), each 0.5 to 8 */
    double bar_gap;                   /* from one bar to the next */
    double pad;                       /* from each side of a box to its bars and rows */
    double min_bar;                   /* the shortest bar; where min_bar / 2 is above pad + 0.5 a bar may leave its box */
    double buffer;                    /* kept free around each box */
} tansygate_settings;

/* The default options. */
#define TANSYGATE_DEFAULTS {0.45, 3.0, 12, 30, 2.0 / 3.0, 4.0 / 9.0, 10, 10, 2.0, 1.0, 2.0, 1.0}

/* Zeros where number isn't 0. */
typedef struct {
    uint32_t number;                  /* an answer */
    size_t pieces;                    /* so many pieces stand in pieces and branches */
    double unit;                      /* drawing units a block */
    double left, top, right, bottom;  /* bounds of the drawing */
} tansygate_plotted;

/* Draws a network into the lent lists. */
tansygate_plotted tansygate_plot(
    /* results */
    double *positions, size_t positions_len,                /* 2n: x and y of each bar's middle */
    double *bars, size_t bars_len,                          /* 4n: x0, y0, x1, y1 of each bus's bar */
    double *boxes, size_t boxes_len,                        /* 4k: left, top, right, bottom of each station's box */
    double *scales, size_t scales_len,                      /* k: each station's scale */
    uint8_t *roles, size_t roles_len,                       /* m: each branch's role */
    double *pieces, size_t pieces_len,                      /* any; 4 a piece: x0, y0, x1, y1 */
    uint32_t *branches, size_t branches_len,                /* any; 1 a piece: its branch */
    /* work lists */
    uint32_t *stations, size_t stations_len,                /* 2n */
    uint32_t *buses, size_t buses_len,                      /* 3n */
    uint32_t *ends, size_t ends_len,                        /* 4m + 4L + 4 */
    uint32_t *sorted, size_t sorted_len,                    /* n + 2m + L and at least 5n; also 1 a crossing */
    uint32_t *spare, size_t spare_len,                      /* n + 2m + L; also 1 a crossing */
    uint64_t *keys, size_t keys_len,                        /* n + 2m + L; also 1 a crossing */
    double *places, size_t places_len,                      /* 2n + 4m */
    double *blocks, size_t blocks_len,                      /* 3n */
    double *frames, size_t frames_len,                      /* 4n */
    double *path, size_t path_len,                          /* 2n + 3L + 16 */
    /* The crossing list: these three and sorted, spare and keys. It holds as many crossings as each of the six
       has room for; with 0 iterations or fewer than three occupied stations there are none. */
    uint32_t *crossing_numbers, size_t crossing_numbers_len, /* any; 3 a crossing */
    double *crossing_places, size_t crossing_places_len,    /* any; 1 a crossing */
    double *crossing_ways, size_t crossing_ways_len,        /* any; 2 a crossing */
    tansygate_settings options,
    /* the network */
    const uint32_t *sub, size_t sub_len,                    /* n: each bus's station */
    const uint64_t *kv, size_t kv_len,                      /* n: each bus's voltage, as the bits of a double */
    const int64_t *from, size_t from_len,                   /* m: each branch's first bus; one below 0 or from n up is unknown */
    const int64_t *to, size_t to_len,                       /* m: its second bus */
    const uint8_t *service, size_t service_len,             /* 0 open, else live; absent: live */
    const double *xy, size_t xy_len,                        /* 2 a bus: x and y, y down; absent or not finite: (0, 0) */
    /* a mesh over the occupied stations in the order of their numbers: three vertices a triangle, and the twin of each
       half-edge or TANSYGATE_NO_TWIN; both of one length, a multiple of 3, at most 24,576 */
    const uint32_t *corners, size_t corners_len,
    const uint32_t *twins, size_t twins_len);

/* Zeros where number isn't 0. */
typedef struct {
    uint32_t number;                  /* an answer */
    uint32_t sixty_fourths;           /* the fill, in sixty-fourths: 1 to 64 */
    size_t pieces;                    /* so many pieces stand in pieces and branches */
    double unit;                      /* drawing units a block */
    double left, top, right, bottom;  /* bounds of the drawing */
} tansygate_filled;

/* Draws a network with straight lines at the largest fill of 1/64 to 64/64 at which nothing refuses the drawing and
   every box finds a free place (docs/RULES.md, 'Largest fill'); TANSYGATE_NO_FILL where there is no such fill. The lists
   and what they hold are those of tansygate_plot; fill and route_iterations of the options aren't looked at. */
tansygate_filled tansygate_largest_fill(
    /* results */
    double *positions, size_t positions_len,                /* 2n: x and y of each bar's middle */
    double *bars, size_t bars_len,                          /* 4n: x0, y0, x1, y1 of each bus's bar */
    double *boxes, size_t boxes_len,                        /* 4k: left, top, right, bottom of each station's box */
    double *scales, size_t scales_len,                      /* k: each station's scale */
    uint8_t *roles, size_t roles_len,                       /* m: each branch's role */
    double *pieces, size_t pieces_len,                      /* any; 4 a piece: x0, y0, x1, y1 */
    uint32_t *branches, size_t branches_len,                /* any; 1 a piece: its branch */
    /* work lists */
    uint32_t *stations, size_t stations_len,                /* 2n */
    uint32_t *buses, size_t buses_len,                      /* 3n */
    uint32_t *ends, size_t ends_len,                        /* 4m + 4L + 4 */
    uint32_t *sorted, size_t sorted_len,                    /* n + 2m + L and at least 5n; also 1 a crossing */
    uint32_t *spare, size_t spare_len,                      /* n + 2m + L; also 1 a crossing */
    uint64_t *keys, size_t keys_len,                        /* n + 2m + L; also 1 a crossing */
    double *places, size_t places_len,                      /* 2n + 4m */
    double *blocks, size_t blocks_len,                      /* 3n */
    double *frames, size_t frames_len,                      /* 4n */
    double *path, size_t path_len,                          /* 2n + 3L + 16 */
    /* The crossing list: these three and sorted, spare and keys. It holds as many crossings as each of the six
       has room for; with 0 iterations or fewer than three occupied stations there are none. */
    uint32_t *crossing_numbers, size_t crossing_numbers_len, /* any; 3 a crossing */
    double *crossing_places, size_t crossing_places_len,    /* any; 1 a crossing */
    double *crossing_ways, size_t crossing_ways_len,        /* any; 2 a crossing */
    tansygate_settings options,
    /* the network */
    const uint32_t *sub, size_t sub_len,                    /* n: each bus's station */
    const uint64_t *kv, size_t kv_len,                      /* n: each bus's voltage, as the bits of a double */
    const int64_t *from, size_t from_len,                   /* m: each branch's first bus; one below 0 or from n up is unknown */
    const int64_t *to, size_t to_len,                       /* m: its second bus */
    const uint8_t *service, size_t service_len,             /* 0 open, else live; absent: live */
    const double *xy, size_t xy_len,                        /* 2 a bus: x and y, y down; absent or not finite: (0, 0) */
    /* a mesh over the occupied stations in the order of their numbers: three corners a triangle, and the twin of each
       half-edge or TANSYGATE_NO_TWIN; both of one length, a multiple of 3, at most 24,576 */
    const uint32_t *corners, size_t corners_len,
    const uint32_t *twins, size_t twins_len);

/* Zeros where number isn't 0. */
typedef struct {
    uint32_t number;                  /* an answer */
    size_t stations;                  /* occupied stations: so many figures stand in displacement and spacing */
    size_t overlaps;                  /* pairs of their boxes that overlap */
    size_t through;                   /* pieces of lines that run through a box of another station */
    size_t relative;                  /* so many lengths stand in relative */
} tansygate_audited;

/* Audits a drawing of a network as tansygate_plot left it, or any other. */
tansygate_audited tansygate_audit(
    /* results */
    double *displacement, size_t displacement_len,          /* k: each occupied station's distance from seed to box middle */
    double *spacing, size_t spacing_len,                    /* k: its distance to the nearest other, in shorter sides of its box */
    double *relative, size_t relative_len,                  /* one a piece: each stretch's drawn length over its straight length */
    /* work lists */
    uint32_t *stations, size_t stations_len,                /* 2n */
    uint32_t *index, size_t index_len,                      /* 5n */
    uint32_t *spare, size_t spare_len,                      /* n */
    uint64_t *keys, size_t keys_len,                        /* n */
    double *points, size_t points_len,                      /* 2n */
    double *path, size_t path_len,                          /* 2n */
    /* the network, as above, and the drawing */
    const uint32_t *sub, size_t sub_len,
    const uint64_t *kv, size_t kv_len,
    const int64_t *from, size_t from_len,
    const int64_t *to, size_t to_len,
    const double *xy, size_t xy_len,
    const double *boxes, size_t boxes_len,                  /* 4k exactly */
    const uint8_t *roles, size_t roles_len,                 /* m exactly */
    const double *pieces, size_t pieces_len,                /* 4 a piece exactly */
    const uint32_t *branches, size_t branches_len);         /* one a piece */

/* The root of x * x + y * y, correctly rounded. */
double tansygate_hypot(double x, double y);

/* Writes each point's least positive distance to another to the front of out (infinity where there is none);
   gives how many points that are: as many as points has pairs of numbers and out has room for. */
size_t tansygate_nearest(double *out, size_t out_len, const double *points, size_t points_len);

#ifdef __cplusplus
}
#endif
#endif
