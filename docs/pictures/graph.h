/*
 * Graphs in levels: boxes by level, arrows between levels, none through a box.
 *
 * An arrow over more than one level bends once in each level between. The order within a level is
 * the one with the fewest crossings that some sweeps find, by the average place of the neighbours.
 */
#ifndef GRAPH_H
#define GRAPH_H

#include "svg.h"

enum { NODES_MOST = 200, LEVELS_MOST = 32, EDGES_MOST = 200, BOX_HIGH = 30 };

struct node {
    const char *name; /* NULL where an arrow bends */
    enum look look;
    int level; /* from 0, the lowest */
    int place; /* from 0, the leftmost of its level */
    int x;     /* of its middle, from the graph's left edge */
};

struct edge {
    int stops[LEVELS_MOST]; /* nodes from the upper end to the lower one, a level each */
    int count;
    int upward; /* whether the arrow's tip is at the upper end */
};

struct graph {
    struct node nodes[NODES_MOST];
    int count;
    struct edge edges[EDGES_MOST];
    int edge_count;
    int rows[LEVELS_MOST][NODES_MOST]; /* the nodes of each level, by place */
    int row_count[LEVELS_MOST];
    int levels;
    int width;
};

/* Adds a box, or a bend without a name, and returns its number. */
int add_node(struct graph *graph, const char *name, int level, enum look look);

/* Adds an arrow between two boxes, the upper one on a higher level. */
void add_edge(struct graph *graph, int upper, int lower, int upward);

/* Gives every node its place and x. */
void lay_out(struct graph *graph);

/* Draws it, with the top of its lowest boxes at a height and its levels a step apart. */
void draw_graph(const struct graph *graph, int left, int lowest, int step);

#endif
