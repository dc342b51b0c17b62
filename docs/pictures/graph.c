/*
 * Graphs in levels: see graph.h. Whole numbers only, so that the layout is the same everywhere; averages
 * are counted in parts of a place or of a pixel, FINE of them to one.
 */
#include "graph.h"

#include <stddef.h>
#include <string.h>

enum { SWEEPS = 24, SETTLINGS = 200, BOX_LEAST = 78, BEND_WIDE = 10, GAP = 10, FINE = 64 };

/* ---- what it is made of */

int add_node(struct graph *graph, const char *name, int level, enum look look)
{
    if (graph->count == NODES_MOST || level < 0 || level >= LEVELS_MOST)
        fail("the graph has too many boxes or levels");
    int place = graph->row_count[level]++;
    graph->nodes[graph->count] = (struct node){ name, look, level, place, 0 };
    graph->rows[level][place] = graph->count;
    if (level >= graph->levels)
        graph->levels = level + 1;
    return graph->count++;
}

void add_edge(struct graph *graph, int upper, int lower, int upward)
{
    if (graph->edge_count == EDGES_MOST || graph->nodes[upper].level <= graph->nodes[lower].level)
        fail("the graph has too many arrows, or one that doesn't lead to a lower level");
    struct edge *edge = &graph->edges[graph->edge_count++];
    edge->upward = upward;
    edge->count = 0;
    edge->stops[edge->count++] = upper;
    for (int level = graph->nodes[upper].level - 1; level > graph->nodes[lower].level; level--)
        edge->stops[edge->count++] = add_node(graph, NULL, level, PLAIN);
    edge->stops[edge->count++] = lower;
}

/* The neighbours of a node on the level below, on the one above, or on both; returns how many. */
static int neighbours(const struct graph *graph, int node, int below, int above, int *found)
{
    int count = 0;
    for (int e = 0; e < graph->edge_count; e++) {
        const struct edge *edge = &graph->edges[e];
        for (int i = 0; i < edge->count; i++) {
            if (edge->stops[i] != node)
                continue;
            if (below && i + 1 < edge->count)
                found[count++] = edge->stops[i + 1];
            if (above && i > 0)
                found[count++] = edge->stops[i - 1];
        }
    }
    return count;
}

/* ---- order within the levels */

/* How often parts of arrows cross that lead from one level to the one below. */
static int crossings_below(const struct graph *graph, int level)
{
    int count = 0, lower[2][EDGES_MOST];
    for (int i = 0; i < graph->row_count[level]; i++) {
        int many = neighbours(graph, graph->rows[level][i], 1, 0, lower[0]);
        for (int j = 0; j < i; j++) {
            int others = neighbours(graph, graph->rows[level][j], 1, 0, lower[1]);
            for (int k = 0; k < many * others; k++)
                count += graph->nodes[lower[0][k / others]].place < graph->nodes[lower[1][k % others]].place;
        }
    }
    return count;
}

/* How often all arrows cross. */
static int crossings(const struct graph *graph)
{
    int count = 0;
    for (int level = 1; level < graph->levels; level++)
        count += crossings_below(graph, level);
    return count;
}

/* Exchanges a node of a level with the next one. */
static void exchange(struct graph *graph, int level, int place)
{
    int *row = graph->rows[level];
    int left = row[place];
    row[place] = row[place + 1];
    row[place + 1] = left;
    graph->nodes[row[place]].place = place;
    graph->nodes[row[place + 1]].place = place + 1;
}

/* The average place of a node's neighbours on one side; where it has none, its own place. */
static int wish(const struct graph *graph, int node, int below)
{
    int found[EDGES_MOST], sum = 0;
    int count = neighbours(graph, node, below, !below, found);
    for (int i = 0; i < count; i++)
        sum += graph->nodes[found[i]].place;
    return count ? FINE * sum / count : FINE * graph->nodes[node].place;
}

/* Sorts a level by what its nodes wish. */
static void sort_level(struct graph *graph, int level, int below)
{
    int wishes[NODES_MOST], count = graph->row_count[level];
    for (int i = 0; i < count; i++)
        wishes[graph->rows[level][i]] = wish(graph, graph->rows[level][i], below);
    for (int end = count - 1; end > 0; end--)
        for (int i = 0; i < end; i++)
            if (wishes[graph->rows[level][i]] > wishes[graph->rows[level][i + 1]])
                exchange(graph, level, i);
}

/* Exchanges neighbours as long as that takes a crossing away. */
static void untangle(struct graph *graph)
{
    for (int now = crossings(graph), before = now + 1; now < before;) {
        before = now;
        for (int level = 0; level < graph->levels; level++)
            for (int i = 0; i + 1 < graph->row_count[level]; i++) {
                exchange(graph, level, i);
                int then = crossings(graph);
                if (then < now)
                    now = then;
                else
                    exchange(graph, level, i);
            }
    }
}

/* Sweeps up by the neighbours below, down by those above, and keeps the best order met. */
static void order(struct graph *graph)
{
    struct graph best = *graph;
    int fewest = crossings(graph);
    for (int sweep = 0; sweep < SWEEPS; sweep++) {
        int up = sweep % 2 == 0;
        for (int i = 1; i < graph->levels; i++)
            sort_level(graph, up ? i : graph->levels - 1 - i, up);
        untangle(graph);
        int now = crossings(graph);
        if (now < fewest) {
            fewest = now;
            best = *graph;
        }
    }
    *graph = best;
}

/* ---- places across */

/* How much room a node takes: a box as much as its name needs, and not less than most do. */
static int width_of(const struct node *node)
{
    if (!node->name)
        return BEND_WIDE;
    int wide = text_width(NAME, node->name) + 6;
    return wide > BOX_LEAST ? wide + wide % 2 : BOX_LEAST;
}

/* How much it counts that two neighbours stand one above the other: most between two bends. */
static int pull(const struct node *one, const struct node *other)
{
    return (one->name ? 1 : 8) * (other->name ? 1 : 8);
}

/* The average x of all neighbours of a node. */
static int wished_x(const struct graph *graph, int node)
{
    int found[EDGES_MOST], sum = 0, weight = 0;
    int count = neighbours(graph, node, 1, 1, found);
    for (int i = 0; i < count; i++) {
        const struct node *other = &graph->nodes[found[i]];
        sum += pull(&graph->nodes[node], other) * other->x;
        weight += pull(&graph->nodes[node], other);
    }
    return weight ? sum / weight : graph->nodes[node].x;
}

/* Nodes of a level that stand as close as they may, so that only their common average counts. */
struct group {
    int first, weight, sum;
};

/* Joins the last groups as long as one would stand left of the one before it; returns how many are left. */
static int join_last(struct group *groups, int count)
{
    for (; count > 1; count--) {
        struct group *one = &groups[count - 2], *other = &groups[count - 1];
        if (one->sum * other->weight <= other->sum * one->weight)
            break;
        one->weight += other->weight;
        one->sum += other->sum;
    }
    return count;
}

/* Moves a level's nodes as near to their wishes as their widths allow; bends weigh more. */
static void settle(struct graph *graph, int level)
{
    struct group groups[NODES_MOST];
    int offsets[NODES_MOST], count = 0, offset = 0, places = graph->row_count[level];
    const struct node *last = NULL;
    for (int i = 0; i < places; i++) {
        const struct node *node = &graph->nodes[graph->rows[level][i]];
        if (last)
            offset += FINE * ((width_of(last) + width_of(node)) / 2 + GAP);
        last = node;
        offsets[i] = offset;
        int weight = node->name ? 1 : 4;
        int wished = wished_x(graph, graph->rows[level][i]) - offset;
        groups[count++] = (struct group){ i, weight, weight * wished };
        count = join_last(groups, count);
    }
    for (int g = 0; g < count; g++)
        for (int i = groups[g].first; i < (g + 1 < count ? groups[g + 1].first : places); i++)
            graph->nodes[graph->rows[level][i]].x = groups[g].sum / groups[g].weight + offsets[i];
}

/* Counts in pixels from here on, moves the graph so that its left edge is 0, and notes its width. */
static void trim(struct graph *graph)
{
    int least = 0, most = 0;
    for (int i = 0; i < graph->count; i++) {
        struct node *node = &graph->nodes[i];
        node->x /= FINE;
        if (i == 0 || node->x - width_of(node) / 2 < least)
            least = node->x - width_of(node) / 2;
        if (i == 0 || node->x + width_of(node) / 2 > most)
            most = node->x + width_of(node) / 2;
    }
    for (int i = 0; i < graph->count; i++)
        graph->nodes[i].x -= least;
    graph->width = most - least;
}

void lay_out(struct graph *graph)
{
    order(graph);
    for (int time = 0; time < SETTLINGS; time++)
        for (int i = 0; i < graph->levels; i++)
            settle(graph, time % 2 ? graph->levels - 1 - i : i);
    trim(graph);
}

/* ---- the drawing */

/* Reverses the order of points. */
static void turn(int count, int points[][2])
{
    for (int i = 0; i < count / 2; i++) {
        int kept[2];
        memcpy(kept, points[i], sizeof kept);
        memcpy(points[i], points[count - 1 - i], sizeof kept);
        memcpy(points[count - 1 - i], kept, sizeof kept);
    }
}

/* An arrow: out of a box, straight through the levels where it bends, into the other box. */
static void draw_edge(const struct graph *graph, const struct edge *edge, int left, int lowest, int step)
{
    int points[2 * LEVELS_MOST][2], count = 0;
    for (int i = 0; i < edge->count; i++) {
        const struct node *node = &graph->nodes[edge->stops[i]];
        int top = lowest - step * node->level;
        if (i > 0) {
            points[count][0] = left + node->x;
            points[count++][1] = top;
        }
        if (i + 1 < edge->count) {
            points[count][0] = left + node->x;
            points[count++][1] = top + BOX_HIGH;
        }
    }
    if (edge->upward)
        turn(count, points);
    curve(count, points, PLAIN);
}

void draw_graph(const struct graph *graph, int left, int lowest, int step)
{
    for (int e = 0; e < graph->edge_count; e++)
        draw_edge(graph, &graph->edges[e], left, lowest, step);
    for (int i = 0; i < graph->count; i++) {
        const struct node *node = &graph->nodes[i];
        int wide = width_of(node), x = left + node->x - wide / 2, y = lowest - step * node->level;
        if (node->name)
            box1(x, y, wide, BOX_HIGH, node->look, node->name);
    }
}
