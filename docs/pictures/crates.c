/* The crates and what they use, from crates.txt: the libraries, and beside them the programs. */
#include "draw.h"
#include "graph.h"
#include "svg.h"

#include <stdio.h>
#include <string.h>

enum { CRATES_MOST = 64, NAME_MOST = 32, OUTER_MOST = 8, STEP = 62 };

static char names[CRATES_MOST][NAME_MOST];
static int count;
static int uses[CRATES_MOST][CRATES_MOST];    /* as crates.txt says */
static int reaches[CRATES_MOST][CRATES_MOST]; /* directly or over others */

/* Crates that are used but not listed: they come with the toolchain. */
static char outer[OUTER_MOST][NAME_MOST];
static int outer_count;

/* Whether a crate is a program, or used by programs alone. */
static int with_programs[CRATES_MOST];

/* ---- reading */

/* The number of a crate that was listed, or -1. */
static int find(const char *name)
{
    for (int i = 0; i < count; i++)
        if (strcmp(names[i], name) == 0)
            return i;
    return -1;
}

/* Copies a name into a list that has room for so many. */
static void keep(char list[][NAME_MOST], int *length, int most, const char *name)
{
    if (*length == most || strlen(name) >= NAME_MOST)
        fail(say("crates.txt has too many names, or a long one: %s", name));
    strcpy(list[(*length)++], name);
}

/* Notes that a crate uses another one. */
static void note_use(int crate, const char *name)
{
    int used = find(name);
    if (used >= 0) {
        uses[crate][used] = 1;
        return;
    }
    for (int i = 0; i < outer_count; i++)
        if (strcmp(outer[i], name) == 0)
            return;
    keep(outer, &outer_count, OUTER_MOST, name);
}

/* Reads one line: a crate, a colon, the crates that it uses. */
static void read_line(char *words)
{
    words[strcspn(words, "#\n")] = 0;
    char *colon = strchr(words, ':');
    if (!colon)
        return;
    *colon = 0;
    words[strcspn(words, " \t")] = 0;
    int crate = count;
    for (char *name = strtok(colon + 1, " \t"); name; name = strtok(NULL, " \t"))
        note_use(crate, name);
    keep(names, &count, CRATES_MOST, words);
}

/* Reads crates.txt, in which a crate stands below those that it uses. */
static void read_crates(void)
{
    char words[1024];
    FILE *file = fopen("crates.txt", "r");
    if (!file)
        fail("there is no crates.txt in this folder");
    while (fgets(words, sizeof words, file))
        read_line(words);
    fclose(file);
    for (int i = 0; i < outer_count; i++)
        if (find(outer[i]) >= 0)
            fail(say("crates.txt uses %s above its line", outer[i]));
}

/* ---- what follows from it */

/* Finds what each crate reaches; those that it uses stand above it, so they are done before. */
static void find_reach(void)
{
    for (int i = 0; i < count; i++)
        for (int j = 0; j < i; j++) {
            if (!uses[i][j])
                continue;
            reaches[i][j] = 1;
            for (int k = 0; k < j; k++)
                reaches[i][k] |= reaches[j][k];
        }
}

/* Whether a crate is a program: it has a main file. */
static int is_program(int crate)
{
    FILE *file = fopen(say("crates/%s/src/main.rt", names[crate]), "r");
    if (file)
        fclose(file);
    return file != NULL;
}

/* Whether a use is drawn: none of the others leads to it. */
static int is_drawn(int crate, int used)
{
    for (int over = 0; over < count; over++)
        if (uses[crate][over] && reaches[over][used])
            return 0;
    return uses[crate][used];
}

/* The programs, and what only they use. */
static void find_programs(void)
{
    for (int i = 0; i < count; i++)
        with_programs[i] = is_program(i);
    for (int i = count - 1; i >= 0; i--) {
        int users = 0, others = 0;
        for (int j = i + 1; j < count; j++) {
            users += uses[j][i];
            others += uses[j][i] && !with_programs[j];
        }
        with_programs[i] |= users > 0 && others == 0;
    }
}

/* The longest way from a crate down to one that uses none, among the libraries or the programs'. */
static int level_of(int crate)
{
    int level = 0;
    for (int used = 0; used < crate; used++)
        if (uses[crate][used] && with_programs[used] == with_programs[crate] && level_of(used) >= level)
            level = level_of(used) + 1;
    return level;
}

/* ---- the two graphs */

/* The libraries; the crate that C hosts link against is marked. */
static struct graph *library_graph(void)
{
    static struct graph graph;
    int nodes[CRATES_MOST];
    for (int i = 0; i < count; i++) {
        if (with_programs[i])
            continue;
        nodes[i] = add_node(&graph, names[i], level_of(i), strcmp(names[i], "rasppuce_c") ? PLAIN : MARKED);
        for (int j = 0; j < i; j++)
            if (is_drawn(i, j))
                add_edge(&graph, nodes[i], nodes[j], 0);
    }
    return &graph;
}

/* Whether another crate uses this one. */
static int is_used(int crate)
{
    for (int i = 0; i < count; i++)
        if (uses[i][crate])
            return 1;
    return 0;
}

/* The level of the programs: above all that they share, and above the libraries below that. */
static int program_level(void)
{
    int level = 1;
    for (int i = 0; i < count; i++)
        if (with_programs[i] && is_used(i) && level_of(i) + 2 > level)
            level = level_of(i) + 2;
    return level;
}

/*
 * The programs, and below them what they share. A library that one of these crates uses is drawn once
 * more, pale: above a program, and below a shared crate.
 */
static struct graph *program_graph(void)
{
    static struct graph graph;
    int nodes[CRATES_MOST];
    for (int i = 0; i < count; i++) {
        if (!with_programs[i])
            continue;
        int level = is_used(i) ? level_of(i) + 1 : program_level();
        nodes[i] = add_node(&graph, names[i], level, PLAIN);
        for (int j = 0; j < i; j++) {
            if (!is_drawn(i, j))
                continue;
            if (with_programs[j])
                add_edge(&graph, nodes[i], nodes[j], 0);
            else if (is_used(i))
                add_edge(&graph, nodes[i], add_node(&graph, names[j], level - 1, PALE), 0);
            else
                add_edge(&graph, add_node(&graph, names[j], level + 1, PALE), nodes[i], 1);
        }
    }
    return &graph;
}

/* ---- the picture */

/* What the arrows and the looks mean, and what is left out. */
static void draw_words(int x, int y)
{
    char list[OUTER_MOST * (NAME_MOST + 5)] = "";
    for (int i = 0; i < outer_count; i++) {
        if (i > 0)
            strcat(list, i + 1 < outer_count ? ", " : " and ");
        strcat(list, outer[i]);
    }
    text(x, y, START, NOTE, "An arrow leads to a crate that is used.");
    text(x, y + 20, START, NOTE, "None is drawn where longer ways lead there too.");
    box(x, y + 42, 26, 16, MARKED);
    text(x + 36, y + 55, START, NOTE, "the C calls: what hosts link against");
    box(x, y + 68, 26, 16, PALE);
    text(x + 36, y + 81, START, NOTE, "a library once more, where it is used");
    if (outer_count > 0)
        text(x, y + 110, START, NOTE, say("Left out: %s, of the toolchain.", list));
}

/* The whole picture. */
void draw_crates(void)
{
    enum { LEFT = 24, TOP = 76, BETWEEN = 20 };
    int wide = 1200;
    read_crates();
    find_reach();
    find_programs();
    struct graph *libraries = library_graph(), *programs = program_graph();
    lay_out(libraries);
    lay_out(programs);

    if (wide < libraries->width + 2 * LEFT)
        wide = libraries->width + 2 * LEFT;
    if (wide < programs->width + 2 * LEFT)
        wide = programs->width + 2 * LEFT;

    /* the programs stand beside the libraries; where there is no room, below them */
    int lowest = TOP + STEP * (libraries->levels - 1), across = wide - LEFT - programs->width, top = TOP;
    if (across < LEFT + libraries->width + BETWEEN) {
        across = LEFT;
        top = lowest + 2 * STEP;
    }
    int words = top + STEP * programs->levels + 40, bottom = words + 124;
    begin_picture(wide, bottom > lowest + STEP ? bottom : lowest + STEP, "The crates",
                  say("%d crates by level, the lowest at the bottom, with arrows to those that each uses.",
                      count));
    text(LEFT, 36, START, HEADING, "The crates");
    text(LEFT, TOP - 16, START, NOTE, "Libraries");
    draw_graph(libraries, LEFT, lowest, STEP);
    text(across, top - 16, START, NOTE, "Programs");
    draw_graph(programs, across, top + STEP * (programs->levels - 1), STEP);
    draw_words(across, words);
    end_picture();
}
