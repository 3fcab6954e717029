/* See fig4.h. The first part keeps the names and the steps of the figure. */
#include "fig4.h"

#include <string.h>

/* ------------------------------------------------------------ the binary tree

   As the paper says: pins are added to the wires at the sinks, zero-length edges make branch
   points of two ways, and points of one way are left out. Labels, in the order plus, minus. */

struct vertex {
    int64_t stem;                        /* l(u, v): what is left of the edge to the parent */
    int64_t label[2];
    uint64_t n[2];
    int x1, x2;                          /* -1 at a sink */
    int64_t whole, pin;                  /* the stem as it was; the pin within it */
    bool made;                           /* a zero-length edge that is no wire of the net */
    uint8_t polarity;
};

struct tree {
    int64_t limit, buffer;               /* C_U, C_b */
    int vertices;
    struct vertex v[2 * PLACES];
};

static const int64_t INFINITE = INT64_MAX / 4;

static int new_vertex(struct tree *t, struct vertex v)
{
    t->v[t->vertices] = v;
    return t->vertices++;
}

/* The vertex whose stem ends at each node's parent. */
static int build(struct tree *t, const struct columns *net)
{
    int top[PLACES];
    memset(top, -1, sizeof top);
    for (size_t node = net->places - 1; node > 0; node--) {
        int here = top[node];
        if (net->kind[node] == 1)
            here = new_vertex(t, (struct vertex){.x1 = -1, .x2 = -1, .pin = net->pin[node],
                                                 .stem = net->pin[node],
                                                 .polarity = net->polarity[node]});
        t->v[here].stem += net->wire[node];
        t->v[here].made = false;
        int *up = &top[net->parent[node]];
        *up = *up < 0 ? here : new_vertex(t, (struct vertex){.x1 = *up, .x2 = here, .made = true});
    }
    for (int i = 0; i < t->vertices; i++)
        t->v[i].whole = t->v[i].stem;
    return top[0];
}

/* ------------------------------------------------------------ bottom-up, as printed */

static void reduce_stem(struct tree *t, struct vertex *v)
{
    v->n[0] = v->n[1] = 0;
    while (v->stem > t->limit) {
        v->n[0]++;
        v->n[1]++;
        v->stem -= t->limit - t->buffer;
        int64_t swap = v->label[0];
        v->label[0] = v->label[1];
        v->label[1] = swap;
    }
}

static int64_t stem_with(const struct tree *t, const struct vertex *x, int sigma, int buffers)
{
    int64_t left = x->stem + x->label[sigma] - buffers * (t->limit - t->buffer);
    return left > 0 ? left : 0;
}

struct choice { int64_t label; int i, j; };

static struct choice best_choice(const struct tree *t, const struct vertex *v, int sigma)
{
    struct choice best = {INFINITE, 0, 0};
    for (int i = 0; i <= 2; i++)
        for (int j = 0; j <= 2; j++) {
            int64_t label = stem_with(t, &t->v[v->x1], sigma, i)
                          + stem_with(t, &t->v[v->x2], sigma, j);
            if (label > t->limit)
                continue;
            label += (i + j) * t->limit;
            if (label < best.label)
                best = (struct choice){label, i, j};
        }
    return best;
}

static bool collapse_fork(struct tree *t, struct vertex *v)
{
    struct choice c[2] = {best_choice(t, v, 0), best_choice(t, v, 1)};
    int mu = c[1].label < c[0].label, other = !mu;
    if (c[mu].label == INFINITE)
        return false;
    if (c[other].label > c[mu].label + t->limit)
        c[other] = (struct choice){c[mu].label + t->limit, c[mu].i, c[mu].j};
    for (int sigma = 0; sigma < 2; sigma++) {
        t->v[v->x1].n[sigma] += (uint64_t)c[sigma].i;
        t->v[v->x2].n[sigma] += (uint64_t)c[sigma].j;
        v->label[sigma] = c[sigma].label - (c[sigma].i + c[sigma].j) * t->limit;
    }
    v->stem += v->label[mu];
    v->label[other] -= v->label[mu];
    v->label[mu] = 0;
    reduce_stem(t, v);
    return true;
}

/* Vertices are made children first, so their order is one of collapsing. */
static bool bottom_up(struct tree *t)
{
    for (int i = 0; i < t->vertices; i++) {
        struct vertex *v = &t->v[i];
        if (v->x1 >= 0) {
            if (!collapse_fork(t, v))
                return false;
            continue;
        }
        v->label[0] = v->polarity == 0 ? 0 : t->limit;
        v->label[1] = t->limit - v->label[0];
        reduce_stem(t, v);
    }
    return true;
}

/* ------------------------------------------------------------ top-down, and is it legal */

struct result { uint64_t count; bool legal; };

struct walk { struct tree *t; bool turned; int parity; struct result result; };

/* What a stem with n inverters hands up when each stands as high as its load allows: no other
   way to set n of them hands up less. */
static int64_t hand_up(struct walk *w, const struct vertex *v, int64_t below, uint64_t n)
{
    int64_t size = v->whole - v->pin, from = 0;
    if (v->made && n > 0)
        w->result.legal = false;
    for (; n > 0; n--) {
        if (below > w->t->limit)
            w->result.legal = false;
        int64_t high = from + w->t->limit - below;
        from = high < from ? from : high < size ? high : size;
        below = w->t->buffer;
        if (from == size && n > 2)
            n -= (n - 1) / 2 * 2;        /* the rest stand at the upper end, all alike */
    }
    return size - from + below;
}

static int64_t descend(struct walk *w, int at, int mu, uint64_t above)
{
    const struct vertex *v = &w->t->v[at];
    uint64_t n = v->n[mu];
    bool change = w->turned ? n % 2 == 1 : n % 2 == 0;
    int sigma = change ? !mu : mu;
    int64_t below = v->pin;
    w->result.count += n;
    above += n;
    if (v->x1 >= 0) {
        below = descend(w, v->x1, sigma, above);
        below += descend(w, v->x2, sigma, above);
    } else {
        int parity = (int)((above + v->polarity) % 2);
        if (w->parity == -1)
            w->parity = parity;
        if (w->parity != parity)
            w->result.legal = false;
    }
    return hand_up(w, v, below, n);
}

struct fig4 fig4_as_printed(const struct limits *limits, const struct columns *net, bool turned)
{
    static struct tree t;
    t.limit = limits->limit;
    t.buffer = limits->pin;
    t.vertices = 0;
    int root = build(&t, net);
    if (!bottom_up(&t))
        return (struct fig4){false, false, 0};
    struct walk w = {&t, turned, -1, {0, true}};
    int mu = t.v[root].label[0] == 0 ? 0 : 1;
    if (descend(&w, root, mu, 0) > t.limit)
        w.result.legal = false;
    return (struct fig4){true, w.result.legal, w.result.count};
}

/* ------------------------------------------------------------ one label a polarity, legal */

static const uint64_t NONE = UINT64_MAX;

struct label { uint64_t count; int64_t load; };

/* row[e]: the least load of the children joined so far with e inverters beyond their least. */
struct row { uint64_t sum; int64_t least[2 * 8 + 1]; int last; };

/* A child wire hands up its label's load, or C_b for `extra` more inverters. */
static void join_label(struct row *row, struct label label, uint64_t extra, int64_t buffer)
{
    struct row old = *row;
    if (old.sum == NONE || label.count == NONE) {
        row->sum = NONE;
        return;
    }
    row->sum += label.count;
    row->last = old.last + (int)extra;
    for (int e = 0; e <= row->last; e++) {
        int keep = e < old.last ? e : old.last;
        row->least[e] = old.least[keep] + label.load;
        int less = e - (int)extra;
        if (less >= 0 && old.least[less] + buffer < row->least[e])
            row->least[e] = old.least[less] + buffer;
    }
}

static struct label node_label(const struct row *row, int64_t limit)
{
    if (row->sum == NONE)
        return (struct label){NONE, 0};
    for (int e = 0; e <= row->last; e++)
        if (row->least[e] <= limit)
            return (struct label){row->sum + (uint64_t)e, row->least[e]};
    return (struct label){NONE, 0};
}

/* The label at a wire's top for polarity p, from the labels at its lower node. */
static struct label wire_label(const struct limits *limits, int64_t size,
                               const struct label below[2], int p)
{
    int64_t limit = limits->limit, buffer = limits->pin;
    struct label best = {NONE, 0};
    for (int q = 0; q < 2; q++) {
        if (below[q].count == NONE)
            continue;
        int64_t whole = size + below[q].load;
        int64_t n = whole <= limit ? 0 : (whole - limit + limit - buffer - 1) / (limit - buffer);
        n += n % 2 != (p ^ q);
        int64_t load = whole - n * (limit - buffer);
        load = n > 0 && load < buffer ? buffer : load;
        struct label now = {below[q].count + (uint64_t)n, load};
        if (now.count < best.count || (now.count == best.count && now.load < best.load))
            best = now;
    }
    return best;
}

uint64_t one_label_count(const struct limits *limits, const struct columns *net)
{
    static struct row row[PLACES][2];
    struct label at[2], top[2];
    memset(row, 0, sizeof row);
    for (size_t node = net->places - 1; node > 0; node--) {
        for (int p = 0; p < 2; p++) {
            bool sink = net->kind[node] == 1;
            bool fits = p == net->polarity[node] && net->pin[node] <= limits->limit;
            at[p] = !sink ? node_label(&row[node][p], limits->limit)
                          : (struct label){fits ? 0 : NONE, net->pin[node]};
        }
        for (int p = 0; p < 2; p++)
            top[p] = wire_label(limits, net->wire[node], at, p);
        for (int p = 0; p < 2; p++) {
            /* Two more, or one on top of the other polarity's label where that is less. */
            uint64_t extra = top[!p].count + 1 < top[p].count + 2 ? top[!p].count + 1 - top[p].count
                                                                  : 2;
            join_label(&row[net->parent[node]][p], top[p], extra, limits->pin);
        }
    }
    struct label plus = node_label(&row[0][0], limits->limit);
    struct label minus = node_label(&row[0][1], limits->limit);
    return plus.count < minus.count ? plus.count : minus.count;
}
