/* peer - a plain float rasterizer in C, on one thread: what a user without GL would
 * write.  It reads a play from standard input and writes P6 pictures to standard output.
 * usage: peer [--no-write] < play > frames; a line of times goes to standard error. */
#define _POSIX_C_SOURCE 199309L
#include "play.h"
#include <math.h>
#include <time.h>

#define UNIT 4096.0f
typedef struct { float m[3][3], t[3]; } mat;           /* row vectors: v * m + t */
typedef struct { float lo[3], hi[3]; int some; } box;
typedef struct { uint16_t *p; int n, room; } ids;
typedef struct {
    int op, state, sw, running, held, nranges, ntimes, euler, dirty;
    int32_t since, a[3], scale, h, p, r, times[256];
    float ranges[257], centre[3]; uint32_t first, n;
    mat pose; box bound; ids kids, ups;
} node;

static struct play pl;
static node *nodes[65536];
static float (*verts)[3]; static float *zbuf; static uint8_t *pix;
static mat eye; static int now_, quiet; static long drawn_tris, shown;

static mat mul(const mat *a, const mat *b) {
    mat r; int i, j;
    for (i = 0; i < 3; i++) for (j = 0; j < 3; j++)
        r.m[i][j] = a->m[i][0] * b->m[0][j] + a->m[i][1] * b->m[1][j] + a->m[i][2] * b->m[2][j];
    for (j = 0; j < 3; j++)
        r.t[j] = a->t[0] * b->m[0][j] + a->t[1] * b->m[1][j] + a->t[2] * b->m[2][j] + b->t[j];
    return r;
}
static void put(const mat *m, const float *v, float *o) {
    int j;
    for (j = 0; j < 3; j++) o[j] = v[0] * m->m[0][j] + v[1] * m->m[1][j] + v[2] * m->m[2][j] + m->t[j];
}
static mat ident(void) { mat r; memset(&r, 0, sizeof r); r.m[0][0] = r.m[1][1] = r.m[2][2] = 1; return r; }
static mat turn(int axis, int32_t x) {
    mat r = ident(); int i = (axis + 1) % 3, j = (axis + 2) % 3;
    float s = (float)play_sin(x), c = (float)play_cos(x);
    r.m[i][i] = c; r.m[i][j] = s; r.m[j][i] = -s; r.m[j][j] = c; return r;
}
static void set_pose(node *n) {
    mat m = ident(), k; int i;
    for (i = 0; i < 3; i++) m.m[i][i] = (float)n->scale / 65536.0f;
    k = turn(1, n->r); m = mul(&m, &k); k = turn(0, n->p); m = mul(&m, &k); k = turn(2, n->h); m = mul(&m, &k);
    for (i = 0; i < 3; i++) m.t[i] = (float)n->a[i] / UNIT;
    n->pose = m;
}

static void grow(box *b, const float *lo, const float *hi) {
    int j;
    if (!b->some) { memcpy(b->lo, lo, sizeof b->lo); memcpy(b->hi, hi, sizeof b->hi); b->some = 1; return; }
    for (j = 0; j < 3; j++) { if (lo[j] < b->lo[j]) b->lo[j] = lo[j]; if (hi[j] > b->hi[j]) b->hi[j] = hi[j]; }
}
static box carry(const mat *m, const box *b) {
    box r = *b; int i, j;
    if (!b->some) return r;
    for (j = 0; j < 3; j++) {
        float lo = m->t[j], hi = m->t[j];
        for (i = 0; i < 3; i++) {
            float p = m->m[i][j] * b->lo[i], q = m->m[i][j] * b->hi[i];
            if (p < q) { lo += p; hi += q; } else { lo += q; hi += p; }
        }
        r.lo[j] = lo; r.hi[j] = hi;
    }
    return r;
}
static void dirty(node *n) {
    int i;
    if (n->dirty) return;
    n->dirty = 1;
    for (i = 0; i < n->ups.n; i++) dirty(nodes[n->ups.p[i]]);
}
static const box *bound(node *n) {
    int i; uint32_t k;
    if (!n->dirty) return &n->bound;
    n->bound.some = 0;
    if (n->op == OP_GEODE)
        for (k = 0; k < 3 * n->n; k++) grow(&n->bound, verts[3 * n->first + k], verts[3 * n->first + k]);
    for (i = 0; i < n->kids.n; i++) {
        const box *b = bound(nodes[n->kids.p[i]]);
        if (b->some) grow(&n->bound, b->lo, b->hi);
    }
    if (n->op == OP_DCS || n->op == OP_SCS) n->bound = carry(&n->pose, &n->bound);
    n->dirty = 0;
    return &n->bound;
}
static int outside(const box *b) {
    float w, h;
    if (!b->some || b->hi[1] < (float)pl.nearv / UNIT || b->lo[1] > (float)pl.farv / UNIT) return 1;
    w = b->hi[1] * (float)(pl.w - 1); h = b->hi[1] * (float)(pl.h - 1);
    return 2 * pl.f * b->lo[0] > w || -2 * pl.f * b->hi[0] > w || 2 * pl.f * b->lo[2] > h || -2 * pl.f * b->hi[2] > h;
}

/* ---- triangles ---- */
typedef struct { double x, y, z, c[3]; } vtx;

static void draw_flat(const vtx *a, const vtx *b, const vtx *c, float shift) {
    const vtx *v[3]; double sx[3], sy[3], q[3], area, A[3], B[3], C[3], at[4][3]; int i, k, y, y0, y1;
    double lo = 1e30, hi = -1e30; float far_q = UNIT / (float)pl.farv;
    v[0] = a; v[1] = b; v[2] = c;
    for (i = 0; i < 3; i++) {
        q[i] = 1 / v[i]->y;
        sx[i] = pl.f * v[i]->x * q[i] + (pl.w - 1) * 0.5;
        sy[i] = (pl.h - 1) * 0.5 - pl.f * v[i]->z * q[i];
        if (sy[i] < lo) lo = sy[i];
        if (sy[i] > hi) hi = sy[i];
    }
    area = (sx[1] - sx[0]) * (sy[2] - sy[0]) - (sx[2] - sx[0]) * (sy[1] - sy[0]);
    if (area == 0) return;
    for (i = 0; i < 3; i++) { /* weight i is A x + B y + C, and 1 at corner i */
        int j = (i + 1) % 3, l = (i + 2) % 3;
        A[i] = (sy[j] - sy[l]) / area; B[i] = (sx[l] - sx[j]) / area;
        C[i] = (sx[j] * sy[l] - sx[l] * sy[j]) / area;
    }
    for (k = 0; k < 4; k++) { /* 1/depth and colour/depth are linear on the picture */
        double p[3];
        for (i = 0; i < 3; i++) p[i] = k ? q[i] * v[i]->c[k - 1] : q[i];
        at[k][0] = A[0] * p[0] + A[1] * p[1] + A[2] * p[2];
        at[k][1] = B[0] * p[0] + B[1] * p[1] + B[2] * p[2];
        at[k][2] = C[0] * p[0] + C[1] * p[1] + C[2] * p[2];
    }
    if (hi < 0 || lo > pl.h - 1) return;
    y0 = lo > 0 ? (int)ceil(lo) : 0; y1 = hi < pl.h - 1 ? (int)floor(hi) : pl.h - 1;
    for (y = y0; y <= y1; y++) {
        double l = 0, r = pl.w - 1; int x, x0, x1; float z, dz, cr, cg, cb, dr, dg, db, *zp; uint8_t *pp;
        for (i = 0; i < 3; i++) {
            double w = B[i] * y + C[i];
            if (A[i] > 0) { double s = -w / A[i]; if (s > l) l = s; }
            else if (A[i] < 0) { double s = -w / A[i]; if (s < r) r = s; }
            else if (w < 0) r = -1;
        }
        if (!(l <= r)) continue;
        x0 = (int)ceil(l); x1 = (int)floor(r);
        z = (float)(at[0][0] * x0 + at[0][1] * y + at[0][2]); dz = (float)at[0][0];
        cr = (float)(at[1][0] * x0 + at[1][1] * y + at[1][2]); dr = (float)at[1][0];
        cg = (float)(at[2][0] * x0 + at[2][1] * y + at[2][2]); dg = (float)at[2][0];
        cb = (float)(at[3][0] * x0 + at[3][1] * y + at[3][2]); db = (float)at[3][0];
        zp = zbuf + (size_t)y * pl.w + x0; pp = pix + 3 * ((size_t)y * pl.w + x0);
        for (x = 0; x <= x1 - x0; x++) { /* the colour is worked out for the nearest alone */
            float q0 = z + dz * (float)x, key = q0;
            if (shift > 0) key = 1 / (1 / q0 - shift);
            if (key > zp[x] && q0 >= far_q) {
                float d = 1 / q0;
                zp[x] = key;
                pp[3 * x] = (uint8_t)((cr + dr * (float)x) * d + 0.001f);
                pp[3 * x + 1] = (uint8_t)((cg + dg * (float)x) * d + 0.001f);
                pp[3 * x + 2] = (uint8_t)((cb + db * (float)x) * d + 0.001f);
            }
        }
    }
}

static void draw_geode(const node *n, const mat *m, float shift) {
    uint32_t k; int i, j; double near_ = pl.nearv / 4096.0;
    shown++;
    for (k = n->first; k < n->first + n->n; k++) {
        vtx in[3], out[4]; int c = 0;
        for (i = 0; i < 3; i++) {
            float e[3]; put(m, verts[3 * k + i], e);
            in[i].x = e[0]; in[i].y = e[1]; in[i].z = e[2];
            for (j = 0; j < 3; j++) in[i].c[j] = pl.tris[k].c[i][j];
        }
        drawn_tris++;
        for (i = 0; i < 3; i++) { /* clip at the near depth */
            const vtx *a = &in[i], *b = &in[(i + 1) % 3];
            if (a->y >= near_) out[c++] = *a;
            if ((a->y >= near_) != (b->y >= near_)) {
                double s = (near_ - a->y) / (b->y - a->y); vtx *o = &out[c++];
                o->x = a->x + s * (b->x - a->x); o->y = near_; o->z = a->z + s * (b->z - a->z);
                for (j = 0; j < 3; j++) o->c[j] = a->c[j] + s * (b->c[j] - a->c[j]);
            }
        }
        if (c >= 3) draw_flat(&out[0], &out[1], &out[2], shift);
        if (c == 4) draw_flat(&out[0], &out[2], &out[3], shift);
    }
}

static void walk(node *n, const mat *m, float shift) {
    int i; const box *b = bound(n); box e = carry(m, b); mat mine;
    if (outside(&e)) return;
    if (n->op == OP_GEODE) { draw_geode(n, m, shift); return; }
    if (n->op == OP_DCS || n->op == OP_SCS) { mine = mul(&n->pose, m); m = &mine; }
    if (n->op == OP_SWITCH) {
        if (n->sw >= 0 && n->sw < n->kids.n) walk(nodes[n->kids.p[n->sw]], m, shift);
        if (n->sw != -1) return;
    }
    if (n->op == OP_LOD) {
        float c[3], d; put(m, n->centre, c); d = sqrtf(c[0] * c[0] + c[1] * c[1] + c[2] * c[2]);
        for (i = 0; i + 1 < n->nranges && i < n->kids.n; i++)
            if (n->ranges[i] <= d && d < n->ranges[i + 1]) { walk(nodes[n->kids.p[i]], m, shift); break; }
        return;
    }
    if (n->op == OP_SEQ) {
        i = play_seq(n->times, n->ntimes, n->kids.n, n->running, n->since, n->held, now_);
        if (i >= 0) walk(nodes[n->kids.p[i]], m, shift);
        return;
    }
    for (i = 0; i < n->kids.n; i++)
        walk(nodes[n->kids.p[i]], m, n->op == OP_LAYER ? shift + (float)(16 * i) / UNIT : shift);
}

/* ---- edits ---- */
static void ids_put(ids *l, int at, uint16_t x) {
    if (l->n == l->room) { l->room = l->room ? 2 * l->room : 4; l->p = realloc(l->p, l->room * sizeof *l->p); }
    memmove(l->p + at + 1, l->p + at, (l->n - at) * sizeof *l->p); l->p[at] = x; l->n++;
}
static int ids_find(const ids *l, uint16_t x) { int i; for (i = 0; i < l->n; i++) if (l->p[i] == x) return i; return -1; }
static void ids_cut(ids *l, int at) { memmove(l->p + at, l->p + at + 1, (l->n - at - 1) * sizeof *l->p); l->n--; }
static void bad(const char *why) { fprintf(stderr, "peer: %s\n", why); exit(2); }

static void apply(void *ctx, const struct cmd *c, int now) {
    const int32_t *a = c->a; node *n; int i;
    (void)ctx;
    if (c->op == OP_VIEW) {
        mat k; eye = ident(); for (i = 0; i < 3; i++) eye.t[i] = -(float)a[i] / UNIT;
        k = turn(2, -a[3]); eye = mul(&eye, &k); k = turn(0, -a[4]); eye = mul(&eye, &k); k = turn(1, -a[5]); eye = mul(&eye, &k);
        return;
    }
    n = nodes[a[0]];
    if (c->op <= OP_GEODE) {
        if (n) bad("taken");
        n = nodes[a[0]] = calloc(1, sizeof *n); n->op = c->op; n->dirty = 1; n->sw = -2; n->scale = 65536; n->pose = ident();
        if (c->op == OP_GEODE) { n->state = a[1]; n->first = c->first; n->n = c->n; }
        if (c->op == OP_SCS) for (i = 0; i < 12; i++) { if (i < 9) n->pose.m[i / 3][i % 3] = (float)a[1 + i] / 65536; else n->pose.t[i - 9] = (float)a[1 + i] / UNIT; }
        return;
    }
    if (!n) bad("absent");
    switch (c->op) {
    case OP_ADD: case OP_BADD: case OP_INSERT: {
        int at = c->op == OP_INSERT ? a[1] : n->kids.n; uint16_t k = (uint16_t)a[c->op == OP_INSERT ? 2 : 1];
        if (!nodes[k]) bad("absent child");
        ids_put(&n->kids, at, k); ids_put(&nodes[k]->ups, nodes[k]->ups.n, (uint16_t)a[0]); dirty(n); break; }
    case OP_REMOVE: case OP_BREMOVE:
        if ((i = ids_find(&n->kids, (uint16_t)a[1])) < 0) bad("no child");
        ids_cut(&n->kids, i); ids_cut(&nodes[a[1]]->ups, ids_find(&nodes[a[1]]->ups, (uint16_t)a[0])); dirty(n); break;
    case OP_REPLACE:
        if ((i = ids_find(&n->kids, (uint16_t)a[1])) < 0 || !nodes[a[2]]) bad("no child");
        n->kids.p[i] = (uint16_t)a[2]; ids_cut(&nodes[a[1]]->ups, ids_find(&nodes[a[1]]->ups, (uint16_t)a[0]));
        ids_put(&nodes[a[2]]->ups, nodes[a[2]]->ups.n, (uint16_t)a[0]); dirty(n); break;
    case OP_DELETE:
        if (n->ups.n) bad("in use");
        for (i = 0; i < n->kids.n; i++) { node *k = nodes[n->kids.p[i]]; ids_cut(&k->ups, ids_find(&k->ups, (uint16_t)a[0])); }
        free(n->kids.p); free(n->ups.p); free(n); nodes[a[0]] = 0; break;
    case OP_RUN: n->running = 1; n->since = now; break;
    case OP_STOP:
        if (n->running) { i = play_seq(n->times, n->ntimes, n->kids.n, 1, n->since, 0, now); n->held = i < 0 ? 0 : i; n->running = 0; }
        break;
    case OP_SW: n->sw = a[1]; break;
    case OP_MAT:
        for (i = 0; i < 12; i++) { if (i < 9) n->pose.m[i / 3][i % 3] = (float)a[1 + i] / 65536; else n->pose.t[i - 9] = (float)a[1 + i] / UNIT; }
        memcpy(n->a, a + 10, sizeof n->a); n->scale = 65536; n->h = n->p = n->r = 0; dirty(n); break;
    case OP_TRANS: memcpy(n->a, a + 1, sizeof n->a); set_pose(n); dirty(n); break;
    case OP_ROT: n->h = a[1]; n->p = a[2]; n->r = a[3]; set_pose(n); dirty(n); break;
    case OP_SCALE: n->scale = a[1]; set_pose(n); dirty(n); break;
    case OP_CENTRE: for (i = 0; i < 3; i++) n->centre[i] = (float)a[1 + i] / UNIT; break;
    case OP_RANGE: n->ranges[a[1]] = (float)a[2] / UNIT; if (a[1] == n->nranges) n->nranges++; break;
    case OP_TIMES: n->times[a[1]] = a[2]; if (a[1] == n->ntimes) n->ntimes++; break;
    case OP_VERTS: if (c->n != n->n) bad("many"); n->first = c->first; dirty(n); break;
    default: bad("not supported");
    }
}

static void draw(void *ctx, int frame) {
    size_t i, n = (size_t)pl.w * pl.h;
    (void)ctx; now_ = frame;
    for (i = 0; i < n; i++) { zbuf[i] = 0; pix[3 * i] = (uint8_t)pl.back[0]; pix[3 * i + 1] = (uint8_t)pl.back[1]; pix[3 * i + 2] = (uint8_t)pl.back[2]; }
    walk(nodes[0], &eye, 0);
    if (!quiet) { printf("P6\n%d %d\n255\n", pl.w, pl.h); fwrite(pix, 1, 3 * n, stdout); }
}

static double seconds(void) { struct timespec t; clock_gettime(CLOCK_MONOTONIC, &t); return t.tv_sec + t.tv_nsec * 1e-9; }

int main(int argc, char **argv) {
    size_t len, i; int j, k; char *text; double t0 = seconds(), t1, t2; struct cmd c; long frames = 0;
    quiet = argc > 1 && !strcmp(argv[1], "--no-write");
    text = play_slurp(stdin, &len); play_parse(&pl, text); free(text);
    verts = malloc((3 * pl.ntris + 1) * sizeof *verts);
    for (i = 0; i < pl.ntris; i++) for (j = 0; j < 3; j++) for (k = 0; k < 3; k++) verts[3 * i + j][k] = (float)pl.tris[i].v[j][k] / UNIT;
    zbuf = malloc(sizeof *zbuf * pl.w * pl.h); pix = malloc((size_t)3 * pl.w * pl.h);
    eye = ident(); memset(&c, 0, sizeof c); c.op = OP_GROUP; apply(0, &c, 0);
    t1 = seconds(); play_run(&pl, apply, draw, 0); fflush(stdout); t2 = seconds();
    for (i = 0; i < pl.app.n; i++) frames += pl.app.p[i].op == OP_FRAME;
    fprintf(stderr, "frames %ld load_s %.4f loop_s %.4f fps %.1f shown %ld tris %ld\n", frames, t1 - t0, t2 - t1, frames / (t2 - t1), shown, drawn_tris);
    return 0;
}
