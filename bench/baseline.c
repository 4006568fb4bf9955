// The work of the crate `bench`, written in plain C: the same generator, the same records, the same functions, the same check sums.
// Nothing is proved here and no argument is tested. With -DTESTED an evaluation tests what it is handed, as the table does.
#include <stdint.h>
#include <stdio.h>
#include <string.h>
#include <time.h>

enum { RADIX = 4, CAPACITY = 2000, CHAINS = 1024, NO_ROOM = 65536 + 14 };

typedef struct { uint8_t variable; uint16_t edges[4]; uint16_t next; } Node;

typedef struct {
    uint8_t products[16], inverses[4], carries[16];
    Node nodes[CAPACITY];
    uint16_t heads[CHAINS];
    int n, len;
} Table;

typedef struct { uint64_t check, count; } Part;
typedef uint32_t Answer; // an edge, or NO_ROOM

static uint64_t steps; // the pairs of edges that walks come to

static void open_table(Table *t, int n) {
    memset(t->heads, 0, sizeof t->heads);
    t->n = n;
    t->len = 0;
    for (int a = 0; a < 4; a++) {
        t->inverses[a] = (4 - a) % 4;
        for (int b = 0; b < 4; b++) t->products[4 * a + b] = t->carries[4 * a + b] = (a + b) % 4;
    }
}

static uint16_t edge_to(int label, int target) { return label * 16384 + target; }
static int label(uint16_t e) { return e / 16384; }
static int target(uint16_t e) { return e % 16384; }
static uint16_t constant(int v) { return edge_to(v, 0); }

static unsigned hash(int variable, const uint16_t *e) {
    uint64_t a = e[0] * 52711627ull + e[1] * 36174071ull, b = e[2] * 61845893ull + e[3] * 45019357ull;
    return (variable * 40503459ull + (a + b)) / 65536 % CHAINS;
}

static Answer make(Table *t, int x, const uint16_t *e) {
    if (e[1] == e[0] && e[2] == e[0] && e[3] == e[0]) return e[0];
    int k = label(e[0]), back = t->inverses[k];
    uint16_t f[4];
    for (int i = 0; i < 4; i++) f[i] = edge_to(t->products[4 * back + label(e[i])], target(e[i]));
    unsigned h = hash(x, f);
    for (int link = t->heads[h]; link; link = t->nodes[link - 1].next) {
        const Node *m = &t->nodes[link - 1];
        if (m->variable == x && !memcmp(m->edges, f, sizeof f)) return edge_to(k, link + 3);
    }
    if (t->len >= CAPACITY) return NO_ROOM;
    Node *m = &t->nodes[t->len++];
    m->variable = x;
    memcpy(m->edges, f, sizeof f);
    m->next = t->heads[h];
    t->heads[h] = t->len;
    return edge_to(k, t->len + 3);
}

static Answer variable(Table *t, int x) {
    uint16_t e[4];
    for (int v = 0; v < 4; v++) e[v] = constant(v);
    return make(t, x, e);
}

static Answer literal(Table *t, int x, int v) {
    uint16_t e[4];
    for (int i = 0; i < 4; i++) e[i] = constant(i == v ? RADIX - 1 : 0);
    return make(t, x, e);
}

static int level(const Table *t, uint16_t e) { return target(e) < 4 ? t->n : t->nodes[target(e) - 4].variable; }

static uint16_t follow(const Table *t, int x, int i, uint16_t e) {
    if (level(t, e) != x) return e;
    uint16_t f = t->nodes[target(e) - 4].edges[i];
    return edge_to(t->products[4 * label(e) + label(f)], target(f));
}

static Answer walk(Table *t, const uint8_t *answers, uint16_t e, uint16_t f) {
    steps++;
    int a = level(t, e), b = level(t, f), x = a < b ? a : b;
    if (x == t->n) return constant(answers[4 * t->carries[4 * label(e) + target(e)] + t->carries[4 * label(f) + target(f)]]);
    uint16_t row[4];
    for (int i = 0; i < 4; i++) {
        Answer r = walk(t, answers, follow(t, x, i, e), follow(t, x, i, f));
        if (r == NO_ROOM) return r;
        row[i] = r;
    }
    return make(t, x, row);
}

// Where there is no room, what was added is taken back.
static Answer apply(Table *t, const uint8_t *answers, uint16_t e, uint16_t f) {
    int before = t->len;
    Answer r = walk(t, answers, e, f);
    if (r == NO_ROOM)
        while (t->len > before) {
            const Node *m = &t->nodes[--t->len];
            t->heads[hash(m->variable, m->edges)] = m->next;
        }
    return r;
}

static int evaluate(const Table *t, uint16_t e, const uint8_t *values, int count, uint64_t *visits) {
#ifdef TESTED
    if (target(e) >= 4 ? target(e) - 4 >= t->len : target(e) != 0) return -1;
    if (count != t->n) return -1;
    for (int x = 0; x < count; x++) if (values[x] >= 4) return -1;
#else
    (void)count;
#endif
    int k = label(e), to = target(e), seen = 0;
    while (to >= 4) {
        const Node *m = &t->nodes[to - 4];
        uint16_t f = m->edges[values[m->variable]];
        k = t->products[4 * k + label(f)];
        to = target(f);
        seen++;
    }
    *visits += seen;
    return t->carries[4 * k + to];
}

static uint64_t next(uint64_t *state) {
    *state = *state * 6364136223846793005ull + 1442695040888963407ull;
    return *state >> 32;
}

static void values_of(uint64_t *state, uint8_t *values, int n) {
    uint64_t bits = next(state);
    for (int x = 0; x < n; x++, bits >>= 2) values[x] = bits & 3;
}

static void add(Part *p, uint64_t answer, uint64_t count) { p->check = p->check * 31 + answer; p->count += count; }

static int timed;
static uint64_t start;

static uint64_t now(void) {
    struct timespec s;
    clock_gettime(CLOCK_MONOTONIC, &s);
    return s.tv_sec * 1000000000ull + s.tv_nsec;
}

static void tell(const char *name, const char *unit, Part p) {
    uint64_t nanos = now() - start, tenths = nanos * 10 / (p.count ? p.count : 1);
    printf("%s: check %llu, %llu %ss", name, (unsigned long long)p.check, (unsigned long long)p.count, unit);
    if (timed)
        printf(", %llu us, %llu.%llu ns a %s", (unsigned long long)(nanos / 1000), (unsigned long long)(tenths / 10),
               (unsigned long long)(tenths % 10), unit);
    printf("\n");
    start = now();
}

static const uint8_t SUM[16] = {0, 1, 2, 3, 1, 2, 3, 0, 2, 3, 0, 1, 3, 0, 1, 2};
static const uint8_t MAX[16] = {0, 1, 2, 3, 1, 1, 2, 3, 2, 2, 2, 3, 3, 3, 3, 3};
static const uint8_t PLUS[16] = {0, 1, 2, 3, 1, 2, 3, 3, 2, 3, 3, 3, 3, 3, 3, 3};
static const uint8_t AT_LEAST[16] = {3, 0, 0, 0, 3, 3, 0, 0, 3, 3, 3, 0, 3, 3, 3, 3};

static Answer joined(Table *t, const uint8_t *answers, int first, int end) {
    Answer e = variable(t, first);
    for (int x = first + 1; x < end; x++) e = apply(t, answers, e, variable(t, x));
    return e;
}

static Answer threshold(Table *t) {
    Answer left = joined(t, PLUS, 0, 4), right = joined(t, PLUS, 4, 8);
    return apply(t, AT_LEAST, apply(t, MAX, left, right), constant(2));
}

static Table table;

static void read_sum(void) {
    open_table(&table, 12);
    Answer e = joined(&table, SUM, 0, 12);
    Part p = {0, 0};
    add(&p, e, steps);
    tell("sum of 12", "step", p);
    p = (Part){0, 0};
    uint64_t state = 1;
    for (int i = 0; i < 1000000; i++) {
        uint8_t values[12];
        values_of(&state, values, 12);
        uint64_t visits = 0;
        int v = evaluate(&table, e, values, 12, &visits);
        add(&p, v, visits);
    }
    tell("readings", "visit", p);
}

static void rounds(const char *name, int which) {
    Part p = {0, 0};
    uint64_t state = 2;
    for (int i = 0; i < 64; i++) {
        open_table(&table, 8);
        steps = 0;
        Answer e = which == 0 ? joined(&table, SUM, 0, 8) : which == 1 ? joined(&table, MAX, 0, 8) : threshold(&table);
        Part sample = {0, 0};
        for (int j = 0; j < 8; j++) {
            uint8_t values[12];
            values_of(&state, values, 12);
            uint64_t visits = 0;
            add(&sample, evaluate(&table, e, values, 8, &visits), 1);
        }
        add(&p, sample.check + e, steps);
    }
    tell(name, "step", p);
}

static int any_variable(uint64_t *state) { return next(state) >> 8 & 7; }

static Answer random_function(uint64_t *state) {
    uint8_t inner[16], outer[16];
    values_of(state, inner, 16);
    values_of(state, outer, 16);
    Answer a = variable(&table, any_variable(state));
    Answer b = variable(&table, any_variable(state));
    Answer c = variable(&table, any_variable(state));
    Answer e = apply(&table, inner, a, b);
    return e == NO_ROOM ? e : apply(&table, outer, e, c);
}

static void functions(const char *name, uint64_t seed, int times, int count) {
    Part p = {0, 0};
    for (int j = 0; j < times; j++) {
        uint64_t state = seed;
        for (int i = 0; i < count; i++) add(&p, random_function(&state), 1);
    }
    tell(name, "function", p);
}

static void fill(void) {
    open_table(&table, 8);
    start = now();
    functions("filling", 3, 1, 350);
    functions("asked again", 3, 100, 350);
    functions("others", 4, 1, 100000);
    Part p = {0, 0};
    for (int i = 0; i < 1000000; i++) add(&p, literal(&table, i & 7, i >> 3 & 3), 1);
    tell("literals", "call", p);
#ifdef LENGTH
    printf("nodes %d\n", table.len);
#endif
}

int main(int argc, char **argv) {
    timed = argc > 1 && !strcmp(argv[1], "time");
    start = now();
    read_sum();
    rounds("sum of 8", 0);
    rounds("largest of 8", 1);
    rounds("threshold of 8", 2);
    fill();
    return 0;
}
