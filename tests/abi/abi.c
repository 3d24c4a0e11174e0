/*
 * Calls every function of include/jozkeral.h from C: what is returned and written in the good case, every number from 1 to 22
 * with its place, every slice for an answer that is too short, and that nothing outside of the lent places changes. Each
 * slice is lent from the middle of a larger one whose margins are looked at after every call.
 */
#include "jozkeral.h"
#include <stdio.h>
#include <stdlib.h>
#include <string.h>

static int checks, failures;

static void check(int ok, const char *what, int line) {
    checks++;
    if (!ok) {
        failures++;
        printf("abi.c:%d: %s\n", line, what);
    }
}

#define CHECK(x) check((x), #x, __LINE__)

/* The header's numbers, each written out once more; everything below takes them from the header. */
_Static_assert(JOZKERAL_MAX_QUBITS == 128 && JOZKERAL_MAX_GATES == 1024 && JOZKERAL_MAX_SHOTS == 65536 && JOZKERAL_MAX_LABEL == 40, "limits");
_Static_assert(JOZKERAL_HEADER_BYTES == 20 && JOZKERAL_OP_PLACES == 18 && JOZKERAL_INDEX_WORDS == 2, "records, operations, indices");
_Static_assert(JOZKERAL_WORK_PLACES(5, 3) == 512 && JOZKERAL_MARK_PLACES(5, 3) == 256 && JOZKERAL_OPS_PLACES(5, 3) == 432, "work");
_Static_assert(JOZKERAL_STATE_PLACES(3) == 42 && JOZKERAL_QUERY_PLACES(3) == 36, "states");
_Static_assert(JOZKERAL_REPORT_WORDS == 14 && JOZKERAL_MEASURES == 2 && JOZKERAL_TABLE_PLACES == 384 && JOZKERAL_MODES_AT == 256, "reports");

/* Limits: the bytes that the covariance matrix of two qubits has, and more than that of three. */
enum { TWO = 128, THREE = 1000 };

/* Places of a mode table, and of a state and a query's work of three qubits. */
enum { MODES = JOZKERAL_MAX_QUBITS, STATE = JOZKERAL_STATE_PLACES(3), WORK = JOZKERAL_QUERY_PLACES(3) };

/* ---- slices with margins: MARGIN bytes of FILL on either side; the lent places hold FILL as well until a call writes them */

enum { MARGIN = 64, FILL = 0x5a };

struct slice {
    unsigned char *room;
    size_t size; /* of an element */
    size_t len;
};

static struct slice lend(size_t size, size_t len) {
    struct slice s = {malloc(2 * MARGIN + size * len), size, len};
    if (!s.room) abort();
    memset(s.room, FILL, 2 * MARGIN + size * len);
    return s;
}

static void *at(const struct slice *s) { return s->room + MARGIN; }

static int filled(const unsigned char *p, size_t n, int v) {
    for (size_t i = 0; i < n; i++)
        if (p[i] != v) return 0;
    return 1;
}

static int margins(const struct slice *s) {
    return filled(s->room, MARGIN, FILL) && filled(s->room + MARGIN + s->size * s->len, MARGIN, FILL);
}

/* every element of the slice, or those from a on, is as it was lent */
static int untouched_from(const struct slice *s, size_t a) {
    return margins(s) && filled(s->room + MARGIN + s->size * a, s->size * (s->len - a), FILL);
}

static int untouched(const struct slice *s) { return untouched_from(s, 0); }

/* the first k elements are zero, the others as they were lent */
static int cleared(const struct slice *s, size_t k) { return filled(s->room + MARGIN, s->size * k, 0) && untouched_from(s, k); }

/* ---- tapes */

struct tape {
    uint8_t bytes[40000];
    size_t len;
};

static void put(struct tape *t, const void *p, size_t n) {
    memcpy(t->bytes + t->len, p, n);
    t->len += n;
}

static void byte(struct tape *t, int b) { t->bytes[t->len++] = (uint8_t)b; }

static void header(struct tape *t, int n, int flags, double tolerance, uint64_t limit) {
    t->len = 0;
    put(t, "\x51\x48", 2);
    byte(t, n);
    byte(t, flags);
    put(t, &tolerance, 8);
    put(t, &limit, 8);
}

static void gate1(struct tape *t, int code, int a) {
    put(t, "\x51\x47", 2);
    byte(t, code);
    byte(t, a);
}

static void gate2(struct tape *t, int code, int a, int b) {
    gate1(t, code, a);
    byte(t, b);
}

static void label(struct tape *t, const char *text) {
    put(t, "\x51\x4c", 2);
    byte(t, (int)strlen(text));
    put(t, text, strlen(text));
}

/* ---- a run or a compilation of a tape */

struct lent {
    struct slice work, marks, ops, state, place, report, measures, tables;
};

/* the slices for g gates on n qubits, and a bit more than is needed */
static struct lent lend_all(size_t g, size_t n) {
    struct lent l = {lend(8, JOZKERAL_WORK_PLACES(g, n) + 5), lend(4, JOZKERAL_MARK_PLACES(g, n) + 5),
                     lend(8, JOZKERAL_OPS_PLACES(g, n) + 5),  lend(8, JOZKERAL_STATE_PLACES(n) + 5),
                     lend(8, 1 + 1),                          lend(8, JOZKERAL_REPORT_WORDS + 1),
                     lend(8, JOZKERAL_MEASURES + 1),          lend(2, JOZKERAL_TABLE_PLACES + 1)};
    return l;
}

static void give_back(struct lent *l) {
    struct slice *s = (struct slice *)l;
    for (size_t i = 0; i < sizeof *l / sizeof *s; i++) free(s[i].room);
}

static uint64_t compile(const struct tape *t, const struct lent *l) {
    return jozkeral_compile(t->bytes, t->len, at(&l->work), l->work.len, at(&l->marks), l->marks.len, at(&l->ops), l->ops.len, at(&l->place),
                            l->place.len, at(&l->report), l->report.len, at(&l->measures), l->measures.len, at(&l->tables), l->tables.len);
}

static uint64_t run(const struct tape *t, const struct lent *l) {
    return jozkeral_run(t->bytes, t->len, at(&l->work), l->work.len, at(&l->marks), l->marks.len, at(&l->ops), l->ops.len, at(&l->state),
                        l->state.len, at(&l->place), l->place.len, at(&l->report), l->report.len, at(&l->measures), l->measures.len,
                        at(&l->tables), l->tables.len);
}

/* a refusal's slices: the place, zeros in the report, nothing in ops and state, and work as said */
static void check_refused(const struct lent *l, uint64_t place, size_t work, size_t marks, int line) {
    check(((uint64_t *)at(&l->place))[0] == place && untouched_from(&l->place, 1), "the place of a refusal", line);
    check(cleared(&l->report, JOZKERAL_REPORT_WORDS), "a refusal's report is zero", line);
    check(cleared(&l->measures, JOZKERAL_MEASURES), "a refusal's measures are zero", line);
    check(cleared(&l->tables, JOZKERAL_TABLE_PLACES), "a refusal's tables are zero", line);
    check(untouched(&l->ops), "a refusal leaves the operations", line);
    check(untouched(&l->state), "a refusal leaves the state", line);
    check(cleared(&l->work, work) && cleared(&l->marks, marks), "what a refusal leaves in work", line);
}

/* both calls refuse the tape with the number at the place, before 9 */
static void check_tape(const struct tape *t, uint64_t number, uint64_t place, int line) {
    for (int k = 0; k < 2; k++) {
        struct lent l = lend_all(1, 1);
        check((k ? run(t, &l) : compile(t, &l)) == number, "the number of a refusal", line);
        check_refused(&l, place, 0, 0, line);
        give_back(&l);
    }
}

/* run refuses with the number at 0, from 9 on; compile does so too up to 10 */
static void check_late(const struct tape *t, struct lent l, uint64_t number, size_t g, size_t n, int line) {
    int nine = number == JOZKERAL_WORK;
    check(run(t, &l) == number, "the number of a late refusal", line);
    check_refused(&l, 0, nine ? 0 : JOZKERAL_WORK_PLACES(g, n), nine ? 0 : JOZKERAL_MARK_PLACES(g, n), line);
    if (number <= JOZKERAL_OPERATIONS) {
        check(compile(t, &l) == number, "the number of a late refusal by compile", line);
        check_refused(&l, 0, nine ? 0 : JOZKERAL_WORK_PLACES(g, n), nine ? 0 : JOZKERAL_MARK_PLACES(g, n), line);
    }
    give_back(&l);
}

/* ---- the questions about a tape */

static void test_tapes(void) {
    static struct tape t;
    double big = 2.5;
    header(&t, 2, 0, 0.0, TWO);
    t.len = JOZKERAL_HEADER_BYTES - 1;
    check_tape(&t, JOZKERAL_HEADER, 0, __LINE__);
    t.len = 0;
    check_tape(&t, JOZKERAL_HEADER, 0, __LINE__);
    header(&t, 129, 0, 0.0, TWO);
    check_tape(&t, JOZKERAL_SIZE, 0, __LINE__);
    header(&t, 2, 8, 0.0, TWO);
    check_tape(&t, JOZKERAL_SIZE, 0, __LINE__);
    header(&t, 2, 0, 0.002, TWO);
    check_tape(&t, JOZKERAL_TOLERANCE, 0, __LINE__);
    header(&t, 1, 0, 0.0, TWO);
    for (int i = 0; i < 1025; i++) gate1(&t, 0x00, 0);
    check_tape(&t, JOZKERAL_GATES, 20 + 4 * 1024, __LINE__);
    header(&t, 2, 0, 0.0, TWO);
    gate1(&t, 0x02, 0);
    gate1(&t, 0x33, 0);
    check_tape(&t, JOZKERAL_RECORD, 24, __LINE__);
    header(&t, 2, 0, 0.0, TWO);
    label(&t, "a \x1f");
    check_tape(&t, JOZKERAL_RECORD, 20, __LINE__);
    header(&t, 2, 0, 0.0, TWO);
    gate1(&t, 0x02, 2);
    check_tape(&t, JOZKERAL_QUBIT, 20, __LINE__);
    header(&t, 2, 0, 0.0, TWO);
    gate2(&t, 0x13, 1, 1);
    check_tape(&t, JOZKERAL_REPEATED, 20, __LINE__);
    header(&t, 2, 0, 0.0, TWO);
    gate1(&t, 0x0f, 1);
    for (int i = 0; i < 8; i++) put(&t, &big, 8);
    check_tape(&t, JOZKERAL_ENTRY, 20, __LINE__);
}

static void test_late(void) {
    static struct tape t;
    struct lent l;
    header(&t, 2, 0, 0.0, TWO);
    gate2(&t, 0x13, 0, 1);
    l = lend_all(1, 2);
    l.work.len = JOZKERAL_WORK_PLACES(1, 2) - 1;
    check_late(&t, l, JOZKERAL_WORK, 1, 2, __LINE__);
    l = lend_all(1, 2);
    l.marks.len = JOZKERAL_MARK_PLACES(1, 2) - 1;
    check_late(&t, l, JOZKERAL_WORK, 1, 2, __LINE__);
    l = lend_all(1, 2);
    l.ops.len = JOZKERAL_OP_PLACES - 1;
    check_late(&t, l, JOZKERAL_OPERATIONS, 1, 2, __LINE__);
    l = lend_all(1, 2);
    l.state.len = JOZKERAL_STATE_PLACES(2) - 1;
    check_late(&t, l, JOZKERAL_STATE, 1, 2, __LINE__);
    header(&t, 2, 0, 0.0, TWO - 1);
    gate2(&t, 0x13, 0, 1);
    check_late(&t, lend_all(1, 2), JOZKERAL_LIMIT, 1, 2, __LINE__);
    header(&t, 3, 0, 0.0, THREE);
    gate2(&t, 0x13, 0, 2);
    check_late(&t, lend_all(1, 3), JOZKERAL_APART, 1, 3, __LINE__);
    header(&t, 2, 0, 0.0, TWO);
    gate1(&t, 0x01, 0);
    check_late(&t, lend_all(1, 2), JOZKERAL_BAD, 1, 2, __LINE__);
    header(&t, 2, 0, 0.0, TWO);
    gate2(&t, 0x11, 0, 1);
    check_late(&t, lend_all(1, 2), JOZKERAL_INTERACTION, 1, 2, __LINE__);
}

/* a slice for the answer that is too short: nothing is read or written */
static void test_no_room(void) {
    static struct tape t;
    header(&t, 2, 0, 0.0, TWO);
    for (int k = 0; k < 8; k++) {
        struct lent l = lend_all(0, 2);
        struct slice *s = k % 4 == 0 ? &l.place : k % 4 == 1 ? &l.report : k % 4 == 2 ? &l.measures : &l.tables;
        s->len -= 2;
        CHECK((k < 4 ? compile(&t, &l) : run(&t, &l)) == JOZKERAL_NO_ROOM);
        struct slice *all = (struct slice *)&l;
        for (size_t i = 0; i < sizeof l / sizeof *all; i++) CHECK(untouched(&all[i]));
        give_back(&l);
    }
}

/* ---- good tapes */

static void test_labels(void) {
    static struct tape t;
    struct slice f = lend(8, 3);
    uint64_t *found = at(&f);
    header(&t, 2, 0, 0.0, TWO);
    label(&t, "first");
    gate1(&t, 0x02, 0);
    label(&t, "");
    label(&t, "last~ one");
    CHECK(jozkeral_label(t.bytes, t.len, 0, found, 3) == 0 && found[0] == 23 && found[1] == 5 && untouched_from(&f, 2));
    CHECK(jozkeral_label(t.bytes, t.len, 1, found, 2) == 0 && found[0] == 35 && found[1] == 0);
    CHECK(jozkeral_label(t.bytes, t.len, 2, found, 2) == 0 && found[1] == 9 && !memcmp(t.bytes + found[0], "last~ one", 9));
    CHECK(jozkeral_label(t.bytes, t.len, 3, found, 2) == 0 && found[0] == 0 && found[1] == 0);
    byte(&t, 0x51);
    CHECK(jozkeral_label(t.bytes, t.len, 0, found, 2) == 0 && found[0] == 0 && found[1] == 0);
    found[0] = 7;
    CHECK(jozkeral_label(t.bytes, t.len, 0, found, 1) == JOZKERAL_NO_ROOM && found[0] == 7 && untouched_from(&f, 2));
    CHECK(jozkeral_label(NULL, 0, 0, found, 2) == 0 && found[0] == 0 && found[1] == 0);
    free(f.room);
}

/* the report of a whole run: ISWAP of qubits that are not neighbours, reordered, and a matchgate that is angled nowhere */
static void test_report(void) {
    static struct tape t;
    struct lent l = lend_all(2, 3);
    const uint64_t *report = at(&l.report);
    const double *measures = at(&l.measures), *ops = at(&l.ops);
    const uint16_t *order = at(&l.tables), *starts = order + JOZKERAL_MAX_QUBITS, *modes = order + JOZKERAL_MODES_AT;
    const size_t unused = sizeof *order * (JOZKERAL_MAX_QUBITS - 3);
    static const uint64_t words[JOZKERAL_REPORT_WORDS] = {3, 2, 1, 2, 0, 0, 0, 0, 2, 0, 1, 1, 0, 1};
    header(&t, 3, 3, 0.0, THREE);
    gate1(&t, 0x02, 1);
    gate2(&t, 0x13, 0, 2);
    CHECK(run(&t, &l) == 0);
    CHECK(((uint64_t *)at(&l.place))[0] == 0 && untouched_from(&l.place, 1));
    for (int i = 0; i < JOZKERAL_REPORT_WORDS; i++) CHECK(report[i] == words[i]);
    CHECK(untouched_from(&l.report, JOZKERAL_REPORT_WORDS));
    CHECK(measures[0] == 1.0 && measures[1] == 0.0 && untouched_from(&l.measures, JOZKERAL_MEASURES));
    CHECK(order[0] == 0 && order[1] == 2 && order[2] == 1);
    CHECK(starts[0] == 1 && starts[1] == 0 && starts[2] == 1);
    CHECK(modes[0] == 0 && modes[1] == 2 && modes[2] == 1);
    CHECK(untouched_from(&l.tables, JOZKERAL_TABLE_PLACES));
    CHECK(filled((const unsigned char *)(order + 3), unused, 0) && filled((const unsigned char *)(modes + 3), unused, 0));
    CHECK((ops[0] == 1.0 && ops[JOZKERAL_OP_PLACES] == 2.0) || (ops[0] == 2.0 && ops[JOZKERAL_OP_PLACES] == 1.0));
    CHECK(untouched_from(&l.ops, 2 * JOZKERAL_OP_PLACES) && untouched_from(&l.state, STATE));
    CHECK(cleared(&l.work, JOZKERAL_WORK_PLACES(2, 3)) && cleared(&l.marks, JOZKERAL_MARK_PLACES(2, 3)));
    give_back(&l);
}

/* compile reports what run refuses: a bad block, an interaction */
static void test_compile(void) {
    static struct tape t;
    struct lent l = lend_all(1, 2);
    const uint64_t *report = at(&l.report);
    const double *ops = at(&l.ops);
    header(&t, 2, 0, 0.0, 0);
    gate1(&t, 0x01, 0);
    CHECK(compile(&t, &l) == 0 && report[JOZKERAL_WORD_BLOCKS] == 1 && report[JOZKERAL_WORD_BAD] == 1 &&
          report[JOZKERAL_WORD_OPERATIONS] == 0 && report[JOZKERAL_WORD_FREE] == 0);
    CHECK(untouched(&l.ops) && untouched(&l.state));
    give_back(&l);
    l = lend_all(1, 2);
    report = at(&l.report);
    ops = at(&l.ops);
    header(&t, 2, 0, 0.0, 0);
    gate2(&t, 0x11, 0, 1);
    CHECK(compile(&t, &l) == 0 && report[JOZKERAL_WORD_INTERACTIONS] == 1 && report[JOZKERAL_WORD_EXACT] == 0 && report[JOZKERAL_WORD_FREE] == 1);
    const size_t used = JOZKERAL_OP_PLACES * report[JOZKERAL_WORD_OPERATIONS];
    CHECK(ops[used - JOZKERAL_OP_PLACES] == 3.0 && untouched_from(&l.ops, used));
    give_back(&l);
}

/* ---- calls on a state: X on 0 and 2 of three qubits, then ISWAP of 0 and 1: the bits 0, 1, 1 */

static struct lent state_of_bits(void) {
    static struct tape t;
    struct lent l = lend_all(3, 3);
    header(&t, 3, 1, 0.0, THREE);
    gate1(&t, 0x02, 0);
    gate1(&t, 0x02, 2);
    gate2(&t, 0x13, 0, 1);
    CHECK(run(&t, &l) == 0);
    return l;
}

static void test_queries(void) {
    struct lent l = state_of_bits();
    const double *s = at(&l.state);
    const uint16_t *m = (const uint16_t *)at(&l.tables) + JOZKERAL_MODES_AT;
    const size_t ns = l.state.len, qs[4] = {0, 1, 2, 1}, bad[3] = {0, 9, 1};
    const uint8_t bits[4] = {0, 1, 1, 1}, wrong[4] = {0, 1, 0, 1}, twos[3] = {0, 2, 1}, contrary[4] = {0, 1, 1, 0};
    struct slice w = lend(8, WORK + 3), p = lend(8, 2), a = lend(8, 2), r = lend(8, 2);
    uint64_t *place = at(&p), *row = at(&r);
    double *answer = at(&a), *work = at(&w);
    CHECK(jozkeral_expectation_z_product(3, s, ns, m, MODES, qs, 4, work, w.len, place, 2, answer, 2, row, 2) == 0 && answer[0] == -1.0);
    CHECK(jozkeral_expectation_z_product(3, s, ns, m, MODES, NULL, 0, NULL, 0, place, 2, answer, 2, row, 2) == 0 && answer[0] == 1.0);
    CHECK(jozkeral_marginal_probability(3, s, ns, m, MODES, qs, 4, bits, 4, work, w.len, place, 2, answer, 2, row, 2) == 0 && answer[0] == 1.0);
    CHECK(jozkeral_marginal_probability(3, s, ns, m, MODES, qs, 4, wrong, 4, work, w.len, place, 2, answer, 2, row, 2) == 0 && answer[0] == 0.0);
    CHECK(jozkeral_marginal_probability(3, s, ns, m, MODES, qs, 4, contrary, 4, NULL, 0, place, 2, answer, 2, row, 2) == 0 && answer[0] == 0.0);
    CHECK(jozkeral_probability(3, s, ns, m, MODES, 6, 0, work, w.len, answer, 2) == 0 && answer[0] == 1.0);
    CHECK(jozkeral_probability(3, s, ns, m, MODES, 7, 0, work, w.len, answer, 2) == 0 && answer[0] == 0.0);
    CHECK(cleared(&w, WORK) && untouched_from(&p, 1) && untouched_from(&a, 1) && untouched_from(&r, 1));
    /* refusals */
    CHECK(jozkeral_expectation_z_product(3, s, STATE - 1, m, MODES, qs, 1, work, w.len, place, 2, answer, 2, row, 2) == JOZKERAL_BAD_STATE);
    CHECK(jozkeral_expectation_z_product(3, s, ns, m, 2, qs, 1, work, w.len, place, 2, answer, 2, row, 2) == JOZKERAL_BAD_STATE);
    CHECK(jozkeral_marginal_probability(3, s, ns, m, MODES, qs, 3, bits, 2, work, w.len, place, 2, answer, 2, row, 2) == JOZKERAL_BITS);
    CHECK(jozkeral_marginal_probability(3, s, ns, m, MODES, qs, 3, twos, 3, work, w.len, place, 2, answer, 2, row, 2) == JOZKERAL_BITS);
    CHECK(jozkeral_marginal_probability(3, s, ns, m, MODES, bad, 3, bits, 3, work, w.len, place, 2, answer, 2, row, 2) == JOZKERAL_LISTED && place[0] == 1);
    CHECK(jozkeral_probability(3, s, ns, m, MODES, 6, 0, work, WORK - 1, answer, 2) == JOZKERAL_QUERY_WORK && answer[0] == 0.0);
    /* no room */
    place[0] = 3;
    answer[0] = 4.0;
    row[0] = 5;
    work[0] = 1.0;
    CHECK(jozkeral_expectation_z_product(3, s, ns, m, MODES, qs + 1, 2, work, w.len, NULL, 0, answer, 2, row, 2) == JOZKERAL_NO_ROOM);
    CHECK(jozkeral_expectation_z_product(3, s, ns, m, MODES, qs, 4, work, w.len, place, 2, NULL, 0, row, 2) == JOZKERAL_NO_ROOM);
    CHECK(jozkeral_marginal_probability(3, s, ns, m, MODES, qs, 4, bits, 4, work, w.len, place, 0, answer, 2, row, 2) == JOZKERAL_NO_ROOM);
    CHECK(jozkeral_marginal_probability(3, s, ns, m, MODES, qs, 4, bits, 4, work, w.len, place, 2, answer, 2, NULL, 0) == JOZKERAL_NO_ROOM);
    CHECK(jozkeral_probability(3, s, ns, m, MODES, 6, 0, work, w.len, answer, 0) == JOZKERAL_NO_ROOM);
    CHECK(place[0] == 3 && answer[0] == 4.0 && row[0] == 5 && work[0] == 1.0);
    CHECK(margins(&w) && margins(&p) && margins(&a) && margins(&r));
    CHECK(margins(&l.state) && margins(&l.tables));
    free(w.room);
    free(p.room);
    free(a.room);
    free(r.room);
    give_back(&l);
}

/* ---- products of Z and marginals on the same state: which question is asked first, how many places of work it asks for, what is
 * left in each slice, and the row where the number is a zero that was found */

struct asked {
    int line;
    size_t n, places, count, qubits[4]; /* of the state, of work, of the list */
    uint8_t bits[4];                    /* of a marginal */
    uint64_t number, place;
    double value;
    uint64_t row;
    size_t zeros; /* places of work that are zero afterwards; the others are as they were lent */
};

static const struct asked products[] = {
    /* one qubit asks for four places */
    {__LINE__, 3, 3, 1, {1}, {0}, JOZKERAL_QUERY_WORK, 0, 0.0, 0, 0},
    {__LINE__, 3, 4, 1, {1}, {0}, JOZKERAL_OK, 0, -1.0, 0, 4},
    {__LINE__, 3, 9, 1, {0}, {0}, JOZKERAL_OK, 0, 1.0, 0, 4},
    {__LINE__, 3, 4, 1, {2}, {0}, JOZKERAL_OK, 0, -1.0, 0, 4},
    {__LINE__, 3, 3, 3, {1, 1, 1}, {0}, JOZKERAL_QUERY_WORK, 0, 0.0, 0, 0},
    {__LINE__, 3, 4, 3, {1, 1, 1}, {0}, JOZKERAL_OK, 0, -1.0, 0, 4},
    {__LINE__, 3, 4, 3, {0, 2, 0}, {0}, JOZKERAL_OK, 0, -1.0, 0, 4},
    /* two ask for 16, three for 36 */
    {__LINE__, 3, 15, 2, {0, 2}, {0}, JOZKERAL_QUERY_WORK, 0, 0.0, 0, 0},
    {__LINE__, 3, 16, 2, {0, 2}, {0}, JOZKERAL_OK, 0, -1.0, 0, 16},
    {__LINE__, 3, 16, 2, {2, 0}, {0}, JOZKERAL_OK, 0, -1.0, 0, 16},
    {__LINE__, 3, 39, 2, {1, 2}, {0}, JOZKERAL_OK, 0, 1.0, 0, 16},
    {__LINE__, 3, 35, 3, {0, 1, 2}, {0}, JOZKERAL_QUERY_WORK, 0, 0.0, 0, 0},
    {__LINE__, 3, 36, 3, {0, 1, 2}, {0}, JOZKERAL_OK, 0, 1.0, 0, 36},
    /* a pair that cancels asks for none, and so does the empty list */
    {__LINE__, 3, 0, 2, {1, 1}, {0}, JOZKERAL_OK, 0, 1.0, 0, 0},
    {__LINE__, 3, 4, 2, {1, 1}, {0}, JOZKERAL_OK, 0, 1.0, 0, 0},
    {__LINE__, 3, 0, 4, {1, 2, 1, 2}, {0}, JOZKERAL_OK, 0, 1.0, 0, 0},
    {__LINE__, 3, 0, 0, {0}, {0}, JOZKERAL_OK, 0, 1.0, 0, 0},
    {__LINE__, 3, 4, 0, {0}, {0}, JOZKERAL_OK, 0, 1.0, 0, 0},
    /* 19 before 20, with the index in the list; what is no qubit does not cancel */
    {__LINE__, 3, 0, 1, {3}, {0}, JOZKERAL_LISTED, 0, 0.0, 0, 0},
    {__LINE__, 3, 4, 1, {SIZE_MAX}, {0}, JOZKERAL_LISTED, 0, 0.0, 0, 0},
    {__LINE__, 3, 0, 2, {1, 3}, {0}, JOZKERAL_LISTED, 1, 0.0, 0, 0},
    {__LINE__, 3, 16, 2, {1, 3}, {0}, JOZKERAL_LISTED, 1, 0.0, 0, 0},
    {__LINE__, 3, 16, 4, {1, 1, 3, 3}, {0}, JOZKERAL_LISTED, 2, 0.0, 0, 0},
    {__LINE__, 3, 36, 3, {0, 9, 1}, {0}, JOZKERAL_LISTED, 1, 0.0, 0, 0},
    /* 16 before 19 */
    {__LINE__, 4, 0, 1, {9}, {0}, JOZKERAL_BAD_STATE, 0, 0.0, 0, 0},
    {__LINE__, 129, 4, 1, {0}, {0}, JOZKERAL_BAD_STATE, 0, 0.0, 0, 0},
    {__LINE__, 129, 0, 0, {0}, {0}, JOZKERAL_BAD_STATE, 0, 0.0, 0, 0},
};

static const struct asked marginals[] = {
    /* the state's own bits, in any order; a qubit that is listed again counts once */
    {__LINE__, 3, 4, 1, {0}, {0}, JOZKERAL_OK, 0, 1.0, 0, 4},
    {__LINE__, 3, 16, 2, {2, 0}, {1, 0}, JOZKERAL_OK, 0, 1.0, 0, 16},
    {__LINE__, 3, 36, 4, {0, 1, 2, 1}, {0, 1, 1, 1}, JOZKERAL_OK, 0, 1.0, 0, 36},
    /* a wrong bit is found at the row of its mode among those that are listed, the first if there are two */
    {__LINE__, 3, 4, 1, {0}, {1}, JOZKERAL_OK, 0, 0.0, 1, 4},
    {__LINE__, 3, 9, 1, {2}, {0}, JOZKERAL_OK, 0, 0.0, 1, 4},
    {__LINE__, 3, 16, 2, {0, 1}, {0, 0}, JOZKERAL_OK, 0, 0.0, 3, 16},
    {__LINE__, 3, 16, 2, {1, 0}, {0, 0}, JOZKERAL_OK, 0, 0.0, 3, 16},
    {__LINE__, 3, 16, 2, {0, 1}, {1, 1}, JOZKERAL_OK, 0, 0.0, 1, 16},
    {__LINE__, 3, 16, 3, {1, 2, 1}, {1, 0, 1}, JOZKERAL_OK, 0, 0.0, 3, 16},
    {__LINE__, 3, 36, 3, {0, 1, 2}, {0, 1, 0}, JOZKERAL_OK, 0, 0.0, 5, 36},
    {__LINE__, 3, 39, 3, {0, 1, 2}, {0, 0, 0}, JOZKERAL_OK, 0, 0.0, 3, 36},
    /* a contradiction has no row, whatever the list says before it, and neither has the empty list */
    {__LINE__, 3, 0, 2, {0, 0}, {0, 1}, JOZKERAL_OK, 0, 0.0, 0, 0},
    {__LINE__, 3, 16, 4, {0, 1, 0, 9}, {0, 0, 1, 0}, JOZKERAL_OK, 0, 0.0, 0, 0},
    {__LINE__, 3, 4, 0, {0}, {0}, JOZKERAL_OK, 0, 1.0, 0, 0},
    /* refusals have none: 20, 19 before it, 18 before that, 16 first; here the list would be found at row 2 */
    {__LINE__, 3, 15, 2, {0, 1}, {0, 0}, JOZKERAL_QUERY_WORK, 0, 0.0, 0, 0},
    {__LINE__, 3, 15, 3, {0, 1, 3}, {0, 0, 0}, JOZKERAL_LISTED, 2, 0.0, 0, 0},
    {__LINE__, 3, 15, 3, {0, 1, 3}, {0, 2, 0}, JOZKERAL_BITS, 0, 0.0, 0, 0},
    {__LINE__, 129, 15, 3, {0, 1, 3}, {0, 2, 0}, JOZKERAL_BAD_STATE, 0, 0.0, 0, 0},
};

static int same(double x, double y) { return !memcmp(&x, &y, sizeof x); }

/* asks with so much room for place, answer and row: as the table says, and where there is no room 99 and nothing written */
static void check_asked(const struct lent *l, const struct asked *t, int marginal, const size_t room[3]) {
    const uint16_t *m = (const uint16_t *)at(&l->tables) + JOZKERAL_MODES_AT;
    struct slice w = lend(8, t->places), p = lend(8, room[0]), a = lend(8, room[1]), r = lend(8, room[2]);
    uint64_t number =
        marginal ? jozkeral_marginal_probability(t->n, at(&l->state), l->state.len, m, MODES, t->qubits, t->count, t->bits, t->count, at(&w), w.len,
                                                 at(&p), p.len, at(&a), a.len, at(&r), r.len)
                 : jozkeral_expectation_z_product(t->n, at(&l->state), l->state.len, m, MODES, t->qubits, t->count, at(&w), w.len, at(&p), p.len,
                                                  at(&a), a.len, at(&r), r.len);
    if (room[0] == 0 || room[1] == 0 || room[2] == 0) {
        check(number == JOZKERAL_NO_ROOM, "a query without room", t->line);
        check(untouched(&w) && untouched(&p) && untouched(&a) && untouched(&r), "a query without room leaves all slices", t->line);
    } else {
        check(number == t->number, "the number of a query", t->line);
        check(((uint64_t *)at(&p))[0] == t->place && untouched_from(&p, 1), "the place of a query", t->line);
        check(same(((double *)at(&a))[0], t->value) && untouched_from(&a, 1), "the value of a query", t->line);
        check(((uint64_t *)at(&r))[0] == t->row && untouched_from(&r, 1), "the row of a query", t->line);
        check(cleared(&w, t->zeros), "what a query leaves in work", t->line);
    }
    free(w.room);
    free(p.room);
    free(a.room);
    free(r.room);
}

static void check_all(const struct asked *table, size_t count, int marginal) {
    static const size_t rooms[][3] = {{1, 1, 1}, {3, 2, 4}, {0, 1, 1}, {1, 0, 1}, {1, 1, 0}, {0, 0, 0}};
    struct lent l = state_of_bits(), kept = state_of_bits();
    for (size_t i = 0; i < count; i++)
        for (size_t j = 0; j < sizeof rooms / sizeof *rooms; j++) check_asked(&l, &table[i], marginal, rooms[j]);
    CHECK(!memcmp(l.state.room, kept.state.room, 2 * MARGIN + 8 * l.state.len));
    CHECK(!memcmp(l.tables.room, kept.tables.room, 2 * MARGIN + 2 * l.tables.len));
    give_back(&l);
    give_back(&kept);
}

static void test_asked(void) {
    check_all(products, sizeof products / sizeof *products, 0);
    check_all(marginals, sizeof marginals / sizeof *marginals, 1);
}

/* ---- the same on states of two qubits, given by their entries */

struct number {
    double value;
    uint64_t row;
};

/* the product over the first k qubits */
static struct number product_on(const double *state, const uint16_t *modes, size_t k) {
    const size_t qubits[2] = {0, 1};
    double work[JOZKERAL_QUERY_PLACES(2)], answer[1] = {7.0};
    uint64_t place[1], row[1] = {7};
    CHECK(jozkeral_expectation_z_product(2, state, JOZKERAL_STATE_PLACES(2), modes, 2, qubits, k, work, JOZKERAL_QUERY_PLACES(k), place, 1, answer, 1,
                                         row, 1) == 0);
    return (struct number){answer[0], row[0]};
}

/* the modes are exchanged: Z of qubit 0 is z0 times the sign, of qubit 1 it is z1 */
static struct number product_of(size_t k, double z0, double z1, double sign) {
    const uint16_t modes[2] = {1, 0};
    const double state[JOZKERAL_STATE_PLACES(2)] = {[1] = z1, [4] = -z1, [11] = z0, [14] = -z0, [16] = 1.0, [17] = 1.0, [18] = sign, [19] = 1.0};
    return product_on(state, modes, k);
}

static int is(struct number x, double value, uint64_t row) { return same(x.value, value) && x.row == row; }

/* the product over one qubit is its entry with the signs, in every bit, but that -0.0 is told +0.0; a zero is found at row 0 */
static void test_bits_of_one(void) {
    const double tiny = 0x1p-1074, huge = 1.0 / 0.0, entries[] = {1.0, 0.75, 1.0 / 3.0, tiny, 3 * tiny, 0x1p1023, huge};
    for (size_t i = 0; i < sizeof entries / sizeof *entries; i++) {
        const double z = entries[i];
        CHECK(is(product_of(1, z, 0.5, 1.0), z, 0) && is(product_of(1, -z, 0.5, 1.0), -z, 0));
        CHECK(is(product_of(1, z, 0.5, -1.0), -z, 0) && is(product_of(1, -z, 0.5, -1.0), z, 0));
    }
    const double nan = huge - huge;
    const struct number z = product_of(1, nan, 0.5, 1.0);
    CHECK(z.value != z.value && z.row == 0);
    CHECK(is(product_of(1, 0.0, 0.5, 1.0), 0.0, 1) && is(product_of(1, -0.0, 0.5, 1.0), 0.0, 1));
    CHECK(is(product_of(1, 0.0, 0.5, -1.0), 0.0, 1) && is(product_of(1, -0.0, 0.5, -1.0), 0.0, 1));
    /* of two, the mode of qubit 1 comes first; a product that is too small for a float has its sign and no row */
    CHECK(is(product_of(2, -0.0, 0.5, 1.0), 0.0, 3) && is(product_of(2, 0.5, -0.0, 1.0), 0.0, 1));
    CHECK(is(product_of(2, 0.5, -0.25, -1.0), 0.125, 0) && is(product_of(2, 0x1p-600, -0x1p-600, 1.0), -0.0, 0));
}

/* a state by its entries 01, 02, 03, 12, 13, 23 */
#define STATE_OF(a, b, c, d, e, f) \
    {0.0, (a), (b), (c), -(a), 0.0, (d), (e), -(b), -(d), 0.0, (f), -(c), -(e), -(f), 0.0, 1.0, 1.0, 1.0, 1.0}

/* the row is that of the search for a pivot which ended at zero, in the matrix as it is by then */
static void test_rows(void) {
    static const uint16_t modes[2] = {0, 1};
    const double nan = 1.0 / 0.0 - 1.0 / 0.0, more = 1.0 + 0x1p-52, less = 1.0 - 0x1p-53;
    const struct {
        int line;
        double state[JOZKERAL_STATE_PLACES(2)];
        uint64_t row;
    } found[] = {
        {__LINE__, STATE_OF(0.0, 0.0, 0.0, 0.0, 0.0, 0.5), 1},
        {__LINE__, STATE_OF(0.5, 0.0, 0.0, 0.0, 0.0, 0.0), 3},
        /* rows 1 and 2 are exchanged, so that the entry 23 counts no more */
        {__LINE__, STATE_OF(0.0, 1.0, 0.0, 0.0, 0.0, 0.0), 3},
        {__LINE__, STATE_OF(0.0, 1.0, 0.0, 0.0, 0.0, 0.5), 3},
        /* the elimination cancels, the second time by rounding */
        {__LINE__, STATE_OF(0.5, 0.0, 0.5, 0.5, 0.0, -0.5), 3},
        {__LINE__, STATE_OF(1.0, 0.0, less, more, 0.0, -1.0), 3},
        /* no NaN after a zero is above it */
        {__LINE__, STATE_OF(0.0, nan, nan, 0.0, 0.0, 0.5), 1},
        {__LINE__, STATE_OF(-0.0, 0.0, nan, 0.5, nan, 0.5), 1},
    };
    for (size_t i = 0; i < sizeof found / sizeof *found; i++) check(is(product_on(found[i].state, modes, 2), 0.0, found[i].row), "a row", found[i].line);
    const double first_nan[] = STATE_OF(nan, 1.0, 1.0, 1.0, 1.0, 1.0), small[] = STATE_OF(0x1p-600, 0.0, 0.0, 0.0, 0.0, 0x1p-600);
    const struct number z = product_on(first_nan, modes, 2);
    CHECK(z.value != z.value && z.row == 0);
    CHECK(is(product_on(small, modes, 2), 0.0, 0));
}

/* the marginal over the first k qubits, each of which is asked for its bit; Z of qubit 0 is z0, of qubit 1 it is z1 */
static struct number marginal_of(size_t k, double z0, double z1, uint8_t b0, uint8_t b1) {
    const size_t qubits[2] = {0, 1};
    const uint16_t modes[2] = {0, 1};
    const uint8_t bits[2] = {b0, b1};
    const double state[] = STATE_OF(z0, 0.0, 0.0, 0.0, 0.0, z1);
    double work[JOZKERAL_QUERY_PLACES(2)], answer[1] = {7.0};
    uint64_t place[1], row[1] = {7};
    CHECK(jozkeral_marginal_probability(2, state, JOZKERAL_STATE_PLACES(2), modes, 2, qubits, k, bits, k, work, JOZKERAL_QUERY_PLACES(k), place, 1,
                                        answer, 1, row, 1) == 0);
    return (struct number){answer[0], row[0]};
}

/* a marginal has a row only from its Pfaffian's stop: none where the Pfaffian with the sign of the bits is below zero or a NaN */
static void test_marginal_rows(void) {
    const double nan = 1.0 / 0.0 - 1.0 / 0.0, near = 1.0 - 0x1p-53;
    CHECK(is(marginal_of(1, 1.0, 0.0, 1, 0), 0.0, 1) && is(marginal_of(1, -1.0, 0.0, 0, 0), 0.0, 1));
    CHECK(is(marginal_of(2, 1.0, -1.0, 0, 0), 0.0, 3) && is(marginal_of(2, 1.0, -1.0, 1, 0), 0.0, 1));
    CHECK(is(marginal_of(1, 3.0, 0.0, 1, 0), 0.0, 0) && is(marginal_of(1, nan, 0.0, 0, 0), 0.0, 0));
    CHECK(is(marginal_of(2, 3.0, 1.0, 1, 0), 0.0, 0) && is(marginal_of(2, 3.0, 1.0, 1, 1), 0.0, 3));
    CHECK(is(marginal_of(1, near, 0.0, 1, 0), 0x1p-54, 0));
}

static void test_samples(void) {
    struct lent l = state_of_bits();
    const double *s = at(&l.state);
    const uint16_t *m = (const uint16_t *)at(&l.tables) + JOZKERAL_MODES_AT;
    const size_t ns = l.state.len;
    double draws[6] = {0.0, 0.25, 0.5, 0.75, 0.999, 0.1};
    struct slice w = lend(8, WORK + 3), o = lend(8, 5), p = lend(8, 2);
    uint64_t *place = at(&p), *out = at(&o);
    CHECK(jozkeral_sample(3, s, ns, m, MODES, JOZKERAL_MAX_SHOTS + 1, draws, 6, at(&w), w.len, out, 5, place, 2) == JOZKERAL_SHOTS && cleared(&w, WORK));
    CHECK(jozkeral_sample(3, s, ns, m, MODES, 2, draws, 5, at(&w), w.len, out, 5, place, 2) == JOZKERAL_SHOTS);
    CHECK(jozkeral_sample(3, s, ns, m, MODES, 2, draws, 6, at(&w), w.len, out, 3, place, 2) == JOZKERAL_SHOTS);
    CHECK(jozkeral_sample(3, s, ns, m, MODES, 2, draws, 6, at(&w), WORK - 1, out, 5, place, 2) == JOZKERAL_QUERY_WORK && place[0] == 0);
    CHECK(jozkeral_sample(3, s, ns, m, MODES, 2, draws, 6, at(&w), w.len, out, 5, NULL, 0) == JOZKERAL_NO_ROOM);
    draws[4] = 1.0;
    CHECK(jozkeral_sample(3, s, ns, m, MODES, 2, draws, 6, at(&w), w.len, out, 5, place, 2) == JOZKERAL_DRAW && place[0] == 4);
    CHECK(untouched(&o));
    CHECK(jozkeral_sample(3, s, ns, m, MODES, 1, draws, 6, at(&w), w.len, out, 5, place, 2) == 0 && place[0] == 0 && untouched_from(&o, 2));
    draws[4] = 0.5;
    CHECK(jozkeral_sample(3, s, ns, m, MODES, 2, draws, 6, at(&w), w.len, out, 5, place, 2) == 0);
    CHECK(out[0] == 6 && out[1] == 0 && out[2] == 6 && out[3] == 0 && untouched_from(&o, 4) && untouched_from(&p, 1));
    free(w.room);
    free(o.room);
    free(p.room);
    give_back(&l);
}

static void test_apply(void) {
    struct lent l = state_of_bits();
    double *s = at(&l.state), op[JOZKERAL_OP_PLACES] = {1.0, 1.0, 1.0, 0.0, 0.0, -1.0}, work[JOZKERAL_QUERY_PLACES(1)], z[1];
    const uint16_t *m = (const uint16_t *)at(&l.tables) + JOZKERAL_MODES_AT;
    uint64_t place[1], row[1];
    CHECK(jozkeral_apply(3, s, l.state.len, m, MODES, op, JOZKERAL_OP_PLACES - 1) == JOZKERAL_OPERATION);
    op[1] = 3.0;
    CHECK(jozkeral_apply(3, s, l.state.len, m, MODES, op, JOZKERAL_OP_PLACES) == JOZKERAL_OPERATION);
    op[0] = 4.0;
    CHECK(jozkeral_apply(3, s, l.state.len, m, MODES, op, JOZKERAL_OP_PLACES) == JOZKERAL_OPERATION);
    CHECK(jozkeral_apply(3, s, STATE - 1, m, MODES, op, JOZKERAL_OP_PLACES) == JOZKERAL_BAD_STATE);
    op[0] = 3.0;
    CHECK(jozkeral_apply(3, s, l.state.len, m, MODES, op, JOZKERAL_OP_PLACES) == 0);
    op[0] = 1.0;
    op[1] = m[0]; /* a map of determinant -1 on the mode of qubit 0 turns its Z, and no other */
    CHECK(jozkeral_apply(3, s, l.state.len, m, MODES, op, JOZKERAL_OP_PLACES) == 0);
    for (size_t q = 0; q < 2; q++)
        CHECK(jozkeral_expectation_z_product(3, s, l.state.len, m, MODES, &q, 1, work, JOZKERAL_QUERY_PLACES(1), place, 1, z, 1, row, 1) == 0 &&
              z[0] == -1.0);
    CHECK(untouched_from(&l.state, STATE));
    give_back(&l);
}

int main(void) {
    test_tapes();
    test_late();
    test_no_room();
    test_labels();
    test_report();
    test_compile();
    test_queries();
    test_asked();
    test_bits_of_one();
    test_rows();
    test_marginal_rows();
    test_samples();
    test_apply();
    printf("abi.c: %d checks, %d failed\n", checks, failures);
    return failures != 0;
}
