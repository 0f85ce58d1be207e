/* The calls of the library from C: prints what they give for sheet A of document 01 and for what is refused. */
#include <stdio.h>
#include "pulvanor.h"

static const uint8_t sheet[58] = {
    1, 2, 2, 0, 20, 0, 0, 0, 29, 0, 0, 0, 49, 0, 0, 0, 9, 0, 0, 0,
    1, 0, 0, 0, 0, 0, 0, 0, 128, 136, 19, 0, 0, 232, 3, 0, 0, 160, 3, 0, 0, 160, 15, 0, 0, 232, 3, 0, 0,
    2, 0, 0, 2, 0, 0, 0, 2, 0,
};
static const uint8_t marks[2] = {2, 3};
static const uint8_t disk_marks[2] = {3, 3};

static void answer(const char *name, struct pulvanor_answer a) {
    printf("%s: number %llu, time %llu\n", name, (unsigned long long)a.number, (unsigned long long)a.time);
}

static void outcome(const char *name, struct pulvanor_outcome o) {
    const struct pulvanor_place *p = &o.run.place;
    printf("%s: number %llu, position %zu, awaiting %d", name, (unsigned long long)o.number, p->position, p->awaiting);
    printf(", kept %llu, redone %llu", (unsigned long long)p->sums.kept, (unsigned long long)p->sums.redone);
    printf(", verify %llu, saves %llu", (unsigned long long)p->sums.verify, (unsigned long long)p->sums.saves);
    printf(", recovery %llu\n", (unsigned long long)p->sums.recovery);
}

typedef struct pulvanor_answer planner(const uint8_t *, size_t, uint8_t *, size_t);

/* The plan of a sheet into a buffer of 9s, by one of the planners of time. */
static void planned(const char *name, planner *plan, const uint8_t *bytes, size_t length, size_t room) {
    uint8_t buffer[4] = {9, 9, 9, 9};
    answer(name, plan(bytes, length, buffer, room));
    printf("  buffer %d %d %d %d\n", buffer[0], buffer[1], buffer[2], buffer[3]);
}

/* The plan by energy of a sheet into a buffer of 9s. */
static void by_energy(const char *name, const uint8_t *bytes, size_t length, uint64_t computing, uint64_t saving, size_t room) {
    uint8_t buffer[6] = {9, 9, 9, 9, 9, 9};
    struct pulvanor_answer a = pulvanor_energy(bytes, length, computing, saving, buffer, room);
    printf("%s: number %llu, energy %llu\n", name, (unsigned long long)a.number, (unsigned long long)a.time);
    printf("  buffer %d %d %d %d %d %d\n", buffer[0], buffer[1], buffer[2], buffer[3], buffer[4], buffer[5]);
}

static void found(const char *name, const uint8_t *bytes, size_t length, uint64_t kind) {
    struct pulvanor_found f = pulvanor_lookup(bytes, length, kind);
    printf("%s: number %llu, start %zu, size %zu\n", name, (unsigned long long)f.number, f.start, f.size);
}

/* Two sheets joined into a buffer of 9s, and how many bytes of it are 9 still. */
static struct pulvanor_joined joined(const char *name, const uint8_t *one, size_t length, const uint8_t *other, size_t other_length, uint8_t *buffer, size_t room) {
    struct pulvanor_joined j;
    size_t i, left = 0;
    for (i = 0; i < room; i++)
        buffer[i] = 9;
    j = pulvanor_join(one, length, other, other_length, buffer, room);
    for (i = j.length; i < room; i++)
        left += buffer[i] == 9;
    printf("%s: number %llu, length %zu, untouched after it %zu\n", name, (unsigned long long)j.number, j.length, left);
    return j;
}

/* The sheet with nine tasks of 131072 ticks. */
static void nine_tasks(uint8_t *bytes) {
    size_t i;
    for (i = 0; i < 50 + 4 * 9; i++)
        bytes[i] = i < sizeof sheet ? sheet[i] : bytes[i - 4];
    bytes[1] = 9;
    bytes[16] = 1 + 4 * 9;
}

/* Plans by energy: of sheet A, and of four tasks whose marks differ from those of the least time. */
static void energies(void) {
    static const uint8_t four[66] = {
        1, 4, 2, 0, 20, 0, 0, 0, 29, 0, 0, 0, 49, 0, 0, 0, 17, 0, 0, 0,
        1, 0, 0, 0, 4, 0, 0, 0, 16, 224, 147, 4, 0, 96, 234, 0, 0, 40, 35, 0, 0, 64, 13, 3, 0, 112, 17, 1, 0,
        2, 7, 0, 16, 0, 41, 161, 7, 0, 97, 174, 10, 0, 167, 187, 13, 0,
    };
    uint8_t steep[sizeof sheet], dear[sizeof sheet];
    size_t i;
    for (i = 0; i < sizeof sheet; i++)
        steep[i] = dear[i] = sheet[i];
    steep[28] = steep[53] = steep[57] = 2; /* a silent rate of 2^25, two tasks of 2^25 */
    steep[52] = steep[56] = 0;
    dear[29] = dear[30] = 0; /* C_D 2^30 */
    dear[32] = 64;
    by_energy("energy, powers 1 and 1", sheet, sizeof sheet, 1, 1, 6);
    by_energy("energy, a buffer that just holds the marks", sheet, sizeof sheet, 1, 1, 2);
    by_energy("energy, powers 2 and 3", sheet, sizeof sheet, 2, 3, 6);
    planned("plan of four tasks", pulvanor_plan, four, sizeof four, 4);
    by_energy("energy of them, powers 3 and 5", four, sizeof four, 3, 5, 6);
    by_energy("energy of them, powers 5 and 3", four, sizeof four, 5, 3, 6);
    by_energy("energy, power 0", sheet, sizeof sheet, 0, 1, 6);
    by_energy("energy, power 17 and a short buffer", sheet, sizeof sheet, 1, 17, 1);
    by_energy("energy, power 2^32 + 1", sheet, sizeof sheet, (1ULL << 32) + 1, 1, 6);
    by_energy("energy, power 2^64 - 1", sheet, sizeof sheet, 1, UINT64_MAX, 6);
    by_energy("energy, a product of 2^30", dear, sizeof dear, 16, 1, 6);
    by_energy("energy, a product of 2^32", dear, sizeof dear, 1, 4, 6);
    planned("plan in time", pulvanor_plan, steep, sizeof steep, 4);
    by_energy("energy above 2^34 - 1", steep, sizeof steep, 5, 1, 6);
    by_energy("energy, short buffer", sheet, sizeof sheet, 2, 3, 1);
    by_energy("energy, a cut sheet and power 0", sheet, 57, 0, 0, 1);
}

/* Whether every field of a state is 0. */
static int all_zero(const struct pulvanor_run *r) {
    const struct pulvanor_platform *p = &r->job.platform;
    const struct pulvanor_sums *s = &r->place.sums;
    uint64_t some = r->job.tasks | p->failstop | p->silent | p->cd | p->cm | p->v | p->rd | p->rm;
    size_t t;
    for (t = 0; t < PULVANOR_TASKS; t++)
        some |= r->job.weights[t] | r->marks[t];
    some |= r->place.position | r->place.awaiting | s->kept | s->redone | s->verify | s->saves | s->recovery;
    return some == 0;
}

/* Each call that reads a sheet, on one with a byte past its sections. */
static void stray_byte(void) {
    uint8_t longer[sizeof sheet + 1], buffer[70];
    struct pulvanor_outcome o;
    size_t i;
    for (i = 0; i < sizeof longer; i++)
        longer[i] = i < sizeof sheet ? sheet[i] : 0;
    found("stray byte, platform", longer, sizeof longer, 1);
    found("stray byte, kind 3", longer, sizeof longer, 3);
    joined("stray byte, joined as the first", longer, sizeof longer, sheet, sizeof sheet, buffer, sizeof buffer);
    joined("stray byte, joined as the second", sheet, sizeof sheet, longer, sizeof longer, buffer, sizeof buffer);
    answer("stray byte, price of 23", pulvanor_price(longer, sizeof longer, marks, sizeof marks));
    planned("stray byte, plan", pulvanor_plan, longer, sizeof longer, 4);
    by_energy("stray byte, energy", longer, sizeof longer, 0, 0, 6);
    planned("stray byte, printed", pulvanor_printed, longer, sizeof longer, 4);
    o = pulvanor_start(longer, sizeof longer, marks, sizeof marks);
    outcome("stray byte, start", o);
    printf("its state is all 0: %s\n", all_zero(&o.run) ? "yes" : "no");
}

/* Where a run with names stands, and what it holds. */
static struct pulvanor_named_run named(const char *name, struct pulvanor_named_outcome o) {
    struct pulvanor_outcome plain = {o.number, o.state.run};
    size_t i;
    outcome(name, plain);
    printf("  names");
    for (i = 0; i < o.state.names.count && i < PULVANOR_NAMES; i++)
        printf(" %d at %zu", o.state.names.entries[i].name, o.state.names.entries[i].place.position);
    printf("\n");
    return o.state;
}

/* A place named before the second task, and a return to it; 30, 31 and 21. */
static void named_places(struct pulvanor_run run, const uint8_t *log) {
    struct pulvanor_named_run state = {0};
    struct pulvanor_named_outcome full;
    int i;
    state.run = run;
    state = named("named: two events", pulvanor_follow_named(state, log, 10));
    state = named("7 named", pulvanor_name(state, 7));
    state = named("failed and done again", pulvanor_follow_named(state, log + 10, 15));
    state = named("8 named", pulvanor_name(state, 8));
    state = named("back to 7", pulvanor_return(state, 7));
    state = named("finished after it", pulvanor_follow_named(state, log + 20, 10));
    state = named("finished, back to 8", pulvanor_return(state, 8));
    state = named("7 named again", pulvanor_name(state, 7));
    named("9 is not held", pulvanor_return(state, 9));
    state = named("7 dropped", pulvanor_drop(state, 7));
    full.state = state;
    for (i = 100; i < 115; i++)
        full = pulvanor_name(full.state, i);
    printf("16 names: number %llu, count %zu\n", (unsigned long long)full.number, full.state.names.count);
    full = pulvanor_name(full.state, 7);
    printf("a new one: number %llu, count %zu\n", (unsigned long long)full.number, full.state.names.count);
    full = pulvanor_name(full.state, 8);
    printf("8 again: number %llu, count %zu\n", (unsigned long long)full.number, full.state.names.count);
    state.names.entries[0].place.sums.kept += 1;
    named("a held place that breaks a rule", pulvanor_drop(state, 9));
}

int main(void) {
    static const uint8_t all[30] = {
        1, 0, 0, 0, 0, 2, 0, 0, 0, 0, 1, 0, 0, 0, 0, 3, 0, 0, 0, 0, 1, 0, 0, 0, 0, 2, 0, 0, 0, 0,
    };
    static const uint8_t stopped[15] = {1, 0, 0, 0, 0, 2, 0, 0, 0, 0, 4, 244, 1, 0, 0};
    struct pulvanor_outcome start = pulvanor_start(sheet, sizeof sheet, marks, sizeof marks);
    struct pulvanor_outcome refused = pulvanor_start(sheet, sizeof sheet, marks, 1);
    struct pulvanor_outcome disk = pulvanor_start(sheet, sizeof sheet, disk_marks, sizeof disk_marks);
    struct pulvanor_outcome first = pulvanor_follow(start.run, all, 15);
    struct pulvanor_run moved;
    struct pulvanor_joined both;
    uint8_t twice[70], four[4], nine[50 + 4 * 9];
    size_t t;
    int past = 0;

    printf("growth: %llu %llu", (unsigned long long)pulvanor_growth(1), (unsigned long long)pulvanor_growth(1 << 24));
    printf(" %llu\n", (unsigned long long)pulvanor_growth((1 << 26) + 1));
    printf("mean growth: %llu\n", (unsigned long long)pulvanor_mean_growth(1));
    found("platform", sheet, sizeof sheet, 1);
    found("weights", sheet, sizeof sheet, 2);
    found("kind 3", sheet, sizeof sheet, 3);
    joined("joined, one byte short", sheet, sizeof sheet, sheet, sizeof sheet, twice, 65);
    joined("joined with a cut sheet", sheet, sizeof sheet, sheet, 57, twice, sizeof twice);
    both = joined("joined", sheet, sizeof sheet, sheet, sizeof sheet, twice, sizeof twice);
    printf("  header %d %d %d %d, kinds %d %d\n", twice[0], twice[1], twice[2], twice[3], twice[20], twice[49]);
    answer("plan of it", pulvanor_plan(twice, both.length, four, sizeof four));
    answer("price of 23", pulvanor_price(sheet, sizeof sheet, marks, sizeof marks));
    answer("price of 2", pulvanor_price(sheet, sizeof sheet, marks, 1));
    answer("price of a cut sheet", pulvanor_price(sheet, 57, marks, sizeof marks));
    planned("plan", pulvanor_plan, sheet, sizeof sheet, 4);
    planned("plan, short buffer", pulvanor_plan, sheet, sizeof sheet, 1);
    planned("printed", pulvanor_printed, sheet, sizeof sheet, 4);
    planned("printed, short buffer", pulvanor_printed, sheet, sizeof sheet, 1);
    planned("printed, a cut sheet", pulvanor_printed, sheet, 57, 4);
    nine_tasks(nine);
    planned("printed, 9 tasks and a short buffer", pulvanor_printed, nine, sizeof nine, 4);
    planned("plan of them", pulvanor_plan, nine, sizeof nine, 4);
    energies();
    stray_byte();
    outcome("start", start);
    for (t = 2; t < PULVANOR_TASKS; t++)
        past += start.run.job.weights[t] != 0 || start.run.marks[t] != 0;
    printf("entries past task 2 that are not 0: %d\n", past);
    outcome("refused start", refused);
    printf("its state is all 0: %s\n", all_zero(&refused.run) ? "yes" : "no");
    outcome("six events", pulvanor_follow(start.run, all, sizeof all));
    outcome("three of them", first);
    outcome("then the other three", pulvanor_follow(first.run, all + 15, 15));
    outcome("stopped", pulvanor_follow(start.run, stopped, sizeof stopped));
    outcome("stopped after a disk copy", pulvanor_follow(disk.run, stopped, sizeof stopped));
    outcome("a record cut short", pulvanor_follow(start.run, all, 14));
    moved = first.run;
    moved.place.awaiting = 7;
    outcome("awaiting 7 and no record", pulvanor_follow(moved, all, 0));
    outcome("awaiting 7, then failed", pulvanor_follow(moved, all + 15, 5));
    moved = start.run;
    moved.place.position = 1;
    outcome("a state that breaks a rule", pulvanor_follow(moved, all, 0));
    named_places(start.run, all);
    return 0;
}
