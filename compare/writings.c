/* The search in several writings: what is lent to them, and whether they agree. */
#include <stdio.h>
#include <stdlib.h>
#include <string.h>
#include "journeys.h"
#include "lines.h"
#include "rust.h"
#include "writings.h"
#include "../plain/check.h"
#include "../plain/tables.h"

writings all;

/* ---- what is lent to a search */

/* Slices of the right lengths for the tables, over room for the largest. */
static void lend(lent *l, const flat *t, size_t journey_len) {
    static const size_t most[SLICES] = { 94 * MOST_STOPS + MOST_ROUTES, 144, 2 * MOST_STOPS, KIOSK_MOST_JOURNEY, 5 };
    for (int i = 0; i < SLICES; i++) if (!l->at[i]) l->at[i] = malloc(slice_width[i] * most[i]);
    right_lengths(t->word, l->len);
    l->len[JOURNEY] = journey_len, l->len[ANSWER] = 5;
}
static void spoil(lent *l) { for (int i = 0; i < SLICES; i++) memset(l->at[i], JUNK, bytes_of(l, i)); }
static int untouched(const lent *l) {
    for (int i = 0; i < ANSWER; i++) if (!all_junk(l->at[i], bytes_of(l, i))) return 0;
    return 1;
}

/* ---- a network for all that are asked about it */

static void end(const char *why) { printf("%s\n", why), exit(1); }

void make_ready(const flat *t, size_t journey_len) {
    uint32_t room[3] = { 0, 0, 0 }, number = plain_check(t->word, t->len);
    if (number != 0) { printf("the network is refused with %u\n", number); exit(1); }
    lend(&all.plain, t, journey_len), lend(&all.ours, t, journey_len);
    if (kiosk_check(t->word, t->len) != 0 || kiosk_room(t->word, t->len, room, 3) != 0) end("our check");
    for (int i = 0; has_ours && i < JOURNEY; i++) if (room[i] != all.plain.len[i]) end("our room");
    for (uint32_t mode = 0; has_rust && mode < 2; mode++) {
        if (all.rust[mode]) rust_drop(all.rust[mode]);
        if (!(all.rust[mode] = rust_load(t->word, t->len, all.published ? 0 : mode))) exit(1);
    }
    if (all.threads) rust_drop(all.threads);
    if (has_threads && !(all.threads = rust_load_threads(t->word, t->len))) exit(1);
}

/* ---- agreement */

/* The Rust beside plain C: number, time, stop, round, length and legs; with a new allocator and with one used before. */
static const char *rust_differs(const query *q) {
    static uint8_t journey[KIOSK_MOST_JOURNEY];
    uint32_t answer[5] = { 0 };
    for (uint32_t reuse = 0; reuse < 2; reuse++) {
        rust_solve(all.rust[q->mode], &q->from_kind, reuse, journey, sizeof journey, answer);
        if (memcmp(answer, answer_of(&all.plain), sizeof answer) != 0) return reuse ? "the Rust's answer, allocator reused" : "the Rust's answer";
        if (memcmp(journey, journey_of(&all.plain), answer[4]) != 0) return "the Rust's legs";
    }
    return NULL;
}

/* The Rust over the real rayon beside plain C: number, time, stop and round. Its legs may differ where proposals tie, and are counted. */
static const char *threads_differ(const query *q) {
    static uint8_t journey[KIOSK_MOST_JOURNEY];
    uint32_t answer[5] = { 0 }, *plain = answer_of(&all.plain);
    rust_solve(all.threads, &q->from_kind, 0, journey, sizeof journey, answer);
    if (memcmp(answer, plain, 4 * sizeof *answer) != 0) return "the Rust's answer over the real rayon";
    all.with_threads++, all.other_legs += answer[4] != plain[4] || memcmp(journey, journey_of(&all.plain), answer[4]) != 0;
    return NULL;
}

const char *ours_differ(solver *f, const flat *t, const query *q, uint32_t number) {
    static const char *const named[SLICES] = { "our words", "our marks", "our places", "our journey bytes", "our answer" };
    uint32_t refused[5] = { number, 0, 0, 0, 0 };
    all.ours.len[JOURNEY] = all.plain.len[JOURNEY];
    spoil(&all.ours);
    if (ask(f, t->word, t->len, &all.ours, q) != answer_of(&all.ours)[0]) return "our number and our answer";
    if (number > 0) {
        if (memcmp(answer_of(&all.ours), refused, sizeof refused) != 0) return "our refusal";
        return untouched(&all.ours) ? NULL : "what our refusal left";
    }
    for (int i = SLICES; i-- > 0;) if (memcmp(all.ours.at[i], all.plain.at[i], bytes_of(&all.plain, i)) != 0) return named[i];
    return NULL;
}
const char *both_ours_differ(const flat *t, const query *q, uint32_t number) {
    const char *what = has_ours ? ours_differ(ours_checked, t, q, number) : NULL;
    return what || !has_ours ? what : ours_differ(ours_checking, t, q, number);
}

static void ask_plain(const flat *t, const query *q) { spoil(&all.plain); ask(plain_solve, t->word, t->len, &all.plain, q); }

/* A found journey asked for with a buffer that is one byte too short: 12 and the length, nothing written. */
static const char *short_differs(const flat *t, const query *q) {
    lent *plain = &all.plain;
    uint32_t wanted[5] = { 12, 0, 0, 0, answer_of(plain)[4] };
    const char *what = NULL;
    size_t room = plain->len[JOURNEY];
    plain->len[JOURNEY] = wanted[4] - 1;
    ask_plain(t, q);
    if (memcmp(answer_of(plain), wanted, sizeof wanted) != 0 || !all_junk(plain->at[JOURNEY], plain->len[JOURNEY])) what = "plain C's short buffer";
    if (!what) what = both_ours_differ(t, q, 0);
    plain->len[JOURNEY] = room;
    return what;
}

/* What was found is judged: a yes, by ours where it is there; of an arrival, where the footpaths are listed both ways. */
static const char *verdict_differs(const flat *t, const query *q) {
    uint64_t told = 0;
    if (q->when == 1 && !both_ways(t->word, q->walks != KIOSK_WALKS_BARRED)) return NULL;
    all.judged++;
    uint32_t number = (has_ours ? our_judge_checked : plain_judge_checked)(t->word, t->len, journey_of(&all.plain), answer_of(&all.plain)[4],
        q->from_kind, q->from, q->to_kind, q->to, q->when, q->moment, q->walks, &told, 1);
    return number == 0 && told == 1 ? NULL : "a journey that was found gets no yes";
}

const char *differs(const flat *t, const query *q, int rust_too) {
    uint32_t number = refusal(t->word, q);
    const char *what = NULL;
    if (number == 0) ask_plain(t, q);
    if (number == 0 && answer_of(&all.plain)[0] == 0) {
        if ((what = short_differs(t, q)) != NULL) return what;
        ask_plain(t, q);
    }
    if (has_rust && rust_too && number == 0 && (what = rust_differs(q)) != NULL) return what;
    if (has_threads && rust_too && number == 0 && q->mode == 0 && (what = threads_differ(q)) != NULL) return what;
    if (number == 0 && answer_of(&all.plain)[0] == 0 && (what = verdict_differs(t, q)) != NULL) return what;
    return both_ours_differ(t, q, number);
}

/* Three are shown. */
void report(const char *what, const flat *t, const query *q) {
    static const flat too_long = { 0 };
    if (++all.differing > 3) return;
    printf("differs: %s (mode %u)\n", what, q->mode);
    print_network(t->len < 4000 ? t : &too_long);       /* a city's tables are not shown */
    print_query(q);
}
int print_differing(void) {
    printf("; judged yes: %lu", all.judged);
    if (has_threads) printf("; over the real rayon %lu, %lu with other legs", all.with_threads, all.other_legs);
    printf("; %u differ\n", all.differing);
    return all.differing > 0;
}
