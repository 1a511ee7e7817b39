/* The stack that each function of kiosk.h takes. */
#include "stack.h"
#include "tables.h"

static struct {
    const tables *t;
    const lent *l;
    kiosk_query q;
    kiosk_answer a;
    uint64_t told;
    uint32_t six[6];
    int right;
} call;

static void call_nothing(void) { }
static void call_check(void) { kiosk_check(call.t->words, call.t->len); }
static void call_room(void) { kiosk_room(call.t->words, call.t->len, call.six, 3); }
static void call_solve(void) {
    kiosk_ask(call.t->words, call.t->len, &call.l->work, call.l->journey, call.l->journey_len, &call.q, &call.a);
}
static void call_checked(void) {
    kiosk_ask_checked(call.t->words, call.t->len, &call.l->work, call.l->journey, call.l->journey_len, &call.q, &call.a);
}
static void call_read(void) { kiosk_read(call.l->journey, call.a.length, &call.told, 1); }
static void call_leg(void) { kiosk_leg(call.l->journey, call.a.length, 0, call.six, 6); }

static void call_judge(void) { kiosk_is_journey(call.t->words, call.t->len, call.l->journey, call.a.length, &call.q, &call.right); }
static void call_judge_checked(void) { kiosk_is_journey_checked(call.t->words, call.t->len, call.l->journey, call.a.length, &call.q, &call.right); }

static void stacks(const tables *t, kiosk_query q) {
    static const measured calls[] = {
        { "kiosk_check", call_check }, { "kiosk_room", call_room }, { "kiosk_ask", call_solve }, { "kiosk_ask_checked", call_checked },
        { "kiosk_read", call_read }, { "kiosk_leg", call_leg }, { "kiosk_is_journey", call_judge },
        { "kiosk_is_journey_checked", call_judge_checked }, { "nothing", call_nothing } };
    lent l = lend(t, KIOSK_MOST_JOURNEY);
    call.t = t, call.l = &l, call.q = q;
    stacks_of(calls, sizeof calls / sizeof *calls);
    give_back(&l);
}
