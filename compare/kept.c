/* The Rust's kept answers (oracle/): everyone agrees with them, and with one another on the same queries in rescan mode. */
#include <stdio.h>
#include <string.h>
#include "lines.h"
#include "runs.h"
#include "rust.h"
#include "writings.h"

int kept(const char *cases, const char *answers) {
    static char text[MOST_LINE], wanted[1 << 16], given[1 << 16];
    flat t = { 0 };
    query q;
    unsigned asked = 0, refused = 0, left_out = 0;
    FILE *c = fopen(cases, "r"), *a = fopen(answers, "r");
    if (!c || !a) { fprintf(stderr, "no such file\n"); return 2; }
    while (fgets(text, sizeof text, c)) {
        if (strncmp(text, "net", 3) == 0) read_network(text, &t);
        if (!read_query(text, &q)) continue;
        uint8_t reached = 0;
        if (!fgets(wanted, sizeof wanted, a)) return 2;
        wanted[strcspn(wanted, "\n")] = 0;
        uint32_t number = refusal(t.word, &q);
        if (number == 0) rust_reaching(t.word, t.len, !all.published, &q.from_kind, 1, &reached);
        make_ready(&t, SHORT_BYTES);
        const char *what = differs(&t, &q, 1);
        if (number) sprintf(given, "%u", number); else put_answer(&all.plain, given);
        if (!what && strcmp(given, wanted) != 0) what = "the kept answer";
        if (what) report(what, &t, &q);
        q.mode = 1;
        if ((what = differs(&t, &q, !reached)) != NULL) report(what, &t, &q);
        asked++, refused += number > 0, left_out += reached;
    }
    printf("%u kept answers (%u refusals, not asked of plain C), and as many queries in rescan mode (%u not asked of the Rust)",
           asked, refused, left_out);
    return print_differing() || asked == 0;
}
