/* Plans the worked example, runs the plan over a table of three rows and prints both.
   Build and run, from the repository's root:
     tools/staticlib
     gcc -std=c11 -Wall -Wextra -I include examples/plan.c target/staticlib/libexports.a -o target/plan-example
     target/plan-example */
#include <stdio.h>
#include <string.h>
#include "rimdovek.h"

static const char query[] = "00040000\n0100010200010002\n010202010003\n10010000000a\n100200000064\n";
static const char table[] = "30000502010007\n300006010200070005\n3000070300\n";

static int refused(uint64_t answer) {
    fprintf(stderr, "refused: number %u, text %u, line %u\n", rimdovek_refusal_number(answer), rimdovek_refusal_text(answer),
            rimdovek_refusal_line(answer));
    return 1;
}

int main(void) {
    static uint8_t plan[20565], lines[4096];
    uint64_t tries, matches;
    uint64_t planned = rimdovek_plan((const uint8_t *)query, strlen(query), false, NULL, 0, plan, sizeof plan);
    if (planned & RIMDOVEK_REFUSED) return refused(planned);
    size_t plan_len = planned >> 48;
    fwrite(plan, 1, plan_len, stdout);

    uint64_t ran = rimdovek_run(plan, plan_len, (const uint8_t *)table, strlen(table), 1000000, RIMDOVEK_NO_ATOM, lines,
                                sizeof lines, &tries, &matches);
    if (ran & RIMDOVEK_REFUSED) return refused(ran);
    fwrite(lines, 1, ran & 0xffffffff, stdout);
    printf("status %llu, %llu tries, %llu matches\n", (unsigned long long)(ran >> 32), (unsigned long long)tries, (unsigned long long)matches);
    return 0;
}
