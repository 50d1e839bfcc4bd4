/* compare [CALLS] [SEED]: holds the library against the reference, for at least so many
   calls; with 0 calls until interrupted. Round r has seed SEED + r: compare 1 SEED runs
   one round again. Exits with 1 at a difference, or where an answer or a class of inputs
   never came up. */
#include "cases.h"

#include <inttypes.h>
#include <stdio.h>
#include <stdlib.h>

static const uint64_t default_calls = 1150000, default_seed = 1;

enum { FAR_EVERY = 4 };

/* The answers each call can give, as the documents list them. */
static int can_answer(enum call call, uint64_t answer)
{
    switch (call) {
    case CHECK: return answer <= 10 || answer == 23;
    case WRITE: return answer <= 1 || answer == 5 || (answer >= 8 && answer <= 10)
                    || answer == 23;
    case PARTS: return answer <= 10 || answer == 23 || answer == 26 || answer == 27;
    case WRITE_PARTS: return can_answer(WRITE, answer) || answer == 26 || answer == 27;
    case BOOK: return answer <= 21 || answer == 24 || answer == 25;
    case LINE: return answer == 0 || answer == 16 || answer == 20;
    case SAVE: return answer == 0 || answer == 20 || answer == 23;
    case TO_NEW: return answer == 0 || answer == 22 || answer == 23;
    case TO_OLD: return can_answer(TO_NEW, answer) || answer == 28;
    case ACCOUNT: return answer == 0 || answer == 20 || answer == 24;
    default: return answer == 0 || answer == 20 || answer == 22 || answer == 23;
    }
}

/* How often each answer of each call was seen; tells whether all were. */
static int print_tally(void)
{
    int all_seen = 1;
    printf("answer");
    for (size_t call = 0; call < CALL_COUNT; call++)
        printf("%10s", call_names[call]);
    for (size_t answer = 0; answer < ANSWER_COUNT; answer++) {
        printf("\n%6zu", answer);
        for (size_t call = 0; call < CALL_COUNT; call++) {
            uint64_t seen = tally.seen[call][answer];
            int can = can_answer((enum call)call, answer);
            if (seen == 0 && !can)
                printf("%10s", "-");
            else
                printf("%10" PRIu64, seen);
            if ((seen > 0) != can)
                all_seen = 0;
        }
    }
    puts("");
    return all_seen;
}

/* One round: all families of cases from one seed; those of every byte, which are many, and the
   far ones, which are slow, in few. */
static void run_round(uint64_t seed, uint64_t round)
{
    struct dice dice;
    tally.seed = seed + round;
    tally.call = 0;
    dice.state = tally.seed * 0x2545f4914f6cdd1du;
    compare_checks(&dice);
    compare_writes(&dice);
    compare_parts(&dice);
    compare_written_parts(&dice);
    compare_bookings(&dice);
    compare_rosters(&dice);
    compare_ceilings(&dice);
    compare_accounts(&dice);
    compare_saves(&dice);
    compare_moves(&dice);
    compare_articles(&dice);
    compare_reports(&dice);
    compare_saved_reports(&dice);
    if (round % FAR_EVERY != 0)
        return;
    compare_marks(&dice);
    compare_report_bytes(&dice);
    compare_saved_report_bytes(&dice);
    compare_part_bytes(&dice);
    compare_written_bytes(&dice);
    compare_far_records(&dice);
    compare_far_books(&dice);
    compare_far_saves(&dice);
    compare_far_rosters(&dice);
}

int main(int count, char **words)
{
    uint64_t calls = count > 1 ? strtoull(words[1], NULL, 10) : default_calls;
    uint64_t seed = count > 2 ? strtoull(words[2], NULL, 10) : default_seed;
    run_samples();
    for (uint64_t round = 0; round == 0 || calls == 0 || tally.calls < calls; round++) {
        run_round(seed, round);
        if (calls == 0 && round % 16 == 0) {
            printf("%" PRIu64 " calls compared, 0 differences so far (seed %" PRIu64 ")\n",
                   tally.calls, tally.seed);
            fflush(stdout);
        }
    }
    int all_answers = print_tally(), all_classes = print_classes();
    if (!all_answers)
        puts("an answer never came up, or came up where none can be");
    if (!all_classes)
        puts("a class of inputs was never generated");
    if (!all_answers || !all_classes)
        return 1;
    printf("%" PRIu64 " calls compared, 0 differences\n", tally.calls);
    return 0;
}
