/* Trisculap from C: heap B with a unification that is taken back, and a refusal of each number.
 * Prints what it does; exit status 1 where an answer or a word is not the one expected. */
#include <inttypes.h>
#include <stdio.h>
#include <string.h>
#include "trisculap.h"

#define WORDS(array) (sizeof(array) / sizeof((array)[0]))
#define LENT(array) (array), WORDS(array)

/* A cell is a tag in bits 58 to 63 and a value below; bits 56 and 57 are 0. */
#define VAR(to) (UINT64_C(1) << 58 | (to))
#define STR(to) (UINT64_C(2) << 58 | (to))
#define LIS(to) (UINT64_C(3) << 58 | (to))
#define ATOM(name, arity) (UINT64_C(4) << 58 | (uint64_t)(arity) << 32 | (name))

static int wrong;

static void expect(const char *what, uint64_t got, uint64_t wanted)
{
    printf("%s: %" PRIu64 "\n", what, got);
    if (got != wanted) {
        printf("  expected %" PRIu64 "\n", wanted);
        wrong = 1;
    }
}

/* Heap B holds one term, g(X), at cell 1; its variable X is cell 3. */
static uint64_t cells[16] = {0, STR(2), ATOM('g', 1), VAR(3)};
static uint64_t trail[16], marks[TRISCULAP_MARK_WORDS], work[TRISCULAP_WORK_PER_CELL * 16];
static size_t top = 4, trailed, marked;

static uint64_t unify(size_t a, size_t b, uint64_t *yes)
{
    return trisculap_unify(LENT(cells), top, LENT(trail), &trailed, LENT(marks), marked,
                           LENT(work), a, b, yes);
}

static uint64_t unify_checked(size_t a, size_t b, uint64_t *yes)
{
    return trisculap_unify_checked(LENT(cells), top, LENT(trail), &trailed, LENT(marks), marked,
                                   LENT(work), a, b, yes);
}

static uint64_t rollback(size_t k)
{
    return trisculap_rollback(LENT(cells), &top, LENT(trail), &trailed, LENT(marks), &marked, k);
}

static void bind_and_take_back(void)
{
    size_t number = 0;
    uint64_t yes = 0;

    expect("check",
           trisculap_check(LENT(cells), top, LENT(trail), trailed, LENT(marks), marked), 0);
    expect("mark",
           trisculap_mark(LENT(cells), top, LENT(trail), trailed, LENT(marks), &marked, &number),
           0);
    expect("its number", number, 1);

    expect("unify 1 and 3", unify(1, 3, &yes), 0);
    expect("they unify", yes, 1);
    expect("trail entries", trailed, 1);
    expect("the entry", trail[0], 3);
    expect("cell 3 is Str 2", cells[3] == STR(2), 1);

    expect("cycle verdict at 1", trisculap_cyclic(LENT(cells), top, 1, &yes), 0);
    expect("it reaches a cycle", yes, 1);
    expect("unify checked refuses cyclic roots", unify_checked(1, 3, &yes), 6);

    expect("roll back to mark 1", rollback(1), 0);
    expect("cell 3 is unbound again", cells[3] == VAR(3), 1);
    expect("unify checked", unify_checked(1, 3, &yes), 0);
    expect("they unify", yes, 0);
}

static void add(void)
{
    const uint64_t atom[] = {ATOM('a', 0)};
    size_t at = 0;
    uint64_t word = 0;

    expect("copy 1", trisculap_copy(LENT(cells), &top, LENT(work), 1, &at), 0);
    expect("the copy stands at", at, 4);
    expect("used cells", top, 7);
    expect("follow 3", trisculap_follow(LENT(cells), top, 3, &word), 0);
    expect("it ends at itself", word == VAR(3), 1);
    expect("cut all marks",
           trisculap_cut(LENT(cells), top, LENT(trail), trailed, LENT(marks), &marked, 0), 0);
    expect("marks", marked, 0);
    expect("number cell of -1", trisculap_number(-1, &word), 0);
    expect("its word", word == UINT64_C(0x14FFFFFFFFFFFFFF), 1);
    expect("append an atom",
           trisculap_append(LENT(cells), &top, LENT(trail), trailed, LENT(marks), marked,
                            LENT(atom), &at), 0);
    expect("it stands at", at, 7);
}

/* A refusal of each number, on a store as small as can be. Nothing changes. */
static void refusals(void)
{
    uint64_t fresh[1] = {0}, var[2] = {0, VAR(1)}, room[2] = {0, 0};
    uint64_t ring[3] = {0, LIS(1), ATOM('a', 0)};
    uint64_t none[1] = {0}, mark[2] = {0, 0}, buffer[36], yes = 99, word = 99;
    const uint64_t zero[1] = {0};
    size_t one = 1, no = 0, set = 0, number = 99, at = 99;
    memset(buffer, 0x5A, sizeof buffer);

    expect("no cell is used", trisculap_check(LENT(fresh), 0, none, 0, 0, none, 0, 0), 1);
    expect("a trail entry that is not lent",
           trisculap_check(LENT(fresh), 1, none, 0, 1, none, 0, 0), 2);
    expect("cell 0 is no root", trisculap_follow(LENT(fresh), 1, 0, &word), 3);
    expect("no work buffer",
           trisculap_unify(LENT(var), 2, none, 0, &no, mark, 0, 0, buffer, 0, 1, 1, &yes), 4);
    expect("no trail entry for an unbound Var",
           trisculap_unify(LENT(var), 2, none, 0, &no, mark, 0, 0, buffer, 24, 1, 1, &yes), 5);
    expect("a root that reaches a cycle",
           trisculap_unify_checked(LENT(ring), 3, none, 0, &no, mark, 0, 0, LENT(buffer), 1, 1,
                                   &yes), 6);
    expect("no room for a mark",
           trisculap_mark(LENT(fresh), 1, none, 0, 0, mark, 0, &set, &number), 7);
    expect("no such mark",
           trisculap_rollback(LENT(fresh), &one, none, 0, &no, LENT(mark), &set, 1), 8);
    expect("an appended word that is no cell",
           trisculap_append(LENT(room), &one, none, 0, 0, mark, 0, 0, LENT(zero), &at), 9);
    set = 1;
    expect("a mark that would leave no store",
           trisculap_rollback(LENT(fresh), &one, none, 0, &no, LENT(mark), &set, 1), 10);
    expect("2 to the 55th is no Fixnum", trisculap_number(INT64_C(1) << 55, &word), 11);

    int kept = yes == 99 && word == 99 && number == 99 && at == 99;
    kept = kept && one == 1 && no == 0 && set == 1 && fresh[0] == 0 && room[1] == 0;
    kept = kept && var[0] == 0 && var[1] == VAR(1) && none[0] == 0 && mark[0] == 0 && mark[1] == 0;
    kept = kept && ring[0] == 0 && ring[1] == LIS(1) && ring[2] == ATOM('a', 0);
    for (size_t i = 0; i < WORDS(buffer); i++)
        kept = kept && buffer[i] == UINT64_C(0x5A5A5A5A5A5A5A5A);
    expect("words, counts and answers are as they were", kept, 1);
}

int main(void)
{
    bind_and_take_back();
    add();
    refusals();
    puts(wrong ? "wrong" : "all as expected");
    return wrong;
}
