/* The families of scripts.py made with BuDDy, a package of binary decision diagrams (Debian's libbdd-dev), to compare with:
 *     cc -O2 -o buddy buddy.c -lbdd && ./buddy adder 32
 * It prints the nodes of what the family makes. The functions, their order and the drawn literals are those of scripts.py. */
#include <bdd.h>
#include <stdint.h>
#include <stdio.h>
#include <stdlib.h>
#include <string.h>

static uint64_t state = 1;

static uint64_t draw(uint64_t below)
{
    state = state * 6364136223846793005u + 1442695040888963407u;
    return (state >> 33) % below;
}

/* The first is let go once the answer is there. */
static BDD joined(BDD left, BDD right, int operation)
{
    BDD answer = bdd_addref(bdd_apply(left, right, operation));
    bdd_delref(left);
    return answer;
}

static BDD parity(int n)
{
    BDD all = bdd_addref(bdd_ithvar(0));
    for (int i = 1; i < n; i++)
        all = joined(all, bdd_ithvar(i), bddop_xor);
    return all;
}

static BDD equality(int n)
{
    BDD all = bddtrue;
    for (int i = 0; i < n; i++) {
        BDD same = bdd_addref(bdd_biimp(bdd_ithvar(2 * i), bdd_ithvar(2 * i + 1)));
        all = joined(all, same, bddop_and);
        bdd_delref(same);
    }
    return all;
}

static BDD clauses(int n)
{
    BDD all = bddtrue;
    for (int number = 0; number < n; number++) {
        int chosen[16], left = 16;
        BDD clause = bddfalse;
        for (int i = 0; i < 16; i++)
            chosen[i] = i;
        for (int literal = 0; literal < 3; literal++) {
            int at = (int)draw(left), variable = chosen[at];
            memmove(chosen + at, chosen + at + 1, (--left - at) * sizeof *chosen);
            clause = joined(clause, draw(2) ? bdd_ithvar(variable) : bdd_nithvar(variable), bddop_or);
        }
        all = joined(all, clause, bddop_and);
        bdd_delref(clause);
    }
    return all;
}

/* How many nodes the sums and carries of two numbers have together. */
static int adder_nodes(int n)
{
    BDD *kept = malloc(2 * n * sizeof *kept);
    for (int i = 0; i < n; i++) {
        BDD a = bdd_ithvar(2 * i), b = bdd_ithvar(2 * i + 1);
        BDD either = bdd_addref(bdd_xor(a, b)), both = bdd_addref(bdd_and(a, b));
        if (i == 0) {
            kept[0] = either;
            kept[1] = both;
        } else {
            BDD passed = bdd_addref(bdd_and(either, kept[2 * i - 1]));
            kept[2 * i] = bdd_addref(bdd_xor(either, kept[2 * i - 1]));
            kept[2 * i + 1] = bdd_addref(bdd_or(both, passed));
        }
    }
    int nodes = bdd_anodecount(kept, 2 * n);
    free(kept);
    return nodes;
}

int main(int count, char **words)
{
    if (count != 3 || atoi(words[2]) < 1) {
        fprintf(stderr, "usage: buddy parity|adder|clauses|equality N\n");
        return 2;
    }
    const char *family = words[1];
    int n = atoi(words[2]);
    bdd_init(10000, 10000);
    bdd_setvarnum(!strcmp(family, "parity") ? n : !strcmp(family, "clauses") ? 16 : 2 * n);
    bdd_gbc_hook(NULL);
    if (!strcmp(family, "adder"))
        printf("%d nodes\n", adder_nodes(n));
    else if (!strcmp(family, "parity"))
        printf("%d nodes\n", bdd_nodecount(parity(n)));
    else if (!strcmp(family, "clauses"))
        printf("%d nodes\n", bdd_nodecount(clauses(n)));
    else
        printf("%d nodes\n", bdd_nodecount(equality(n)));
    bdd_done();
    return 0;
}
