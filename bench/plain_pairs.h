/* What the work in plain C on lists and on texts shares: pairs in chains, and the search for a
 * repeat along them. */
#ifndef PLAIN_PAIRS_H
#define PLAIN_PAIRS_H

#include "batqemulo.h"

#include <string.h>

/* The latest pair at each place, and before each pair the latest one at the same place. Pairs are
 * counted from 1 here, so that 0 says there is none. */
struct chain {
    uint16_t latest[BATQEMULO_MAX_STATEMENTS];
    uint16_t earlier[BATQEMULO_MAX_OBJECTIONS];
};

/* The pairs so far, each in the chain of its objector and in that of its target. */
struct chains {
    struct chain by_objector;
    struct chain by_target;
};

/* Clears only what this register uses; linking a pair writes what goes before it. */
static inline void begin_chain(struct chain *chain, size_t statements) {
    memset(chain->latest, 0, statements * sizeof chain->latest[0]);
}

static inline void link_pair(struct chain *chain, size_t pair, size_t place) {
    chain->earlier[pair] = chain->latest[place];
    chain->latest[place] = (uint16_t)(pair + 1);
}

static inline void begin_chains(struct chains *chains, size_t statements) {
    begin_chain(&chains->by_objector, statements);
    begin_chain(&chains->by_target, statements);
}

static inline void enter_pair(struct chains *chains, size_t pair, size_t objector, size_t target) {
    link_pair(&chains->by_objector, pair, objector);
    link_pair(&chains->by_target, pair, target);
}

/* Whether this pair is among those in the chains, of which these are the lists. A repeat would be
 * in both chains, so they are walked side by side, and the shorter one ends the search. */
static inline int is_entered(const struct chains *chains, const uint32_t *objectors,
                             const uint32_t *targets, uint32_t objector, uint32_t target) {
    size_t by = chains->by_objector.latest[objector];
    size_t against = chains->by_target.latest[target];
    while (by != 0 && against != 0) {
        if (targets[by - 1] == target || objectors[against - 1] == objector)
            return 1;
        by = chains->by_objector.earlier[by - 1];
        against = chains->by_target.earlier[against - 1];
    }
    return 0;
}

#endif
