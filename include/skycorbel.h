/* The call of Skycorbel for C. The library is crates/capi/out/libcapi.a, for x86-64 Linux. */
#ifndef SKYCORBEL_H
#define SKYCORBEL_H

#include <stddef.h>
#include <stdint.h>

#ifdef __cplusplus
extern "C" {
#endif

/* What answer[0] says. */
enum { SKYCORBEL_REFUSED = 0, SKYCORBEL_NO = 1, SKYCORBEL_YES = 2 };

/* The words of an answer. */
enum {
    SKYCORBEL_SAID = 0,      /* refused, no or yes */
    SKYCORBEL_QUESTION = 1,  /* the number of the question that refuses, 1 to 19 or 21; else 0 */
    SKYCORBEL_PLACE = 2,     /* its place, at most 4096; else 0 */
    SKYCORBEL_MOVES = 3,     /* moves made, at most 4096 */
    SKYCORBEL_VISITS = 4,    /* visits made */
    SKYCORBEL_DEEPEST = 5,   /* the greatest depth; 0 where refused, as the next three */
    SKYCORBEL_WEIGHT = 6,    /* parts in the tree plus twice the receipts made, at most 64 */
    SKYCORBEL_WORDS = 7,     /* words of the tree, which stand at the start of out */
    SKYCORBEL_ITINERARY = 8, /* moves of the itinerary, which stand at the start of list, at most 256 */
    SKYCORBEL_ANSWER_WORDS = 9
};

/* The fewest words that list must have. */
enum { SKYCORBEL_LIST_WORDS = 256 };

/*
 * Makes the moves on the script, walks the rule over the tree that then stands, and writes that tree to out. Each pointer
 * has so many words behind it as the count after it says; a pointer with count 0 is not followed. Nothing else may use out,
 * list and answer meanwhile, and none of them may overlap another argument.
 *
 * Where the rule begins with SOMETIME and the answer is yes, list gets an itinerary: move words that lead from the tree that
 * stands after the moves to one that meets the rule inside SOMETIME. There are none where that tree meets it as it stands. In
 * every other case list is left as it was and answer[SKYCORBEL_ITINERARY] is 0. Every call whose list_words is below 256 is
 * refused by question 21, whatever its rule.
 *
 * Returns 1. Where answer_words is below 9 it returns 0 and does nothing. A refused call leaves out and list as they were, an
 * accepted one every word behind the tree and behind the itinerary; words of answer behind the ninth stay as they were.
 *
 * The deepest walks of the tests run with 2 MiB of stack.
 */
uint32_t skycorbel_call(const uint32_t *script, size_t script_words, const uint32_t *moves, size_t moves_words,
                        const uint32_t *rule, size_t rule_words, uint32_t patience, uint32_t *out, size_t out_words,
                        uint32_t *list, size_t list_words, uint32_t *answer, size_t answer_words);

#ifdef __cplusplus
}
#endif

#endif
