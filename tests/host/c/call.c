/* The header's call from C: 01's example W, moved by its list and then by an itinerary; then with buffers too short. */
#include "../../../include/skycorbel.h"
#include <stdio.h>

#define COUNT(words) (sizeof(words) / sizeof(*(words)))

static const uint32_t script[] = {0x10000000, 0x80000001, 0x20000000, 0xA0000000, 0x80000002, 0, 0, 0x10000000, 0x80000002, 0, 0};
static const uint32_t moves[] = {0x10000102};
/* SOMETIME AT 2 AT 1 VOID, and the rule inside it */
static const uint32_t sometime[] = {0x70000000, 0x40000002, 0x40000001, 0x30000000};
static const uint32_t *const inside = sometime + 1;

static uint32_t out[12], list[SKYCORBEL_LIST_WORDS + 1], answer[SKYCORBEL_ANSWER_WORDS + 1];

static void mark(uint32_t *words, size_t count) {
    for (size_t i = 0; i < count; i++) words[i] = 7;
}

/* Makes the call on marked buffers, and prints what it returns, the answer and the word behind it, all of out, and the first
   and the last words of list. */
static void ask(size_t moves_words, const uint32_t *rule, size_t rule_words, size_t list_words, size_t answer_words) {
    mark(out, COUNT(out));
    mark(list, COUNT(list));
    mark(answer, COUNT(answer));
    printf("%u:", skycorbel_call(script, COUNT(script), moves_words ? moves : NULL, moves_words, rule, rule_words, 9, out,
                                 COUNT(out), list, list_words, answer, answer_words));
    for (size_t i = 0; i < COUNT(answer); i++) printf(" %u", answer[i]);
    printf("\n");
    for (size_t i = 0; i < COUNT(out); i++) printf("%08X\n", out[i]);
    printf("%08X %08X %u %u\n", list[0], list[1], list[SKYCORBEL_LIST_WORDS - 1], list[SKYCORBEL_LIST_WORDS]);
}

int main(void) {
    ask(1, inside, 3, SKYCORBEL_LIST_WORDS, SKYCORBEL_ANSWER_WORDS);
    ask(0, sometime, 4, SKYCORBEL_LIST_WORDS, SKYCORBEL_ANSWER_WORDS);
    ask(0, sometime, 4, SKYCORBEL_LIST_WORDS - 1, SKYCORBEL_ANSWER_WORDS);
    ask(0, sometime, 4, SKYCORBEL_LIST_WORDS, SKYCORBEL_ANSWER_WORDS - 1);
    skycorbel_call(NULL, 0, NULL, 0, NULL, 0, 0, NULL, 0, NULL, 0, answer, SKYCORBEL_ANSWER_WORDS);
    printf("%u %u %u\n", answer[SKYCORBEL_SAID], answer[SKYCORBEL_QUESTION], answer[SKYCORBEL_ITINERARY]);
    return 0;
}
