/*
 * A host in C: puts a control tuple on the monitor's input wire, runs the box once, and prints what came out.
 *
 *     host IMAGE
 */
#include <stdio.h>
#include <string.h>

#include "ham.h"

enum { INPUTS = 1, OUTPUTS = 2, RULES = 5, TIME = 10000, STACK = 32, HEAP = 64 };

static uint8_t image[HAM_IMAGE_CAP];
static uint32_t card[HAM_CARD_ENTRIES];
static uint32_t stack[STACK];
static uint32_t heap[HEAP];
static uint32_t wires[(INPUTS + OUTPUTS) * HAM_WIRE_WORDS];

/* "in each ruleset a permutation of 0..count-1": the monitor's rulesets have two, two and one rules. */
static uint32_t order[RULES] = {0, 1, 0, 1, 0};

static const char *const endings[] = {"Finished", "Blocked", "Fault", "NoRule", "Unhandled", "Time", "Stack", "Heap"};

static size_t read_image(const char *path)
{
    FILE *file = fopen(path, "rb");
    if (!file)
        return 0;
    size_t length = fread(image, 1, sizeof image, file);
    fclose(file);
    return length;
}

/* (17, 1030, 412000): a count of words, then the tuple in prefix form, 4 its kind and 2 an Int's. */
static void control_tuple(uint32_t *wire)
{
    const uint32_t words[] = {8, 4 << 16, 3, 2 << 16, 17, 2 << 16, 1030, 2 << 16, 412000};
    memcpy(wire, words, sizeof words);
}

/* (instrument, error rate): a tuple of an Int and a Float. */
static void print_rate(const uint32_t *wire)
{
    float rate;
    memcpy(&rate, &wire[6], sizeof rate);
    printf("instrument %u, error rate %g\n", (unsigned)wire[4], (double)rate);
}

int main(int count, char **arguments)
{
    if (count != 2) {
        fprintf(stderr, "usage: host IMAGE\n");
        return 2;
    }
    for (int i = 0; i < HAM_CARD_ENTRIES; i++)
        card[i] = 10;
    control_tuple(wires);
    struct ham_bytes box = {image, read_image(arguments[1])};
    struct ham_limits limits = {TIME, STACK, HEAP};
    struct ham_lent lent = {{stack, STACK}, {heap, HEAP}, {wires, sizeof wires / sizeof *wires}, {order, RULES}};
    struct ham_figures figures;
    enum ham_refusal refusal = ham_call(box, card, HAM_CARD_ENTRIES, limits, lent, &figures);
    if (refusal != HAM_ACCEPTED) {
        printf("refused %d\n", refusal);
        return 1;
    }
    printf("%s at pc %u: %u steps, time %u, peak %u, depth %u, heap %u\n", endings[figures.ending],
           (unsigned)figures.pc, (unsigned)figures.steps, (unsigned)figures.time, (unsigned)figures.peak,
           (unsigned)figures.depth, (unsigned)figures.heap);
    print_rate(&wires[INPUTS * HAM_WIRE_WORDS]);
    return 0;
}
