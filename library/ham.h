/*
 * The proved machine, for hosts in C: link target/staticlib/libhost.a, which `tools/build` makes.
 *
 * Any image, card, limits and buffers may be handed in. A call that can't run is refused, and then it has written to no
 * buffer. What C can't tell the machine is the caller's to keep: each pointer is to as many words as its length says, and
 * no two buffers overlap.
 */
#ifndef HAM_H
#define HAM_H

#include <stddef.h>
#include <stdint.h>

#define HAM_CARD_ENTRIES 40
#define HAM_WIRE_WORDS 65
#define HAM_STACK_CAP 4096
#define HAM_HEAP_CAP 16384
#define HAM_IMAGE_CAP 33899

/* Why a call was turned away: the first number of document 01's table that applies. */
enum ham_refusal {
    HAM_ACCEPTED = 0,
    HAM_REFUSED_LENGTH = 1,
    HAM_REFUSED_VERSION = 2,
    HAM_REFUSED_COUNTS = 3,
    HAM_REFUSED_CODE = 4,
    HAM_REFUSED_CARD = 5,
    HAM_REFUSED_LIMITS = 6,
    HAM_REFUSED_WIRES = 7,
    HAM_REFUSED_ORDER = 8
};

/* How an accepted call ended. The detail is the output of HAM_BLOCKED, the fault of HAM_FAULT, the exception of HAM_UNHANDLED. */
enum ham_ending {
    HAM_FINISHED = 0,
    HAM_BLOCKED = 1,
    HAM_FAULT = 2,
    HAM_NO_RULE = 3,
    HAM_UNHANDLED = 4,
    HAM_TIME = 5,
    HAM_STACK = 6,
    HAM_HEAP = 7
};

enum ham_fault {
    HAM_TOO_FEW_VALUES = 1,
    HAM_WRONG_KIND = 2,
    HAM_NO_SUCH_PLACE = 3,
    HAM_NO_FRAME = 4,
    HAM_WIRE_FULL = 5,
    HAM_VALUE_TOO_LONG = 6,
    HAM_RULES_USED_UP = 7,
    HAM_EMPTY_INPUT = 8
};

/* All 0 where a call is refused. */
struct ham_figures {
    uint32_t ending;
    uint32_t detail;
    uint32_t pc;
    uint32_t steps;
    uint32_t time;
    uint32_t peak;
    uint32_t depth;
    uint32_t heap;
};

struct ham_limits {
    uint32_t time;
    uint32_t stack;
    uint32_t heap;
};

struct ham_bytes {
    const uint8_t *at;
    size_t length;
};

struct ham_words {
    uint32_t *at;
    size_t length;
};

/* What is lent besides the image and the card: both areas, the wires (inputs first) and the rule order. */
struct ham_lent {
    struct ham_words stack;
    struct ham_words heap;
    struct ham_words wires;
    struct ham_words order;
};

/* The call itself, in plain numbers. It writes as many of the eight figures as there is room for, and none at a refusal. */
uint32_t ham_run(const uint8_t *image, size_t image_length, const uint32_t *card, size_t card_length, uint32_t time,
                 uint32_t stack_limit, uint32_t heap_limit, uint32_t *stack, size_t stack_length, uint32_t *heap,
                 size_t heap_length, uint32_t *wires, size_t wires_length, uint32_t *order, size_t order_length,
                 uint32_t *figures, size_t figures_length);

/* The same with names. */
static inline enum ham_refusal ham_call(struct ham_bytes image, const uint32_t *card, size_t card_length,
                                        struct ham_limits limits, struct ham_lent lent, struct ham_figures *figures)
{
    uint32_t told[8] = {0};
    uint32_t refusal = ham_run(image.at, image.length, card, card_length, limits.time, limits.stack, limits.heap,
                               lent.stack.at, lent.stack.length, lent.heap.at, lent.heap.length, lent.wires.at,
                               lent.wires.length, lent.order.at, lent.order.length, told, 8);
    figures->ending = told[0];
    figures->detail = told[1];
    figures->pc = told[2];
    figures->steps = told[3];
    figures->time = told[4];
    figures->peak = told[5];
    figures->depth = told[6];
    figures->heap = told[7];
    return (enum ham_refusal)refusal;
}

#endif
