/* What makes one scaffold job as harsh as another, field by field, in words. */
#include "order.h"

#include <inttypes.h>

#include "fields.h"

/* What is asked of a number of the harsh job, beside that of the mild one. */
typedef enum { ALIKE, NO_SMALLER, NO_GREATER, BY_SOIL, FREE } Asked;

static const Asked asked_of[REMBILUNG_NUMBERS] = {
    [REMBILUNG_FAMILY] = ALIKE,
    [REMBILUNG_TUBE] = ALIKE,
    [REMBILUNG_SPACING] = NO_SMALLER,
    [REMBILUNG_BAY] = NO_SMALLER,
    [REMBILUNG_STEP] = NO_SMALLER,
    [REMBILUNG_TIE_INTERVAL] = NO_SMALLER,
    [REMBILUNG_HEIGHT] = NO_SMALLER,
    [REMBILUNG_BOARDS] = ALIKE,
    [REMBILUNG_BOARDED_LAYERS] = NO_SMALLER,
    [REMBILUNG_WORKING_LAYERS] = NO_SMALLER,
    [REMBILUNG_LIVE_ONE_LAYER] = NO_SMALLER,
    [REMBILUNG_LIVE_ALL_LAYERS] = NO_SMALLER,
    [REMBILUNG_NETS] = NO_SMALLER,
    [REMBILUNG_STRUCTURE] = NO_SMALLER,
    [REMBILUNG_BASIC_WIND] = NO_SMALLER,
    [REMBILUNG_HEIGHT_FACTOR] = NO_SMALLER,
    [REMBILUNG_ENCLOSURE] = ALIKE,
    [REMBILUNG_SHIELD] = NO_SMALLER,
    [REMBILUNG_WALL_BEHIND] = ALIKE,
    [REMBILUNG_WALL_THICKNESS] = FREE,
    [REMBILUNG_WALL_MAKE] = FREE,
    [REMBILUNG_TIE_CAPACITY] = NO_GREATER,
    [REMBILUNG_SOIL] = BY_SOIL,
    [REMBILUNG_GROUND_STRENGTH] = NO_GREATER,
    [REMBILUNG_PAD_AREA] = NO_GREATER,
};

static const char *const asked_in_words[] = {
    [ALIKE] = "it has to be the same in both",
    [NO_SMALLER] = "in the harsh job it may be no smaller",
    [NO_GREATER] = "in the harsh job it may be no greater",
    [BY_SOIL] = "in the harsh job its factor may be no greater, which is 0.4 for 1, 2 and 3, 0.5 for 4 and 1.0 for 5",
    [FREE] = "it may be any in both",
};

/* A soil that bears as this one: 1, 2 and 3 have one factor. */
static uint32_t like_soil(uint32_t soil) {
    return soil <= 3 ? 1 : soil;
}

void explain_order(Text *to, uint32_t field, const uint32_t *mild, const uint32_t *harsh) {
    uint32_t k = (field - 1) % REMBILUNG_NUMBERS;
    text_add(to, "the harsh job is not the mild one or a harsher one: number %" PRIu32 ", %s, is %" PRIu32
             " in the mild job and %" PRIu32 " in the harsh job; %s", field, scaffold.fields[k].name, mild[k], harsh[k],
             asked_in_words[asked_of[k]]);
}

int is_open(int k, const uint32_t *mild, const uint32_t *harsh) {
    if (asked_of[k] == BY_SOIL)
        return like_soil(mild[k]) != like_soil(harsh[k]);
    return asked_of[k] != FREE && mild[k] != harsh[k];
}
