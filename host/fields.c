/* The numbers of a job of each kind in words, and job J of document 01. */
#include "fields.h"

/* What both kinds have is said once. */
#define TUBE {"tube", "1 (48 by 3.5 mm) or 2 (51 by 3.0 mm)"}
#define BAY {"bay", "60 to 200 cm"}
#define STEP {"step", "60 to 200 cm"}
#define BASIC_WIND {"basic wind", "0 to 2000 N/m2"}
#define HEIGHT_FACTOR {"height factor", "100 to 4000 thousandths"}
#define SOIL {"soil", "1 (gravel), 2 (sand), 3 (fill), 4 (clay) or 5 (rock or concrete)"}
#define GROUND_STRENGTH {"ground strength", "10 to 2000 kPa"}
#define PAD_AREA {"pad area", "100 to 10000 cm2"}

static const Field scaffold_fields[REMBILUNG_NUMBERS] = {
    {"family", "1 (double row) or 2 (single row)"},
    TUBE,
    {"pole spacing across", "105, 130 or 155 cm in a double row, 60 to 150 cm in a single row"},
    BAY,
    STEP,
    {"tie interval", "2 or 3 steps"},
    {"height", "1 to 5000 cm in a double row, 1 to 2400 cm in a single row"},
    {"boards", "1 (steel), 2 (bamboo) or 3 (timber)"},
    {"boarded layers", "1 to 10"},
    {"working layers", "1 to 9"},
    {"greatest live load on one layer", "0 to 10000 N/m2"},
    {"live load summed over layers", "0 to 30000 N/m2"},
    {"nets per pole", "0 to 5000 N"},
    {"structure weight per pole", "50 to 500 N/m"},
    BASIC_WIND,
    HEIGHT_FACTOR,
    {"enclosure", "1 (open), 2 (half closed) or 3 (fully closed)"},
    {"shield", "1 to 2000 thousandths when open, 1 to 700 when half closed, 1 to 1000 when fully closed"},
    {"wall behind", "1 (closed) or 2 (open, framed or pierced)"},
    {"wall thickness", "0 to 2000 mm"},
    {"wall make", "1 (sound), 2 (hollow or light) or 3 (mortar M1.0 or weaker)"},
    {"tie capacity", "8000 to 100000 N"},
    SOIL,
    GROUND_STRENGTH,
    PAD_AREA,
};

static const Field support_fields[REMBILUNG_SUPPORT_NUMBERS] = {
    {"kind", "3 (support)"},
    TUBE,
    STEP,
    {"overhang above the top ledger", "0 to 100 cm"},
    BAY,
    {"dead load per pole", "0 to 60000 N"},
    {"live load per pole", "0 to 60000 N"},
    BASIC_WIND,
    HEIGHT_FACTOR,
    {"shape factor", "0 to 2000 thousandths"},
    SOIL,
    GROUND_STRENGTH,
    PAD_AREA,
};

const Kind scaffold = {"scaffold job", "1 or 2", REMBILUNG_NUMBERS, scaffold_fields, 1, rembilung_write_job};
const Kind support = {"support", "3", REMBILUNG_SUPPORT_NUMBERS, support_fields, 0, rembilung_write_support};

const uint32_t job_j[REMBILUNG_NUMBERS] = {1,   1,   105,  150, 180, 2, 3000, 3, 4,    2, 3000, 5000, 0,
                                           300, 300, 1000, 1,   200, 1, 240,  1, 8000, 4, 200,  2000};

const Kind *kind_of(uint32_t first) {
    return first == 3 ? &support : &scaffold;
}

/* In its shortest form 3 is the byte 03; a file that begins otherwise is read as a scaffold's, or is damaged there. */
const Kind *kind_of_file(const uint8_t *file, size_t length) {
    return kind_of(length > 0 ? file[0] : 0);
}
