/* Draws the registers that are timed: of several shapes, at an eighth, a quarter, a half and all of
 * the limits. Every run draws the same ones. */
#include "registers.h"

#include "plain_lines.h"

struct drawn drawn;

/* xorshift64 with a fixed start */
static size_t below(size_t bound) {
    static uint64_t state = 88172645463325252u;
    state ^= state << 13;
    state ^= state >> 7;
    state ^= state << 17;
    return (size_t)(state % bound);
}

static void add(size_t objector, size_t target) {
    if (drawn.pairs == drawn.most_pairs || drawn.taken[objector][target])
        return;
    drawn.taken[objector][target] = 1;
    drawn.objectors[drawn.pairs] = (uint32_t)objector;
    drawn.targets[drawn.pairs] = (uint32_t)target;
    drawn.pairs++;
}

static void add_random(void) {
    while (drawn.pairs < drawn.most_pairs)
        add(below(drawn.statements), below(drawn.statements));
}

static void draw_random(void) {
    for (size_t x = 0; x < drawn.statements; x++)
        drawn.marks[x] = below(8) == 0 ? BATQEMULO_UNREAD : BATQEMULO_READ;
    add_random();
}

/* The longest lengths; a statement fewer pairs than statements. */
static void draw_chain(void) {
    for (size_t target = 0; target + 1 < drawn.statements; target++)
        add(target + 1, target);
}

/* As many statements as can all object to each one before them; the others have no objections. */
static void draw_dense(void) {
    for (size_t objector = 1; drawn.pairs + objector <= drawn.most_pairs; objector++)
        for (size_t target = 0; target < objector; target++)
            add(objector, target);
}

/* Four statements against all others. */
static void draw_star(void) {
    for (size_t objector = 0; objector < 4; objector++)
        for (size_t target = 4; target < drawn.statements; target++)
            add(objector, target);
}

/* All statements against the first ones, so many. */
static void add_fans(size_t targets) {
    for (size_t target = 0; target < targets; target++)
        for (size_t objector = 0; objector < drawn.statements; objector++)
            add(objector, target);
}

static void draw_fan(void) {
    add_fans(1);
}

static void draw_fans(void) {
    add_fans(4);
}

/* The last pair repeats an earlier one: all the others are searched for before it is found. */
static void draw_late(void) {
    draw_random();
    size_t last = drawn.pairs - 1, earlier = below(last);
    drawn.objectors[last] = drawn.objectors[earlier];
    drawn.targets[last] = drawn.targets[earlier];
}

static void draw_unread(void) {
    memset(drawn.marks, BATQEMULO_UNREAD, drawn.statements);
    add_random();
}

/* A chain with three more objectors for each statement, nearer to its end and falling, so that no
 * length changes: the longest line, with the most to look through at every step. */
static void draw_ladder(void) {
    size_t last = drawn.statements - 1;
    draw_chain();
    for (size_t target = 0; target < last; target++)
        for (size_t objector = target + 2; objector < target + 8 && objector < last; objector++)
            if ((last - objector) % 2 == 1)
                add(objector, target);
}

/* As many statements as can object to each one before them but their neighbour, two by two. The
 * last two stand and fell all others, but they are listed first, and the objectors of a statement
 * are looked at from the last: of the registers that were tried, this has the exercise ask the most
 * questions. */
static void draw_stairs(void) {
    size_t steps = 2;
    while (2 * steps * (steps + 1) <= drawn.most_pairs)
        steps++;
    for (size_t objector = 2 * steps; objector-- > 0;)
        for (size_t target = 0; target < objector; target++)
            if (target / 2 != objector / 2)
                add(objector, target);
}

/* No objections, so that none is searched for a repeat: what all the rest takes. There is space for
 * the longest numbers. */
static void draw_alone(void) {
}

/* With half as many objections as elsewhere there is space for the longest numbers too. */
static void draw_half(void) {
    drawn.most_pairs /= 2;
    draw_random();
}

/* As many statements as can all object to each other. */
static void draw_crowd(void) {
    drawn.statements = 1;
    while ((drawn.statements + 1) * (drawn.statements + 1) <= drawn.most_pairs)
        drawn.statements++;
    for (size_t pair = 0; pair < drawn.statements * drawn.statements; pair++)
        add(pair / drawn.statements, pair % drawn.statements);
}

/* One statement against itself, then against all others, then all others against it. */
static void draw_cross(void) {
    for (size_t target = 0; target < drawn.statements; target++)
        add(0, target);
    for (size_t objector = 1; objector < drawn.statements; objector++)
        add(objector, 0);
}

static void draw_none(void) {
    drawn.statements = 0;
}

static void draw_one(void) {
    drawn.statements = 1;
}

/* The statements at each size; there may be four times as many pairs. */
static const size_t sizes[SIZES] = {128, 256, 512, 1024};

/* A year number whose serial has as many digits as this one, in no order. 1,100 has no factor in
 * common with 7,919, so that no year comes twice. */
static uint32_t year_number(size_t place, uint32_t least) {
    uint32_t mixed = (uint32_t)place * 7919;
    return YEAR_CODES + SERIALS * (FIRST_YEAR + mixed % 1100) + least + mixed % (9 * least);
}

/* The code of the number at a place, in no order unless it is small. With four digits the largest
 * register fits a text. 8,999 and 89,999,999 have no factor in common with 7,919 and 55,555,553, so
 * that no number comes twice. */
static uint32_t number(size_t place) {
    static const uint32_t least[] = {10, 100, 1000};
    switch (drawn.numbers) {
    case SMALL_NUMBERS:
        return (uint32_t)place + 1;
    case EIGHT_DIGITS:
        return 10000000 + (uint32_t)((uint64_t)place * 55555553 % 89999999);
    case YEAR_NUMBERS:
        return year_number(place, 100);
    case UNEVEN_YEAR_NUMBERS:
        return year_number(place, least[place % 3]);
    default:
        return 1000 + (uint32_t)(place * 7919 % 8999);
    }
}

static void append(const char *line) {
    size_t length = strlen(line);
    memcpy(drawn.text + drawn.bytes, line, length);
    drawn.bytes += length;
}

static void append_number(size_t place) {
    size_t left = sizeof drawn.text - drawn.bytes;
    drawn.bytes += plain_number_text(number(place), drawn.text + drawn.bytes, left).value;
}

static void append_statement(size_t place) {
    append("S\t");
    append_number(place);
    append(drawn.marks[place] ? "\tU\n" : "\tR\n");
}

static void append_objection(size_t objector, size_t target) {
    append("O\t");
    append_number(objector);
    append("\t");
    append_number(target);
    append("\n");
}

static void write_text(void) {
    for (size_t x = 0; x < drawn.statements; x++)
        append_statement(x);
    for (size_t i = 0; i < drawn.pairs; i++)
        append_objection(drawn.objectors[i], drawn.targets[i]);
}

/* Whether the text has space for one more line of the shortest numbers. */
static int has_space(void) {
    return drawn.bytes + sizeof "O\t99\t99" <= drawn.most_bytes;
}

static void wear_blank(void) {
    while (drawn.bytes < drawn.most_bytes)
        append("\n");
}

static void wear_second(void) {
    while (has_space())
        append_statement(0);
}

/* The last objections come again: found latest by a search that begins with the first ones, and at
 * once along chains. */
static void wear_repeats(void) {
    while (has_space())
        append_objection(drawn.statements - 1, below(drawn.statements));
}

/* The first objection comes again: of a cross it is the last in both of its chains, so that nothing
 * is searched for longer. */
static void wear_first(void) {
    while (has_space())
        append_objection(0, 0);
}

static void wear_unknown(void) {
    while (has_space())
        append_objection(1 + below(8), 0);
}

const struct shape shapes_of_all[SHAPES_OF_ALL] = {
    {.name = "random", .draw = draw_random},
    {.name = "chain", .draw = draw_chain},
    {.name = "dense", .draw = draw_dense},
    {.name = "star", .draw = draw_star},
    {.name = "all unread", .draw = draw_unread},
    {.name = "alone", .draw = draw_alone, .numbers = EIGHT_DIGITS},
};

const struct shape shapes_of_one[SHAPES_OF_ONE] = {
    {.name = "random", .draw = draw_random},
    {.name = "chain", .draw = draw_chain},
    {.name = "ladder", .draw = draw_ladder},
    {.name = "stairs", .draw = draw_stairs},
};

/* The first is a register, with nothing to mend; the others have the shortest lines. */
const struct shape shapes_of_old[SHAPES_OF_OLD] = {
    {.name = "random", .draw = draw_random},
    {.name = "blank", .draw = draw_none, .wear = wear_blank},
    {.name = "seconds", .draw = draw_one, .numbers = SMALL_NUMBERS, .wear = wear_second},
    {.name = "repeats", .draw = draw_crowd, .numbers = SMALL_NUMBERS, .wear = wear_repeats},
    {.name = "cross", .draw = draw_cross, .numbers = SMALL_NUMBERS, .wear = wear_first},
    {.name = "unknown", .draw = draw_one, .numbers = SMALL_NUMBERS, .wear = wear_unknown},
};

const struct shape shapes_of_repeats[SHAPES_OF_REPEATS] = {
    {.name = "random", .draw = draw_random},
    {.name = "chain", .draw = draw_chain},
    {.name = "dense", .draw = draw_crowd, .numbers = SMALL_NUMBERS},
    {.name = "fans", .draw = draw_fans},
    {.name = "late", .draw = draw_late, .refusal = BATQEMULO_OBJECTION_REPEATED},
};

const struct shape shapes_of_reasons[SHAPES_OF_REASONS] = {
    {.name = "random", .draw = draw_random, .asks_reason = 1},
    {.name = "chain", .draw = draw_chain, .asks_reason = 1},
    {.name = "dense", .draw = draw_crowd, .numbers = SMALL_NUMBERS, .asks_reason = 1},
    {.name = "star", .draw = draw_star, .asks_reason = 1},
};

const struct shape shapes_of_numbers[SHAPES_OF_NUMBERS] = {
    {.name = "alone", .draw = draw_alone, .numbers = EIGHT_DIGITS},
    {.name = "alone, years", .draw = draw_alone, .numbers = YEAR_NUMBERS},
    {.name = "random", .draw = draw_half, .numbers = EIGHT_DIGITS},
    {.name = "random, years", .draw = draw_half, .numbers = YEAR_NUMBERS},
    {.name = "uneven years", .draw = draw_half, .numbers = UNEVEN_YEAR_NUMBERS},
};

const struct shape shapes_of_catalogues[SHAPES_OF_CATALOGUES] = {
    {.name = "random", .draw = draw_random, .is_catalogued = 1},
    {.name = "chain", .draw = draw_chain, .is_catalogued = 1},
    {.name = "fan", .draw = draw_fan, .is_catalogued = 1},
};

/* Of several with the longest reason it is the first. */
static uint32_t with_longest_reason(void) {
    static uint8_t room[BATQEMULO_MAX_LISTING_BYTES];
    uint32_t found = 0, longest = 0;
    for (size_t x = 0; x < drawn.statements; x++) {
        uint32_t bytes = plain_reason(drawn.text, drawn.bytes, number(x), room, sizeof room).value;
        if (bytes > longest) {
            longest = bytes;
            found = number(x);
        }
    }
    return found;
}

void draw(const struct shape *shape, size_t size) {
    memset(&drawn, 0, sizeof drawn);
    drawn.statements = sizes[size];
    drawn.most_pairs = 4 * sizes[size];
    drawn.most_bytes = BATQEMULO_MAX_TEXT_BYTES * sizes[size] / BATQEMULO_MAX_STATEMENTS;
    drawn.numbers = shape->numbers;
    shape->draw();
    write_text();
    if (shape->wear != NULL)
        shape->wear();
    if (shape->asks_reason)
        drawn.asked = with_longest_reason();
    if (shape->is_catalogued)
        drawn.catalogue_bytes =
            plain_catalogue(drawn.text, drawn.bytes, drawn.catalogue, sizeof drawn.catalogue).value;
}
