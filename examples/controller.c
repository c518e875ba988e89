/*
 * How a controller uses Halyardgage: check two images, ask whether the goal
 * can be reached, plan the lifts, and replay them. Then how deep some cassettes
 * are buried, a store with blanks, shafts of unequal depth, numbers past 255,
 * conversions from form to form, what the changer's log says, and some of the
 * ways in which a call is refused.
 *
 *     cc -Iinclude examples/controller.c -Lcrates/halyardgage/out -lhalyardgage
 */
#include <inttypes.h>
#include <stdio.h>
#include <string.h>

#include "halyardgage.h"

/* An image and its length. */
struct image {
    uint8_t bytes[HALYARD_IMAGE_MAX];
    size_t len;
};

/* Packs a field at a position in bits, and moves the position on. */
static void put(struct image *image, size_t *at, unsigned width, unsigned value)
{
    while (width-- > 0) {
        if (*at % 8 == 0) {
            image->bytes[image->len++] = 0;
        }
        image->bytes[*at / 8] |=
            (uint8_t)((value >> width & 1u) << (7 - *at % 8));
        ++*at;
    }
}

/* Takes the field at a position in bits, and moves the position on. */
static unsigned get(const struct image *image, size_t *at, unsigned width)
{
    unsigned value = 0;
    while (width-- > 0) {
        value = value << 1 | (image->bytes[*at / 8] >> (7 - *at % 8) & 1u);
        ++*at;
    }
    return value;
}

/* The bits of a cassette's number in a form. */
static unsigned width(unsigned form)
{
    return form == 2 ? 12 : 8;
}

/* How many cassettes stand before the 0. */
static unsigned height(const uint16_t *cassettes)
{
    unsigned count = 0;
    while (cassettes[count] != 0) {
        ++count;
    }
    return count;
}

/* The image of a store in a form that can hold it; in form 0 one depth is
 * given. Cassettes are given shaft by shaft from row 1, as the form has them,
 * with 0 at the end of each shaft. */
static struct image pack(unsigned form, unsigned m, const uint8_t *depths,
                         const uint16_t *cassettes)
{
    struct image image;
    size_t at = 0;
    image.len = 0;
    put(&image, &at, 4, form);
    put(&image, &at, 4, m - 1);
    if (form == 0) {
        put(&image, &at, 4, *depths - 1u);
    }
    while (m-- > 0) {
        if (form != 0) {
            put(&image, &at, 4, *depths++ - 1u);
        }
        put(&image, &at, 5, height(cassettes));
        while (*cassettes != 0) {
            put(&image, &at, width(form), *cassettes++);
        }
        ++cassettes;
    }
    return image;
}

/* The image of m shafts that are all h deep. */
static struct image pack_even(unsigned m, uint8_t h, const uint16_t *cassettes)
{
    return pack(0, m, &h, cassettes);
}

/* Prints the cassette of a field, as its number or as b for a blank. */
static void print_cassette(unsigned form, unsigned field)
{
    if (field == (form == 2 ? HALYARD_BLANK : 255)) {
        printf("b");
    } else {
        printf("%u", field);
    }
}

/* Prints a store, as [1 2] [] [3], bottom first, with b for a blank. The image
 * has been checked. */
static void print_store(const char *name, const struct image *image)
{
    size_t at = 4;
    unsigned form = halyard_form(image->bytes[0]);
    unsigned m = get(image, &at, 4) + 1;
    printf("%-10s", name);
    at += form == 0 ? 4 : 0;
    while (m-- > 0) {
        unsigned left;
        at += form == 0 ? 0 : 4;
        left = get(image, &at, 5);
        printf(" [");
        while (left-- > 0) {
            print_cassette(form, get(image, &at, width(form)));
            printf("%s", left > 0 ? " " : "");
        }
        printf("]");
    }
    printf("\n");
}

/* What a refusal means. */
static const char *meaning(int number)
{
    switch (number) {
    case HALYARD_FORM: return "the form is above 2";
    case HALYARD_IMAGE_ENDS: return "the image ends too early";
    case HALYARD_HEIGHT: return "a shaft is higher than its depth";
    case HALYARD_CASSETTE_ZERO: return "a cassette has number 0";
    case HALYARD_CASSETTE_TWICE: return "a cassette stands twice";
    case HALYARD_PADDING: return "something follows the last field";
    case HALYARD_SHAPES_DIFFER: return "the stores differ in shape";
    case HALYARD_CASSETTES_DIFFER: return "the stores differ in cassettes";
    case HALYARD_SPACE: return "the lent space is too small";
    case HALYARD_SHAFTS: return "a lift names a wrong shaft";
    case HALYARD_SHAFT_EMPTY: return "the shaft left is empty";
    case HALYARD_SHAFT_FULL: return "the shaft entered is full";
    case HALYARD_UNREACHABLE: return "no list of lifts leads to the goal";
    case HALYARD_ABSENT: return "it is not in the store";
    case HALYARD_BURIED: return "no list of lifts uncovers it";
    case HALYARD_FORM_CANNOT_HOLD: return "the form can't hold the store";
    case HALYARD_LOG_MALFORMED: return "the log's length or an entry is wrong";
    case HALYARD_LOG_NUMBER: return "the store shows another number";
    default: return "a number that no call returns";
    }
}

/* Prints what a call answered: what it is good for, or why it is not. Gives
 * whether it is good. */
static int good(const char *call, uint64_t answer, const char *good_for)
{
    int number = halyard_number(answer);
    if (number == HALYARD_OK) {
        printf("%-10s %s\n", call, good_for);
    } else {
        printf("%-10s number %d, %s\n", call, number, meaning(number));
    }
    return number == HALYARD_OK;
}

static int checked(const char *name, const struct image *image)
{
    if (!good("check", halyard_check(image->bytes, image->len), "accepted")) {
        return 0;
    }
    print_store(name, image);
    return 1;
}

static int reachable(const struct image *start, const struct image *goal)
{
    return good("reachable",
                halyard_reachable(start->bytes, start->len, goal->bytes,
                                  goal->len),
                "yes");
}

/* Does a list on a store, prints how far it went, and gives what stands then.
 * The image has been checked and there is room, so that a store is written, in
 * as many bytes as the image has. */
static struct image replayed(const struct image *start, const uint8_t *list,
                             size_t list_len)
{
    struct image end;
    uint64_t answer = halyard_replay(start->bytes, start->len, list, list_len,
                                     end.bytes, sizeof end.bytes);
    if (!good("replay", answer, "every lift done")) {
        printf("  lifts done before that: %" PRIu64 "\n", halyard_count(answer));
    }
    end.len = start->len;
    print_store("reached", &end);
    return end;
}

static void print_lifts(const uint8_t *list, uint64_t count)
{
    uint64_t i;
    for (i = 0; i < count; ++i) {
        printf("  lift %" PRIu64 " from shaft %u to shaft %u\n", i + 1,
               halyard_left(list[i]), halyard_entered(list[i]));
    }
}

/* Do two images stand for one store? They may have different forms, so that
 * both are compared in form 2, which holds every store. */
static int same_store(const struct image *one, const struct image *other)
{
    struct image first, second;
    uint64_t answer = halyard_convert(one->bytes, one->len, 2, first.bytes,
                                      sizeof first.bytes);
    uint64_t next = halyard_convert(other->bytes, other->len, 2, second.bytes,
                                    sizeof second.bytes);
    size_t len = (size_t)halyard_count(answer);
    return halyard_number(answer) == HALYARD_OK && answer == next &&
           memcmp(first.bytes, second.bytes, len) == 0;
}

/* The whole use: from two images to a list that has been replayed. Gives
 * whether it ended at the goal. */
static int planned(const struct image *start, const struct image *goal,
                   int lifts_wanted)
{
    static uint8_t list[HALYARD_LIST_MAX];
    struct image end;
    uint64_t answer;

    if (!checked("start", start) || !checked("goal", goal) ||
        !reachable(start, goal)) {
        return 0;
    }
    answer = halyard_plan(start->bytes, start->len, goal->bytes, goal->len, list,
                          sizeof list);
    if (!good("plan", answer, "a list")) {
        return 0;
    }
    if (lifts_wanted) {
        print_lifts(list, halyard_count(answer));
    }
    end = replayed(start, list, (size_t)halyard_count(answer));
    return same_store(&end, goal);
}

/* Asks how deep some cassettes of a store are buried, and prints the answers.
 * Gives whether the store was accepted. */
static int asked(const struct image *store, struct halyard_order *orders,
                 size_t count)
{
    size_t i;
    uint64_t answer = halyard_uncover(store->bytes, store->len, orders, count);
    if (!good("uncover", answer, "answered")) {
        return 0;
    }
    for (i = 0; i < count; ++i) {
        const struct halyard_order *order = &orders[i];
        if (order->number == HALYARD_OK) {
            printf("  cassette %u: %u to lift away\n", order->cassette,
                   order->lifts);
        } else {
            printf("  cassette %u: number %d, %s\n", order->cassette,
                   order->number, meaning(order->number));
        }
    }
    return 1;
}

/* A store with blanks: a plan, and how deep the nearest blank is buried. The
 * images are in form 0, where a blank is the byte 255; an order names it by its
 * number. Gives whether all was good. */
static int blanks(void)
{
    enum { B = 255 };
    static const uint16_t cassettes[] = {1, B, 2, 0, B, B, 3, 4, 0, 0};
    static const uint16_t wanted[] = {B, 2, 4, 1, 0, 3, B, B, 0, 0};
    struct image start = pack_even(3, 4, cassettes);
    struct image goal = pack_even(3, 4, wanted);
    struct halyard_order orders[] = {{HALYARD_BLANK, 0, 0}};

    printf("\nBlanks, number %d, which nobody tells apart\n", HALYARD_BLANK);
    return planned(&start, &goal, 0) & asked(&start, orders, 1);
}

/* Shafts of unequal depth: a plan. Gives whether it was good. */
static int depths(void)
{
    static const uint8_t uneven[] = {3, 2, 2};
    static const uint16_t cassettes[] = {1, 2, 3, 0, 4, 0, 5, 0};
    static const uint16_t wanted[] = {1, 3, 0, 2, 4, 0, 5, 0};
    struct image start = pack(1, 3, uneven, cassettes);
    struct image goal = pack(1, 3, uneven, wanted);

    printf("\nThree shafts of depths 3, 2 and 2: at most %u lifts\n",
           (unsigned)HALYARD_LIST_SPACE(3, 5));
    return planned(&start, &goal, 0);
}

/* Numbers past 255, which form 2 has: a plan, and how deep some cassettes are
 * buried. 255 is one of them, and no blank. Gives whether all was good. */
static int numbers(void)
{
    enum { B = HALYARD_BLANK };
    static const uint8_t uneven[] = {3, 2, 2};
    static const uint16_t cassettes[] = {1, 255, 4094, 0, 300, 0, B, 0};
    static const uint16_t wanted[] = {1, 300, B, 0, 255, 0, 4094, 0};
    struct image start = pack(2, 3, uneven, cassettes);
    struct image goal = pack(2, 3, uneven, wanted);
    struct halyard_order orders[] = {{255, 0, 0}, {B, 0, 0}, {301, 0, 0}};

    printf("\nNumbers past 255, in form 2\n");
    return planned(&start, &goal, 0) &
           asked(&start, orders, sizeof orders / sizeof orders[0]);
}

/* Writes a store in the form named, and prints what came of it. Gives the
 * image, which has no byte where the call was refused. */
static struct image converted(const struct image *given, uint8_t form)
{
    struct image written;
    uint64_t answer = halyard_convert(given->bytes, given->len, form,
                                      written.bytes, sizeof written.bytes);
    printf("from form %u to form %u\n", halyard_form(given->bytes[0]), form);
    written.len = (size_t)halyard_count(answer);
    if (good("convert", answer, "written")) {
        printf("  given in %u bytes, written in %u\n", (unsigned)given->len,
               (unsigned)written.len);
        print_store("  store", &written);
    }
    return written;
}

/* One store in two forms, which start and goal may come in; then stores that a
 * form can't hold. Gives whether all was good. */
static int forms(void)
{
    static const uint8_t even[] = {2, 2, 2}, uneven[] = {2, 2, 1};
    static const uint16_t cassettes[] = {1, 255, 0, 0, 3, 0};
    static const uint16_t past[] = {1, 300, 0, 0, 3, 0};
    struct image zero = pack(0, 3, even, cassettes);
    struct image one = pack(1, 3, uneven, cassettes);
    struct image two = pack(2, 3, even, past);
    struct image wide, back;

    printf("\nOne store in two forms\n");
    wide = converted(&zero, 2);
    back = converted(&wide, 0);
    reachable(&zero, &wide);

    printf("\nStores that a form can't hold, and a form that there is not\n");
    converted(&one, 0);
    converted(&two, 1);
    converted(&two, 3);
    return zero.len == HALYARD_IMAGE_LENGTH(0, 3, 3) &&
           one.len == HALYARD_IMAGE_LENGTH(1, 3, 3) &&
           wide.len == HALYARD_IMAGE_LENGTH(2, 3, 3) &&
           back.len == zero.len &&
           memcmp(back.bytes, zero.bytes, zero.len) == 0;
}

/* Prints the bytes of a log in hexadecimal. */
static void print_log(const uint8_t *log, size_t log_len)
{
    size_t i;
    printf("%-10s", "log");
    for (i = 0; i < log_len; ++i) {
        printf(" %02X", log[i]);
    }
    printf("\n");
}

/* Follows a log, and prints how far it is true and what stands there. The image
 * is one of a store and there is room, so that a store is written, in as many
 * bytes as the image has. Gives whether all of the log is true. */
static int followed(const struct image *store, const uint8_t *log,
                    size_t log_len)
{
    struct image there;
    uint64_t answer = halyard_follow(store->bytes, store->len, log, log_len,
                                     there.bytes, sizeof there.bytes);
    int all_true;

    print_log(log, log_len);
    all_true = good("follow", answer, "every entry is true");
    if (!all_true) {
        printf("  at entry %" PRIu64 ", counted from 0\n",
               halyard_count(answer));
    }
    there.len = store->len;
    print_store(all_true ? "after it" : "there", &there);
    return all_true;
}

/* What the changer reported, held against what the store should show: a log
 * that is true, one with a sighting that can't be, and one cut off. Gives
 * whether the first is true. */
static int logs(void)
{
    static const uint8_t even[] = {2, 2, 2};
    static const uint16_t cassettes[] = {1, 300, 0, HALYARD_BLANK, 0, 3, 0};
    struct image store = pack(2, 3, even, cassettes);
    uint8_t log[4][HALYARD_ENTRY_BYTES];
    int as_reported;

    halyard_log_sighting(log[0], 1, HALYARD_BLANK);
    halyard_log_lift(log[1], 0, 1, 300);
    halyard_log_lift(log[2], 0, 2, 1);
    halyard_log_sighting(log[3], 0, 0);
    printf("\nA log of the changer that is true\n");
    print_store("store", &store);
    as_reported = followed(&store, log[0], sizeof log);

    halyard_log_sighting(log[2], 1, HALYARD_BLANK);
    printf("\nA log whose third entry still sees the blank on shaft 1\n");
    followed(&store, log[0], sizeof log);

    printf("\nA log that was cut off within its last entry\n");
    followed(&store, log[0], sizeof log - 1);
    return as_reported;
}

/* Plans with nothing lent. */
static void planned_into_nothing(const struct image *start,
                                 const struct image *goal)
{
    good("plan",
         halyard_plan(start->bytes, start->len, goal->bytes, goal->len, NULL, 0),
         "a list");
}

/* Some of the ways in which a call is refused. */
static void refusals(const struct image *start, const struct image *goal)
{
    static const uint16_t other_order[] = {2, 0, 5, 4, 3, 1, 0};
    static const uint8_t list[] = {0x01, 0x10, 0x11};
    struct image image = pack_even(2, 4, other_order);

    printf("\nA goal out of reach, with nothing lent\n");
    print_store("goal", &image);
    reachable(start, &image);
    planned_into_nothing(start, &image);

    printf("\nA goal within reach, with nothing lent\n");
    planned_into_nothing(start, goal);

    printf("\nAn image without its last byte\n");
    image.len -= 1;
    checked("image", &image);

    printf("\nA list whose third lift names one shaft twice\n");
    replayed(start, list, sizeof list);
}

int main(void)
{
    static const uint16_t two[] = {1, 2, 3, 4, 0, 5, 0};
    static const uint16_t two_goal[] = {1, 0, 5, 4, 3, 2, 0};
    static const uint16_t three[] = {1, 4, 5, 6, 0, 2, 7, 8, 0, 3, 9, 0};
    static const uint16_t three_goal[] = {1, 9, 0, 2, 6, 5, 4, 0, 3, 8, 7, 0};
    struct image start = pack_even(2, 4, two);
    struct image goal = pack_even(2, 4, two_goal);
    struct image start3 = pack_even(3, 4, three);
    struct image goal3 = pack_even(3, 4, three_goal);
    static const uint16_t fuller[] = {1, 4, 5, 6, 0, 2, 7, 8, 0, 3, 9, 10, 0};
    struct image store = pack_even(3, 4, fuller);
    struct halyard_order orders[] = {
        {7, 0, 0}, {4, 0, 0}, {1, 0, 0}, {10, 0, 0}, {11, 0, 0}};
    int all_good;

    printf("Two shafts of depth 4\n");
    all_good = planned(&start, &goal, 1);

    printf("\nThree shafts of depth 4, nine cassettes: at most %u lifts\n",
           (unsigned)HALYARD_LIST_SPACE(4, 9));
    all_good &= planned(&start3, &goal3, 0);

    printf("\nHow deep some cassettes are buried\n");
    print_store("store", &store);
    all_good &= asked(&store, orders, sizeof orders / sizeof orders[0]);

    all_good &= blanks();
    all_good &= depths();
    all_good &= numbers();
    all_good &= forms();
    all_good &= logs();
    refusals(&start, &goal);
    return all_good ? 0 : 1;
}
