/*
 * Halyardgage: plans the lifts of a sample changer.
 *
 * A store has m shafts, 1 to 16, each with a depth of its own, 1 to 16. Shafts
 * count from 0, rows from 1 at the bottom. A cassette is a number 1 to 4,095.
 * No cassette stands twice but the blank. A lift takes the top cassette of one
 * shaft and sets it on top of another. Where a count of bytes below goes by h,
 * that is the depth of the deepest shaft.
 *
 * BLANKS. The number HALYARD_BLANK, 4,095, is an empty carrier, and may stand
 * any number of times: a store may hold as many cassettes as it has slots.
 * Blanks are not told apart. A goal is reached when each slot shows the right
 * number, whichever blank stands there, and an order that names the blank is
 * answered for the one that is uncovered soonest.
 *
 * IMAGES. The calls take stores as images. Fields are packed most significant
 * bit first, with no gaps, and zero bits fill the last byte. There are three
 * forms:
 *   - form 0, for shafts of equal depth: form (4 bits, value 0), m - 1 (4),
 *     depth - 1 (4); then for each shaft from 0 its height (5) and its
 *     cassettes from row 1 upward (8 each);
 *   - form 1, for shafts of any depths: form (4 bits, value 1), m - 1 (4); then
 *     for each shaft from 0 its depth - 1 (4), its height (5) and its cassettes
 *     from row 1 upward (8 each);
 *   - form 2, for shafts of any depths and cassettes of any number: form 1 with
 *     the value 2 and 12 bits for each cassette.
 * In forms 0 and 1 the byte 255 is the blank, and the other cassettes are those
 * from 1 to 254. In form 2 the number 255 is a cassette like any other, and
 * 4,095 is the blank.
 * In hexadecimal 02 11 00 81 00 20 60 is three shafts of depth 2, [1 2] [] [3],
 * bottom first; 12 21 80 81 01 88 41 04 20 A0 is three shafts of depths 3, 2
 * and 2, [1 2 3] [4] [5]; and 22 21 80 08 7F FF F0 84 4B 04 3F FE is shafts of
 * the same depths, [1 255 4094] [300] and one with a blank.
 * Every call reads all three forms, and goes by what an image means: start and
 * goal may come in different forms, and an order names 4,095 for a blank,
 * whatever the form. An image is written in the form that the caller names:
 * halyard_convert takes its number, and halyard_replay and halyard_follow write
 * in the form of the image given. A store has one image in each form that can
 * hold it, which reads as that store, and an accepted image is the image of its
 * store in the form that it names. (Proved: image_read and read_image_lem, in
 * crates/image/proofs/RoundTrip.antt.)
 *
 * LISTS. A list is bytes, one for each lift: the shaft left in the high four
 * bits, the shaft entered in the low four.
 *
 * ORDERS. An order is a record that names a cassette and receives an answer of
 * its own: a number, and a count of lifts. They come in a row. Any 16 bits may
 * be named: 255 is cassette 255, and HALYARD_BLANK is for a blank.
 *
 * LOGS. A log is what the changer reported: entries, one after another, of
 * HALYARD_ENTRY_BYTES bytes each. The fields of an entry are packed as those of
 * an image: kind (4 bits), shaft (4), second shaft (4), number (12). There are
 * two kinds:
 *   - HALYARD_ENTRY_LIFT, 0: a lift from the shaft to the second shaft. The
 *     number is the cassette carried;
 *   - HALYARD_ENTRY_SIGHTING, 1: a look at the shaft. The number is its top
 *     cassette, or 0 where the shaft is empty, and the second shaft is 0.
 * Whatever the form of the image, in a log 255 is cassette 255, and a blank is
 * HALYARD_BLANK. halyard_log_lift() and halyard_log_sighting() pack an entry.
 * In hexadecimal 00 10 02 11 00 02 00 20 01 10 00 00 is a lift of 2 from shaft
 * 0 to shaft 1, a sighting of 2 on top of shaft 1, a lift of 1 from shaft 0 to
 * shaft 2, and a sighting of shaft 0 as empty. From [1 2] [] [3], three shafts
 * of depth 2, all of it is true, and leaves [] [2] [3 1]. A sighting of a blank
 * on top of shaft 2 is 12 0F FF.
 *
 * ANSWERS. Each call returns count * 256 + number. halyard_number() and
 * halyard_count() take the two apart. The count has 56 bits: of a greater one
 * the low 56 bits are given, which only a replay of 2^56 lifts or more, or a
 * log of as many entries, could meet. The number is HALYARD_OK, or says why the
 * call was refused, why a replay stopped, or why an entry of a log can't be
 * true. If several reasons apply, the first one met is given:
 *   - an image is read field by field, the start before the goal, and a fault
 *     of reading comes before any other;
 *   - for two stores then 8, 9, 15, 10;
 *   - for a replay then 10, before any lift is tried, and for each lift 11,
 *     13, 14;
 *   - for a log then 10, then 19 for its length, both before any entry is
 *     looked at, and for each entry 19, for a lift 13, 14, and last 20;
 *   - for a conversion then 1 for the form named, 18, 10;
 *   - for an order, in its own record, 16, 17. An order that fails does not
 *     make the call fail.
 * A refused call returns count 0 and writes nothing. A replay that stops is no
 * refused call, nor is a log with an entry that can't be true or one of a wrong
 * length: each writes a store.
 *
 * WHAT THE CALLER OWES
 *   - Each pointer has at least as many bytes, or orders, as the length after
 *     it says. It may be NULL where that length is 0.
 *   - What a call may write (list of halyard_plan, out of halyard_replay,
 *     halyard_follow and halyard_convert, orders of halyard_uncover) overlaps
 *     nothing else that is passed. Bytes that are only read may overlap: start
 *     and goal may be the same bytes, and so may image and log.
 *   - orders are aligned as C aligns struct halyard_order, and every field of
 *     every order has some value: whole orders are read and written, a cassette
 *     with the value it had. Which value stands where the answer goes does not
 *     matter.
 *   - During the call no other thread writes to anything that is passed, nor
 *     reads what the call may write.
 * Lent bytes need not be cleared. Nothing else is asked: any bytes may be
 * passed as an image, as a list or as a log, and the answer tells what is none;
 * any 8 bits may be named as a form, and any 16 in an order.
 *
 * The library allocates nothing and keeps nothing between calls, so that any
 * thread may call it at any time.
 *
 * Link libhalyardgage.a. It is for x86-64.
 */
#ifndef HALYARDGAGE_H
#define HALYARDGAGE_H

#include <stddef.h>
#include <stdint.h>

#ifdef __cplusplus
extern "C" {
#endif

/* The numbers. */
enum {
    HALYARD_OK = 0, /* accepted; yes; a list; run through; a log true
                       throughout; converted; an order answered */

    /* refused because of the input */
    HALYARD_FORM = 1,              /* a form above 2, read or named for
                                      writing */
    HALYARD_IMAGE_ENDS = 2,        /* the image ends before its last field */
    HALYARD_HEIGHT = 3,            /* a height above the shaft's depth */
    HALYARD_CASSETTE_ZERO = 4,     /* a cassette number 0 */
    HALYARD_CASSETTE_TWICE = 5,    /* a cassette that stood earlier, and is no
                                      blank */
    /* 6 is retired: no call returns it, and it is not used again */
    HALYARD_PADDING = 7,           /* a padding bit set, or bytes after it */
    HALYARD_SHAPES_DIFFER = 8,     /* start and goal differ in m, or in the
                                      depth of a shaft */
    HALYARD_CASSETTES_DIFFER = 9,  /* start and goal differ in how often a
                                      number stands */
    HALYARD_SPACE = 10,            /* the lent space is too small */
    HALYARD_SHAFTS = 11,           /* a lift names a shaft not below m, or one
                                      shaft twice */
    HALYARD_STORE_VALUE = 12,      /* a store that is no image is malformed:
                                      no call here returns it */
    HALYARD_FORM_CANNOT_HOLD = 18, /* the store has a cassette from 255 to
                                      4,094 and the form named is 0 or 1, or
                                      it has unequal depths and the form is
                                      0 */

    /* refused because of the state */
    HALYARD_SHAFT_EMPTY = 13, /* the shaft left is empty */
    HALYARD_SHAFT_FULL = 14,  /* the shaft entered is full */
    HALYARD_UNREACHABLE = 15, /* the goal is not reachable */

    /* of an order, in its own record */
    HALYARD_ABSENT = 16, /* the cassette is not in the store, 0 included */
    HALYARD_BURIED = 17, /* no list of lifts uncovers the cassette, nor, where a
                            blank is named, any blank */

    /* of a log, beside 13 and 14 of a lift in it */
    HALYARD_LOG_MALFORMED = 19, /* a length that is no multiple of 3; or an
                                   entry with a kind above 1, with a shaft not
                                   below m, a sighting with a second shaft, or a
                                   lift with one shaft twice */
    HALYARD_LOG_NUMBER = 20     /* the number is not the one that the store
                                   shows: of a lift, the cassette that would be
                                   carried; of a sighting, the top cassette, or
                                   0 for an empty shaft */
};

/* The kinds of an entry of a log. */
enum {
    HALYARD_ENTRY_LIFT = 0,
    HALYARD_ENTRY_SIGHTING = 1
};

/* An order: the cassette that it names, and its answer. It has four bytes. */
struct halyard_order {
    uint16_t cassette; /* stays as it came */
    uint8_t number;    /* HALYARD_OK, HALYARD_ABSENT or HALYARD_BURIED */
    uint8_t lifts;     /* the fewest lifts, or 0 where the order fails */
};

/* The cassette number of a blank. */
#define HALYARD_BLANK 4095

/* The bytes of an entry of a log. */
#define HALYARD_ENTRY_BYTES 3

/* The bytes of an image in form 0, 1 or 2, of m shafts with n cassettes, blanks
 * included, and the most that an image has: 16 shafts of depth 16, full, in
 * form 2. (Proved: length_image and longest, in
 * crates/image/proofs/Lengths.antt.) */
#define HALYARD_IMAGE_LENGTH(form, m, n)                              \
    ((8 + 4 * ((form) == 0 ? (size_t)1 : (size_t)(m)) +               \
      5 * (size_t)(m) +                                               \
      ((form) == 2 ? (size_t)12 : (size_t)8) * (size_t)(n) + 7) / 8)
#define HALYARD_IMAGE_MAX 403

/* The list space that halyard_plan() asks for, in bytes, where the deepest
 * shaft has depth h and there are n cassettes, blanks included, and the most
 * that it ever asks for.
 * (Proved: list_space_most, in crates/store/proofs/Space.antt.) */
#define HALYARD_LIST_SPACE(h, n) \
    (4 * (size_t)(h) * (size_t)(n) + 8 * (size_t)(n))
#define HALYARD_LIST_MAX 18432

/* The number in an answer: HALYARD_OK or one of the others. */
static inline int halyard_number(uint64_t answer)
{
    return (int)(answer % 256);
}

/* The count in an answer. */
static inline uint64_t halyard_count(uint64_t answer)
{
    return answer / 256;
}

/* The form that an image names, from its first byte. */
static inline uint8_t halyard_form(uint8_t first)
{
    return (uint8_t)(first / 16u);
}

/* The shaft that a lift leaves. */
static inline unsigned halyard_left(uint8_t lift)
{
    return lift / 16u;
}

/* The shaft that a lift enters. */
static inline unsigned halyard_entered(uint8_t lift)
{
    return lift % 16u;
}

/* Packs an entry of a log. Of a field that has more bits than the entry has for
 * it, the low ones are packed. */
static inline void halyard_log_entry(uint8_t entry[HALYARD_ENTRY_BYTES],
                                     unsigned kind, unsigned shaft,
                                     unsigned second, unsigned number)
{
    entry[0] = (uint8_t)(kind % 16u * 16u + shaft % 16u);
    entry[1] = (uint8_t)(second % 16u * 16u + number / 256u % 16u);
    entry[2] = (uint8_t)(number % 256u);
}

/* Packs a lift of a cassette from one shaft to another. Shafts are below 16,
 * and the cassette is at most 4,095. */
static inline void halyard_log_lift(uint8_t entry[HALYARD_ENTRY_BYTES],
                                    unsigned from, unsigned to,
                                    uint16_t cassette)
{
    halyard_log_entry(entry, HALYARD_ENTRY_LIFT, from, to, cassette);
}

/* Packs a sighting of the cassette on top of a shaft, or, with 0, of an empty
 * shaft. The shaft is below 16, and the cassette at most 4,095. */
static inline void halyard_log_sighting(uint8_t entry[HALYARD_ENTRY_BYTES],
                                        unsigned shaft, uint16_t top)
{
    halyard_log_entry(entry, HALYARD_ENTRY_SIGHTING, shaft, 0, top);
}

/*
 * Is this the image of a store?
 *
 * Reads image. Writes nothing.
 * Returns HALYARD_OK, or the first fault of reading, 1 to 5 or 7. The count
 * is 0.
 */
uint64_t halyard_check(const uint8_t *image, size_t image_len);

/*
 * Does some list of lifts lead from start to goal?
 *
 * Reads start and goal. Writes nothing.
 * Returns HALYARD_OK for yes and HALYARD_UNREACHABLE for no, or the first
 * fault of reading, 1 to 5 or 7, or 8 or 9. The count is 0.
 */
uint64_t halyard_reachable(const uint8_t *start, size_t start_len,
                           const uint8_t *goal, size_t goal_len);

/*
 * Writes a list of lifts that leads from start to goal.
 *
 * Reads start and goal. For a list list_len must be at least
 * HALYARD_LIST_SPACE(h, n); HALYARD_LIST_MAX is enough for every store.
 * Returns HALYARD_OK and the count of lifts, which is at most
 * HALYARD_LIST_SPACE(h, n); that many of the first bytes of list are then the
 * list, and the rest stay as they came. Start equal to goal gives count 0.
 * Otherwise it writes nothing and returns, with count 0, the first fault of
 * reading, 1 to 5 or 7, or 8, 9, HALYARD_UNREACHABLE or HALYARD_SPACE.
 * HALYARD_UNREACHABLE does not depend on list_len, which may be 0: no list of
 * lifts leads to the goal, however much is lent. HALYARD_SPACE says that one
 * does: the same call with HALYARD_LIST_SPACE(h, n) bytes gives a list.
 * (Proved: fifteen_stays and space_cures, in
 * crates/pair_calls/proofs/CallExact.antt.)
 */
uint64_t halyard_plan(const uint8_t *start, size_t start_len,
                      const uint8_t *goal, size_t goal_len,
                      uint8_t *list, size_t list_len);

/*
 * Does the lifts of a list on a store, and writes the image of the store
 * reached.
 *
 * Reads image and list. The store reached is written in the form of image, so
 * that what is written has image_len bytes, and out_len must be at least
 * image_len. (Proved: replay_as_long, in
 * crates/replay_call/proofs/ReplayAnswers.antt.)
 * Returns HALYARD_OK and list_len as the count where every lift was done. Where
 * one could not be done, returns its number, 11, 13 or 14, and the count of
 * lifts done before it; it has changed nothing. In both cases the first
 * image_len bytes of out are then the image of the store reached, and the rest
 * stay as they came.
 * Otherwise it writes nothing and returns, with count 0, the first fault of
 * reading, 1 to 5 or 7, or HALYARD_SPACE.
 */
uint64_t halyard_replay(const uint8_t *image, size_t image_len,
                        const uint8_t *list, size_t list_len,
                        uint8_t *out, size_t out_len);

/*
 * Follows the changer's log on a store, up to the first entry that can't be
 * true, and writes the image of the store there.
 *
 * Reads image and log; log_len is a count of bytes. The store is written in the
 * form of image, so that what is written has image_len bytes, and out_len must
 * be at least image_len. (Proved: follow_as_long, in
 * crates/follow_call/proofs/FollowAnswers.antt.)
 * Returns HALYARD_OK and the count of entries, log_len / 3, where every entry
 * is true. What is written is then the store after the log.
 * Where an entry can't be true, returns its number, and as the count its place,
 * counted from 0. What is written is then the store before that entry. For each
 * entry in this order:
 *   - HALYARD_LOG_MALFORMED where its kind is above 1, where one of its shafts
 *     is not below m, where it is a sighting and its second shaft is not 0, or
 *     where it is a lift and its two shafts are the same;
 *   - of a lift, HALYARD_SHAFT_EMPTY or HALYARD_SHAFT_FULL where it could not
 *     be done;
 *   - HALYARD_LOG_NUMBER where its number is not the one that the store shows:
 *     of a lift, the cassette that it would carry; of a sighting, the top
 *     cassette of the shaft, or 0 where it is empty.
 * So a log gives HALYARD_OK exactly if nothing in it is HALYARD_LOG_MALFORMED,
 * every lift is legal and each number is the one that the store shows. (Proved:
 * accepted_true and true_accepted, in crates/logs/proofs/Whole.antt.)
 * Where log_len is no multiple of 3, no entry is looked at: returns
 * HALYARD_LOG_MALFORMED and count 0. What is written is then the store as it
 * came, the bytes of image. (Proved: wrong_length_own, in
 * crates/follow_call/proofs/FollowAnswers.antt.)
 * In all these cases the first image_len bytes of out are written, and the rest
 * stay as they came.
 * Otherwise it writes nothing and returns, with count 0, the first fault of
 * reading, 1 to 5 or 7, or HALYARD_SPACE.
 */
uint64_t halyard_follow(const uint8_t *image, size_t image_len,
                        const uint8_t *log, size_t log_len,
                        uint8_t *out, size_t out_len);

/*
 * Writes the store of an image in the form named, 0, 1 or 2.
 *
 * Reads image. out_len must be at least HALYARD_IMAGE_LENGTH(form, m, n);
 * HALYARD_IMAGE_MAX is enough for every store.
 * Returns HALYARD_OK and as the count the bytes of the image written; that many
 * of the first bytes of out are then the image, and the rest stay as they came.
 * In the form that image has, they are its own bytes, and what was converted to
 * another form and back is too. (Proved: converted_own and converted_back, in
 * crates/convert_call/proofs/Converted.antt.)
 * Otherwise it writes nothing and returns, with count 0, the first fault of
 * reading, 1 to 5 or 7, or HALYARD_FORM where the form named is above 2, or
 * HALYARD_FORM_CANNOT_HOLD, which no lent space cures, or HALYARD_SPACE.
 */
uint64_t halyard_convert(const uint8_t *image, size_t image_len, uint8_t form,
                         uint8_t *out, size_t out_len);

/*
 * How deep is each cassette of a row of orders buried?
 *
 * Reads image and orders; of an order only the cassette matters. orders_len is
 * a count of orders, not of bytes. Any number may be named, and one more than
 * once.
 * Returns HALYARD_OK. Each order then has its answer: HALYARD_OK and the fewest
 * lifts after which nothing stands on its cassette (on some blank, where it
 * names the blank), no legal list having fewer, 0 where it stands on top; or
 * HALYARD_ABSENT where the cassette is not in the store; or HALYARD_BURIED
 * where no list of lifts uncovers it. Where the number is not HALYARD_OK the
 * lifts are 0. The cassettes named stay.
 * Otherwise it writes nothing and returns the first fault of reading, 1 to 5
 * or 7. The count is 0 in both cases.
 */
uint64_t halyard_uncover(const uint8_t *image, size_t image_len,
                         struct halyard_order *orders, size_t orders_len);

#ifdef __cplusplus
}
#endif

#endif
