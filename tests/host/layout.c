// What the header says of bytes and numbers, held to what the library does with them: the version, rights and rules in a
// book, the numbers of a book, all plan bytes, all records, valuations, and the knowledge numbers that index the ranks.
#include "tell.h"

static pj_u8 rights[PJ_RIGHTS_MOST], book[PJ_BOOK_MOST], ranks[PJ_RANKS_MOST], plan[PJ_PLAN_MOST], make[PJ_TABLE];
static pj_u8 ranks2[PJ_RANKS_ROOM(3)], make2[PJ_TABLE];

static int version_agrees(void) {
    const char *text = PJ_VERSION_TEXT;
    return text[0] == '0' + PJ_VERSION_FIRST && text[1] == '.' && text[2] == '0' + PJ_VERSION_SECOND && text[3] == 0 &&
           PJ_VERSION == 400;
}

// Each of the 112 rules of the widest book has bytes of its own among the rights, and the same at its place in the book.
static int rules_stand_there(void) {
    for (int i = 0; i < 7; i++)
        for (int q = 0; q < 8; q++)
            for (int set = 0; set < 2; set++)
                for (int j = 0; j < PJ_TABLE; j++)
                    rights[PJ_RIGHT(i, q, set) + j] = (pj_u8)((16 * i + 2 * q + set + 1) * (j + 1));
    if (pj_book_write(7, 8, rights, PJ_RIGHTS_ROOM(7), book, PJ_BOOK_ROOM(7)) != 0) return 0;
    if (book[0] != 7 || book[1] != 8) return 0;
    for (int i = 0; i < 7; i++)
        for (int q = 0; q < 8; q++)
            for (int set = 0; set < 2; set++)
                for (int j = 0; j < PJ_TABLE; j++)
                    if (book[PJ_RULE(i, q, set) + j] != (pj_u8)((16 * i + 2 * q + set + 1) * (j + 1))) return 0;
    return 1;
}

// A book that permits one thing: post q looks at setting i, or sets it. Of all acts the check then permits those alone
// that the rule's place tells.
static int rules_are_those(void) {
    fill(make, PJ_TABLE, 255);
    for (int i = 0; i < 7; i++)
        for (int q = 0; q < 8; q++)
            for (int set = 0; set < 2; set++) {
                fill(rights, sizeof rights, 0);
                fill(rights + PJ_RIGHT(i, q, set), PJ_TABLE, 255);
                if (pj_book_write(7, 8, rights, sizeof rights, book, sizeof book) != 0) return 0;
                for (int byte = 1; byte <= 168; byte++) {
                    pj_u8 steps[3] = {(pj_u8)byte, 0, 0};
                    pj_u64 length = byte < PJ_ACT(PJ_LOOK, 0, 0) ? 2 : 3;
                    pj_u64 told = pj_plan_check(book, sizeof book, 255, 0, 0, 0, make, PJ_TABLE, 0, 0, steps, length);
                    int meant = pj_setting(steps[0]) == i && pj_post(steps[0]) == q &&
                                (pj_kind(steps[0]) == PJ_LOOK ? set == 0 : set == 1);
                    if (meant ? told != 0 : pj_number(told) != PJ_REFUSED_NOT_PERMITTED) return 0;
                }
            }
    return 1;
}

static int numbers_of_books(void) {
    fill(rights, sizeof rights, 0);
    for (pj_u64 n = 1; n <= 7; n++)
        for (pj_u64 m = 1; m <= 8; m++) {
            if (pj_book_write(n, m, rights, PJ_RIGHTS_ROOM(n), book, PJ_BOOK_ROOM(n)) != 0) return 0;
            pj_u64 read = pj_book_read(book, PJ_BOOK_ROOM(n), rights, PJ_RIGHTS_ROOM(n));
            if (pj_number(read) != 0 || pj_settings(read) != n || pj_posts(read) != m) return 0;
        }
    return 1;
}

// With every rule open the library's verdicts tell what each byte does: the setting is made true or false, or looked at,
// by this post.
static int bytes_are_those(void) {
    fill(rights, sizeof rights, 255);
    if (pj_book_write(7, 8, rights, sizeof rights, book, sizeof book) != 0) return 0;
    for (int byte = 0; byte < 256; byte++) {
        pj_u8 steps[3] = {(pj_u8)byte, 0, 0};
        int kind = pj_kind(steps[0]), i = pj_setting(steps[0]), q = pj_post(steps[0]);
        pj_u8 team = (pj_u8)(kind == PJ_STOP || kind == PJ_NO_KIND ? 255 : 1 << q), none = 0;
        char letter[3] = {'~', (char)('a' + i), 0};
        if (kind == PJ_NO_KIND) {
            pj_u64 told = pj_plan_check(book, sizeof book, team, 0, 0, 0, make, PJ_TABLE, 0, 0, steps, 2);
            if (pj_number(told) != PJ_REFUSED_NO_ACT) return 0;
            continue;
        }
        if (kind == PJ_STOP) {
            fill(make, PJ_TABLE, 255);
            if (pj_plan_check(book, sizeof book, team, 0, 0, 0, make, PJ_TABLE, 0, 0, steps, 1) != 0) return 0;
            continue;
        }
        if (PJ_ACT(kind, i, q) != byte) return 0;
        for (int value = 0; value < 2; value++) {
            if (formula(7, letter + value, make) != 0) return 0; // ~x, then x
            pj_u64 told = pj_plan_check(book, sizeof book, team, 0, 0, 0, make, PJ_TABLE, 0, 0, steps, 2);
            if (kind == PJ_LOOK ? told == 0 : (told == 0) != (kind == (value ? PJ_SET_TRUE : PJ_SET_FALSE))) return 0;
        }
        // learnt is the letter alone, and by a look alone
        pj_u8 learn[PJ_TABLE];
        fill(make, PJ_TABLE, 255);
        if (formula(7, letter + 1, learn) != 0) return 0;
        pj_u64 told = pj_plan_check(book, sizeof book, team, 0, 0, 0, make, PJ_TABLE, learn, PJ_TABLE, steps, 3);
        if ((told == 0) != (kind == PJ_LOOK)) return 0;
        team = (pj_u8)~team;
        told = pj_plan_check(book, sizeof book, team, 0, 0, 0, make, PJ_TABLE, &none, 0, steps, 3);
        if (pj_number(told) != PJ_REFUSED_NO_ACT || pj_place(told) != 0) return 0;
    }
    return 1;
}

// With every rule open, what each record leaves of each valuation: a set changes its setting's bit, a look that saw that
// bit changes nothing. Any other record is refused.
static int records_are_those(void) {
    fill(rights, sizeof rights, 255);
    if (pj_book_write(7, 8, rights, sizeof rights, book, sizeof book) != 0) return 0;
    for (int byte = 0; byte < 256; byte++)
        for (int seen = 0; seen < 3; seen++)
            for (pj_u64 v = 0; v < 128; v++) {
                pj_u8 shift[PJ_RECORD] = {(pj_u8)byte, (pj_u8)seen};
                pj_u64 reached[2], told = pj_replay(book, sizeof book, v, shift, PJ_RECORD, reached);
                int kind = pj_kind(shift[0]);
                pj_u64 bit = kind < PJ_STOP ? 1ULL << pj_setting(shift[0]) : 0, number = 0;
                if (kind >= PJ_STOP || seen > (kind == PJ_LOOK)) number = PJ_REFUSED_NO_RECORD;
                else if (kind == PJ_LOOK && seen != ((v & bit) != 0)) number = PJ_REFUSED_DISAGREES;
                pj_u64 left = number != 0 || kind == PJ_LOOK ? v : kind == PJ_SET_TRUE ? v | bit : v & ~bit;
                if (told != number << 32 || reached[0] != (number == 0) || reached[1] != left) return 0;
            }
    return 1;
}

// A book that permits one thing at one valuation: post q looks at setting i, or sets it. Bit v of the 16 bytes is the
// rule at the valuation v, and at no other.
static int valuations_are_those(void) {
    for (int i = 0; i < 7; i++)
        for (int set = 0; set < 2; set++)
            for (int v = 0; v < 128; v++) {
                int q = (i + v) % 8;
                fill(rights, sizeof rights, 0);
                rights[PJ_RIGHT(i, q, set) + v / 8] = (pj_u8)(1 << v % 8);
                if (pj_book_write(7, 8, rights, sizeof rights, book, sizeof book) != 0) return 0;
                for (int at = 0; at < 128; at++) {
                    pj_u8 shift[PJ_RECORD] = {(pj_u8)PJ_ACT(set ? PJ_SET_TRUE : PJ_LOOK, i, q),
                                              (pj_u8)(set ? 0 : at >> i & 1)};
                    pj_u64 reached[2], told = pj_replay(book, sizeof book, (pj_u64)at, shift, PJ_RECORD, reached);
                    if (at == v ? told != 0 : pj_number(told) != PJ_REFUSED_NOT_ALLOWED) return 0;
                }
            }
    return 1;
}

// Paper 01's table of digits, written out again.
static int digits_are_those(void) {
    static const int after[7][2] = {{1, 2}, {1, 2}, {1, 2}, {3, 4}, {3, 4}, {5, 6}, {5, 6}};
    pj_u64 others = 6 + 6 * 7 + 6 * 49 + 6 * 343 + 6 * 2401 + 6 * 16807 + 6 * 117649ULL;
    for (int i = 0; i < 7; i++)
        for (int digit = 0; digit < 7; digit++)
            for (int value = 0; value < 2; value++) {
                pj_u64 number = pj_with_digit(others, i, digit);
                pj_u64 set = pj_after_set(number, i, value), look = pj_after_look(number, i, value);
                if (pj_digit(number, i) != digit || pj_with_digit(number, i, 6) != others) return 0;
                if (set != pj_with_digit(others, i, after[digit][value])) return 0;
                if (look != pj_with_digit(others, i, value ? 6 : 3)) return 0;
            }
    return 1;
}

// The rank at the start number is the height that is found, or 255 for cannot, whatever is known at the start.
static int starts_are_those(int n, pj_u8 team, const pj_u8 *learn, pj_u64 learn_length) {
    for (int known = 0; known < 1 << n; known++)
        for (int values = 0; values < 1 << n; values++) {
            if ((values & ~known) != 0) continue;
            pj_u64 found = pj_find(book, PJ_BOOK_ROOM((pj_u64)n), team, (pj_u8)known, (pj_u8)values, 0, make, PJ_TABLE,
                                   learn, learn_length, ranks, sizeof ranks, plan, sizeof plan);
            if (pj_number(found) != 0) return 0;
            pj_u64 height = found == 0 ? (pj_u64)PJ_RANK_NONE : pj_height(found);
            if (ranks[pj_start((pj_u8)known, (pj_u8)values)] != height) return 0;
        }
    return 1;
}

// The bytes of the plan from `at` on are read from a knowledge number: the place after them, or 0 where an outcome has no
// lower rank than its state, or a stop is at another rank than 0.
static pj_u64 follow(pj_u64 at, pj_u64 number) {
    pj_u8 byte = plan[at++];
    int i = pj_setting(byte);
    if (pj_kind(byte) == PJ_STOP) return ranks[number] == 0 ? at : 0;
    for (int value = 0; value < 2; value++) {
        if (pj_kind(byte) == (value ? PJ_SET_FALSE : PJ_SET_TRUE)) continue;
        pj_u64 next = pj_kind(byte) == PJ_LOOK ? pj_after_look(number, i, value) : pj_after_set(number, i, value);
        if (ranks[next] >= ranks[number]) return 0;
        at = follow(at, next);
        if (at == 0) return 0;
    }
    return at;
}

// P6 with its work cut in two: post 2 makes a, then post 1 makes b. The ranks at pj_start are the heights found, for all
// 27 starts, in the second table those of post 1 alone.
static int starts_of_two(void) {
    static pj_u8 alone[PJ_RANKS_ROOM(3)];
    for (int known = 0; known < 8; known++)
        for (int values = 0; values < 8; values++) {
            if ((values & ~known) != 0) continue;
            pj_u8 k = (pj_u8)known, v = (pj_u8)values;
            pj_u64 found = pj_find_two(book, PJ_BOOK_ROOM(3), 2, k, v, 0, make2, PJ_TABLE, 0, 0, 1, make, PJ_TABLE, 0, 0,
                                       ranks, PJ_RANKS_ROOM(3), ranks2, PJ_RANKS_ROOM(3), plan, sizeof plan);
            if (pj_number(found) != 0) return 0;
            if (ranks[pj_start(k, v)] != (found == 0 ? (pj_u64)PJ_RANK_NONE : pj_height(found))) return 0;
            pj_find(book, PJ_BOOK_ROOM(3), 1, k, v, 0, make, PJ_TABLE, 0, 0, alone, sizeof alone, plan, sizeof plan);
            if (!same(ranks2, alone, sizeof alone)) return 0;
        }
    return 1;
}

int main(void) {
    test("the version's text and number are one, 4.0", version_agrees());
    test("a rule's 16 bytes stand at PJ_RIGHT among the rights and at PJ_RULE in the book", rules_stand_there());
    test("and are the rule of that setting and post, to look or to set", rules_are_those());
    test("pj_settings and pj_posts, for each n and m", numbers_of_books());
    test("kind, setting and post of all 256 plan bytes, and PJ_ACT", bytes_are_those());
    test("what all records leave of all valuations, every rule open", records_are_those());
    test("a rule's bit v is asked at the valuation v", valuations_are_those());
    test("the digits after a set and a look", digits_are_those());

    p6_rights(rights);
    formula(3, "b", make);
    pj_book_write(3, 2, rights, PJ_RIGHTS_ROOM(3), book, PJ_BOOK_ROOM(3));
    test("ranks at pj_start are the heights found, for all 27 starts of P6", starts_are_those(3, 3, 0, 0));
    test("and for post 1 alone, who cannot from some", starts_are_those(3, 1, 0, 0) && ranks[pj_start(0, 0)] == 255);
    pj_u8 learn[PJ_TABLE];
    formula(3, "a&b", learn);
    test("and where a&b is to be learnt", starts_are_those(3, 3, learn, sizeof learn));
    pj_u64 found =
        pj_find(book, PJ_BOOK_ROOM(3), 3, 0, 0, 0, make, PJ_TABLE, 0, 0, ranks, sizeof ranks, plan, sizeof plan);
    test("and fall along its plan to 0 at each stop", follow(0, pj_start(0, 0)) == pj_length(found));

    formula(3, "a", make2);
    test("the same of two legs, post 2 and then post 1, the second's ranks as it has them alone", starts_of_two());
    found = pj_find_two(book, PJ_BOOK_ROOM(3), 2, 0, 0, 0, make2, PJ_TABLE, 0, 0, 1, make, PJ_TABLE, 0, 0, ranks,
                        sizeof ranks, ranks2, sizeof ranks2, plan, sizeof plan);
    test("and along the first leg's plan of 3 steps",
         pj_height(found) == 3 && follow(0, pj_start(0, 0)) == pj_length(found));

    climb_rights(4, rights, make);
    pj_book_write(4, 1, rights, PJ_RIGHTS_ROOM(4), book, PJ_BOOK_ROOM(4));
    test("the same for all 81 starts of the book of rank 30", starts_are_those(4, 1, 0, 0));
    found = pj_find(book, PJ_BOOK_ROOM(4), 1, 0, 0, 0, make, PJ_TABLE, 0, 0, ranks, sizeof ranks, plan, sizeof plan);
    test("which has that rank", pj_height(found) == 30 && ranks[pj_start(0, 0)] == 30);
    test("and along its plan", follow(0, pj_start(0, 0)) == pj_length(found));
    return closing();
}
