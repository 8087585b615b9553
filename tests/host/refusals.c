// Each refusal of the header's enum is provoked, and the number, the place and the second number that come are those that
// the header names.
// Both halves of a sentence that has two are tried, and every refusal of a text by each function that takes one. The
// last test is that none was left out.
#include "tell.h"

static pj_u8 rights[PJ_RIGHTS_ROOM(3)], book[PJ_BOOK_ROOM(3)], other[PJ_BOOK_ROOM(3)], room[PJ_BOOK_MOST + PJ_BLOCK];
static pj_u8 ranks[PJ_RANKS_ROOM(3)], plan[PJ_PLAN_MOST + 1], make[PJ_TABLE], out[64], text[PJ_TEXT_MOST + 1];
static pj_u8 ranks2[PJ_RANKS_ROOM(3)], make2[PJ_TABLE];
#define REFUSALS 32

static int seen[REFUSALS + 1];

static void refused(const char *name, pj_u64 result, pj_u64 number, pj_u64 place) {
    test(name, pj_number(result) == number && pj_place(result) == place && pj_second(result) == 0);
    if (number <= REFUSALS && pj_number(result) == number) seen[number] = 1;
}

// 18 with its second number.
static void denied(const char *name, pj_u64 result, pj_u64 place, pj_u64 second) {
    test(name, pj_number(result) == PJ_REFUSED_NOT_PERMITTED && pj_place(result) == place && pj_second(result) == second &&
                   result == (second << 40 | (pj_u64)18 << 32 | place));
    if (pj_number(result) == PJ_REFUSED_NOT_PERMITTED) seen[18] = 1;
}

// Whether `out` has the line `refused NUMBER PLACE`, of this length.
static int says(pj_u64 size, pj_u64 number, const char *place) {
    char words[24] = "refused ";
    int at = 8;
    if (number >= 10) words[at++] = (char)('0' + number / 10);
    words[at++] = (char)('0' + number % 10);
    words[at++] = ' ';
    for (int i = 0; place[i] != 0; i++) words[at++] = place[i];
    words[at++] = '\n';
    return size == (pj_u64)at && same_text(out, words);
}

static void printed(const char *name, const char *sheet, pj_u64 length, pj_u64 number, const char *line) {
    fill(out, sizeof out, 0);
    int right = says(pj_sheet((const pj_u8 *)sheet, length, out, sizeof out), number, line);
    test(name, right);
    if (number <= REFUSALS && right) seen[number] = 1;
}

// A text of rules that pj_rules refuses with this line, and leaves the room as it was.
static void no_book(const char *name, const char *rules, pj_u64 length, pj_u64 room_length, pj_u64 number, pj_u64 line) {
    fill(room, sizeof room, 170);
    pj_u64 result = pj_rules((const pj_u8 *)rules, length, room, room_length);
    test(name, pj_number(result) == number && pj_place(result) == line && pj_second(result) == 0 &&
                   all_are(room, sizeof room, 170));
}

static void rules_refused(const char *name, const char *rules, pj_u64 number, pj_u64 line) {
    no_book(name, rules, length_of(rules), sizeof room, number, line);
}

// What pj_ask prints for a refusal. It leaves the rank table as it was, and what is past the line.
static void no_answer(const char *name, const pj_u8 *asked_of, pj_u64 book_length, const char *question, pj_u64 length,
                      pj_u64 ranks_length, pj_u64 number, const char *place) {
    fill(out, sizeof out, 170);
    fill(ranks, sizeof ranks, 170);
    pj_u64 size = pj_ask(asked_of, book_length, (const pj_u8 *)question, length, ranks, ranks_length, out, sizeof out);
    test(name, says(size, number, place) && all_are(out + size, sizeof out - size, 170) &&
                   all_are(ranks, sizeof ranks, 170));
}

static void question_refused(const char *name, const char *question, pj_u64 number, const char *line) {
    no_answer(name, book, sizeof book, question, length_of(question), sizeof ranks, number, line);
}

// Block k of `other`, with the check of its bytes.
static void seal(int k) {
    pj_u8 *block = other + PJ_BLOCK * k;
    unsigned s = 1, t = 0;
    for (int i = 0; i < 508; i++) {
        s = (s + block[i]) & 0xffff;
        t = (t + s) & 0xffff;
    }
    block[508] = (pj_u8)s, block[509] = (pj_u8)(s >> 8), block[510] = (pj_u8)t, block[511] = (pj_u8)(t >> 8);
}

// What reading P6's book gives, where one byte of it is another; sealed or not.
static pj_u64 with_byte(int at, pj_u8 byte, int sealed) {
    for (unsigned i = 0; i < sizeof book; i++) other[i] = book[i];
    other[at] = byte;
    if (sealed) seal(at / PJ_BLOCK);
    return pj_book_read(other, sizeof other, room, sizeof room);
}

static pj_u64 written(pj_u64 n, pj_u64 m, pj_u64 rights_length, pj_u64 room_length) {
    return pj_book_write(n, m, rights, rights_length, room, room_length);
}

// What both finders refuse a question with, or all ones where they differ; 13 and 14 are of rooms, and the second has none.
static pj_u64 asked_held(pj_u8 team, pj_u8 known, pj_u8 values, pj_u8 held, pj_u64 make_length, pj_u64 learn_length,
                         pj_u64 ranks_length, pj_u64 plan_length) {
    static const pj_u8 learn[5 * PJ_TABLE] = {0};
    pj_u64 found = pj_find(book, sizeof book, team, known, values, held, make, make_length, learn, learn_length, ranks,
                           ranks_length, plan, plan_length);
    if (pj_number(found) == PJ_REFUSED_RANK_ROOM || pj_number(found) == PJ_REFUSED_PLAN_ROOM) return found;
    pj_u64 plain = pj_find_plain(book, sizeof book, team, known, values, held, make, make_length, learn, learn_length);
    return found == plain ? found : ~(pj_u64)0;
}

static pj_u64 asked(pj_u8 team, pj_u8 known, pj_u8 values, pj_u64 make_length, pj_u64 learn_length, pj_u64 ranks_length,
                    pj_u64 plan_length) {
    return asked_held(team, known, values, 0, make_length, learn_length, ranks_length, plan_length);
}

static pj_u64 checked_held(pj_u8 held, const pj_u8 *bytes, pj_u64 length) {
    return pj_plan_check(book, sizeof book, 3, 0, 0, held, make, sizeof make, 0, 0, bytes, length);
}

static pj_u64 checked(const pj_u8 *bytes, pj_u64 length) { return checked_held(0, bytes, length); }

// Order: 24, line by line 22, 23 and the formula's number, then 15.
static void texts_of_rules(void) {
    static const char whole[] = "size 3 2\nread a 1 1\n", unended[] = "size 3 2\nread a 1 1";
    rules_refused("1 in rules: no formula", "size 3 2\nread a 1 \n", PJ_REFUSED_FORMULA_LENGTH, 2);
    rules_refused("2 in rules: a blank", "size 3 2\nread a 1 a |b\n", PJ_REFUSED_STRAY_BYTE, 2);
    rules_refused("3 in rules: d of three, after two lines that are passed over", "size 3 2\n# a\n\nwrite a 1 d\n",
                  PJ_REFUSED_LETTER_PAST, 4);
    rules_refused("4 in rules: an end too soon", "size 3 2\nwrite a 1 a&\n", PJ_REFUSED_NOT_SENTENCE, 2);
    rules_refused("22 in rules: no line", "", PJ_REFUSED_MALFORMED, 1);
    rules_refused("22 in rules: nothing but lines that are passed over", "# a\n\n", PJ_REFUSED_MALFORMED, 3);
    rules_refused("22 in rules: eight settings", "size 8 1\n", PJ_REFUSED_MALFORMED, 1);
    rules_refused("22 in rules: post 3 of two", "size 3 2\nread a 3 1\n", PJ_REFUSED_MALFORMED, 2);
    rules_refused("22 in rules: a team", "size 3 2\nread a 1 1\nteam 1\n", PJ_REFUSED_MALFORMED, 3);
    rules_refused("22 in rules: a line of one space", "size 3 2\n \n", PJ_REFUSED_MALFORMED, 2);
    rules_refused("22 in rules: a last line without byte 10", unended, PJ_REFUSED_MALFORMED, 2);
    rules_refused("22 in rules: a last `#` line without it", "size 3 2\n# a", PJ_REFUSED_MALFORMED, 2);
    rules_refused("23 in rules: a right stated twice", "size 3 2\nread a 1 1\n\nread a 1 0\n", PJ_REFUSED_TWICE, 4);
    rules_refused("23 before the formula's", "size 3 2\nread a 1 1\nread a 1 a&\n", PJ_REFUSED_TWICE, 3);
    no_book("24 in rules: 65,537 bytes", (const char *)text, sizeof text, 0, PJ_REFUSED_SHEET_LENGTH, 0);
    no_book("15: room for a byte too few of the rules' book", whole, sizeof whole - 1, PJ_BOOK_ROOM(3) - 1,
            PJ_REFUSED_ROOM, 0);
    no_book("22 before 15", unended, sizeof unended - 1, 0, PJ_REFUSED_MALFORMED, 2);
    test("25 is not given: seven settings are taken",
         pj_rules((const pj_u8 *)"size 7 8\n", 9, room, PJ_BOOK_MOST) == PJ_BOOK_MOST);
}

// Order: the book's 6 to 9, 24, line by line 22, 23 and the formula's number, then 13.
static void texts_of_questions(void) {
    static const char whole[] = "team 1 2\nknown\nmake b\n", wrong[] = "team\n";
    pj_u64 length = sizeof whole - 1, r = sizeof ranks;
    no_answer("6 of the book asked", book, sizeof book - 1, whole, length, r, PJ_REFUSED_BOOK_LENGTH, "0");
    with_byte(PJ_RULE(1, 0, 1), 0, 0);
    no_answer("7 of the book asked", other, sizeof other, whole, length, r, PJ_REFUSED_CHECK, "2");
    with_byte(1, 9, 1);
    no_answer("8 of the book asked", other, sizeof other, whole, length, r, PJ_REFUSED_HEAD, "0");
    with_byte(PJ_RULE(2, 1, 0) + 1, 1, 1);
    no_answer("9 of the book asked", other, sizeof other, whole, length, r, PJ_REFUSED_STRAY_BIT, "3");
    no_answer("9 before 24", other, sizeof other, (const char *)text, sizeof text, 0, PJ_REFUSED_STRAY_BIT, "3");
    no_answer("24 of a question: 65,537 bytes", book, sizeof book, (const char *)text, sizeof text, 0,
              PJ_REFUSED_SHEET_LENGTH, "0");
    question_refused("1 in a question: no formula", "team 1\nknown\nmake \n", PJ_REFUSED_FORMULA_LENGTH, "3");
    question_refused("2 in a question: a blank", "team 1\nknown\nmake a |b\n", PJ_REFUSED_STRAY_BYTE, "3");
    question_refused("3 in a question: d, of the book's three", "team 1\nknown\nmake d\n", PJ_REFUSED_LETTER_PAST, "3");
    question_refused("4 in a question, after two lines that are passed over", "# a\n\nteam 1\nknown\nmake 1\nask a&\n",
                     PJ_REFUSED_NOT_SENTENCE, "6");
    question_refused("22 in a question: no line", "", PJ_REFUSED_MALFORMED, "1");
    question_refused("22 in a question: a size", "size 3 2\nteam 1\nknown\nmake b\n", PJ_REFUSED_MALFORMED, "1");
    question_refused("22 in a question: post 3 of the book's two", "team 3\nknown\nmake b\n", PJ_REFUSED_MALFORMED, "1");
    question_refused("22 in a question: d is known, of three", "team 1\nknown d\nmake b\n", PJ_REFUSED_MALFORMED, "2");
    question_refused("22 in a question: d is held, of three", "team 1\nknown\nheld d\nmake b\n", PJ_REFUSED_MALFORMED, "3");
    question_refused("22 in a question: `~` before a held one", "team 1\nknown\nheld ~a\nmake b\n", PJ_REFUSED_MALFORMED, "3");
    question_refused("22 in a question: `held` before `known`", "team 1\nheld a\nknown\nmake b\n", PJ_REFUSED_MALFORMED, "2");
    question_refused("22 in a question: a second `held`", "team 1\nknown\nheld a\nheld\nmake b\n", PJ_REFUSED_MALFORMED, "4");
    question_refused("22 in a question: an end before `make`", "team 1\n\nknown\n", PJ_REFUSED_MALFORMED, "4");
    question_refused("22 in a question: a fifth `ask`", "team 1\nknown\nmake 1\nask a\nask a\nask a\nask a\nask a\n",
                     PJ_REFUSED_MALFORMED, "8");
    question_refused("22 in a question: a last line without byte 10", "team 1\nknown\nmake b", PJ_REFUSED_MALFORMED, "3");
    question_refused("23 in a question: a post twice", "team 1 2 1\nknown\nmake b\n", PJ_REFUSED_TWICE, "1");
    question_refused("23 in a question: a setting twice", "team 1\nknown a ~a\nmake b\n", PJ_REFUSED_TWICE, "2");
    question_refused("23 in a question: a held setting twice", "team 1\nknown\nheld a b a\nmake b\n", PJ_REFUSED_TWICE, "3");
    no_answer("13 of a question", book, sizeof book, whole, length, r - 1, PJ_REFUSED_RANK_ROOM, "0");
    no_answer("22 before 13", book, sizeof book, wrong, sizeof wrong - 1, 0, PJ_REFUSED_MALFORMED, "1");
}

// What running a shift against a book gives. The two words hold these two on return: with 27 to 29 the count of acts done
// and the valuation that they leave, with the others what they held.
static void replayed(const char *name, const pj_u8 *of, pj_u64 book_length, pj_u64 start, const pj_u8 *shift,
                     pj_u64 length, pj_u64 number, pj_u64 place, pj_u64 count, pj_u64 valuation) {
    pj_u64 reached[2] = {170, 171};
    refused(name, pj_replay(of, book_length, start, shift, length, reached), number, place);
    test("and what is reached", reached[0] == count && reached[1] == valuation);
}

// Order: the book's 6 to 9, 26, then record by record 27, 28, 29. P6's book: post 2 may set a where c is false, post 1
// may set b where a is true, post 2 may look at c, and set it where it is true. Here post 1 may not look at c.
static void shifts(void) {
    static const pj_u8 done[8] = {130, 1, 18, 0, 58, 0, 65, 0}; // look c 2 sees 1, set c 2 0, set a 2 1, set b 1 1
    pj_u8 shift[8];
    pj_u64 b = sizeof book, reached[2] = {170, 171};
    test("a shift without a fault is not refused, and four acts leave a and b true",
         pj_replay(book, b, 4, done, 8, reached) == 0 && reached[0] == 4 && reached[1] == 3);
    replayed("26: an odd length", book, b, 4, done, 7, PJ_REFUSED_SHIFT, 0, 170, 171);
    replayed("26: 8 of three settings", book, b, 8, done, 8, PJ_REFUSED_SHIFT, 0, 170, 171);
    for (int i = 0; i < 8; i++) shift[i] = done[i];
    shift[4] = 0;
    replayed("27: byte 0", book, b, 4, shift, 8, PJ_REFUSED_NO_RECORD, 2, 2, 0);
    shift[4] = 169;
    replayed("27: a byte above 168", book, b, 4, shift, 8, PJ_REFUSED_NO_RECORD, 2, 2, 0);
    shift[4] = PJ_ACT(PJ_SET_TRUE, 3, 1);
    replayed("27: setting d of three", book, b, 4, shift, 8, PJ_REFUSED_NO_RECORD, 2, 2, 0);
    shift[4] = PJ_ACT(PJ_SET_TRUE, 0, 2);
    replayed("27: post 3 of two", book, b, 4, shift, 8, PJ_REFUSED_NO_RECORD, 2, 2, 0);
    shift[4] = done[4], shift[5] = 1;
    replayed("27: a set that saw something", book, b, 4, shift, 8, PJ_REFUSED_NO_RECORD, 2, 2, 0);
    shift[5] = 0, shift[1] = 2;
    replayed("27: a look that saw 2", book, b, 4, shift, 8, PJ_REFUSED_NO_RECORD, 0, 0, 4);
    shift[1] = 1, shift[4] = PJ_ACT(PJ_SET_FALSE, 2, 1);
    replayed("28: a rule that was true at the start", book, b, 4, shift, 8, PJ_REFUSED_NOT_ALLOWED, 2, 2, 0);
    shift[5] = 1;
    replayed("27 before 28", book, b, 4, shift, 8, PJ_REFUSED_NO_RECORD, 2, 2, 0);
    shift[4] = PJ_ACT(PJ_LOOK, 2, 1);
    replayed("29: a look that saw what was", book, b, 4, shift, 8, PJ_REFUSED_DISAGREES, 2, 2, 0);
    shift[4] = PJ_ACT(PJ_LOOK, 2, 0);
    replayed("28 before 29", book, b, 4, shift, 8, PJ_REFUSED_NOT_ALLOWED, 2, 2, 0);
    shift[0] = 0;
    replayed("the first record at fault", book, b, 4, shift, 8, PJ_REFUSED_NO_RECORD, 0, 0, 4);
    replayed("26 before 27", book, b, 8, shift, 8, PJ_REFUSED_SHIFT, 0, 170, 171);
    replayed("6 before 26", book, b - 1, 8, done, 7, PJ_REFUSED_BOOK_LENGTH, 0, 170, 171);
    with_byte(PJ_RULE(1, 0, 1), 0, 0);
    replayed("7 before 26", other, b, 8, done, 7, PJ_REFUSED_CHECK, 2, 170, 171);
    with_byte(1, 9, 1);
    replayed("8 before 26", other, b, 8, done, 7, PJ_REFUSED_HEAD, 0, 170, 171);
    with_byte(PJ_RULE(2, 1, 0) + 1, 1, 1);
    replayed("9 before 26", other, b, 8, done, 7, PJ_REFUSED_STRAY_BIT, 3, 170, 171);
}

// What salvaging gives of bytes that it refuses. It leaves the room as it was.
static void no_salvage(const char *name, const pj_u8 *of, pj_u64 book_length, pj_u64 room_length, pj_u64 number) {
    fill(room, sizeof room, 170);
    refused(name, pj_book_salvage(of, book_length, room, room_length), number, 0);
    test("and the room as it was", all_are(room, sizeof room, 170));
}

// Order: 6, 30, 15. A damaged setting block is no reason: it is closed.
static void salvages(void) {
    pj_u64 b = sizeof book;
    no_salvage("6 of a salvage: a byte too few", book, b - 1, sizeof room, PJ_REFUSED_BOOK_LENGTH);
    with_byte(2, 1, 0);
    no_salvage("30: the head's check", other, b, sizeof room, PJ_REFUSED_SALVAGE_HEAD);
    no_salvage("6 before 30", other, b - 1, sizeof room, PJ_REFUSED_BOOK_LENGTH);
    no_salvage("30 before 15", other, b, b - 1, PJ_REFUSED_SALVAGE_HEAD);
    with_byte(0, 2, 1);
    no_salvage("30: a head with another n", other, b, sizeof room, PJ_REFUSED_SALVAGE_HEAD);
    with_byte(1, 9, 1);
    no_salvage("30: a head with nine posts", other, b, sizeof room, PJ_REFUSED_SALVAGE_HEAD);
    with_byte(2, 1, 1);
    no_salvage("30: a head with a third byte", other, b, sizeof room, PJ_REFUSED_SALVAGE_HEAD);
    no_salvage("15 of a salvage: room for a byte too few", book, b, b - 1, PJ_REFUSED_ROOM);
    with_byte(PJ_RULE(1, 0, 1), 0, 0);
    pj_u64 told = pj_book_salvage(other, b, room, b);
    test("a damaged block is closed and marked", pj_number(told) == 0 && pj_closed(told) == 1 && pj_marks(told) == 2);
    const pj_u8 *closed = room + 2 * PJ_BLOCK, *check = closed + PJ_BLOCK - 4;
    test("with zeros and their check, 1 and 508", all_are(closed, PJ_BLOCK - 4, 0) && check[0] == 1 && check[1] == 0 &&
                                                      check[2] == 508 % 256 && check[3] == 508 / 256);
}

// Two legs: a team of posts 1 and 2 makes a, then post 1 makes b. Each fault is one field.
struct legs {
    const pj_u8 *of;
    pj_u64 book_length, make_length, learn_length, make2_length, learn2_length, ranks_length, ranks2_length, plan_length;
    pj_u8 team, known, values, held, team2;
};

static struct legs sound_legs(void) {
    struct legs legs = {book, sizeof book, PJ_TABLE, 0, PJ_TABLE, 0, sizeof ranks, sizeof ranks2, 7, 3, 0, 0, 0, 1};
    return legs;
}

static pj_u64 asked_two(struct legs legs) {
    static const pj_u8 learn[5 * PJ_TABLE] = {0};
    fill(ranks, sizeof ranks, 170), fill(ranks2, sizeof ranks2, 170), fill(plan, sizeof plan, 170);
    return pj_find_two(legs.of, legs.book_length, legs.team, legs.known, legs.values, legs.held, make2, legs.make_length,
                       learn, legs.learn_length, legs.team2, make, legs.make2_length, learn, legs.learn2_length, ranks,
                       legs.ranks_length, ranks2, legs.ranks2_length, plan, legs.plan_length);
}

static void no_legs(const char *name, struct legs legs, pj_u64 number, pj_u64 place) {
    refused(name, asked_two(legs), number, place);
    test("and all three rooms as they were", all_are(ranks, sizeof ranks, 170) && all_are(ranks2, sizeof ranks2, 170) &&
                                                 all_are(plan, sizeof plan, 170));
}

// Order: 6 to 9, 10, 11, 31 and 12 of the first leg, 10 and 12 of the second, 13 for the first short table, 14.
static void two_legs(void) {
    static pj_u8 filled[PJ_RANKS_ROOM(3)], filled2[PJ_RANKS_ROOM(3)];
    struct legs legs = sound_legs();
    formula(3, "a", make2);
    pj_u64 found = asked_two(legs);
    test("two legs, 3 steps of the first", pj_number(found) == 0 && pj_height(found) == 3 && pj_length(found) == 6);
    test("by its plan alone, what is past it as it was",
         pj_kind(plan[0]) == PJ_LOOK && pj_setting(plan[0]) == 2 && all_are(plan + 6, sizeof plan - 6, 170));
    for (unsigned i = 0; i < sizeof ranks; i++) filled[i] = ranks[i], filled2[i] = ranks2[i];

    legs.team2 = 0;
    no_legs("10: a second team of nobody", legs, PJ_REFUSED_TEAM, 0);
    legs.team2 = 4;
    no_legs("10: a second team with post 3 of two", legs, PJ_REFUSED_TEAM, 0);
    legs = sound_legs(), legs.make2_length = 17;
    no_legs("12: a second make table of 17 bytes", legs, PJ_REFUSED_GOAL, 0);
    legs = sound_legs(), legs.learn2_length = 5 * PJ_TABLE;
    no_legs("12: five learn tables of the second leg", legs, PJ_REFUSED_GOAL, 0);
    legs = sound_legs(), make[1] = 1;
    no_legs("12: a second make table with bit 8", legs, PJ_REFUSED_GOAL, 0);
    make[1] = 0;

    legs = sound_legs(), legs.plan_length = 5;
    refused("14 of two legs: room for 5 bytes of a plan of 6", asked_two(legs), PJ_REFUSED_PLAN_ROOM, 0);
    test("and both tables filled, the plan room as it was", same(ranks, filled, sizeof ranks) &&
                                                                same(ranks2, filled2, sizeof ranks2) &&
                                                                all_are(plan, sizeof plan, 170));
    legs.ranks2_length = sizeof ranks2 - 1;
    no_legs("13 before 14: the second rank table", legs, PJ_REFUSED_RANK_ROOM, 2);
    legs.ranks_length = sizeof ranks - 1;
    no_legs("13: the first rank table before the second", legs, PJ_REFUSED_RANK_ROOM, 1);
    legs.make2_length = 15;
    no_legs("12 of the second leg before 13", legs, PJ_REFUSED_GOAL, 0);
    legs.team2 = 0;
    no_legs("10 of the second leg before its 12", legs, PJ_REFUSED_TEAM, 0);
    legs.learn_length = 15;
    no_legs("12 of the first leg before 10 of the second", legs, PJ_REFUSED_GOAL, 0);
    legs.held = 8;
    no_legs("31 before 12, of two legs", legs, PJ_REFUSED_HELD, 0);
    legs.known = 8;
    no_legs("11 before 31, of two legs", legs, PJ_REFUSED_KNOWN, 0);
    legs.team = 0;
    no_legs("10 of the first leg before 11", legs, PJ_REFUSED_TEAM, 0);
    legs.of = other;
    with_byte(PJ_RULE(2, 1, 0) + 1, 1, 1);
    no_legs("9 before 10, of two legs", legs, PJ_REFUSED_STRAY_BIT, 3);
    with_byte(1, 9, 1);
    no_legs("8 before 10, of two legs", legs, PJ_REFUSED_HEAD, 0);
    with_byte(PJ_RULE(1, 0, 1), 0, 0);
    no_legs("7 before 10, of two legs", legs, PJ_REFUSED_CHECK, 2);
    legs.book_length -= 1;
    no_legs("6 before 7, of two legs", legs, PJ_REFUSED_BOOK_LENGTH, 0);

    legs = sound_legs(), legs.held = 2, legs.plan_length = 0;
    test("where b is held two legs cannot, though the first could alone", asked_two(legs) == 0);
    test("and both tables are filled, the plan room as it was",
         ranks[pj_start(0, 0)] == PJ_RANK_NONE && ranks2[pj_start(7, 1)] == PJ_RANK_NONE &&
             ranks2[pj_start(7, 3)] == 0 && all_are(plan, sizeof plan, 170));
}

int main(void) {
    pj_u8 table[PJ_TABLE];
    char long_text[PJ_FORMULA_MOST + 1];
    for (int i = 0; i <= PJ_FORMULA_MOST; i++) long_text[i] = i % 2 == 0 ? 'a' : '&';
    p6_rights(rights);
    formula(3, "0", rights + PJ_RIGHT(2, 0, 0));
    formula(3, "b", make);
    pj_book_write(3, 2, rights, sizeof rights, book, sizeof book);

    refused("1: an empty formula", formula(3, "", table), PJ_REFUSED_FORMULA_LENGTH, 0);
    refused("1: a formula of 256 bytes", pj_formula_read(3, (const pj_u8 *)long_text, sizeof long_text, table),
            PJ_REFUSED_FORMULA_LENGTH, 0);
    refused("2: a blank in a formula", formula(3, "a |b", table), PJ_REFUSED_STRAY_BYTE, 1);
    refused("3: the letter d of three settings", formula(3, "a&d", table), PJ_REFUSED_LETTER_PAST, 2);
    refused("4: a bracket that nothing opened", formula(3, "a)", table), PJ_REFUSED_NOT_SENTENCE, 1);
    refused("4: a formula that ends too soon", formula(3, "a&", table), PJ_REFUSED_NOT_SENTENCE, 2);
    refused("5: a formula over no settings", formula(0, "a", table), PJ_REFUSED_SETTINGS, 0);
    refused("5: a book of eight settings", written(8, 2, sizeof rights, sizeof room), PJ_REFUSED_SETTINGS, 0);
    refused("6: a book of a byte too few", pj_book_read(book, sizeof book - 1, room, sizeof room),
            PJ_REFUSED_BOOK_LENGTH, 0);
    refused("6: rights of two settings for three", written(3, 2, PJ_RIGHTS_ROOM(2), sizeof room),
            PJ_REFUSED_BOOK_LENGTH, 0);
    refused("7: a byte of block 2 changed", with_byte(PJ_RULE(1, 0, 1), 0, 0), PJ_REFUSED_CHECK, 2);
    refused("8: a head with another n", with_byte(0, 2, 1), PJ_REFUSED_HEAD, 0);
    refused("8: a head with nine posts", with_byte(1, 9, 1), PJ_REFUSED_HEAD, 0);
    refused("8: a head with a third byte", with_byte(2, 1, 1), PJ_REFUSED_HEAD, 0);
    refused("8: a book of nine posts", written(3, 9, sizeof rights, sizeof room), PJ_REFUSED_HEAD, 0);
    refused("9: a rule of a third post of two", with_byte(PJ_RULE(1, 2, 0), 1, 1), PJ_REFUSED_STRAY_BIT, 2);
    refused("9: a rule true at valuation 8 of three settings", with_byte(PJ_RULE(2, 1, 0) + 1, 1, 1),
            PJ_REFUSED_STRAY_BIT, 3);
    refused("9: a byte past the tables", with_byte(PJ_BLOCK + PJ_TABLES, 1, 1), PJ_REFUSED_STRAY_BIT, 1);
    refused("9: rights with a rule of post 2 for one post", written(3, 1, sizeof rights, sizeof room),
            PJ_REFUSED_STRAY_BIT, 1);
    refused("10: a team of nobody", asked(0, 0, 0, 16, 0, sizeof ranks, 8), PJ_REFUSED_TEAM, 0);
    refused("10: a team with post 3 of two", asked(4, 0, 0, 16, 0, sizeof ranks, 8), PJ_REFUSED_TEAM, 0);
    refused("11: d is known of three settings", asked(3, 8, 0, 16, 0, sizeof ranks, 8), PJ_REFUSED_KNOWN, 0);
    refused("11: a value of what is not known", asked(3, 1, 2, 16, 0, sizeof ranks, 8), PJ_REFUSED_KNOWN, 0);
    refused("31: d is held of three settings", asked_held(3, 0, 0, 8, 16, 0, sizeof ranks, 8), PJ_REFUSED_HELD, 0);
    refused("31 of the second finder", pj_find_plain(book, sizeof book, 3, 0, 0, 128, make, sizeof make, 0, 0),
            PJ_REFUSED_HELD, 0);
    refused("31 of the plan check", checked_held(8, 0, 0), PJ_REFUSED_HELD, 0);
    refused("11 before 31", asked_held(3, 8, 0, 8, 16, 0, sizeof ranks, 8), PJ_REFUSED_KNOWN, 0);
    refused("31 before 12", asked_held(3, 0, 0, 8, 15, 0, sizeof ranks, 8), PJ_REFUSED_HELD, 0);
    refused("12: a make table of 15 bytes", asked(3, 0, 0, 15, 0, sizeof ranks, 8), PJ_REFUSED_GOAL, 0);
    refused("12: five learn tables", asked(3, 0, 0, 16, 5 * PJ_TABLE, sizeof ranks, 8), PJ_REFUSED_GOAL, 0);
    make[1] = 1;
    refused("12: a make table with bit 8", asked(3, 0, 0, 16, 0, sizeof ranks, 8), PJ_REFUSED_GOAL, 0);
    make[1] = 0;
    refused("13: a rank table of a byte too few", asked(3, 0, 0, 16, 0, sizeof ranks - 1, 8), PJ_REFUSED_RANK_ROOM, 0);
    refused("14: room for 7 bytes of a plan of 8", asked(3, 0, 0, 16, 0, sizeof ranks, 7), PJ_REFUSED_PLAN_ROOM, 0);
    refused("15: room for a byte too few of rights", pj_book_read(book, sizeof book, room, PJ_RIGHTS_ROOM(3) - 1),
            PJ_REFUSED_ROOM, 0);
    refused("15: room for a byte too few of a book", written(3, 2, sizeof rights, PJ_BOOK_ROOM(3) - 1),
            PJ_REFUSED_ROOM, 0);
    refused("16: a plan of 32,641 bytes", checked(plan, PJ_PLAN_MOST + 1), PJ_REFUSED_PLAN_LENGTH, 0);

    static const pj_u8 steps[9] = {130, 58, 65, 0, 18, 58, 65, 0, 0};
    pj_u8 wrong[9];
    for (int i = 0; i < 9; i++) wrong[i] = steps[i];
    wrong[2] = 169;
    refused("17: a byte above 168", checked(wrong, 8), PJ_REFUSED_NO_ACT, 2);
    wrong[2] = PJ_ACT(PJ_SET_TRUE, 3, 0);
    refused("17: setting d of three", checked(wrong, 8), PJ_REFUSED_NO_ACT, 2);
    wrong[2] = PJ_ACT(PJ_SET_TRUE, 1, 2);
    refused("17: post 3, who is not of the team", checked(wrong, 8), PJ_REFUSED_NO_ACT, 2);
    wrong[2] = PJ_ACT(PJ_SET_TRUE, 1, 1);
    denied("18: a set that no rule permits", checked(wrong, 8), 2, PJ_SECOND_SURELY_FALSE);
    wrong[2] = PJ_ACT(PJ_LOOK, 2, 1);
    denied("18: a look at what is known", checked(wrong, 8), 2, PJ_SECOND_KNOWN_SETTING);
    static const pj_u8 guess[2] = {PJ_ACT(PJ_SET_TRUE, 0, 1), 0};
    denied("18: a set whose rule nobody knows to hold", checked(guess, 2), 0, PJ_SECOND_NOT_KNOWN);
    denied("18: a set of a held setting", checked_held(4, steps, 8), 4, PJ_SECOND_HELD_SETTING);
    denied("held before not known", checked_held(1, guess, 2), 0, PJ_SECOND_HELD_SETTING);
    wrong[2] = PJ_ACT(PJ_SET_TRUE, 1, 1);
    denied("held before surely false", checked_held(2, wrong, 8), 2, PJ_SECOND_HELD_SETTING);
    wrong[2] = PJ_ACT(PJ_SET_TRUE, 0, 1);
    refused("32: a set to what was set", checked(wrong, 8), PJ_REFUSED_CHANGES_NOTHING, 2);
    denied("held before 32", checked_held(1, wrong, 8), 1, PJ_SECOND_HELD_SETTING);
    wrong[1] = PJ_ACT(PJ_SET_FALSE, 2, 1);
    denied("18 before 32: a set to what was seen, by a rule that is surely false", checked(wrong, 8), 1,
           PJ_SECOND_SURELY_FALSE);
    wrong[1] = steps[1];
    static const pj_u8 look[3] = {PJ_ACT(PJ_LOOK, 2, 1), 0, 0};
    refused("a look at a held setting is as before", checked_held(4, look, 3), PJ_REFUSED_NOT_SETTLED, 1);
    test("where c is held b can't be made, nor by the second finder", asked_held(3, 0, 0, 4, 16, 0, sizeof ranks, 8) == 0);
    test("where c is held and known to be false it can",
         pj_height(pj_find(book, sizeof book, 3, 4, 0, 4, make, sizeof make, 0, 0, ranks, sizeof ranks, plan, 8)) == 2 &&
             pj_find_plain(book, sizeof book, 3, 4, 0, 4, make, sizeof make, 0, 0) == 2 + 1);
    wrong[2] = 0;
    refused("19: a stop before the goal", checked(wrong, 8), PJ_REFUSED_NOT_SETTLED, 2);
    refused("20: seven bytes of eight", checked(steps, 7), PJ_REFUSED_TOO_SOON, 7);
    refused("21: a ninth byte", checked(steps, 9), PJ_REFUSED_LEFT_OVER, 8);

    static const char many[] = "size 6 1\n", twice[] = "size 3 2\nteam 1 1\n", form[] = "size 3 2\nteam\n";
    static const char early[] = "size 3 2\n", *const no_formula[4] = {
        "size 3 2\nread a 1 \n", "size 3 2\nread a 1 a |b\n", "size 3 2\nread a 1 d\n", "size 3 2\nread a 1 a&\n"};
    static const char *const names[4] = {"1 in a sheet: the line is its place", "2 in a sheet", "3 in a sheet",
                                         "4 in a sheet"};
    for (pj_u64 i = 0; i < 4; i++) printed(names[i], no_formula[i], length_of(no_formula[i]), i + 1, "2");
    printed("22: a team line without a post", form, sizeof form - 1, PJ_REFUSED_MALFORMED, "2");
    printed("22: a sheet that ends early", early, sizeof early - 1, PJ_REFUSED_MALFORMED, "2");
    printed("23: a post named twice", twice, sizeof twice - 1, PJ_REFUSED_TWICE, "2");
    printed("24: a sheet of 32,769 bytes", (const char *)text, PJ_SHEET_MOST + 1, PJ_REFUSED_SHEET_LENGTH, "0");
    printed("25: six settings", many, sizeof many - 1, PJ_REFUSED_SHEET_SETTINGS, "1");

    texts_of_rules();
    texts_of_questions();
    two_legs();
    shifts();
    salvages();

    int count = 0;
    for (int i = 1; i <= REFUSALS; i++) count += seen[i];
    test("all 32 were given", count == REFUSALS);
    return closing();
}
