// The sizes of the header, each exactly and by one byte too few or too many, and what is left untouched; a long shift;
// null where a length is 0; odd addresses; and calls in several threads at once.
#include "tell.h"

#ifdef __cplusplus
extern "C" {
#endif
int pthread_create(unsigned long *thread, const void *attributes, void *(*start)(void *), void *argument);
int pthread_join(unsigned long thread, void **result);
#ifdef __cplusplus
}
#endif

static pj_u8 rights[PJ_RIGHTS_MOST], book[PJ_BOOK_MOST], ranks[PJ_RANKS_MOST], plan[PJ_PLAN_MOST + 1], make[PJ_TABLE];
static pj_u8 ranks2[PJ_RANKS_MOST];
static pj_u8 text[PJ_TEXT_MOST + 1], room[PJ_BOOK_MOST + 1], others[PJ_RANKS_MOST], out[PJ_ASK_MOST], all[PJ_ASK_MOST];

static pj_u64 find(pj_u64 n, pj_u64 ranks_length, pj_u64 plan_length) {
    return pj_find(book, PJ_BOOK_ROOM(n), 1, 0, 0, 0, make, PJ_TABLE, 0, 0, ranks, ranks_length, plan, plan_length);
}

// The book of greatest rank with n settings, its rights, its ranks and its plan, into rooms of exactly the sizes that are
// named, and into rooms of a byte less.
static int rooms_of(int settings) {
    pj_u64 n = (pj_u64)settings;
    climb_rights(settings, rights, make);
    if (pj_number(pj_book_write(n, 1, rights, PJ_RIGHTS_ROOM(n), book, PJ_BOOK_ROOM(n) - 1)) != PJ_REFUSED_ROOM) return 0;
    if (pj_book_write(n, 1, rights, PJ_RIGHTS_ROOM(n), book, PJ_BOOK_ROOM(n)) != 0) return 0;
    if (pj_number(pj_book_read(book, PJ_BOOK_ROOM(n), rights, PJ_RIGHTS_ROOM(n) - 1)) != PJ_REFUSED_ROOM) return 0;
    if (pj_settings(pj_book_read(book, PJ_BOOK_ROOM(n), rights, PJ_RIGHTS_ROOM(n))) != n) return 0;
    if (pj_number(pj_book_salvage(book, PJ_BOOK_ROOM(n), room, PJ_BOOK_ROOM(n) - 1)) != PJ_REFUSED_ROOM) return 0;
    if (pj_book_salvage(book, PJ_BOOK_ROOM(n), room, PJ_BOOK_ROOM(n)) != 0 || !same(room, book, PJ_BOOK_ROOM(n))) return 0;
    if (pj_number(find(n, PJ_RANKS_ROOM(n) - 1, PJ_PLAN_ROOM(n))) != PJ_REFUSED_RANK_ROOM) return 0;
    pj_u64 found = find(n, PJ_RANKS_ROOM(n), PJ_PLAN_ROOM(n)), length = pj_length(found);
    if (pj_number(found) != 0 || pj_height(found) != (2ULL << n) - 2) return 0;
    if (find(n, PJ_RANKS_ROOM(n), length) != found) return 0;
    return pj_number(find(n, PJ_RANKS_ROOM(n), length - 1)) == PJ_REFUSED_PLAN_ROOM;
}

static pj_u64 find_two(pj_u64 n, const pj_u8 *make2, pj_u64 ranks_length, pj_u64 ranks2_length, pj_u64 plan_length) {
    return pj_find_two(book, PJ_BOOK_ROOM(n), 1, 0, 0, 0, make, PJ_TABLE, 0, 0, 1, make2, PJ_TABLE, 0, 0, others,
                       ranks_length, ranks2, ranks2_length, plan, plan_length);
}

// The same book, and a second leg that is settled everywhere: both rank tables of exactly 7^n bytes, with a byte more and
// of a byte less. The first leg's answer, ranks and plan are those of one leg, and the second's ranks are zeros.
static int two_rooms(int settings) {
    pj_u64 n = (pj_u64)settings, k = PJ_RANKS_ROOM(n);
    pj_u8 make2[PJ_TABLE];
    if (!rooms_of(settings) || formula(n, "1", make2) != 0) return 0; // its book is there, and its ranks
    pj_u64 found = find(n, k, PJ_PLAN_ROOM(n)), length = pj_length(found);
    for (pj_u64 more = 0; more < 2 && k + more <= sizeof others; more++) {
        fill(others, sizeof others, 170), fill(ranks2, sizeof ranks2, 170), fill(plan, sizeof plan, 170);
        if (find_two(n, make2, k + more, k + more, length) != found) return 0;
        if (!same(others, ranks, k) || !all_are(others + k, sizeof others - k, 170)) return 0;
        if (!all_are(ranks2, k, 0) || !all_are(ranks2 + k, sizeof ranks2 - k, 170)) return 0;
        if (!all_are(plan + length, sizeof plan - length, 170)) return 0;
        if (pj_plan_check(book, PJ_BOOK_ROOM(n), 1, 0, 0, 0, make, PJ_TABLE, 0, 0, plan, length) != 0) return 0;
    }
    fill(others, sizeof others, 170), fill(ranks2, sizeof ranks2, 170), fill(plan, sizeof plan, 170);
    if (find_two(n, make2, k - 1, k, length) != ((pj_u64)PJ_REFUSED_RANK_ROOM << 32 | 1)) return 0;
    if (find_two(n, make2, k, k - 1, length) != ((pj_u64)PJ_REFUSED_RANK_ROOM << 32 | 2)) return 0;
    if (!all_are(others, sizeof others, 170) || !all_are(ranks2, sizeof ranks2, 170)) return 0;
    return find_two(n, make2, k, k, length - 1) == (pj_u64)PJ_REFUSED_PLAN_ROOM << 32 && same(others, ranks, k) &&
           all_are(ranks2, k, 0) && all_are(plan, sizeof plan, 170);
}

// The rules `size N 1` into a room of exactly the book's size, and of a byte less. What is past the book is left, and all
// of it where the room is too short.
static int rules_room(int settings) {
    pj_u64 n = (pj_u64)settings, b = PJ_BOOK_ROOM(n);
    pj_u8 rules[9] = {'s', 'i', 'z', 'e', ' ', (pj_u8)('0' + settings), ' ', '1', '\n'};
    if (unstated_rights(settings, 1, rights) != 0) return 0;
    if (pj_book_write(n, 1, rights, PJ_RIGHTS_ROOM(n), book, sizeof book) != 0) return 0;
    for (int turn = 0; turn < 2; turn++) {
        pj_u64 lent = turn == 0 ? b : sizeof room;
        fill(room, sizeof room, 170);
        if (pj_rules(rules, sizeof rules, room, lent) != b) return 0;
        if (!same(room, book, b) || !all_are(room + b, sizeof room - b, 170)) return 0;
    }
    fill(room, sizeof room, 170);
    pj_u64 told = pj_rules(rules, sizeof rules, room, b - 1);
    return pj_number(told) == PJ_REFUSED_ROOM && pj_place(told) == 0 && all_are(room, sizeof room, 170);
}

// The question of greatest rank: a rank table of exactly 7^n bytes, with more after it, and of a byte less. The first 7^n
// bytes are those that pj_find leaves, and no other is written, nor any where the table is too short. Then rooms for the
// answer: of its length, of a byte less, and of none.
static int ask_rooms(int settings) {
    pj_u64 n = (pj_u64)settings, b = PJ_BOOK_ROOM(n), k = PJ_RANKS_ROOM(n), t = climb_question(settings, text);
    if (!rooms_of(settings)) return 0; // its book is there, and its ranks
    fill(others, sizeof others, 170);
    fill(all, sizeof all, 170);
    pj_u64 size = pj_ask(book, b, text, t, others, sizeof others, all, sizeof all);
    if (size > PJ_ASK_MOST || !same_text(all, "reach ") || !all_are(all + size, sizeof all - size, 170)) return 0;
    if (!same(others, ranks, k) || !all_are(others + k, sizeof others - k, 170)) return 0;
    for (pj_u64 less = 0; less < 2; less++) {
        fill(others, sizeof others, 170);
        fill(out, sizeof out, 170);
        if (pj_ask(book, b, text, t, others, k, out, size - less) != size) return 0;
        if (!same(out, all, size - less) || !all_are(out + size - less, sizeof out - size + less, 170)) return 0;
        if (!same(others, ranks, k) || !all_are(others + k, sizeof others - k, 170)) return 0;
    }
    if (pj_ask(book, b, text, t, others, k, 0, 0) != size) return 0;
    fill(others, sizeof others, 170);
    return pj_ask(book, b, text, t, others, k - 1, out, sizeof out) == 13 && same_text(out, "refused 13 0\n") &&
           all_are(others, sizeof others, 170);
}

// Rules, and then a question, with a last line `# ..` that fills the text to its most, or to a byte more.
static int text_most(void) {
    int right = 1;
    for (pj_u64 more = 0; more < 2; more++) {
        pj_u64 length = PJ_TEXT_MOST + more;
        fill(text, sizeof text, '#');
        text[length - 1] = '\n';
        for (pj_u64 i = 0; i < 9; i++) text[i] = (pj_u8) "size 1 1\n"[i];
        pj_u64 made = pj_rules(text, length, room, sizeof room);
        right &= more == 0 ? made == PJ_BOOK_ROOM(1) : pj_number(made) == PJ_REFUSED_SHEET_LENGTH && pj_place(made) == 0;
        for (pj_u64 i = 0; i < 20; i++) text[i] = (pj_u8) "team 1\nknown\nmake 1\n"[i];
        pj_u64 size = pj_ask(room, PJ_BOOK_ROOM(1), text, length, ranks, sizeof ranks, out, sizeof out);
        right &= more == 0 ? size == 15 && same_text(out, "reach 0\n0 stop\n")
                           : size == 13 && same_text(out, "refused 24 0\n");
    }
    return right;
}

enum { RECORDS = 1000000 };

// A shift of a million records, in which a is set on and off in turns and looked at: with a byte less and with a byte
// more; whole; and with a fault at the end. The words beside the two that are lent are as they were.
static int shift_of_a_million(void) {
    static pj_u8 shift[RECORDS * PJ_RECORD + 1];
    static const pj_u8 turns[4 * PJ_RECORD] = {PJ_ACT(PJ_SET_TRUE, 0, 0),  0, PJ_ACT(PJ_LOOK, 0, 0), 1,
                                               PJ_ACT(PJ_SET_FALSE, 0, 0), 0, PJ_ACT(PJ_LOOK, 0, 0), 0};
    pj_u64 b = PJ_BOOK_ROOM(1), length = RECORDS * PJ_RECORD, words[4] = {170, 171, 172, 173};
    for (pj_u64 i = 0; i < length; i++) shift[i] = turns[i % sizeof turns];
    fill(rights, PJ_TABLES, 0);
    fill(rights, 1, 3), fill(rights + PJ_TABLE, 1, 3); // `1` over one setting
    if (pj_book_write(1, 1, rights, PJ_TABLES, book, b) != 0) return 0;
    for (pj_u64 odd = 0; odd < 2; odd++)
        if (pj_replay(book, b, 0, shift, length - 1 + 2 * odd, words + 1) != (pj_u64)PJ_REFUSED_SHIFT << 32) return 0;
    if (words[0] != 170 || words[1] != 171 || words[2] != 172 || words[3] != 173) return 0;
    if (pj_replay(book, b, 0, shift, length, words + 1) != 0 || words[1] != RECORDS || words[2] != 0) return 0;
    shift[length - 1] = 1;
    pj_u64 told = pj_replay(book, b, 1, shift, length, words + 1);
    if (pj_number(told) != PJ_REFUSED_DISAGREES || pj_place(told) != RECORDS - 1) return 0;
    if (words[1] != RECORDS - 1 || words[2] != 0) return 0;
    return words[0] == 170 && words[3] == 173;
}

static pj_u64 checked(pj_u64 learn_length, pj_u64 plan_length) {
    static const pj_u8 learn[5 * PJ_TABLE] = {0};
    return pj_plan_check(book, PJ_BOOK_ROOM(1), 1, 0, 0, 0, make, PJ_TABLE, learn, learn_length, plan, plan_length);
}

// Null for each slice of each function, with the length 0: what is due to an empty one is answered.
static int null_for_empty(void) {
    pj_u8 table[PJ_TABLE];
    pj_u64 n = 1;
    pj_u64 b = PJ_BOOK_ROOM(n), r = PJ_RANKS_ROOM(n);
    if (pj_number(pj_formula_read(n, 0, 0, table)) != PJ_REFUSED_FORMULA_LENGTH) return 0;
    if (pj_number(pj_book_read(0, 0, rights, PJ_TABLES)) != PJ_REFUSED_BOOK_LENGTH) return 0;
    if (pj_number(pj_book_read(book, b, 0, 0)) != PJ_REFUSED_ROOM) return 0;
    if (pj_number(pj_book_write(n, 1, 0, 0, book, b)) != PJ_REFUSED_BOOK_LENGTH) return 0;
    if (pj_number(pj_book_write(n, 1, rights, PJ_TABLES, 0, 0)) != PJ_REFUSED_ROOM) return 0;
    if (pj_number(pj_book_salvage(0, 0, room, b)) != PJ_REFUSED_BOOK_LENGTH) return 0;
    if (pj_number(pj_book_salvage(book, b, 0, 0)) != PJ_REFUSED_ROOM) return 0;
    if (pj_number(pj_find(0, 0, 1, 0, 0, 0, make, 16, 0, 0, ranks, r, plan, 6)) != PJ_REFUSED_BOOK_LENGTH) return 0;
    if (pj_number(pj_find(book, b, 1, 0, 0, 0, 0, 0, 0, 0, ranks, r, plan, 6)) != PJ_REFUSED_GOAL) return 0;
    if (pj_height(pj_find(book, b, 1, 0, 0, 0, make, 16, 0, 0, ranks, r, plan, 6)) != 2) return 0;
    if (pj_number(pj_find(book, b, 1, 0, 0, 0, make, 16, 0, 0, 0, 0, plan, 6)) != PJ_REFUSED_RANK_ROOM) return 0;
    if (pj_number(pj_find(book, b, 1, 0, 0, 0, make, 16, 0, 0, ranks, r, 0, 0)) != PJ_REFUSED_PLAN_ROOM) return 0;
    if (pj_number(pj_find_two(0, 0, 1, 0, 0, 0, make, 16, 0, 0, 1, make, 16, 0, 0, ranks, r, ranks2, r, plan, 6)) !=
        PJ_REFUSED_BOOK_LENGTH)
        return 0;
    if (pj_number(pj_find_two(book, b, 1, 0, 0, 0, 0, 0, 0, 0, 1, make, 16, 0, 0, ranks, r, ranks2, r, plan, 6)) !=
        PJ_REFUSED_GOAL)
        return 0;
    if (pj_number(pj_find_two(book, b, 1, 0, 0, 0, make, 16, 0, 0, 1, 0, 0, 0, 0, ranks, r, ranks2, r, plan, 6)) !=
        PJ_REFUSED_GOAL)
        return 0;
    if (pj_height(pj_find_two(book, b, 1, 0, 0, 0, make, 16, 0, 0, 1, make, 16, 0, 0, ranks, r, ranks2, r, plan, 6)) != 2)
        return 0;
    for (pj_u64 place = 1; place <= 2; place++) {
        pj_u64 told = pj_find_two(book, b, 1, 0, 0, 0, make, 16, 0, 0, 1, make, 16, 0, 0, place == 1 ? 0 : ranks,
                                  place == 1 ? 0 : r, place == 2 ? 0 : ranks2, place == 2 ? 0 : r, plan, 6);
        if (pj_number(told) != PJ_REFUSED_RANK_ROOM || pj_place(told) != place) return 0;
    }
    if (pj_number(pj_find_two(book, b, 1, 0, 0, 0, make, 16, 0, 0, 1, make, 16, 0, 0, ranks, r, ranks2, r, 0, 0)) !=
        PJ_REFUSED_PLAN_ROOM)
        return 0;
    if (pj_number(pj_find_plain(0, 0, 1, 0, 0, 0, make, 16, 0, 0)) != PJ_REFUSED_BOOK_LENGTH) return 0;
    if (pj_number(pj_find_plain(book, b, 1, 0, 0, 0, 0, 0, 0, 0)) != PJ_REFUSED_GOAL) return 0;
    if (pj_find_plain(book, b, 1, 0, 0, 0, make, 16, 0, 0) != 2 + 1) return 0;
    if (pj_number(pj_plan_check(0, 0, 1, 0, 0, 0, make, 16, 0, 0, plan, 1)) != PJ_REFUSED_BOOK_LENGTH) return 0;
    if (pj_number(pj_plan_check(book, b, 1, 0, 0, 0, 0, 0, 0, 0, plan, 1)) != PJ_REFUSED_GOAL) return 0;
    if (pj_number(pj_plan_check(book, b, 1, 0, 0, 0, make, 16, 0, 0, 0, 0)) != PJ_REFUSED_TOO_SOON) return 0;
    if (pj_sheet(0, 0, out, sizeof out) != 13 || !same_text(out, "refused 22 1\n")) return 0;
    if (pj_sheet(0, 0, 0, 0) != 13) return 0;

    pj_u64 none = pj_rules(0, 0, room, sizeof room), t = climb_question(1, text);
    if (pj_number(none) != PJ_REFUSED_MALFORMED || pj_place(none) != 1) return 0;
    if (pj_number(pj_rules((const pj_u8 *)"size 1 1\n", 9, 0, 0)) != PJ_REFUSED_ROOM) return 0;
    if (pj_ask(0, 0, text, t, ranks, r, out, sizeof out) != 12 || !same_text(out, "refused 6 0\n")) return 0;
    if (pj_ask(book, b, 0, 0, ranks, r, out, sizeof out) != 13 || !same_text(out, "refused 22 1\n")) return 0;
    if (pj_ask(book, b, text, t, 0, 0, out, sizeof out) != 13 || !same_text(out, "refused 13 0\n")) return 0;
    if (pj_ask(book, b, text, t, ranks, r, 0, 0) <= 13 || pj_ask(0, 0, 0, 0, 0, 0, 0, 0) != 12) return 0;

    pj_u64 reached[2] = {170, 171};
    if (pj_number(pj_replay(0, 0, 0, plan, PJ_RECORD, reached)) != PJ_REFUSED_BOOK_LENGTH) return 0;
    if (pj_number(pj_replay(0, 0, 0, 0, 0, reached)) != PJ_REFUSED_BOOK_LENGTH) return 0;
    if (pj_number(pj_replay(book, b, 2, 0, 0, reached)) != PJ_REFUSED_SHIFT) return 0;
    if (reached[0] != 170 || reached[1] != 171) return 0;
    return pj_replay(book, b, 1, 0, 0, reached) == 0 && reached[0] == 0 && reached[1] == 1;
}

// P6 at addresses with every remainder by 16, from rights to the checked plan, from text to text, and as a shift.
static int any_address(void) {
    static const char rules[] = "size 3 2\nwrite a 2 ~c\nwrite b 1 a\nread c 2 1\nwrite c 2 c\n";
    static const char question[] = "team 1 2\nknown\nmake b\n";
    static pj_u8 memory[16384];
    for (int offset = 0; offset < 16; offset++) {
        pj_u8 *at = memory + offset, *r = at, *b = at + 1001, *k = at + 4001, *p = at + 5001, *t = at + 6001;
        if (p6_rights(r) != 0 || formula(3, "b", t) != 0) return 0;
        if (pj_book_write(3, 2, r, PJ_RIGHTS_ROOM(3), b, PJ_BOOK_ROOM(3)) != 0) return 0;
        pj_u64 found =
            pj_find(b, PJ_BOOK_ROOM(3), 3, 0, 0, 0, t, PJ_TABLE, 0, 0, k, PJ_RANKS_ROOM(3), p, PJ_PLAN_ROOM(3));
        if (pj_height(found) != 4 || pj_length(found) != 8) return 0;
        if (pj_plan_check(b, PJ_BOOK_ROOM(3), 3, 0, 0, 0, t, PJ_TABLE, 0, 0, p, 8) != 0) return 0;
        pj_u8 *t2 = at + 6101, *k2 = at + 6201; // post 2 makes a, then post 1 makes b
        if (formula(3, "a", t2) != 0) return 0;
        found = pj_find_two(b, PJ_BOOK_ROOM(3), 2, 0, 0, 0, t2, PJ_TABLE, 0, 0, 1, t, PJ_TABLE, 0, 0, k,
                            PJ_RANKS_ROOM(3), k2, PJ_RANKS_ROOM(3), p, PJ_PLAN_ROOM(3));
        if (pj_height(found) != 3 || pj_length(found) != 6) return 0;
        pj_u8 *rules_at = at + 7001, *question_at = at + 8001, *made = at + 9001, *o = at + 12001;
        for (pj_u64 i = 0; i < sizeof rules - 1; i++) rules_at[i] = (pj_u8)rules[i];
        for (pj_u64 i = 0; i < sizeof question - 1; i++) question_at[i] = (pj_u8)question[i];
        pj_u64 length = pj_rules(rules_at, sizeof rules - 1, made, PJ_BOOK_ROOM(3));
        if (length != PJ_BOOK_ROOM(3) || !same(made, b, length)) return 0;
        pj_ask(made, length, question_at, sizeof question - 1, k, PJ_RANKS_ROOM(3), o, 200);
        if (!same_text(o, "reach 4\n0 look c 1\n")) return 0;
        static const pj_u8 acts[4 * PJ_RECORD] = {130, 1, 18, 0, 58, 0, 65, 0};
        pj_u8 *shift = at + 15001;
        pj_u64 reached[2];
        for (pj_u64 i = 0; i < sizeof acts; i++) shift[i] = acts[i];
        if (pj_replay(b, PJ_BOOK_ROOM(3), 4, shift, sizeof acts, reached) != 0) return 0;
        if (reached[0] != 4 || reached[1] != 3) return 0;
    }
    return 1;
}

// A thread with rooms of its own asks the question of n settings again and again, by its tables, with one leg and as both
// legs of two, and by its text, and runs a shift against the book, in which a is set as often as there are settings: every
// answer is the right one.
struct asker {
    int n, right;
    pj_u8 rights[PJ_RIGHTS_ROOM(5)], book[PJ_BOOK_ROOM(5)], make[PJ_TABLE];
    pj_u8 ranks[PJ_RANKS_ROOM(5)], ranks2[PJ_RANKS_ROOM(5)], plan[PJ_PLAN_ROOM(5)], text[32], out[PJ_ANSWER_MOST];
};

static void *ask(void *given) {
    struct asker *own = (struct asker *)given;
    pj_u64 n = (pj_u64)own->n;
    own->right = 1;
    for (int turn = 0; turn < 60; turn++) {
        fill(own->ranks, sizeof own->ranks, 170);
        climb_rights(own->n, own->rights, own->make);
        pj_u64 wrote = pj_book_write(n, 1, own->rights, PJ_RIGHTS_ROOM(n), own->book, sizeof own->book);
        pj_u64 found = pj_find(own->book, PJ_BOOK_ROOM(n), 1, 0, 0, 0, own->make, PJ_TABLE, 0, 0, own->ranks,
                               PJ_RANKS_ROOM(n), own->plan, PJ_PLAN_ROOM(n));
        if (wrote != 0 || pj_number(found) != 0 || pj_height(found) != (2ULL << n) - 2) own->right = 0;
        pj_u64 told = pj_plan_check(own->book, PJ_BOOK_ROOM(n), 1, 0, 0, 0, own->make, PJ_TABLE, 0, 0, own->plan,
                                    pj_length(found));
        if (told != 0) own->right = 0;
        pj_u64 two = pj_find_two(own->book, PJ_BOOK_ROOM(n), 1, 0, 0, 0, own->make, PJ_TABLE, 0, 0, 1, own->make, PJ_TABLE,
                                 0, 0, own->ranks, PJ_RANKS_ROOM(n), own->ranks2, PJ_RANKS_ROOM(n), own->plan,
                                 PJ_PLAN_ROOM(n));
        if (two != found || !same(own->ranks, own->ranks2, PJ_RANKS_ROOM(n))) own->right = 0;
        pj_u64 t = climb_question(own->n, own->text);
        pj_u64 size = pj_ask(own->book, PJ_BOOK_ROOM(n), own->text, t, own->ranks, PJ_RANKS_ROOM(n), own->out,
                             sizeof own->out);
        static const char *const heights[4] = {"reach 6\n", "reach 14\n", "reach 30\n", "reach 62\n"};
        if (size > sizeof own->out || !same_text(own->out, heights[own->n - 2])) own->right = 0;
        pj_u8 shift[10] = {0};
        pj_u64 reached[2];
        for (pj_u64 i = 0; i < n; i++) shift[PJ_RECORD * i] = PJ_ACT(PJ_SET_TRUE, 0, 0);
        if (pj_replay(own->book, PJ_BOOK_ROOM(n), 2, shift, PJ_RECORD * n, reached) != (n == 2 ? 28ULL << 32 | 1 : 0) ||
            reached[0] != (n == 2 ? 1 : n) || reached[1] != 3)
            own->right = 0;
    }
    return 0;
}

static int threads(void) {
    static struct asker askers[6];
    unsigned long thread[6];
    int right = 1;
    for (int i = 0; i < 6; i++) {
        askers[i].n = 2 + i % 4;
        if (pthread_create(&thread[i], 0, ask, &askers[i]) != 0) return 0;
    }
    for (int i = 0; i < 6; i++) right &= pthread_join(thread[i], 0) == 0 && askers[i].right;
    return right;
}

int main(void) {
    pj_u8 table[PJ_TABLE];
    for (int i = 0; i <= PJ_FORMULA_MOST; i++) text[i] = i % 2 == 0 ? 'g' : '&';
    test("PJ_FORMULA_MOST, and a byte more", pj_formula_read(PJ_SETTINGS_MOST, text, PJ_FORMULA_MOST, table) == 0 &&
             pj_number(pj_formula_read(7, text, PJ_FORMULA_MOST + 1, table)) == PJ_REFUSED_FORMULA_LENGTH);
    test("PJ_SETTINGS_MOST, and one more",
         pj_number(pj_formula_read(PJ_SETTINGS_MOST + 1, text, 1, table)) == PJ_REFUSED_SETTINGS);
    test("PJ_POSTS_MOST, and one more",
         pj_book_write(7, PJ_POSTS_MOST, rights, sizeof rights, book, sizeof book) == 0 &&
             pj_number(pj_book_write(7, PJ_POSTS_MOST + 1, rights, sizeof rights, book, sizeof book)) == PJ_REFUSED_HEAD);
    int each = 1, made = 1, asked = 1;
    for (int n = 1; n <= 6; n++) each &= rooms_of(n);
    test("PJ_RIGHTS_ROOM, PJ_BOOK_ROOM, PJ_RANKS_ROOM and the plan's length for 1 to 6 settings, and a byte less", each);
    test("the same for 7", rooms_of(7));
    test("which have the most: PJ_RIGHTS_MOST, PJ_BOOK_MOST, PJ_RANKS_MOST, PJ_PLAN_MOST",
         PJ_RIGHTS_ROOM(7) == PJ_RIGHTS_MOST && PJ_BOOK_ROOM(7) == PJ_BOOK_MOST && PJ_RANKS_ROOM(7) == PJ_RANKS_MOST &&
             PJ_PLAN_ROOM(7) == PJ_PLAN_MOST);
    int two = 1;
    for (int n = 1; n <= 6; n++) two &= two_rooms(n);
    test("pj_find_two, PJ_RANKS_ROOM twice and the plan's length for 1 to 6 settings, and a byte less; the rest is left", two);
    test("the same for 7, with a height of 254", two_rooms(7));
    for (int n = 1; n <= 7; n++) made &= rules_room(n);
    test("pj_rules, PJ_BOOK_ROOM for 1 to 7 settings, and a byte less; the rest is left", made);
    for (int n = 1; n <= 6; n++) asked &= ask_rooms(n);
    test("pj_ask, PJ_RANKS_ROOM and the answer's length for 1 to 6 settings, and a byte less; the rest is left", asked);
    test("the same for 7, with a height of 254", ask_rooms(7) && same_text(all, "reach 254\n"));
    test("PJ_ASK_MOST is room for `reach 254` and 32,640 lines like `254 set g 8 1`",
         PJ_ASK_MOST == length_of("reach 254\n") + PJ_PLAN_MOST * length_of("254 set g 8 1\n"));
    test("PJ_TEXT_MOST of rules and of a question, and a byte more", text_most());

    rooms_of(1);
    fill(make, 1, 3); // `1` over one setting
    fill(plan, sizeof plan, PJ_ACT(PJ_SET_TRUE, 0, 0));
    test("PJ_PLAN_MOST, and a byte more", pj_number(checked(0, PJ_PLAN_MOST)) == PJ_REFUSED_NOT_PERMITTED &&
             pj_number(checked(0, PJ_PLAN_MOST + 1)) == PJ_REFUSED_PLAN_LENGTH);
    plan[0] = 0;
    test("PJ_LEARN_MOST, and one more", checked(PJ_LEARN_MOST * PJ_TABLE, 1) == 0 &&
             pj_number(checked((PJ_LEARN_MOST + 1) * PJ_TABLE, 1)) == PJ_REFUSED_GOAL);
    fill(text, sizeof text, 'a');
    test("PJ_SHEET_MOST, and a byte more",
         pj_sheet(text, PJ_SHEET_MOST, out, sizeof out) == 13 && same_text(out, "refused 22 1\n") &&
             pj_sheet(text, PJ_SHEET_MOST + 1, out, sizeof out) == 13 && same_text(out, "refused 24 0\n"));
    fill(out, sizeof out, '.');
    test("a room too short for an answer has its beginning",
         pj_sheet(text, PJ_SHEET_MOST, out, 9) == 13 && same_text(out, "refused 2...."));

    test("a shift of a million records, and a byte more or less", shift_of_a_million());
    rooms_of(1);
    test("null with length 0, for each slice", null_for_empty());
    test("any address will do", any_address());
    test("six threads at once", threads());
    return closing();
}
