// A host in C that takes text, by include/parjolenc.h alone: the night's rules (books/night.rules) are made a book, the
// questions of books/night are put to it, and the plan that is printed is the one that pj_find writes. Each step is a
// test; the last line counts them.
#include "tell.h"

static const char rules[] =
    "# The night of the eight hundred cards: a small model of the station's rules.\n"
    "# Settings: a a lot is open, b service mode is on, c the signer's key is in, d the log may drop when full.\n"
    "# Posts: 1 the setter, 2 the night operator, 3 the signer.\n"
    "size 4 3\n"
    "\n"
    "# lots\n"
    "read a 1 0\n"
    "read a 2 1\n"
    "write a 2 a\n"
    "\n"
    "# service mode\n"
    "write b 2 ~a\n"
    "\n"
    "# the signer's key\n"
    "read c 1 1\n"
    "write c 3 1\n"
    "\n"
    "# the log\n"
    "write d 1 b|c\n";
static const char question[] =
    "# Can the setter and the night operator let the log drop, with the key out?\n"
    "team 1 2\n"
    "known ~c ~d\n"
    "make d\n";
static const char change[] = "team 2\nknown ~c ~d\nmake ~a\nthen\nteam 1\nmake d\n";
static const char handed[] = "reach 3\n0 look a 2\n1 set b 2 1\n2 stop\n1 set a 2 0\n2 set b 2 1\n3 stop\n";
static const char answer[] =
    "reach 4\n0 look a 2\n1 set b 2 1\n2 set d 1 1\n3 stop\n1 set a 2 0\n2 set b 2 1\n3 set d 1 1\n4 stop\n";

static pj_u8 book[PJ_BOOK_MOST], written[PJ_BOOK_ROOM(4)], rights[PJ_RIGHTS_ROOM(4)];
static pj_u8 ranks[PJ_RANKS_MOST], others[PJ_RANKS_ROOM(4)], seconds[PJ_RANKS_ROOM(4)], plan[PJ_PLAN_ROOM(4)], out[PJ_ASK_MOST];
static pj_u64 length;

// The same rules by their formulas, and not by their text. 0 where all are formulas.
static pj_u64 night_rights(void) {
    return unstated_rights(4, 3, rights) | formula(4, "0", rights + PJ_RIGHT(0, 0, 0)) |
           formula(4, "1", rights + PJ_RIGHT(0, 1, 0)) | formula(4, "a", rights + PJ_RIGHT(0, 1, 1)) |
           formula(4, "~a", rights + PJ_RIGHT(1, 1, 1)) | formula(4, "1", rights + PJ_RIGHT(2, 0, 0)) |
           formula(4, "1", rights + PJ_RIGHT(2, 2, 1)) | formula(4, "b|c", rights + PJ_RIGHT(3, 0, 1));
}

// Whether all that is printed for the question is this text; for `reach H` alone, whether it begins so.
static int prints(const char *text, const char *expected, int all) {
    pj_u64 size = pj_ask(book, length, (const pj_u8 *)text, length_of(text), ranks, sizeof ranks, out, sizeof out);
    return same_text(out, expected) && (all ? size == length_of(expected) : size > length_of(expected));
}

// A rank table under 7^n bytes, or under twice that, for a question of two legs: the place is the first leg that has no
// room, and every byte stays as it was.
static int short_table(pj_u64 size, const char *expected) {
    for (pj_u64 i = 0; i < sizeof ranks; i++) ranks[i] = 99;
    pj_u64 printed = pj_ask(book, length, (const pj_u8 *)change, sizeof change - 1, ranks, size, out, sizeof out);
    for (pj_u64 i = 0; i < sizeof ranks; i++)
        if (ranks[i] != 99) return 0;
    return printed == length_of(expected) && same_text(out, expected);
}

// Whether the first leg's ranks stand in `ranks` and the second's behind them, as pj_find_two leaves them, and no byte
// more is written.
static int both_tables(void) {
    enum { ROOM = PJ_RANKS_ROOM(4) };
    pj_u8 make[PJ_TABLE], make2[PJ_TABLE];
    formula(4, "~a", make);
    formula(4, "d", make2);
    for (pj_u64 i = 0; i < sizeof ranks; i++) ranks[i] = 99;
    pj_ask(book, length, (const pj_u8 *)change, sizeof change - 1, ranks, 2 * ROOM, out, sizeof out);
    pj_u64 found = pj_find_two(book, length, 2, 12, 0, 0, make, sizeof make, 0, 0, 1, make2, sizeof make2, 0, 0, others,
                               ROOM, seconds, ROOM, plan, sizeof plan);
    return pj_height(found) == 3 && same(ranks, others, ROOM) && same(ranks + ROOM, seconds, ROOM) && ranks[2 * ROOM] == 99;
}

// Whether the lines that stand in `out` are those of this plan's bytes, by the header's words for them.
static int lines_are(const pj_u8 *bytes, pj_u64 size) {
    pj_u64 at = length_of("reach 4\n");
    for (pj_u64 i = 0; i < size; i++) {
        int kind = pj_kind(bytes[i]);
        const char *word = kind == PJ_STOP ? "stop" : kind == PJ_LOOK ? "look" : "set";
        at += 2; // a depth of one digit and the space after it
        if (!same_text(out + at, word)) return 0;
        at += length_of(word);
        if (kind != PJ_STOP) {
            char names[5] = {' ', (char)('a' + pj_setting(bytes[i])), ' ', (char)('1' + pj_post(bytes[i])), 0};
            if (!same_text(out + at, names)) return 0;
            at += 4;
        }
        if (kind == PJ_SET_FALSE || kind == PJ_SET_TRUE) {
            if (!same_text(out + at, kind == PJ_SET_TRUE ? " 1" : " 0")) return 0;
            at += 2;
        }
        if (out[at++] != '\n') return 0;
    }
    return at == length_of(answer);
}

int main(void) {
    length = pj_rules((const pj_u8 *)rules, sizeof rules - 1, book, sizeof book);
    test("the night's rules make a book of 4 settings", pj_number(length) == 0 && length == PJ_BOOK_ROOM(4));
    test("which is the one that pj_book_write makes of the same rights",
         night_rights() == 0 && pj_book_write(4, 3, rights, sizeof rights, written, sizeof written) == 0 &&
             same(book, written, sizeof written));

    test("the setter and the night operator reach it in 4 steps", prints(question, answer, 1));
    pj_u8 make[PJ_TABLE];
    formula(4, "d", make);
    pj_u64 found = pj_find(book, length, 3, 12, 0, 0, make, sizeof make, 0, 0, others, sizeof others, plan, sizeof plan);
    test("which pj_find says too", pj_height(found) == 4);
    test("the ranks are those that it leaves", same(ranks, others, sizeof others));
    test("the lines are those of its plan's bytes", lines_are(plan, pj_length(found)));

    test("the setter alone cannot", prints("# The setter alone.\nteam 1\nknown ~c ~d\nmake d\n", "cannot\n", 1));
    test("the night operator alone cannot", prints("team 2\nknown ~c ~d\nmake d\n", "cannot\n", 1));
    test("the setter cannot find out whether a lot is open",
         prints("team 1\nknown ~c ~d\nmake 1\nask a\n", "cannot\n", 1));
    test("the setter and the signer reach it in 3 steps, with the key out again",
         prints("team 1 3\nknown ~c ~d\nmake d&~c\n", "reach 3\n", 0));
    test("a question with a `size` line is refused with its line",
         prints("# no rules here\nsize 4 3\nteam 1 2\nknown\nmake d\n", "refused 22 2\n", 1));
    test("the night operator hands over to the setter in 3 steps", prints(change, handed, 1));
    test("the ranks of both legs stand one behind the other", both_tables());
    test("13 1: no room for the first leg's ranks", short_table(PJ_RANKS_ROOM(4) - 1, "refused 13 1\n"));
    test("13 2: no room for the second leg's", short_table(2 * PJ_RANKS_ROOM(4) - 1, "refused 13 2\n"));
    test("known behind `then` is refused with its line",
         prints("team 2\nknown ~c ~d\nmake ~a\nthen\nteam 1\nknown a\nmake d\n", "refused 22 6\n", 1));
    return closing();
}
