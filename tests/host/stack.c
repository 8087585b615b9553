// How much stack each function takes where it goes deepest, against PJ_STACK of the header: not more, and less than a
// page of 4,096 bytes below it. A stack is painted, the function is called on it, and the lowest byte that changed is
// found; twice, with two paints, since a byte may be written with the paint itself. first.c has what a first call takes more.
#include "painted.h"

static pj_u64 taken(void (*f)(void)) {
    pj_u64 one = painted(f, 0xa5), other = painted(f, 0x5a);
    return one > other ? one : other;
}

static pj_u64 told(const char *name, void (*f)(void)) {
    pj_u64 bytes = taken(f);
    say_number(bytes);
    say(" bytes of stack: ");
    say(name);
    say("\n");
    return bytes;
}

static void holds(const char *name, void (*f)(void), pj_u64 bound) {
    pj_u64 bytes = told(name, f);
    test(name, bytes <= bound && bound < bytes + 4096);
}

static void below(const char *name, void (*f)(void), pj_u64 bound) { test(name, told(name, f) <= bound); }

int main(void) {
    climb_rights(7, rights, make);
    holds("pj_book_write, seven settings", book_write, PJ_STACK_BOOK_WRITE);
    holds("pj_book_read, seven settings", book_read, PJ_STACK_BOOK_READ);
    below("pj_book_salvage, seven settings", book_salvage, PJ_STACK_BOOK_SALVAGE);
    test("which are sound", result == 0);
    for (int i = 1; i <= 7; i++) book[i * PJ_BLOCK] ^= 1;
    holds("pj_book_salvage, seven damaged blocks", book_salvage, PJ_STACK_BOOK_SALVAGE);
    test("which are closed", result == 7 * 256 + 127);
    book_write();
    holds("pj_find, a plan of height 254", find, PJ_STACK_FIND);
    test("which was found", pj_height(result) == 254);
    plan_length = pj_length(result);
    holds("pj_find_two, a plan of height 254", find_two, PJ_STACK_FIND_TWO);
    test("which was found", pj_height(result) == 254 && pj_length(result) == plan_length);
    holds("pj_find_plain, a plan of height 254", find_plain, PJ_STACK_FIND_PLAIN);
    test("which was found", result == 254 + 1);
    holds("pj_plan_check, the same plan", plan_check, PJ_STACK_PLAN_CHECK);
    test("which is accepted", result == 0);

    fill(text, sizeof text, '(');
    holds("pj_formula_read, 255 brackets", formula_read, PJ_STACK_FORMULA_READ);
    fill(text, sizeof text, '~');
    below("pj_formula_read, 255 times ~", formula_read, PJ_STACK_FORMULA_READ);
    for (unsigned i = 0; i < sizeof text; i++) text[i] = i % 2 == 0 ? 'a' : '&';
    below("pj_formula_read, a product of 128 letters", formula_read, PJ_STACK_FORMULA_READ);
    for (unsigned i = 0; i < sizeof text; i++) text[i] = (pj_u8) "~("[i % 2];
    below("pj_formula_read, ~ and a bracket in turns", formula_read, PJ_STACK_FORMULA_READ);
    for (unsigned i = 0; i < sizeof text; i++) text[i] = (pj_u8) "a|("[i % 3];
    below("pj_formula_read, sums in brackets", formula_read, PJ_STACK_FORMULA_READ);

    lines_of("size 5 8\nread a 1 1\nwrite e 8 ", '(', 255);
    below("pj_sheet, a set rule of 255 brackets", sheet_answer, PJ_STACK_SHEET);
    test("which is refused", result == 12 && same_text(out, "refused 4 3\n"));
    lines_of("size 5 8\nread a 1 ", '(', 255);
    holds("pj_sheet, a look rule of 255 brackets", sheet_answer, PJ_STACK_SHEET);
    test("which is refused", result == 12 && same_text(out, "refused 4 2\n"));
    lines_of("size 5 8\nteam 1\nknown\nmake ", '(', 255);
    below("pj_sheet, a make formula of 255 brackets", sheet_answer, PJ_STACK_SHEET);
    test("which is refused", result == 12 && same_text(out, "refused 4 4\n"));

    lines_of("size 7 8\nread a 1 1\nwrite g 8 ", '(', 255);
    below("pj_rules, a set rule of 255 brackets", rules_made, PJ_STACK_RULES);
    test("which is refused", pj_number(result) == PJ_REFUSED_NOT_SENTENCE && pj_place(result) == 3);
    lines_of("size 7 8\nread a 1 ", '(', 255);
    holds("pj_rules, a look rule of 255 brackets", rules_made, PJ_STACK_RULES);
    test("which is refused", pj_number(result) == PJ_REFUSED_NOT_SENTENCE && pj_place(result) == 2);
    lines_of("size 7 8\nread a 1 1\nwrite g 8 ", 'a', 1);
    below("pj_rules, rules that make a book", rules_made, PJ_STACK_RULES);
    test("of seven settings", result == PJ_BOOK_ROOM(7));

    fill(rights, sizeof rights, 255);
    result = pj_book_write(7, 8, rights, sizeof rights, book, sizeof book);
    lines_length = PJ_RECORD * 1000;
    for (pj_u64 i = 0; i < lines_length; i += PJ_RECORD) {
        lines[i] = (pj_u8)PJ_ACT(i % 3 == 0 ? PJ_LOOK : PJ_SET_TRUE, (int)(i % 7), (int)(i % 8));
        lines[i + 1] = i % 3 == 0;
    }
    start = 127;
    holds("pj_replay, a shift of 1,000 records", replayed, PJ_STACK_REPLAY);
    test("without a fault", result == 0 && reached[0] == 1000 && reached[1] == 127);
    lines[1998] = PJ_ACT(PJ_LOOK, 0, 0), lines[1999] = 0;
    below("pj_replay, the last look disagrees", replayed, PJ_STACK_REPLAY);
    test("which is refused", pj_number(result) == PJ_REFUSED_DISAGREES && reached[0] == 999);
    lines[0] = 169;
    below("pj_replay, the first record is none", replayed, PJ_STACK_REPLAY);
    test("which is refused", pj_number(result) == PJ_REFUSED_NO_RECORD && reached[0] == 0);
    book[PJ_BOOK_MOST - 1] ^= 1;
    below("pj_replay, the book is damaged", replayed, PJ_STACK_REPLAY);
    test("which is refused", pj_number(result) == PJ_REFUSED_CHECK && pj_place(result) == 7);

    climb_rights(7, rights, make);
    book_write();
    lines_of("team 1\nknown\nmake a&b&c&d&e&f&", 'g', 1);
    below("pj_ask, a plan of height 254", asked, PJ_STACK_ASK);
    test("which was found", same_text(out, "reach 254\n"));
    lines_of("team 1\nknown\nmake ", '(', 255);
    below("pj_ask, a make formula of 255 brackets", asked, PJ_STACK_ASK);
    test("which is refused", result == 12 && same_text(out, "refused 4 3\n"));
    lines_of("team 1\nknown\nmake 1\nask 1\nask ", '(', 255);
    below("pj_ask, a learn formula of 255 brackets", asked, PJ_STACK_ASK);
    test("which is refused", result == 12 && same_text(out, "refused 4 5\n"));
    lines_of("team 1\nknown\nmake a&b&c&d&e&f&g\nthen\nteam 1\nmake a&b&c&d&e&f&", 'g', 1);
    holds("pj_ask, two legs, the first of height 254", asked, PJ_STACK_ASK);
    test("which was found", same_text(out, "reach 254\n"));
    return closing();
}
