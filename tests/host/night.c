// A host in C, by include/parjolenc.h alone: paper 01's example P6 from its rules to its plan, the plan read and
// checked, a question refused, and the sheet of the same example. Looks that the sheet does not state are open, so the
// rules have them open too. Each step is a test; the last line counts them.
#include "tell.h"

static pj_u8 rights[PJ_RIGHTS_ROOM(3)], back[PJ_RIGHTS_ROOM(3)], book[PJ_BOOK_ROOM(3)];
static pj_u8 ranks[PJ_RANKS_ROOM(3)], plan[PJ_PLAN_ROOM(3)], out[PJ_ANSWER_MOST];

int main(void) {
    static const char sheet[] =
        "size 3 2\nwrite a 2 ~c\nwrite b 1 a\nread c 2 1\nwrite c 2 c\nteam 1 2\nknown\nmake b\n";
    pj_u8 make[PJ_TABLE];
    test("the rules and the goal of P6 are formulas", p6_rights(rights) == 0 && formula(3, "b", make) == 0);

    test("the book is written", pj_book_write(3, 2, rights, sizeof rights, book, sizeof book) == 0);
    pj_u64 read = pj_book_read(book, sizeof book, back, sizeof back);
    test("and read back", pj_number(read) == 0 && pj_settings(read) == 3 && pj_posts(read) == 2 &&
                              same(back, rights, sizeof rights));

    pj_u64 found = pj_find(book, sizeof book, 3, 0, 0, 0, make, sizeof make, 0, 0, ranks, sizeof ranks, plan,
                           sizeof plan);
    test("both posts reach it in 4 steps", pj_number(found) == 0 && pj_height(found) == 4 && pj_length(found) == 8);
    static const pj_u8 steps[8] = {129, 58, 65, 0, 18, 58, 65, 0};
    test("by the plan of request R-2", same(plan, steps, 8));
    test("whose first act is: post 1 looks at c", pj_kind(plan[0]) == PJ_LOOK && pj_setting(plan[0]) == 2 &&
                                                      pj_post(plan[0]) == 0);
    test("which the check accepts",
         pj_plan_check(book, sizeof book, 3, 0, 0, 0, make, sizeof make, 0, 0, plan, pj_length(found)) == 0);
    test("post 1 alone cannot",
         pj_find(book, sizeof book, 1, 0, 0, 0, make, sizeof make, 0, 0, ranks, sizeof ranks, plan, sizeof plan) == 0);
    pj_u64 none = pj_find(book, sizeof book, 0, 0, 0, 0, make, sizeof make, 0, 0, ranks, sizeof ranks, plan,
                          sizeof plan);
    test("a team of nobody is refused", pj_number(none) == PJ_REFUSED_TEAM && pj_place(none) == 0);

    pj_u64 printed = pj_sheet((const pj_u8 *)sheet, sizeof sheet - 1, out, sizeof out);
    test("the sheet's answer begins with the same height and act",
         printed <= sizeof out && same_text(out, "reach 4\n0 look c 1\n"));
    return closing();
}
