// What stack.c and first.c share: a stack of their own that is painted, each function called on it with what it needs, and the
// lines of a text. No byte below the lowest that changed was taken.
#include "tell.h"

static pj_u8 stack[1 << 20] __attribute__((aligned(64)));
static pj_u8 rights[PJ_RIGHTS_MOST], book[PJ_BOOK_MOST], ranks[PJ_RANKS_MOST], plan[PJ_PLAN_MOST], make[PJ_TABLE];
static pj_u8 ranks2[PJ_RANKS_MOST], both[2 * PJ_RANKS_MOST], text[PJ_FORMULA_MOST], lines[PJ_TEXT_MOST], out[PJ_ASK_MOST];
static pj_u64 result, plan_length, lines_length, start, reached[2];

// Calls f on the other stack. The called function keeps rbx, which holds the old stack's end.
static void on_stack(void (*f)(void)) {
    __asm__ volatile("movq %%rsp, %%rbx\n\tmovq %0, %%rsp\n\tcall *%1\n\tmovq %%rbx, %%rsp"
                     :
                     : "r"(stack + sizeof stack), "r"(f)
                     : "rbx", "rax", "rcx", "rdx", "rsi", "rdi", "r8", "r9", "r10", "r11", "memory", "cc", "xmm0", "xmm1",
                       "xmm2", "xmm3", "xmm4", "xmm5", "xmm6", "xmm7", "xmm8", "xmm9", "xmm10", "xmm11", "xmm12",
                       "xmm13", "xmm14", "xmm15");
}

// How much of the painted stack f takes. What is counted has the call of the function in it, with its arguments.
static pj_u64 painted(void (*f)(void), pj_u8 paint) {
    fill(stack, sizeof stack, paint);
    on_stack(f);
    pj_u64 free_bytes = 0;
    while (free_bytes < sizeof stack && stack[free_bytes] == paint) free_bytes++;
    return sizeof stack - free_bytes;
}

static void formula_read(void) { result = pj_formula_read(7, text, sizeof text, make); }
static void book_read(void) { result = pj_book_read(book, sizeof book, rights, sizeof rights); }
static void book_write(void) { result = pj_book_write(7, 1, rights, sizeof rights, book, sizeof book); }
static void book_salvage(void) { result = pj_book_salvage(book, sizeof book, out, sizeof book); }
static void find(void) {
    result = pj_find(book, sizeof book, 1, 0, 0, 0, make, PJ_TABLE, 0, 0, ranks, sizeof ranks, plan, sizeof plan);
}
static void find_two(void) {
    result = pj_find_two(book, sizeof book, 1, 0, 0, 0, make, PJ_TABLE, 0, 0, 1, make, PJ_TABLE, 0, 0, ranks, sizeof ranks,
                         ranks2, sizeof ranks2, plan, sizeof plan);
}
static void find_plain(void) { result = pj_find_plain(book, sizeof book, 1, 0, 0, 0, make, PJ_TABLE, 0, 0); }
static void plan_check(void) {
    result = pj_plan_check(book, sizeof book, 1, 0, 0, 0, make, PJ_TABLE, 0, 0, plan, plan_length);
}
static void sheet_answer(void) { result = pj_sheet(lines, lines_length, out, sizeof out); }
static void rules_made(void) { result = pj_rules(lines, lines_length, book, sizeof book); }
static void replayed(void) { result = pj_replay(book, sizeof book, start, lines, lines_length, reached); }
static void asked(void) {
    result = pj_ask(book, sizeof book, lines, lines_length, both, sizeof both, out, sizeof out);
}

// The lines of a sheet, of rules or of a question, and so many bytes alike at the end of the last.
static void lines_of(const char *begin, char byte, pj_u64 count) {
    lines_length = length_of(begin) + count + 1;
    for (pj_u64 i = 0; i < length_of(begin); i++) lines[i] = (pj_u8)begin[i];
    fill(lines + length_of(begin), count, (pj_u8)byte);
    lines[lines_length - 1] = '\n';
}
