// How much stack a call takes that is the first of the library in its process, against PJ_STACK of the header: not more. A
// dynamic linker that binds memcpy and memset where they are first called does so within that call, on the same stack. So
// each call is made by a child process of its own, in which nothing is bound; another child makes the book and the plan.
// Linked without a dynamic linker, or with everything bound at the start, a first call is like any other.
#include "painted.h"

#ifdef __cplusplus
extern "C" {
#endif
int fork(void);
int pipe(int *ends);
long read(int file, void *bytes, unsigned long size);
int waitpid(int child, int *status, int options);
void _exit(int status);
#ifdef __cplusplus
}
#endif

static int sent(int file, const pj_u8 *bytes, pj_u64 length) {
    while (length > 0) {
        long done = write(file, bytes, length);
        if (done <= 0) return 0;
        bytes += done, length -= (pj_u64)done;
    }
    return 1;
}

static int got(int file, pj_u8 *bytes, pj_u64 length) {
    while (length > 0) {
        long done = read(file, bytes, length);
        if (done <= 0) return 0;
        bytes += done, length -= (pj_u64)done;
    }
    return 1;
}

// Whether the child came to its end with status 0.
static int went_well(int child) {
    int status = 1;
    return child > 0 && waitpid(child, &status, 0) == child && status == 0;
}

// The book of greatest rank and its plan, made by a child; this process takes the bytes alone.
static int made(void) {
    int ends[2];
    pj_u8 size[2];
    climb_rights(7, rights, make);
    if (pipe(ends) != 0) return 0;
    int child = fork();
    if (child == 0) {
        book_write();
        find();
        size[0] = (pj_u8)(pj_length(result) % 256), size[1] = (pj_u8)(pj_length(result) / 256);
        _exit(!(sent(ends[1], book, sizeof book) && sent(ends[1], size, 2) && sent(ends[1], plan, pj_length(result))));
    }
    if (!got(ends[0], book, sizeof book) || !got(ends[0], size, 2)) return 0;
    plan_length = size[0] + 256u * size[1];
    return plan_length <= sizeof plan && got(ends[0], plan, plan_length) && went_well(child);
}

static void within(const char *name, void (*f)(void), pj_u64 bound) {
    int well = 1;
    for (int turn = 0; turn < 2; turn++) {
        int child = fork();
        if (child == 0) {
            failed = 0; // what failed before is the parent's to tell
            pj_u64 bytes = painted(f, turn == 0 ? 0xa5 : 0x5a);
            say_number(bytes);
            say(" bytes of stack, the first call: ");
            say(name);
            say("\n");
            _exit(failed != 0 || bytes > bound);
        }
        well = went_well(child) && well;
    }
    test(name, well);
}

int main(void) {
    test("a book and its plan", made());
    within("pj_book_write, seven settings", book_write, PJ_STACK_BOOK_WRITE);
    within("pj_book_read, seven settings", book_read, PJ_STACK_BOOK_READ);
    within("pj_find, a plan of height 254", find, PJ_STACK_FIND);
    within("pj_find_two, a plan of height 254", find_two, PJ_STACK_FIND_TWO);
    within("pj_find_plain, a plan of height 254", find_plain, PJ_STACK_FIND_PLAIN);
    within("pj_plan_check, the same plan", plan_check, PJ_STACK_PLAN_CHECK);
    fill(text, sizeof text, '(');
    within("pj_formula_read, 255 brackets", formula_read, PJ_STACK_FORMULA_READ);
    lines_of("size 5 8\nread a 1 ", '(', 255);
    within("pj_sheet, a look rule of 255 brackets", sheet_answer, PJ_STACK_SHEET);
    lines_of("size 5 1\nread a 1 1\nwrite a 1 1\nteam 1\nknown\nmake ", 'a', 1);
    within("pj_sheet, a sheet that is answered", sheet_answer, PJ_STACK_SHEET);
    lines_of("size 7 8\nread a 1 ", '(', 255);
    within("pj_rules, a look rule of 255 brackets", rules_made, PJ_STACK_RULES);
    lines_of("size 7 8\nread a 1 1\nwrite g 8 ", 'a', 1);
    within("pj_rules, rules that make a book", rules_made, PJ_STACK_RULES);
    lines_of("team 1\nknown\nmake a&b&c&d&e&f&", 'g', 1);
    within("pj_ask, a plan of height 254", asked, PJ_STACK_ASK);
    lines_of("team 1\nknown\nmake a&b&c&d&e&f&g\nthen\nteam 1\nmake a&b&c&d&e&f&", 'g', 1);
    within("pj_ask, two legs, the first of height 254", asked, PJ_STACK_ASK);
    lines_of("team 1\nknown\nmake ", '(', 255);
    within("pj_ask, a make formula of 255 brackets", asked, PJ_STACK_ASK);
    lines_length = PJ_RECORD * 1000;
    for (pj_u64 i = 0; i < lines_length; i += PJ_RECORD) lines[i] = PJ_ACT(PJ_SET_TRUE, 0, 0), lines[i + 1] = 0;
    start = 127;
    within("pj_replay, a shift of 1,000 records", replayed, PJ_STACK_REPLAY);
    for (int i = 1; i <= 7; i++) book[i * PJ_BLOCK] ^= 1;
    within("pj_book_salvage, seven damaged blocks", book_salvage, PJ_STACK_BOOK_SALVAGE);
    return closing();
}
