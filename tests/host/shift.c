// A host in C that runs a recorded shift, by include/parjolenc.h alone: the night of the eight hundred cards, act by
// act, on the station's true settings. Every rule of books/night.rules allowed it; with the mended rule its fourth act
// is not allowed. Then what each refusal leaves of the two words. Each step is a test; the last line counts them.
#include "tell.h"

static const char rules[] =
    "size 4 3\n"
    "read a 1 0\n"
    "read a 2 1\n"
    "write a 2 a\n"
    "write b 2 ~a\n"
    "read c 1 1\n"
    "write c 3 1\n"
    "write d 1 b|c\n";

enum { A = 0, B = 1, C = 2, D = 3, SETTER = 0, OPERATOR = 1, SIGNER = 2 };
enum { A_ON = 1, B_ON = 2, C_ON = 4, D_ON = 8 };

// The night operator sees that a lot is open, closes it and switches service mode on; the setter lets the log drop.
static const pj_u8 night[4 * PJ_RECORD] = {PJ_ACT(PJ_LOOK, A, OPERATOR),      1, PJ_ACT(PJ_SET_FALSE, A, OPERATOR), 0,
                                           PJ_ACT(PJ_SET_TRUE, B, OPERATOR), 0, PJ_ACT(PJ_SET_TRUE, D, SETTER),     0};

static const pj_u64 before = 0xaaaaaaaaaaaaaaaa;
static pj_u8 book[PJ_BOOK_MOST], mended[PJ_BOOK_MOST], text[sizeof rules - 1];
static pj_u64 length, words[4], *const reached = words + 1;

static pj_u64 run(const pj_u8 *of, pj_u64 start, const pj_u8 *shift, pj_u64 shift_length) {
    for (int i = 0; i < 4; i++) words[i] = before;
    return pj_replay(of, length, start, shift, shift_length, reached);
}

// The words on both sides of the two that are lent are as they were.
static int beside(void) { return words[0] == before && words[3] == before; }

// A shift without a fault: so many acts, and the valuation that they leave.
static int whole(const pj_u8 *of, pj_u64 start, const pj_u8 *shift, pj_u64 acts, pj_u64 left) {
    return run(of, start, shift, acts * PJ_RECORD) == 0 && reached[0] == acts && reached[1] == left && beside();
}

// A shift of so many acts with a fault in the record with this index, and the valuation there.
static int fault(const pj_u8 *of, pj_u64 start, const pj_u8 *shift, pj_u64 acts, pj_u64 number, pj_u64 index,
                 pj_u64 left) {
    pj_u64 result = run(of, start, shift, acts * PJ_RECORD);
    return pj_number(result) == number && pj_place(result) == index && pj_second(result) == 0 && reached[0] == index &&
           reached[1] == left && beside();
}

// A shift that is not played: the two words are as they were.
static int refused(const pj_u8 *of, pj_u64 start, const pj_u8 *shift, pj_u64 shift_length, pj_u64 number,
                   pj_u64 place) {
    pj_u64 result = run(of, start, shift, shift_length);
    return pj_number(result) == number && pj_place(result) == place && pj_second(result) == 0 && reached[0] == before &&
           reached[1] == before && beside();
}

// One record by itself, whose fault has this number.
static int record(pj_u64 start, pj_u8 byte, pj_u8 seen, pj_u64 number) {
    const pj_u8 shift[PJ_RECORD] = {byte, seen};
    return fault(book, start, shift, 1, number, 0, start);
}

int main(void) {
    for (unsigned i = 0; i < sizeof text; i++) text[i] = rules[i] == '|' ? '&' : (pj_u8)rules[i];
    length = pj_rules((const pj_u8 *)rules, sizeof rules - 1, book, sizeof book);
    test("the night's rules make a book, and so do the mended ones",
         length == PJ_BOOK_ROOM(4) && pj_rules(text, sizeof text, mended, sizeof mended) == length);

    test("all four acts of the night were allowed", whole(book, A_ON, night, 4, B_ON | D_ON));
    static const pj_u64 ways[5] = {A_ON, A_ON, 0, B_ON, B_ON | D_ON};
    for (pj_u64 acts = 0; acts < 4; acts++)
        test("and its first acts alone, with what they leave", whole(book, A_ON, night, acts, ways[acts]));
    test("with the mended rule the fourth is not allowed",
         fault(mended, A_ON, night, 4, PJ_REFUSED_NOT_ALLOWED, 3, B_ON));
    test("but with the key in it is", whole(mended, A_ON | C_ON, night, 4, B_ON | C_ON | D_ON));
    test("had no lot been open, the look would disagree", fault(book, 0, night, 4, PJ_REFUSED_DISAGREES, 0, 0));

    static const pj_u8 hasty[2 * PJ_RECORD] = {PJ_ACT(PJ_SET_TRUE, B, OPERATOR), 0, PJ_ACT(PJ_SET_TRUE, D, SETTER), 0};
    test("without a look it was luck: allowed where no lot was open", whole(book, 0, hasty, 2, B_ON | D_ON));
    test("and not where one was", fault(book, A_ON, hasty, 2, PJ_REFUSED_NOT_ALLOWED, 0, A_ON));

    static const pj_u8 again[4 * PJ_RECORD] = {PJ_ACT(PJ_LOOK, A, OPERATOR), 1, PJ_ACT(PJ_SET_FALSE, A, OPERATOR), 0,
                                               PJ_ACT(PJ_LOOK, A, OPERATOR), 0, PJ_ACT(PJ_SET_TRUE, A, OPERATOR),  0};
    test("a lot that was closed is seen closed", whole(book, A_ON, again, 3, 0));
    test("and is not opened again: the rule is about the present",
         fault(book, A_ON, again, 4, PJ_REFUSED_NOT_ALLOWED, 3, 0));
    static const pj_u8 key[3 * PJ_RECORD] = {PJ_ACT(PJ_SET_TRUE, C, SIGNER), 0, PJ_ACT(PJ_LOOK, C, SETTER), 1,
                                             PJ_ACT(PJ_SET_TRUE, D, SETTER), 0};
    test("any post of the book may act: the signer puts the key in", whole(book, A_ON, key, 3, A_ON | C_ON | D_ON));

    test("27: byte 0 is no act", record(A_ON, 0, 0, PJ_REFUSED_NO_RECORD));
    test("27: nor is a byte above 168", record(A_ON, 169, 0, PJ_REFUSED_NO_RECORD));
    test("27: there is no fifth setting", record(A_ON, PJ_ACT(PJ_LOOK, 4, OPERATOR), 0, PJ_REFUSED_NO_RECORD));
    test("27: nor a fourth post", record(A_ON, PJ_ACT(PJ_LOOK, A, 3), 1, PJ_REFUSED_NO_RECORD));
    test("27: a look sees 0 or 1", record(A_ON, PJ_ACT(PJ_LOOK, A, OPERATOR), 2, PJ_REFUSED_NO_RECORD));
    test("27: a set sees nothing", record(A_ON, PJ_ACT(PJ_SET_FALSE, A, OPERATOR), 1, PJ_REFUSED_NO_RECORD));
    test("27 before 28", record(0, PJ_ACT(PJ_SET_FALSE, A, OPERATOR), 1, PJ_REFUSED_NO_RECORD));
    test("28: the setter may not look whether a lot is open",
         record(A_ON, PJ_ACT(PJ_LOOK, A, SETTER), 1, PJ_REFUSED_NOT_ALLOWED));
    test("28 before 29", record(A_ON, PJ_ACT(PJ_LOOK, A, SETTER), 0, PJ_REFUSED_NOT_ALLOWED));
    test("29: an open lot was not seen closed", record(A_ON, PJ_ACT(PJ_LOOK, A, OPERATOR), 0, PJ_REFUSED_DISAGREES));

    test("26: seven bytes are no records", refused(book, A_ON, night, sizeof night - 1, PJ_REFUSED_SHIFT, 0));
    test("26: 16 is no valuation of four settings", refused(book, 16, night, sizeof night, PJ_REFUSED_SHIFT, 0));
    test("26: nor is 2^32 + 1", refused(book, (1ULL << 32) + 1, night, sizeof night, PJ_REFUSED_SHIFT, 0));
    static const pj_u8 nothing[PJ_RECORD] = {0, 0};
    test("26 before 27", refused(book, 16, nothing, sizeof nothing, PJ_REFUSED_SHIFT, 0));
    test("no acts at all leave the start", whole(book, 15, night, 0, 15));
    book[PJ_RULE(D, SETTER, 1)] ^= 1;
    test("7 of a damaged book", refused(book, A_ON, night, sizeof night, PJ_REFUSED_CHECK, 4));
    test("7 before 26", refused(book, 16, night, sizeof night - 1, PJ_REFUSED_CHECK, 4));
    length -= 1;
    test("6 of a book of a byte too few, before 26", refused(book, 16, night, 1, PJ_REFUSED_BOOK_LENGTH, 0));
    return closing();
}
