// The C interface of Parjolenc, version 4.0, for x86-64 Linux: what a host has to know stands in this file.
//
// `command/build exports` writes the library. A program is compiled with it by the ordinary line, in C99 or C++11:
//
//     cc -std=c99 -Wall -Iinclude program.c target/staticlib/libexports.a
//
// WORDS. A book has n settings, with indexes 0 to n - 1 and letters a to g, and m posts, with indexes 0 to m - 1 and
// digits 1 to 8. For each setting and post it has two rules: where the post may look at the setting, and where it may
// set it. A rule is a formula over the settings. A question is a book, a team of posts, what the team knows at the
// start, which settings are held, and a goal: a make formula that is to hold in the end, and learn formulas whose truth
// at the start is to be known in the end. No set may touch a held setting, though looks may. A set to the value that the
// team knows a setting has is no act. The answer is a plan with the least height, or "cannot". A question may have a
// second leg with a team and a goal of its own: the first team is to settle its goal and stop where the second, carrying
// on with everything known, can settle its own. A shift is what a recorder wrote down: acts that were done, one after the
// other, and what each look saw. It is run against a book on true settings; there such a set is an act.
//
// A table is 16 bytes: bit v mod 8 of byte v / 8, lowest first, is the formula's truth where setting i is bit i of v.
// Bits at or past 2^n are 0. `team` has bit q for the post with index q; `known` has bit i for setting i, `values` the
// same bit where it is known to be true, and `held` bit i where setting i is held; it may be known too. The learn
// tables, 0 to 4, stand one after the other. Where there is nothing to make, the make formula is `1`.
//
// Rules and questions are also taken as text: a rules text, a question text, or a sheet, which is the one followed by
// the other. Their lines are told below, under "texts".
//
// WHAT A CALLER OWES. A slice is a pointer and a length. Nothing has to be checked first: bytes and lengths of any kind
// are answered, and nothing but the lent bytes is written. What is owed is what C asks of any pointer: the bytes are
// there for the time of the call, and bytes that are lent to be written are in no other slice of the call.
//   - Alignment: none for bytes. `reached` of pj_replay is two words, aligned as any pj_u64 is.
//   - Null: a pointer whose length is 0 may be null, and is not followed. No theorem speaks of addresses: it is so
//     because the compiler is told of no pointer that it is not null, and tests/host lends null for each slice.
//     `table` of pj_formula_read and `reached` of pj_replay have no length: they are never null.
//   - Threads: the library has no variable of its own, keeps nothing between calls and calls memcpy and memset alone.
//     Any number of calls may run at once, where what one of them writes is lent to no other.
//   - Memory: none is taken but the stack, by each function at most what PJ_STACK below says.
#ifndef PARJOLENC_H
#define PARJOLENC_H

#ifdef __cplusplus
extern "C" {
#endif

// The version of this interface, and not of what is behind it. The first number grows where a program that was
// written for the header before it would not compile or would mean something else, the second where something is added.
#define PJ_VERSION_FIRST 4
#define PJ_VERSION_SECOND 0
#define PJ_VERSION (100 * PJ_VERSION_FIRST + PJ_VERSION_SECOND)
#define PJ_VERSION_TEXT "4.0"

typedef unsigned char pj_u8;
typedef unsigned long long pj_u64;

// ---- results

// A refusal has its place in bits 0 to 31, its number in bits 32 to 39, and in bits 40 to 47 one more than its second
// number, or 0 where it has none: 18 alone has one. A success is below 2^32: `pj_number` is 0 for a success, and no
// refusal has the number 0. `pj_second` gives bits 40 to 47 as they stand, so that a refusal's second number is
// `pj_second(result) - 1`; PJ_SECOND_.. name what they can be.
static inline pj_u64 pj_number(pj_u64 result) { return (result >> 32) & 0xff; }
static inline pj_u64 pj_second(pj_u64 result) { return (result >> 40) & 0xff; }
static inline pj_u64 pj_place(pj_u64 result) { return result & 0xffffffff; }

// A success of pj_rules, pj_sheet and pj_ask: a length.

// A success of pj_book_read: n and m.
static inline pj_u64 pj_settings(pj_u64 result) { return result >> 8; }
static inline pj_u64 pj_posts(pj_u64 result) { return result & 0xff; }

// A success of pj_book_salvage: how many setting blocks were closed, and a mark for each, bit i for setting i.
static inline pj_u64 pj_closed(pj_u64 result) { return result >> 8; }
static inline pj_u64 pj_marks(pj_u64 result) { return result & 0xff; }

// A success of pj_find and pj_find_two: 0 is "cannot", and any other the plan's height and its length in bytes.
static inline pj_u64 pj_height(pj_u64 result) { return result >> 16; }
static inline pj_u64 pj_length(pj_u64 result) { return result & 0xffff; }

// A success of pj_find_plain: 0 is "cannot", and any other the height and one. pj_height is not for it.

// The numbers of the refusals, and when each is given: the words of docs/CONTRACTS.md, "Every refusal", which names the
// definitions. Of several the first is given, in this order: pj_formula_read 5, 1, the lowest place of 2 or 3, 4;
// pj_book_read 6, 7, 8, 9, 15; pj_book_write 5, 8, 6, 9, 15; pj_book_salvage 6, 30, 15; pj_find 6 to 11, 31, 12 to 14;
// pj_find_two 6 to 11, 31, 12, 10 and 12 of the second leg, 13 (1 or 2, for the first short table), 14;
// pj_find_plain 6 to 11, 31, 12; pj_plan_check 6 to 11, 31, 12, 16, then the first of 17 to 21 and 32 as the plan is
// read, 17, 18, 32 at the same byte;
// pj_rules 24, line by line 22, 23 and the formula's 1 to 4, then 15. pj_sheet and pj_ask print theirs: pj_sheet 24,
// line by line 22, 23 and 1 to 4, and 25 directly after line 1; pj_ask the book's 6 to 9, 24, line by line 22, 23 and 1
// to 4, then 13. pj_replay gives the book's 6 to 9, 26, then record by record 27, 28, 29.
// The place is 0 where none is named in brackets. Of a text the place of 1 to 4 is the line.
enum {
    // The formula has no byte or more than 255.
    PJ_REFUSED_FORMULA_LENGTH = 1,
    // A byte of the formula is none of `a` to `g`, `0`, `1`, `~`, `&`, `|`, `(` and `)`. [its index]
    PJ_REFUSED_STRAY_BYTE = 2,
    // A letter of the formula is that of a setting at or past n. [its index]
    PJ_REFUSED_LETTER_PAST = 3,
    // The formula's text is no sentence. [least i where the first i + 1 bytes begin none; else the length]
    PJ_REFUSED_NOT_SENTENCE = 4,
    // The n that a formula is read for or a book is written for is not 1 to 7.
    PJ_REFUSED_SETTINGS = 5,
    // The book is not 2 to 8 whole blocks of 512 bytes, or the rights to write are not 256 × n bytes.
    PJ_REFUSED_BOOK_LENGTH = 6,
    // The check of a block is not the check of its bytes. [the block, head 0]
    PJ_REFUSED_CHECK = 7,
    // The head's n is not the count of blocks less one, m is not 1 to 8, or another byte of the head is not 0.
    PJ_REFUSED_HEAD = 8,
    // The block or the rights of a setting have a bit of a post at or past m, of a valuation at or past 2^n, or after
    // the tables. [the block, 1 to n]
    PJ_REFUSED_STRAY_BIT = 9,
    // The team has no post, or one at or past m.
    PJ_REFUSED_TEAM = 10,
    // A setting at or past n is known, or a value bit stands for a setting that is not known.
    PJ_REFUSED_KNOWN = 11,
    // The make table is not 16 bytes, the learn tables not 0 to 4 times 16, or one has a bit at or past 2^n.
    PJ_REFUSED_GOAL = 12,
    // A rank table has fewer than 7^n bytes. [0; of two legs 1 or 2, the first short table]
    PJ_REFUSED_RANK_ROOM = 13,
    // The goal can be reached, and the plan is longer than the plan room.
    PJ_REFUSED_PLAN_ROOM = 14,
    // The room for rights has fewer than 256 × n bytes, or that for a book fewer than 512 × (1 + n).
    PJ_REFUSED_ROOM = 15,
    // The plan to check has more than 32,640 bytes.
    PJ_REFUSED_PLAN_LENGTH = 16,
    // A byte of the plan is above 168, or its setting is at or past n, or its post is not of the team. [its index]
    PJ_REFUSED_NO_ACT = 17,
    // A set is of a held setting, a look is at a setting of which a value is known, or the rule of an act is not known
    // to hold where the act is due; the second number says which. [its index]
    PJ_REFUSED_NOT_PERMITTED = 18,
    // The plan stops where the goal is not settled. [the stop's index]
    PJ_REFUSED_NOT_SETTLED = 19,
    // The bytes end before the plan does. [the length]
    PJ_REFUSED_TOO_SOON = 20,
    // A byte follows a whole plan. [its index]
    PJ_REFUSED_LEFT_OVER = 21,
    // A line has not its form, is absent or is out of place. [the line]
    PJ_REFUSED_MALFORMED = 22,
    // A line names a right, a post or a setting that was named already. [the line]
    PJ_REFUSED_TWICE = 23,
    // The sheet has more than 32,768 bytes, the text of rules or of a question more than 65,536, that of a plan more
    // than 524,288, or a shift that the command takes more than 2,097,152.
    PJ_REFUSED_SHEET_LENGTH = 24,
    // The sheet's size has 6 or 7 settings, and the program takes 5. [1]
    PJ_REFUSED_SHEET_SETTINGS = 25,
    // The shift has an odd number of bytes, or the starting valuation is not below 2^n.
    PJ_REFUSED_SHIFT = 26,
    // The first byte of a record is 0 or above 168, its setting is at or past n, its post is at or past m, or its
    // second byte is above 1, or for a set not 0. [the record's index]
    PJ_REFUSED_NO_RECORD = 27,
    // The rule of a recorded act is false at the true settings where the act is due. [the record's index]
    PJ_REFUSED_NOT_ALLOWED = 28,
    // A look was recorded with another value than its setting has where the look is due. [the record's index]
    PJ_REFUSED_DISAGREES = 29,
    // The head block of a book to be salvaged has a wrong check, or is one that 8 is given for.
    PJ_REFUSED_SALVAGE_HEAD = 30,
    // A setting at or past n is held.
    PJ_REFUSED_HELD = 31,
    // A set that would be permitted is to the value that the team knows its setting has there. [its index]
    PJ_REFUSED_CHANGES_NOTHING = 32
};

// pj_second of 18, one more than its second number: why the act is not permitted. They are judged in this order.
enum {
    // A set of a held setting, whatever its rule.
    PJ_SECOND_HELD_SETTING = 1 + 3,
    // A look at a setting of which a value is known, whatever its rule.
    PJ_SECOND_KNOWN_SETTING = 1 + 0,
    // The rule is false at every valuation that fits what the team knows there: it is surely closed.
    PJ_SECOND_SURELY_FALSE = 1 + 1,
    // The rule is true at some of them and false at others: nobody in the team knows whether it holds.
    PJ_SECOND_NOT_KNOWN = 1 + 2
};

// ---- sizes, in bytes where nothing else is said

enum {
    PJ_SETTINGS_MOST = 7,   // settings of a book
    PJ_POSTS_MOST = 8,      // posts of a book
    PJ_LEARN_MOST = 4,      // learn tables of a goal
    PJ_FORMULA_MOST = 255,  // of a formula's text
    PJ_TABLE = 16,          // of a formula's table
    PJ_TABLES = 256,        // of a setting's rights
    PJ_BLOCK = 512,         // of a block: a book of n settings has 1 + n of them
    PJ_RIGHTS_MOST = 1792,  // of the rights of seven settings
    PJ_BOOK_MOST = 4096,    // of a book of seven settings
    PJ_RANKS_MOST = 823543, // of the ranks of seven settings: 7^7
    PJ_PLAN_MOST = 32640,   // of a plan: 2^7 branches of 254 acts and a stop
    PJ_SHEET_MOST = 32768,  // of a sheet
    PJ_ANSWER_MOST = 28234, // of what pj_sheet prints
    PJ_TEXT_MOST = 65536,   // of a rules text and of a question text
    PJ_ASK_MOST = 456970,   // of what pj_ask prints: 10, and 14 for each byte of a plan
    PJ_RECORD = 2           // of a record of a shift, which has any number of them
};

// The room that each function needs for n settings, 1 to 7. With rooms of these lengths 13, 14 and 15 are never given.
// pj_formula_read writes a table, pj_replay two words, pj_find_plain and pj_plan_check nothing; `out` of pj_sheet and of
// pj_ask may have any length, and PJ_ANSWER_MOST and PJ_ASK_MOST fit all that they print. Where n is not known yet, the
// most of each will do.
//   `rights` of pj_book_read, 256 × n, and `book` of pj_book_write and pj_rules, 512 × (1 + n): no less will do
//   `room` of pj_book_salvage, as many bytes as the book has, 512 × (1 + n): no less will do
//   `plan` of pj_find and pj_find_two, 2^n × (2^(n+1) - 1): no plan is longer, and room for the plan that is found will do
//   `ranks` of pj_find, pj_find_two and pj_ask, and `ranks2` of pj_find_two, 7^n each: no less will do; for a question text
//   with a second leg `ranks` of pj_ask takes twice that
#define PJ_RIGHTS_ROOM(n) (PJ_TABLES * (n))
#define PJ_BOOK_ROOM(n) (PJ_BLOCK * (1 + (n)))
#define PJ_PLAN_ROOM(n) ((1 << (n)) * ((2 << (n)) - 1))
#define PJ_RANKS_ROOM(n) \
    ((n) == 1 ? 7 : (n) == 2 ? 49 : (n) == 3 ? 343 : (n) == 4 ? 2401 : (n) == 5 ? 16807 : (n) == 6 ? 117649 : 823543)

// Stack that a call takes at most, whatever its arguments, rounded up. It is measured and not proved: tests/host/stack.c paints
// a stack, calls the function where it goes deepest, and finds the lowest byte that changed. On x86-64, with the library
// that rattle-kit-13f made on 2026-11-30, in the order below: 65,600 bytes (255 brackets), 248, 248, 200 (seven damaged
// blocks), 71,112 (a plan of height 254), 88,760 (the same plan, of a first leg), 877,512 (the same plan; 823,543 of them
// are what it remembers), 632, 108,832 and 88,592 (a look rule of 255 brackets), 945,432 (two legs, the first of height
// 254; 927,944 with one), and 248.
// memcpy and memset are counted. Where the dynamic linker binds them in the first call of a process, that call takes more: with
// glibc 2.36 on a processor with AVX-512 3,496 bytes were seen of pj_book_write, 3,432 of pj_book_salvage, 74,344 of pj_find,
// 92,008 of pj_find_two and 948,648 of pj_ask, and of the others nothing that counts. These are counted too (first.c). Another
// dynamic linker may take more there: a host that lends a stack of just this size had best be linked with `-z now`.
enum {
    PJ_STACK_FORMULA_READ = 69632,
    PJ_STACK_BOOK_READ = 4096,
    PJ_STACK_BOOK_WRITE = 4096,
    PJ_STACK_BOOK_SALVAGE = 4096,
    PJ_STACK_FIND = 74752,
    PJ_STACK_FIND_TWO = 92672,
    PJ_STACK_FIND_PLAIN = 880640,
    PJ_STACK_PLAN_CHECK = 4096,
    PJ_STACK_SHEET = 110592,
    PJ_STACK_RULES = 90112,
    PJ_STACK_ASK = 949248,
    PJ_STACK_REPLAY = 4096
};

// ---- rights and books

// Where the 16 bytes of a rule's table begin, in rights and in a book: the rule of setting i for the post with index q,
// to look (set is 0) or to set (set is 1). 16 zeros are never, for a look as for a set.
#define PJ_RIGHT(i, q, set) (PJ_TABLES * (i) + 2 * PJ_TABLE * (q) + PJ_TABLE * (set))
#define PJ_RULE(i, q, set) (PJ_BLOCK * (1 + (i)) + 2 * PJ_TABLE * (q) + PJ_TABLE * (set))

// A book's first block is the head: byte 0 is n, byte 1 is m. A setting's block has its 256 bytes of rights first. All
// others are 0 up to byte 507; bytes 508 to 511 are the block's check, which pj_book_write and pj_rules make.

// ---- plans

// A plan's bytes: a stop is 0; an act is its byte and what follows, after a look the plan where the setting was seen
// false and then the plan where it was seen true. A byte's kind, and for an act (the first three) its setting and post:
enum { PJ_SET_FALSE = 0, PJ_SET_TRUE = 1, PJ_LOOK = 2, PJ_STOP = 3, PJ_NO_KIND = 4 };
static inline int pj_kind(pj_u8 byte) { return byte == 0 ? PJ_STOP : byte > 168 ? PJ_NO_KIND : (byte - 1) / 56; }
static inline int pj_setting(pj_u8 byte) { return (byte - 1) / 8 % 7; }
static inline int pj_post(pj_u8 byte) { return (byte - 1) % 8; }

// The byte of an act.
#define PJ_ACT(kind, setting, post) (1 + ((kind) * 7 + (setting)) * 8 + (post))

// ---- shifts

// A shift's bytes: a record for each act, two bytes, PJ_RECORD. The first is the act's byte, as in a plan. The second
// is what was seen: 0 or 1 for a look, 0 for a set. Any post of the book may act, since there is no team, and a setting
// may be looked at again and again. An act is allowed where its rule is true at the present valuation, which has bit i
// where setting i is true now. A set changes its setting; a look shows the present value and changes nothing.

// ---- texts

// A rules text has lines of the first three kinds, and a question text of the other five, in this order; a sheet has
// them all. P is a setting's letter, G a post's digit, F a formula. Words are split by one space, and byte 10 ends each
// line, the last one too. In rules and question texts lines that begin with `#` and empty lines are passed over, and
// line numbers, which begin with 1, count them; in a sheet such a line is refused.
//
//     size N M       n, 1 to 7, and m: one line; in a sheet n is 1 to 5
//     read P G F     post G may look at P where F holds: any number of lines, mixed with `write`
//     write P G F    post G may set P where F holds
//     team G ..      the team, one or more posts: one line
//     known ..       what is known at the start, `a` for true and `~a` for false, or `known` alone: one line
//     held ..        which settings are held, or `held` alone: one line or none
//     make F         the make formula: one line
//     ask F          a learn formula: none to four lines
//
// A rule that is not stated is `1` to look and `0` to set, for each post from 1 to m: the settings are on the screen.
// Tables of posts past m are zero. This is about text alone: a book has all its rules, and means what it meant.
//
// What is printed is `reach H`, H the height, and a line for each byte of the plan; or `cannot`; or a refusal, `refused
// NUMBER PLACE`. A plan byte's line is the count of acts before it on its way, and `stop`, `look P G` or `set P G V`, V
// 0 or 1. Each line ends in byte 10.

// ---- knowledge

// What a team knows of one setting is a digit, 0 to 6; of all settings it is the sum of digit × 7^i, the knowledge
// number. `ranks` has a byte for each: the least height of a plan from there, or 255 where there is none. With two legs
// `ranks` is the first leg's and `ranks2` the second's, and a plan of the first leg has to stop where `ranks2` is not 255.
//
//     digit                                0        1        2      3      4      5      6
//     the value at the start is      unknown  unknown  unknown  false  false   true   true
//     the value now is               unknown    false     true  false   true  false   true
enum { PJ_RANK_NONE = 255 };

// 7^i, and the digit of setting i.
static inline pj_u64 pj_seven(int i) { return i == 0 ? 1 : (pj_u64)PJ_RANKS_ROOM(i); }
static inline int pj_digit(pj_u64 number, int i) { return (int)(number / pj_seven(i) % 7); }

// The number with another digit of setting i.
static inline pj_u64 pj_with_digit(pj_u64 number, int i, int digit) {
    return number - (pj_u64)pj_digit(number, i) * pj_seven(i) + (pj_u64)digit * pj_seven(i);
}

// The number at the start of a question: 3 for a setting known to be false, 6 for one known to be true, 0 for others.
static inline pj_u64 pj_start(pj_u8 known, pj_u8 values) {
    pj_u64 number = 0;
    for (int i = 0; i < PJ_SETTINGS_MOST; i++)
        if (known >> i & 1) number += (values >> i & 1 ? 6 : 3) * pj_seven(i);
    return number;
}

// The number after setting i was set to a value, and after a look at it that saw a value. A look is at digit 0 alone.
static inline pj_u64 pj_after_set(pj_u64 number, int i, int value) {
    int digit = pj_digit(number, i);
    return pj_with_digit(number, i, (digit < 3 ? 1 : digit < 5 ? 3 : 5) + (value != 0));
}
static inline pj_u64 pj_after_look(pj_u64 number, int i, int value) { return pj_with_digit(number, i, value ? 6 : 3); }

// ---- functions

// The table of a formula over n settings. 0, or a refusal, which leaves the 16 bytes as they were.
pj_u64 pj_formula_read(pj_u64 n, const pj_u8 *text, pj_u64 text_length, pj_u8 *table);

// A book's rights, n × 256 bytes, at the start of `rights`. n × 256 + m, or a refusal, which leaves `rights` as it was.
pj_u64 pj_book_read(const pj_u8 *book, pj_u64 book_length, pj_u8 *rights, pj_u64 rights_length);

// The book of n settings and m posts, at the start of `book`. 0, or a refusal, which leaves `book` as it was.
pj_u64 pj_book_write(pj_u64 n, pj_u64 m, const pj_u8 *rights, pj_u64 rights_length, pj_u8 *book, pj_u64 book_length);

// A damaged book back on its feet, at the start of `room`, as long as the book: the head and every setting block with a
// right check and no bit that must be zero stay byte for byte, and each other setting block becomes the one with all
// rules closed and a right check. Success is count × 256 + marks: bit i of the marks is set where the block of setting i
// was closed, and count is how many are set; or a refusal, which leaves `room` as it was. Later bytes of `room` stay as
// they were. What comes out is read as a book, of the head's n and m, and salvaged again it is the same bytes. Damage
// that leaves a block with a right check and no stray bit is not found.
pj_u64 pj_book_salvage(const pj_u8 *book, pj_u64 book_length, pj_u8 *room, pj_u64 room_length);

// Whether the team can bring the goal about. Reach: height × 2^16 + the plan's length, the plan at the start of `plan`;
// cannot: 0; or a refusal. But for refusals 6 to 13 and 31 the first 7^n bytes of `ranks` hold the rank of every
// knowledge number, for any start; `plan` is written by reach alone. Later bytes of both stay as they were.
pj_u64 pj_find(const pj_u8 *book, pj_u64 book_length, pj_u8 team, pj_u8 known, pj_u8 values, pj_u8 held,
               const pj_u8 *make, pj_u64 make_length, const pj_u8 *learn, pj_u64 learn_length, pj_u8 *ranks,
               pj_u64 ranks_length, pj_u8 *plan, pj_u64 plan_length);

// Whether the team can bring the goal about and stop, on every branch, where `team2` can bring about its own, `make2` and
// `learn2`, from what is known there. Settings held are the same for both, and learn formulas of both mean the very first
// start. The height and the plan are the first leg's. Reach: height × 2^16 + the plan's length, the plan at the start of
// `plan`; cannot: 0; or a refusal. But for refusals 6 to 13 and 31, which leave all three rooms as they were, the first 7^n
// bytes of `ranks` and of `ranks2` hold each leg's rank of every knowledge number, for any start: the second leg's is that
// of its team and goal alone. `plan` is written by reach alone. Later bytes of all three stay as they were.
pj_u64 pj_find_two(const pj_u8 *book, pj_u64 book_length, pj_u8 team, pj_u8 known, pj_u8 values, pj_u8 held,
                   const pj_u8 *make, pj_u64 make_length, const pj_u8 *learn, pj_u64 learn_length, pj_u8 team2,
                   const pj_u8 *make2, pj_u64 make2_length, const pj_u8 *learn2, pj_u64 learn2_length, pj_u8 *ranks,
                   pj_u64 ranks_length, pj_u8 *ranks2, pj_u64 ranks2_length, pj_u8 *plan, pj_u64 plan_length);

// The same question of one leg, answered a second way, forwards from what the team knows and without a rank table: reach: the
// least height + 1; cannot: 0; or one of refusals 6 to 12 and 31. It is proved to give the same answer and the same
// height as pj_find. Nothing is lent for writing. Its memory is on the stack, a byte for each of 7^7 knowledge numbers,
// whatever the book's n: see PJ_STACK_FIND_PLAIN.
pj_u64 pj_find_plain(const pj_u8 *book, pj_u64 book_length, pj_u8 team, pj_u8 known, pj_u8 values, pj_u8 held,
                     const pj_u8 *make, pj_u64 make_length, const pj_u8 *learn, pj_u64 learn_length);

// Whether the bytes are those of a plan that works. 0 for yes, or a refusal. Nothing is written.
pj_u64 pj_plan_check(const pj_u8 *book, pj_u64 book_length, pj_u8 team, pj_u8 known, pj_u8 values, pj_u8 held,
                     const pj_u8 *make, pj_u64 make_length, const pj_u8 *learn, pj_u64 learn_length, const pj_u8 *plan,
                     pj_u64 plan_length);

// What is printed for a sheet, at the start of `out` as far as it fits; the length of all of it. The rest of `out` stays
// as it was. A refusal is printed too, its place is the line: `refused NUMBER LINE`.
pj_u64 pj_sheet(const pj_u8 *sheet, pj_u64 sheet_length, pj_u8 *out, pj_u64 out_length);

// The book of a rules text, at the start of `book`. The book's length, or a refusal, which leaves `book` as it was and
// whose place is the text's line (0 for 24 and 15). The rest of `book` stays as it was.
pj_u64 pj_rules(const pj_u8 *rules, pj_u64 rules_length, pj_u8 *book, pj_u64 book_length);

// What is printed for a question text that is put to a book, at the start of `out` as far as it fits; the length of all
// of it. The rest of `out` stays as it was. A refusal is printed too: the book's with its place, the text's with its
// line, and `refused 13 0` for a rank table that is too short. A refusal leaves `ranks` as it was; but for it the first
// 7^n bytes hold all ranks, as pj_find leaves them, and later bytes stay as they were. A question text may have a second
// leg behind a line `then`: what is printed is the first leg's, `ranks` takes 2 * 7^n bytes, the first leg's ranks and
// behind them the second's, as pj_find_two leaves them, and is refused below 7^n with `refused 13 1`, below 2 * 7^n with
// `refused 13 2`.
pj_u64 pj_ask(const pj_u8 *book, pj_u64 book_length, const pj_u8 *question, pj_u64 question_length, pj_u8 *ranks,
              pj_u64 ranks_length, pj_u8 *out, pj_u64 out_length);

// A recorded shift run against a book, from the true valuation `start`. 0 where every act was allowed when it was done
// and each look saw what was recorded, or a refusal: 27, 28 and 29 are about the first record at fault. `reached` is
// two words: the first is the count of acts done, the second the valuation that they leave; at a fault, of the acts
// before it. Success, 27, 28 and 29 write both; 6 to 9 and 26 leave both as they were. The place of 27, 28 and 29 is
// the index modulo 2^32, and the count is all of it.
pj_u64 pj_replay(const pj_u8 *book, pj_u64 book_length, pj_u64 start, const pj_u8 *shift, pj_u64 shift_length,
                 pj_u64 *reached);

#ifdef __cplusplus
}
#endif

#endif
