// What the host programs share: tests told by name, a closing line, and the book of paper 01's example P6. No header of
// the C library is at hand where they are compiled, and they need one function of it.
#include <parjolenc.h>

#ifdef __cplusplus
extern "C"
#endif
long write(int file, const void *bytes, unsigned long size);

static int passed, failed;

static inline pj_u64 length_of(const char *text) {
    pj_u64 length = 0;
    while (text[length] != 0) length++;
    return length;
}

// What is not written to standard output is not seen by the gate, which wants the closing line.
static inline void say(const char *text) {
    if (write(1, text, length_of(text)) < 0) failed++;
}

static inline void say_number(pj_u64 number) {
    if (number >= 10) say_number(number / 10);
    char digit[2] = {(char)('0' + number % 10), 0};
    say(digit);
}

static inline void test(const char *name, int right) {
    say(right ? "passed  " : "FAILED  ");
    say(name);
    say("\n");
    *(right ? &passed : &failed) += 1;
}

static inline int closing(void) {
    say_number((pj_u64)passed);
    say(" passed, ");
    say_number((pj_u64)failed);
    say(" failed\n");
    return failed != 0;
}

static inline int same(const pj_u8 *bytes, const pj_u8 *expected, pj_u64 length) {
    for (pj_u64 i = 0; i < length; i++)
        if (bytes[i] != expected[i]) return 0;
    return 1;
}

static inline int same_text(const pj_u8 *bytes, const char *expected) {
    return same(bytes, (const pj_u8 *)expected, length_of(expected));
}

static inline int all_are(const pj_u8 *bytes, pj_u64 length, pj_u8 byte) {
    for (pj_u64 i = 0; i < length; i++)
        if (bytes[i] != byte) return 0;
    return 1;
}

static inline void fill(pj_u8 *bytes, pj_u64 length, pj_u8 byte) {
    for (pj_u64 i = 0; i < length; i++) bytes[i] = byte;
}

static inline pj_u64 formula(pj_u64 n, const char *text, pj_u8 *table) {
    return pj_formula_read(n, (const pj_u8 *)text, length_of(text), table);
}

// Every look of n settings and m posts is open, and every set closed: what rules text says by `size` alone. 0 where `1`
// is a formula.
static inline pj_u64 unstated_rights(int n, int m, pj_u8 *rights) {
    pj_u64 refused = 0;
    fill(rights, (pj_u64)PJ_RIGHTS_ROOM(n), 0);
    for (int i = 0; i < n; i++)
        for (int q = 0; q < m; q++) refused |= formula((pj_u64)n, "1", rights + PJ_RIGHT(i, q, 0));
    return refused;
}

// The rights of P6: three settings, two posts. 0 where all texts are formulas.
static inline pj_u64 p6_rights(pj_u8 *rights) {
    return unstated_rights(3, 2, rights) | formula(3, "~c", rights + PJ_RIGHT(0, 1, 1)) |
           formula(3, "a", rights + PJ_RIGHT(1, 0, 1)) | formula(3, "1", rights + PJ_RIGHT(2, 1, 0)) |
           formula(3, "c", rights + PJ_RIGHT(2, 1, 1));
}

// The rights of the book of greatest rank, 2^(n+1) - 2, for one post: setting j may be looked at where all before it are
// true; it may be set where those before j - 1 are true, j - 1 is false, and not all of j to n - 1 are true.
static inline void climb_rights(int n, pj_u8 *rights, pj_u8 *make) {
    fill(rights, (pj_u64)PJ_RIGHTS_ROOM(n), 0);
    fill(make, PJ_TABLE, 0);
    for (int v = 0; v < 1 << n; v++) {
        int trues = 0; // how many settings are true before the first that is false
        while (trues < n && (v >> trues & 1)) trues++;
        for (int j = 0; j < n; j++) {
            int rest_true = (v | ((1 << j) - 1)) == (1 << n) - 1;
            if (j <= trues) rights[PJ_RIGHT(j, 0, 0) + v / 8] |= (pj_u8)(1 << v % 8);
            if (j == 0 ? trues < n : trues == j - 1 && !rest_true)
                rights[PJ_RIGHT(j, 0, 1) + v / 8] |= (pj_u8)(1 << v % 8);
        }
        if (trues == n) make[v / 8] |= (pj_u8)(1 << v % 8);
    }
}

// The question of the book of greatest rank as a text, and its length: all n settings are to be true.
static inline pj_u64 climb_question(int n, pj_u8 *question) {
    static const char begin[] = "team 1\nknown\nmake ";
    pj_u64 at = 0;
    for (; begin[at] != 0; at++) question[at] = (pj_u8)begin[at];
    for (int i = 0; i < n; i++) {
        question[at++] = (pj_u8)('a' + i);
        question[at++] = i < n - 1 ? '&' : '\n';
    }
    return at;
}
