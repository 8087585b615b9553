// Calls the library for a test program that can't link it: the archive is for x86-64, and the test program
// runs on another processor. src/ffi/hosted.rs is the other end, and has the same numbers for the functions.
//
// A request on standard input is a row of 64-bit words, low byte first: the count of bytes that follow, the
// function, the count of numbers, the count of rooms, the numbers, the size of each room; then the rooms'
// bytes. A room has GUARD bytes in front of what is lent and GUARD after it, and its size counts them. The
// reply on standard output is the result, one word, then all bytes of all rooms as the call left them.
// The host ends where its input ends. It has no header of the C library at hand, and needs four functions.

#include "../../../include/parjolenc.h"

typedef unsigned char u8;
typedef unsigned long u64;

long read(int file, void *bytes, u64 size);
long write(int file, const void *bytes, u64 size);
void *realloc(void *old, u64 size);
_Noreturn void _exit(int status);

enum { GUARD = 32, ROOMS_MOST = 8 };
enum {
    FORMULA_READ = 1,
    BOOK_READ = 2,
    BOOK_WRITE = 3,
    FIND = 4,
    PLAN_CHECK = 5,
    SHEET = 6,
    RULES = 7,
    ASK = 8,
    REPLAY = 9, // its words are the first room: GUARD is a multiple of 8, so their address is right for words
    FIND_PLAIN = 10,
    BOOK_SALVAGE = 11,
    FIND_TWO = 12
};

static void fill(void *bytes, u64 size) {
    for (u64 done = 0; done < size;) {
        long count = read(0, (u8 *)bytes + done, size - done);
        if (count <= 0) _exit(done == 0 && count == 0 ? 0 : 1);
        done += (u64)count;
    }
}

static void send(const void *bytes, u64 size) {
    for (u64 done = 0; done < size;) {
        long count = write(1, (const u8 *)bytes + done, size - done);
        if (count <= 0) _exit(1);
        done += (u64)count;
    }
}

static u64 call(u64 function, const u64 *number, u8 *const *room, const u64 *lent) {
    switch (function) {
    case FORMULA_READ: return pj_formula_read(number[0], room[0], lent[0], room[1]);
    case BOOK_READ: return pj_book_read(room[0], lent[0], room[1], lent[1]);
    case BOOK_WRITE: return pj_book_write(number[0], number[1], room[0], lent[0], room[1], lent[1]);
    case BOOK_SALVAGE: return pj_book_salvage(room[0], lent[0], room[1], lent[1]);
    case FIND: return pj_find(room[0], lent[0], (u8)number[0], (u8)number[1], (u8)number[2], (u8)number[3], room[1],
                              lent[1], room[2], lent[2], room[3], lent[3], room[4], lent[4]);
    case FIND_TWO: return pj_find_two(room[0], lent[0], (u8)number[0], (u8)number[1], (u8)number[2], (u8)number[3],
                                      room[1], lent[1], room[2], lent[2], (u8)number[4], room[3], lent[3], room[4],
                                      lent[4], room[5], lent[5], room[6], lent[6], room[7], lent[7]);
    case FIND_PLAIN: return pj_find_plain(room[0], lent[0], (u8)number[0], (u8)number[1], (u8)number[2], (u8)number[3],
                                          room[1], lent[1], room[2], lent[2]);
    case PLAN_CHECK: return pj_plan_check(room[0], lent[0], (u8)number[0], (u8)number[1], (u8)number[2],
                                          (u8)number[3], room[1], lent[1], room[2], lent[2], room[3], lent[3]);
    case SHEET: return pj_sheet(room[0], lent[0], room[1], lent[1]);
    case RULES: return pj_rules(room[0], lent[0], room[1], lent[1]);
    case ASK: return pj_ask(room[0], lent[0], room[1], lent[1], room[2], lent[2], room[3], lent[3]);
    case REPLAY: return pj_replay(room[1], lent[1], number[0], room[2], lent[2], (pj_u64 *)room[0]);
    }
    _exit(2);
}

int main(void) {
    u64 *request = 0;
    u64 held = 0;
    for (;;) {
        u64 size;
        fill(&size, sizeof size);
        if (size > held) {
            request = realloc(request, size);
            if (request == 0) return 3;
            held = size;
        }
        fill(request, size);

        u64 function = request[0], numbers = request[1], rooms = request[2];
        const u64 *number = request + 3, *sizes = number + numbers;
        u8 *bytes = (u8 *)(sizes + rooms);
        u8 *room[ROOMS_MOST];
        u64 lent[ROOMS_MOST], all = 0;
        if (rooms > ROOMS_MOST) return 2;
        for (u64 i = 0; i < rooms; i++) {
            room[i] = bytes + all + GUARD;
            lent[i] = sizes[i] - 2 * GUARD;
            all += sizes[i];
        }
        u64 result = call(function, number, room, lent);
        send(&result, sizeof result);
        send(bytes, all);
    }
}
