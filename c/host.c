/* A C host of the rig: calls both functions on the twin (docs/SPECIFICATION.md, section 10.2) and other small machines,
 * and compares each 64-bit number and every byte of the lent buffer, with the bytes around it, with what is specified.
 * One line a case; ends with status 1 if any case differs.
 *
 * The expected numbers are worked out by hand. In hexadecimal the four fields lie side by side: class, place (six
 * digits), a, b. */
#include <inttypes.h>
#include <stdio.h>
#include <string.h>

#include "rig.h"

enum { GUARD = 8, MOST = 64, FILL = 0xEE };

typedef uint64_t service(const uint8_t *, size_t, uint8_t *, size_t);

typedef struct {
    uint8_t bytes[256];
    size_t len;
} sheet;

/* bytes and how many */
typedef struct {
    const char *at;
    size_t len;
} part;

#define PART(literal) ((part){literal, sizeof(literal) - 1})
#define NONE ((part){NULL, 0})

static int failures = 0;

/* one more record: 4 bytes payload length, 2 bytes kind, little-endian, then the payload */
static void add(sheet *s, unsigned kind, part p)
{
    const uint8_t header[6] = {(uint8_t)p.len, 0, 0, 0, (uint8_t)kind, 0};
    memcpy(s->bytes + s->len, header, 6);
    memcpy(s->bytes + s->len + 6, p.at, p.len);
    s->len += 6 + p.len;
}

/* machine, word, sequence and answers; a part that is NONE is left out */
static sheet of(part machine, part word, part sequence, part answers)
{
    const part parts[4] = {machine, word, sequence, answers};
    sheet s = {{0}, 0};
    for (unsigned kind = 1; kind <= 4; kind++)
        if (parts[kind - 1].at != NULL)
            add(&s, kind, parts[kind - 1]);
    return s;
}

/* Calls f on a sheet with room bytes for marks. The number must be the expected one, the marks the first bytes of the buffer, and every other
 * byte, behind the marks and around the buffer, as it was. */
static void expect(const char *name, service *f, sheet s, size_t room, uint64_t number, part marks)
{
    uint8_t buffer[GUARD + MOST + GUARD];
    uint8_t wanted[GUARD + MOST + GUARD];
    const sheet before = s;
    memset(buffer, FILL, sizeof buffer);
    memset(wanted, FILL, sizeof wanted);
    if (marks.at != NULL)
        memcpy(wanted + GUARD, marks.at, marks.len);
    uint64_t r = f(s.len == 0 ? NULL : s.bytes, s.len, room == 0 ? NULL : buffer + GUARD, room);
    int same = r == number && memcmp(buffer, wanted, sizeof buffer) == 0 && memcmp(&s, &before, sizeof s) == 0;
    printf("%s  %s: class %u place %" PRIu32 " a %u b %u", same ? "ok  " : "FAIL", name, rig_class(r), rig_place(r), rig_a(r), rig_b(r));
    if (r != number)
        printf(", expected %012" PRIX64 ", got %012" PRIX64, number, r);
    else if (!same)
        printf(", but the bytes differ");
    printf("\n");
    failures += !same;
}

#define TWIN PART("\2\2" "\1\0" "\0\5" "\0\1" "\1\5")
#define SINGLE PART("\1\1" "\0\115")
#define WORD PART("\0")
#define WORD16 PART("\0\0\0\0\0\0\0\0\0\0\0\0\0\0\0\0")
#define WORD17 PART("\0\0\0\0\0\0\0\0\0\0\0\0\0\0\0\0\0")
#define BUILT PART("\0\0\0\0\0\0\1\0\0\0\1\0")
#define ALL13 PART("\1\1\1\1\1\1\1\1\1\1\1\1\1")

static void certifying(void)
{
    service *f = rig_certify;
    expect("built", f, of(TWIN, WORD, BUILT, NONE), 13, UINT64_C(0x6E00000D0000), ALL13);
    expect("built, later bytes", f, of(TWIN, WORD, BUILT, NONE), MOST, UINT64_C(0x6E00000D0000), ALL13);
    expect("0 0 1 0 1 0", f, of(TWIN, WORD, PART("\0\0\1\0\1\0"), NONE), 20, UINT64_C(0x6F0000050002), PART("\1\1\0\1\1\1\0"));
    expect("0 0 1 0 1 0 0", f, of(TWIN, WORD, PART("\0\0\1\0\1\0\0"), NONE), 20, UINT64_C(0x6E0000080000), PART("\1\1\1\1\1\1\1\1"));
    expect("0", f, of(TWIN, WORD, PART("\0"), NONE), 20, UINT64_C(0x6F0000010001), PART("\1\0"));
    expect("1 0 0", f, of(TWIN, WORD, PART("\1\0\0"), NONE), 20, UINT64_C(0x6F0000020000), PART("\0\1\1\0"));
    expect("0 0 0", f, of(TWIN, WORD, PART("\0\0\0"), NONE), 20, UINT64_C(0x6F0000040002), PART("\1\1\1\1"));
    expect("one state, 0 0", f, of(SINGLE, WORD, PART("\0\0"), NONE), 20, UINT64_C(0x6E0000030000), PART("\1\1\1"));
    expect("one state, 0", f, of(SINGLE, WORD, PART("\0"), NONE), 20, UINT64_C(0x6F0000010001), PART("\1\0"));
    expect("word of 16", f, of(TWIN, WORD16, BUILT, NONE), 20, UINT64_C(0x6F0000000000), PART("\0\0\0\0\0\0\0\0\0\0\0\0\0"));
    expect("word of 17", f, of(TWIN, WORD17, BUILT, NONE), 20, UINT64_C(0x050000100000), NONE);
    expect("word 1", f, of(TWIN, PART("\1"), BUILT, NONE), 20, UINT64_C(0x060000010000), NONE);
    expect("payload of two states for three", f, of(PART("\3\2" "\1\0" "\0\5" "\0\1" "\1\5"), WORD, BUILT, NONE), 20, UINT64_C(0x030000000000), NONE);
    expect("first next state 2", f, of(PART("\2\2" "\2\0" "\0\5" "\0\1" "\1\5"), WORD, BUILT, NONE), 20, UINT64_C(0x040000080000), NONE);
    expect("answer 255", f, of(PART("\2\2" "\1\377" "\0\5" "\0\1" "\1\5"), WORD, BUILT, NONE), 20, UINT64_C(0x0C0000090000), NONE);
    expect("two answers 255, word 1", f, of(PART("\2\2" "\1\0" "\0\377" "\0\1" "\1\377"), PART("\1"), BUILT, NONE), 20, UINT64_C(0x0C00000B0000), NONE);
    expect("answer 255, last next state 2", f, of(PART("\2\2" "\1\377" "\0\5" "\0\1" "\2\5"), WORD, BUILT, NONE), 20, UINT64_C(0x0400000E0000), NONE);
    expect("one state, answer 255", f, of(PART("\1\1" "\0\377"), WORD, PART("\0\0"), NONE), 20, UINT64_C(0x0C0000090000), NONE);
    expect("one state, answer 254", f, of(PART("\1\1" "\0\376"), WORD, PART("\0\0"), NONE), 20, UINT64_C(0x6E0000030000), PART("\1\1\1"));
    expect("command 2", f, of(TWIN, WORD, PART("\0\2"), NONE), 20, UINT64_C(0x0700001E0000), NONE);
    expect("room of 12", f, of(TWIN, WORD, BUILT, NONE), 12, UINT64_C(0x0900000D0000), NONE);
    expect("no room", f, of(TWIN, WORD, BUILT, NONE), 0, UINT64_C(0x0900000D0000), NONE);
    expect("empty sheet", f, of(NONE, NONE, NONE, NONE), 20, UINT64_C(0x020000000000), NONE);
}

static void judging(void)
{
    service *f = rig_judge;
    sheet cut = of(TWIN, WORD, BUILT, PART("\0\1\0\1"));
    cut.len--;
    expect("pass", f, of(TWIN, WORD, BUILT, PART("\0\1\0\1\0\1\5\0\1\0\5\1")), 13, UINT64_C(0x6400000C0000), ALL13);
    expect("pass, end state 1", f, of(TWIN, WORD, PART("\0\0\1\0\1\0\0"), PART("\0\1\5\0\5\1\0")), 20, UINT64_C(0x640000070001), PART("\1\1\1\1\1\1\1\1"));
    expect("6 at place 6", f, of(TWIN, WORD, BUILT, PART("\0\1\0\1\0\1\6\0\1\0\5\1")), MOST, UINT64_C(0x650000060506), ALL13);
    expect("254 at place 0", f, of(TWIN, WORD, BUILT, PART("\376")), MOST, UINT64_C(0x6500000000FE), ALL13);
    expect("255 at place 0", f, of(TWIN, WORD, BUILT, PART("\377")), MOST, UINT64_C(0x670000000000), ALL13);
    expect("255 at place 3", f, of(TWIN, WORD, BUILT, PART("\0\1\0\377\0\1\5\0\1\0\5\1")), 13, UINT64_C(0x670000030000), ALL13);
    expect("255 at the last place", f, of(TWIN, WORD, BUILT, PART("\0\1\0\1\0\1\5\0\1\0\5\377")), MOST, UINT64_C(0x6700000B0000), ALL13);
    expect("255 to every command", f, of(TWIN, WORD, BUILT, PART("\377\377\377\377\377\377\377\377\377\377\377\377")), MOST, UINT64_C(0x670000000000), ALL13);
    expect("255 behind a wrong answer", f, of(TWIN, WORD, BUILT, PART("\0\1\0\1\0\1\6\377")), MOST, UINT64_C(0x650000060506), ALL13);
    expect("255 before a wrong answer", f, of(TWIN, WORD, BUILT, PART("\0\1\0\1\0\377\6")), MOST, UINT64_C(0x670000050000), ALL13);
    expect("one state, 255 twice", f, of(SINGLE, WORD, PART("\0\0"), PART("\377\377")), 20, UINT64_C(0x670000000000), PART("\1\1\1"));
    expect("first four answers", f, of(TWIN, WORD, BUILT, PART("\0\1\0\1")), MOST, UINT64_C(0x660000040000), ALL13);
    expect("no answer yet", f, of(TWIN, WORD, BUILT, PART("")), MOST, UINT64_C(0x660000000000), ALL13);
    expect("thirteen answers", f, of(TWIN, WORD, BUILT, PART("\0\1\0\1\0\1\5\0\1\0\5\1\0")), MOST, UINT64_C(0x0A0000290000), NONE);
    expect("open 2", f, of(TWIN, WORD, PART("\0\0\1\0\1\0"), PART("\0")), MOST, UINT64_C(0x0B0000020000), PART("\1\1\0\1\1\1\0"));
    expect("open 0", f, of(TWIN, WORD, PART("\1\0\0"), PART("")), MOST, UINT64_C(0x0B0000000000), PART("\0\1\1\0"));
    expect("open 2, 255", f, of(TWIN, WORD, PART("\0\0\1\0\1\0"), PART("\377")), MOST, UINT64_C(0x0B0000020000), PART("\1\1\0\1\1\1\0"));
    expect("answer 255 of the table, given too", f, of(PART("\1\1" "\0\377"), WORD, PART("\0\0"), PART("\377\377")), 20, UINT64_C(0x0C0000090000), NONE);
    expect("answer 255, no room, thirteen answers", f, of(PART("\2\2" "\1\0" "\0\5" "\0\1" "\1\377"), WORD, BUILT, PART("\0\1\0\1\0\1\5\0\1\0\5\1\0")), 0, UINT64_C(0x0C00000F0000), NONE);
    expect("room of 12", f, of(TWIN, WORD, BUILT, PART("\0\1\0\1\0\1\5\0\1\0\5\1\0")), 12, UINT64_C(0x0900000D0000), NONE);
    expect("answers missing", f, of(TWIN, WORD, BUILT, NONE), MOST, UINT64_C(0x020000290000), NONE);
    expect("answers cut", f, cut, MOST, UINT64_C(0x010000290000), NONE);
    expect("word 1", f, of(TWIN, PART("\1"), BUILT, PART("")), MOST, UINT64_C(0x060000010000), NONE);
    expect("empty sheet, no room", f, of(NONE, NONE, NONE, NONE), 0, UINT64_C(0x020000000000), NONE);
}

int main(void)
{
    printf("certifying\n");
    certifying();
    printf("judging\n");
    judging();
    printf("%s\n", failures == 0 ? "all as expected" : "differences found");
    return failures == 0 ? 0 : 1;
}
