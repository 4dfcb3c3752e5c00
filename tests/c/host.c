/* Compares the library, through its header, with a second implementation that
   is written here from 01 and shares no code with it, on published, valid,
   damaged and random messages.  The inputs are the same in every run.  Also
   tries numbers that only the header's types can hold, what the header's
   answers and looks say of record, image and map, digests given to a device,
   captures through pcp_capture.h, and digests through pcp_md5.h. */
#define _DEFAULT_SOURCE /* for MAP_ANONYMOUS */
#include "pcp_capture.h"
#include "pcp_md5.h"

#include <limits.h>
#include <stdio.h>
#include <stdlib.h>
#include <string.h>
#include <sys/mman.h>

enum {
    LONGEST = 8 << 20,    /* bytes of the longest input */
    LONGEST_DATA = 65535, /* the most that a length field can say */
    GUARD = 1 << 16,      /* a whole number of pages */
    SHOWN = 5,            /* differences printed */
    SHOWN_BYTES = 64,     /* of an input that differs */
    ANY = -1              /* no number is known beforehand */
};

static uint8_t message[LONGEST]; /* the input at work */
static uint8_t *guard;           /* the first byte that cannot be read */
static unsigned long compared, different;

/* The second implementation: 01, "The message and its check". */

static uint16_t table[256];

static void fill_table(void)
{
    for (uint32_t i = 0; i < 256; i++) {
        uint32_t entry = i * 256;

        for (int times = 0; times < 8; times++) {
            entry *= 2;
            if (entry >= 65536)
                entry = (entry - 65536) ^ 0x1021;
        }
        table[i] = (uint16_t)entry;
    }
}

static uint16_t run(uint16_t reg, const uint8_t *bytes, size_t length)
{
    for (size_t i = 0; i < length; i++)
        reg = (uint16_t)(reg / 256 ^ table[(reg ^ bytes[i]) % 256]);
    return reg;
}

static uint16_t own_check(const uint8_t *bytes, size_t length)
{
    return run(0, bytes, length);
}

static size_t at_most(size_t length, size_t most)
{
    return length < most ? length : most;
}

static uint16_t own_message_check(const uint8_t *bytes, size_t length)
{
    static const uint8_t zeros[2] = {0, 0};
    size_t before = at_most(length, 4), field = at_most(length - before, 2);
    uint16_t reg = run(run(0, bytes, before), zeros, field);

    return run(reg, bytes + before + field, length - before - field);
}

static unsigned word(const uint8_t *at)
{
    return at[0] * 256u + at[1];
}

/* 01, "Recognising a message", with 02's 2026-01. */
static unsigned own_recognise(unsigned supported, unsigned pcp,
                              const uint8_t *bytes, size_t length)
{
    if (supported == 0)
        return 1;
    if (pcp == 0)
        return 2;
    if (length < 2 || word(bytes) != 0xFFFE)
        return 3;
    if (length < 3 || bytes[2] % 16 != 1)
        return 4;
    if (length < 4 || bytes[3] < 19 || bytes[3] > 24)
        return 5;
    if (length < 8 || word(bytes + 4) != own_message_check(bytes, length))
        return 6;
    return word(bytes + 6) == length - 8 ? 0 : 7;
}

/* Comparing. */

static void expect(const char *what, unsigned expected, unsigned got,
                   const uint8_t *bytes, size_t length)
{
    if (expected == got)
        return;
    if (different++ >= SHOWN)
        return;
    printf("%s: %X, not %X, of %lu bytes ", what, got, expected,
           (unsigned long)length);
    for (size_t i = 0; i < at_most(length, SHOWN_BYTES); i++)
        printf("%02X", bytes[i]);
    puts(length > SHOWN_BYTES ? ".." : "");
}

/* The bytes stand right before memory that cannot be read, so that a read past
   their end stops the program.  No bytes are lent to the header's functions as
   NULL, and to the archive's as a place that cannot be read. */
static void compare_facts(uint8_t supported, uint8_t pcp, const uint8_t *bytes,
                          size_t length, int must)
{
    uint8_t *lent = guard - length;
    const uint8_t *lent_or_null = length == 0 ? NULL : lent;
    unsigned check = own_check(bytes, length);
    unsigned message_check = own_message_check(bytes, length);
    unsigned number = own_recognise(supported, pcp, bytes, length);

    memcpy(lent, bytes, length);
    expect("pcp_check", check, pcp_check(lent, length), bytes, length);
    expect("pcp_check_of_bytes", check,
           pcp_check_of_bytes(lent_or_null, length), bytes, length);
    expect("pcp_message_check", message_check, pcp_message_check(lent, length),
           bytes, length);
    expect("pcp_check_of_message", message_check,
           pcp_check_of_message(lent_or_null, length), bytes, length);
    expect("pcp_recognise", number, pcp_recognise(supported, pcp, lent, length),
           bytes, length);
    expect("pcp_recognise_message", number,
           pcp_recognise_message(supported, pcp, lent_or_null, length), bytes,
           length);
    expect("bytes written", 0, memcmp(lent, bytes, length) != 0, bytes, length);
    if (must != ANY)
        expect("this test's recognition", (unsigned)must, number, bytes, length);
    compared++;
}

/* The same of the first bytes of the message at work, with both facts yes. */
static void compare(size_t length, int must)
{
    compare_facts(1, 1, message, length, must);
}

/* Making messages. */

static uint32_t below(uint32_t bound)
{
    static uint64_t state = 20240901;

    state ^= state << 13; /* xorshift64 */
    state ^= state >> 7;
    state ^= state << 17;
    return (uint32_t)(state >> 32) % bound;
}

static void fill_random(size_t from, size_t to)
{
    for (size_t i = from; i < to; i++)
        message[i] = (uint8_t)below(256);
}

/* Writes the check, as far as there is room for it. */
static void seal(size_t length)
{
    uint16_t check = own_message_check(message, length);

    if (length > 4)
        message[4] = (uint8_t)(check / 256);
    if (length > 5)
        message[5] = (uint8_t)(check % 256);
}

static void set_length_field(size_t data)
{
    message[6] = (uint8_t)(data / 256);
    message[7] = (uint8_t)(data % 256);
}

/* Returns the length of the message. */
static size_t make(uint8_t code, size_t data)
{
    size_t length = data + 8;

    message[0] = 0xFF;
    message[1] = 0xFE;
    message[2] = 1;
    message[3] = code;
    set_length_field(data);
    fill_random(8, length);
    seal(length);
    return length;
}

static size_t make_from_hex(const char *hex)
{
    size_t length = strlen(hex) / 2;

    for (size_t i = 0; i < length; i++) {
        char digits[3] = {hex[2 * i], hex[2 * i + 1], 0};

        message[i] = (uint8_t)strtoul(digits, NULL, 16);
    }
    return length;
}

/* The inputs. */

/* Values that 01 and the sources print. */
static void try_printed_checks(void)
{
    static const struct {
        const char *hex;
        unsigned check;
    } printed[] = {
        {"", 0x0000},       {"FFFE011300000000", 0x4C9A},
        {"00", 0x0000},     {"01", 0x1021},
        {"89", 0x00A1},     {"FF", 0x1EF0},
        {"1755", 0xA189}, /* brings the register to A189 */
        {"175500", 0x0000},
    };

    for (size_t i = 0; i < sizeof printed / sizeof printed[0]; i++) {
        size_t length = make_from_hex(printed[i].hex);

        expect("printed check", printed[i].check,
               pcp_check_of_bytes(message, length), message, length);
        compare(length, ANY);
    }
}

/* Every whole message that sources 000, 001 and 003 print. */
static void try_printed_messages(void)
{
    static const struct {
        const char *hex;
        unsigned check;
        int number;
    } printed[] = {
        {"FFFE01134C9A0000", 0x4C9A, 0},
        {"FFFE01138DE300110056302E39000000000000000000000000", 0x8DE3, 0},
        {"FFFE01137AB300110056312E30000000000000000000000000", 0x7AB3, 0},
        {"FFFE011402F7001656312E3000000000000000000000000001F400011234", 0x02F7,
         0},
        {"FFFE01141019001656312E300000000000000000000000000100013D6534", 0x1019,
         0},
        {"FFFE0114D768000100", 0xD768, 0},
        {"FFFE01155618001256312E300000000000000000000000000000", 0x5618, 0},
        {"FFFE0115E107001300000048454C4C4F2C20496F5420534F544121", 0xE107, 0},
        {"FFFE0116850E000100", 0x850E, 0},
        {"FFFE0117CF900000", 0xCF90, 0},
        {"FFFE0117B725000100", 0xB725, 0},
        {"FFFE0118C7D200110056312E30000000000000000000000000", 0xC7D2, 0},
        {"FFFE0118AFA1000100", 0xAFA1, 0},
        /* the misprint of 000, and the message as it should be */
        {"FFFE011402F7001656312E3000000000000000000000000001F400010000", 0x3AE6,
         6},
        {"FFFE01143AE6001656312E3000000000000000000000000001F400010000", 0x3AE6,
         0},
    };

    for (size_t i = 0; i < sizeof printed / sizeof printed[0]; i++) {
        size_t length = make_from_hex(printed[i].hex);

        expect("printed message check", printed[i].check,
               pcp_check_of_message(message, length), message, length);
        compare(length, printed[i].number);
    }
}

/* Byte `at` of a message of this length, damaged and put back. */
static void compare_damaged(size_t length, size_t at, uint8_t change)
{
    message[at] ^= change;
    compare(length, ANY);
    message[at] ^= change;
}

static void try_damaged_bytes(size_t length)
{
    for (size_t at = 0; at < length; at++) {
        for (int bit = 0; length <= 32 && bit < 8; bit++)
            compare_damaged(length, at, (uint8_t)(1 << bit));
        compare_damaged(length, at, (uint8_t)(1 + below(255)));
    }
}

/* The check does not see a change by 0A and C3 in two bytes side by side: in
   the data it goes unnoticed, in the length it gives 7. */
static void try_blind_spot(size_t length)
{
    static const int in_header[] = {3, 3, 4, ANY, ANY, ANY, 7, 7};

    for (size_t at = 0; at + 1 < length; at++) {
        if (at >= 3 && at <= 5)
            continue; /* touches the check field */
        message[at] ^= 0x0A;
        message[at + 1] ^= 0xC3;
        expect("check of changed neighbours", word(message + 4),
               pcp_check_of_message(message, length), message, length);
        compare(length, at < 8 ? in_header[at] : 0);
        message[at] ^= 0x0A;
        message[at + 1] ^= 0xC3;
    }
}

/* Nor does it see two bytes exchanged that are 13 apart, with a byte behind
   them. */
static void try_far_blind_spot(size_t length)
{
    for (size_t at = 8; at + 14 < length; at++) {
        uint8_t first = message[at];

        message[at] = message[at + 13];
        message[at + 13] = first;
        expect("check of exchanged bytes", word(message + 4),
               pcp_check_of_message(message, length), message, length);
        compare(length, 0);
        message[at + 13] = message[at];
        message[at] = first;
    }
}

/* Cut at every length, as it is and with its check made right again. */
static void try_truncated(uint8_t code, size_t data)
{
    static const int missing[] = {3, 3, 4, 5, 6, 6, 6, 6};
    size_t length = make(code, data);

    for (size_t cut = 0; cut < length; cut++)
        compare(cut, cut < 8 ? missing[cut] : ANY);
    for (size_t cut = 0; cut < length; cut++) {
        seal(cut);
        compare(cut, cut < 8 ? missing[cut] : 7);
    }
}

static void try_lengthened(uint8_t code, size_t data)
{
    size_t length = make(code, data);

    for (size_t longer = length + 1; longer <= length + 16; longer++) {
        message[longer - 1] = (uint8_t)below(256);
        compare(longer, ANY);
    }
    for (size_t longer = length + 1; longer <= length + 16; longer++) {
        seal(longer);
        compare(longer, 7);
    }
}

/* A wrong length with a right check is 7; with a wrong one too it is 6. */
static void try_wrong_length_field(uint8_t code, size_t data)
{
    size_t length = make(code, data);

    for (unsigned field = 0; field <= LONGEST_DATA; field += 1 + below(2000)) {
        if (field == data)
            continue;
        set_length_field(field);
        seal(length);
        compare(length, 7);
        message[4 + below(2)] ^= (uint8_t)(1 + below(255));
        compare(length, 6);
    }
}

static void try_messages_of_code(uint8_t code)
{
    static const size_t data[] = {0, 1, 2, 17, 18, 19, 22, 255, 256, 1027};

    for (size_t i = 0; i < sizeof data / sizeof data[0]; i++) {
        size_t length = make(code, data[i]);

        compare(length, 0);
        try_damaged_bytes(length);
        try_blind_spot(length);
        try_far_blind_spot(length);
        try_truncated(code, data[i]);
        try_lengthened(code, data[i]);
        try_wrong_length_field(code, data[i]);
    }
}

/* Every value of each of the first four bytes, with a right check. Of byte 2 the
   lower four bits alone count. */
static void try_header_bytes(void)
{
    static const struct {
        int mask, lowest, highest, number;
    } rule[] = {{0xFF, 0xFF, 0xFF, 3},
                {0xFF, 0xFE, 0xFE, 3},
                {0x0F, 1, 1, 4},
                {0xFF, 19, 24, 5}};

    for (size_t at = 0; at < 4; at++) {
        size_t length = make(20, 22);

        for (int value = 0; value < 256; value++) {
            int bits = value & rule[at].mask;
            int good = rule[at].lowest <= bits && bits <= rule[at].highest;

            message[at] = (uint8_t)value;
            seal(length);
            compare(length, good ? 0 : rule[at].number);
        }
    }
}

/* Every version byte in a message whose check, or whose code and check, are
   wrong: where the byte is bad, it is told first. */
static void try_version_bytes(void)
{
    for (int value = 0; value < 256; value++) {
        int good = value % 16 == 1;
        size_t length = make(20, 22);

        message[2] = (uint8_t)value;
        seal(length);
        message[5] ^= 1;
        compare(length, good ? 6 : 4);
        message[3] = 25;
        compare(length, good ? 5 : 4);
    }
}

/* Too short for a length field, but with a check that matches. */
static void try_short_with_right_check(void)
{
    for (uint8_t code = 19; code <= 24; code++)
        for (size_t length = 4; length <= 7; length++)
            for (int value = 0; value < 256; value++) {
                make(code, 0);
                message[6] = (uint8_t)value;
                seal(length);
                compare(length, 6);
            }
}

/* Yes is any number but 0, and both facts come before the message. */
static void try_facts(void)
{
    static const uint8_t fact[] = {0, 1, 2, 128, 255};
    static const struct {
        const char *hex;
        int number;
    } with[] = {
        {"FFFE0117CF900000", 0},   {"", 3},
        {"FFFF0117CF900000", 3},   {"FFFE0217CF900000", 4},
        {"FFFE0112CF900000", 5},   {"FFFE0117CF910000", 6},
        {"FFFE0117CF90000000", 6},
    };
    size_t facts = sizeof fact / sizeof fact[0];

    for (size_t i = 0; i < sizeof with / sizeof with[0]; i++) {
        size_t length = make_from_hex(with[i].hex);

        for (size_t pair = 0; pair < facts * facts; pair++) {
            uint8_t supported = fact[pair / facts], pcp = fact[pair % facts];
            int yes = with[i].number;

            compare_facts(supported, pcp, message, length,
                          supported == 0 ? 1 : pcp == 0 ? 2 : yes);
        }
        expect("facts beyond a byte", (unsigned)with[i].number,
               pcp_recognise_message(256, -1, message, length), message, length);
    }
}

static void try_random(void)
{
    for (int i = 0; i < 5000; i++) {
        size_t length = below(100);

        fill_random(0, length);
        compare(length, ANY);
    }
    for (int i = 0; i < 5000; i++) {
        size_t length = make((uint8_t)(18 + below(8)), below(600));

        fill_random(length, length + 8);
        for (uint32_t damages = below(3); damages > 0; damages--)
            message[below((uint32_t)length)] = (uint8_t)below(256);
        if (below(2) == 0)
            length = length - 4 + below(9);
        if (below(2) == 0)
            seal(length);
        compare_facts((uint8_t)below(4), (uint8_t)below(4), message, length,
                      ANY);
    }
}

/* The longest message, then longer ones whose length agrees with its field in
   the field's 16 bits only. */
static void try_long(void)
{
    static const size_t length[] = {LONGEST_DATA + 9, LONGEST_DATA + 10,
                                    LONGEST_DATA + 509, 2 * LONGEST_DATA + 9,
                                    LONGEST};

    compare(make(21, LONGEST_DATA), 0);
    for (size_t i = 0; i < sizeof length / sizeof length[0]; i++) {
        make(21, length[i] - 8);
        compare(length[i], 7);
        message[length[i] - 1] ^= 1; /* a change here always shows */
        compare(length[i], 6);
    }
    fill_random(0, LONGEST);
    compare(LONGEST, ANY);
}

/* Numbers that the archive's types cannot hold are refused as bad ones, where
   such a test stands in 01's order.  Cut short, some of them would be good. */

static const int wide[] = {-1,  -128, -256,   255,     256,     257,
                           260, 4096, 0x7F00, 0x10000, INT_MAX, INT_MIN};
enum { WIDE = sizeof wide / sizeof wide[0] };

static uint8_t record[PCP_DEVICE_RECORD], image[PCP_SIZE_MAX], map[1];

static unsigned device_given(const char *hex, int condition, size_t room)
{
    uint8_t reply[PCP_DEVICE_REPLY];
    size_t length = make_from_hex(hex);

    return pcp_device_receive(record, sizeof record, 1, 1, condition, message,
                              length, image, sizeof image, map, sizeof map,
                              reply, room)
        .number;
}

static void expect_refused(const char *what, unsigned number, unsigned got,
                           const uint8_t *before)
{
    expect(what, number, got, record, sizeof record);
    expect("record of a refused call", 0,
           memcmp(before, record, sizeof record) != 0, record, sizeof record);
    compared++;
}

static void try_wide_conditions(void)
{
    static const char query[] = "FFFE01134C9A0000";
    uint8_t before[PCP_DEVICE_RECORD];

    memcpy(before, record, sizeof before);
    for (size_t i = 0; i < WIDE; i++) {
        expect_refused("wide condition", PCP_UNKNOWN_CONDITION,
                       device_given(query, wide[i], PCP_DEVICE_REPLY), before);
        expect_refused("wide condition, short reply", PCP_SHORT_REPLY,
                       device_given(query, wide[i], PCP_DEVICE_REPLY - 1),
                       before);
    }
}

static void try_wide_install_codes(unsigned number)
{
    uint8_t before[PCP_DEVICE_RECORD];

    memcpy(before, record, sizeof before);
    for (size_t i = 0; i < WIDE; i++)
        expect_refused("wide installer code", number,
                       pcp_device_install_finished(record, sizeof record,
                                                   wide[i]),
                       before);
}

/* The download that 01 prints brings the device to Installing. */
static void try_wide_at_device(void)
{
    static const char *const download[] = {
        "FFFE01143AE6001656312E3000000000000000000000000001F400010000",
        "FFFE0115E107001300000048454C4C4F2C20496F5420534F544121",
        "FFFE0117CF900000"};

    expect("making", 0, pcp_device_new(record, sizeof record, "V0.9", 4),
           record, sizeof record);
    try_wide_conditions();
    try_wide_install_codes(PCP_NO_USE);
    for (size_t i = 0; i < sizeof download / sizeof download[0]; i++)
        expect("download", 0,
               device_given(download[i], PCP_READY, PCP_DEVICE_REPLY), record,
               sizeof record);
    try_wide_install_codes(PCP_BAD_INSTALL_CODE);
    expect("installer code", 0,
           pcp_device_install_finished(record, sizeof record, PCP_INSTALLED),
           record, sizeof record);
}

static unsigned started(const char *version, size_t size, size_t package)
{
    return pcp_gateway_start(record, sizeof record, version, 4, size, image,
                             package, 1);
}

static void try_wide_sizes(void)
{
    static const size_t size[] = {65536 + PCP_SIZE_MAX,
                                  65536 + PCP_SIZE_MIN,
                                  65536,
                                  131072 + 256,
                                  (size_t)INT_MAX + 1 + PCP_SIZE_MAX,
                                  SIZE_MAX - 65535 + PCP_SIZE_MAX,
                                  SIZE_MAX};
    uint8_t before[PCP_DEVICE_RECORD];

    memcpy(before, record, sizeof before);
    for (size_t i = 0; i < sizeof size / sizeof size[0]; i++) {
        expect_refused("wide size", PCP_BAD_SIZE,
                       started("V1.0", size[i], sizeof image), before);
        expect_refused("wide size, no package", PCP_BAD_SIZE,
                       started("V1.0", size[i], 0), before);
        expect_refused("wide size, bad version", PCP_BAD_VERSION_TEXT,
                       started("V1\n0", size[i], sizeof image), before);
    }
    for (size_t i = PCP_SIZE_MIN - 1; i <= PCP_SIZE_MAX + 1; i++)
        expect("size", i < 32 || i > 1024 ? PCP_BAD_SIZE : 0,
               started("V1.0", i, sizeof image), record, sizeof record);
    expect("size", 0, started("V1.0", 1024, sizeof image), record,
           sizeof record);
}

/* Every byte at every place of a version text, made, started, announced and
   held.  A 00 ends the text, and must have none behind it. */

static int in_version(int byte)
{
    static const char in[] = "ABCDEFGHIJKLMNOPQRSTUVWXYZ"
                             "abcdefghijklmnopqrstuvwxyz0123456789_-.";

    return byte != 0 && byte < 128 && strchr(in, byte) != NULL;
}

static void try_text(const char *text, int good)
{
    uint8_t made[PCP_DEVICE_RECORD] = {0}, reply[PCP_DEVICE_REPLY];
    size_t length = make(PCP_ANNOUNCE, 22);

    expect("text made", good ? 0 : PCP_BAD_VERSION_TEXT,
           pcp_device_new(made, sizeof made, text, PCP_VERSION_LENGTH),
           (const uint8_t *)text, PCP_VERSION_LENGTH);
    expect("text started", good ? 0 : PCP_BAD_VERSION_TEXT,
           pcp_gateway_start(made, sizeof made, text, PCP_VERSION_LENGTH, 32,
                             image, 32, 1),
           (const uint8_t *)text, PCP_VERSION_LENGTH);
    pcp_device_new(made, sizeof made, "V0.9", 4);
    memcpy(message + 8, text, PCP_VERSION_LENGTH);
    memcpy(message + 24, "\0\x20\0\1\0\0", 6);
    seal(length);
    expect("text announced", good ? 0 : PCP_BAD_DATA,
           pcp_device_receive(made, sizeof made, 1, 1, PCP_READY, message,
                              length, image, sizeof image, map, sizeof map,
                              reply, sizeof reply)
               .number,
           message, length);
    pcp_device_new(made, sizeof made, "V0.9", 4);
    memcpy(made + 1, text, PCP_VERSION_LENGTH);
    expect("text held", good ? PCP_NO_USE : PCP_BAD_RECORD,
           pcp_device_install_finished(made, sizeof made, PCP_INSTALLED), made,
           sizeof made);
    compared++;
}

static void try_texts(void)
{
    for (int place = 0; place < PCP_VERSION_LENGTH; place++)
        for (int byte = 0; byte < 256; byte++) {
            char text[PCP_VERSION_LENGTH];

            memset(text, 'V', sizeof text);
            text[place] = (char)byte;
            try_text(text, in_version(byte) ||
                               (byte == 0 && place == PCP_VERSION_LENGTH - 1));
        }
}

/* What answers say of record, image and map.  Each call is made once more on an
   image in which every byte is another: a byte that is then the same in both
   was written. */

enum { ANSWERS = 40000, ROOM = 1024 };

typedef struct {
    uint8_t record[PCP_DEVICE_RECORD], image[ROOM], map[2];
} device;

/* How often the random calls met a case that the test is about. */
static struct {
    unsigned long stored, short_last, reserved, repeated, differed, changed,
        unchanged, refused, phases[7];
} met;

static void set_word(size_t at, unsigned value)
{
    message[at] = (uint8_t)(value / 256);
    message[at + 1] = (uint8_t)(value % 256);
}

static size_t make_announcement(void)
{
    static const unsigned size[] = {31, 32, 33, 100, 1024};
    size_t length = make(PCP_ANNOUNCE, 22);

    memset(message + 8, 0, PCP_VERSION_LENGTH);
    memcpy(message + 8, below(8) == 0 ? "V0.9" : "V1.0", 4);
    set_word(24, size[below(5)]);
    set_word(26, 1 + below(9));
    set_word(28, below(2));
    return length;
}

/* Mostly one that the download held has a place for, and at times with the bytes
   that stand there. */
static size_t make_fragment(const device *d)
{
    unsigned size = pcp_device_size(d->record);
    unsigned total = pcp_device_total(d->record), index = below(total + 1);
    unsigned data = index + 1 < total ? size : 1 + below(size + 1);
    size_t length = make(PCP_FRAGMENT, 3 + data);

    message[8] = 0x00;
    set_word(9, index);
    if (below(4) > 0 && (size_t)index * size + data <= ROOM)
        memcpy(message + 11, d->image + (size_t)index * size, data);
    if (below(40) == 0) {
        static const uint8_t result[] = {0x80, 0x81, 0x82};

        length = make(PCP_FRAGMENT, 3);
        message[8] = result[below(3)];
    }
    return length;
}

static size_t make_to_device(const device *d)
{
    uint32_t choice = below(40);
    size_t length;

    if (choice == 0)
        length = make_announcement();
    else if (choice == 1)
        length = make(PCP_QUERY, 0);
    else if (choice == 2)
        length = make(PCP_EXECUTE, 0);
    else if (choice < 5) {
        length = make(choice == 3 ? PCP_DOWNLOAD_RESULT : PCP_UPGRADE_RESULT, 1);
        message[8] = below(4) == 0 ? 0x80 : 0x00;
    } else
        length = make_fragment(d);
    if (below(4) == 0)
        message[2] |= (uint8_t)(16 * below(16)); /* reserved bits */
    seal(length);
    if (below(20) == 0)
        message[below((uint32_t)length)] ^= (uint8_t)(1 + below(255));
    return length;
}

static pcp_answer give(device *d, size_t length, int condition, size_t room)
{
    uint8_t reply[PCP_DEVICE_REPLY];

    return pcp_device_receive(d->record, sizeof d->record, 1, 1, condition,
                              message, length, d->image, sizeof d->image,
                              d->map, sizeof d->map, reply, room);
}

static void expect_written(pcp_answer answer, const device *d,
                           const device *other)
{
    size_t from = answer.image_at, to = from + answer.image_length;

    expect("image bytes told", 1, to <= ROOM, message, 11);
    for (size_t i = 0; i < ROOM; i++) {
        int told = i >= from && i < to;

        expect("image byte written", (unsigned)told,
               d->image[i] == other->image[i], message, 11);
        if (told)
            expect("image byte", message[11 + i - from], d->image[i], message,
                   11);
    }
}

static void note_met(pcp_answer answer, const device *d)
{
    met.stored += answer.image_length > 0;
    met.short_last += answer.image_length > 0 &&
                      answer.image_length < pcp_device_size(d->record);
    met.reserved += answer.number == PCP_HANDLED && message[2] != 1;
    met.repeated += answer.number == PCP_ALREADY_STORED;
    met.differed += answer.number == PCP_REPEAT_DIFFERS;
    met.changed += answer.changed;
    met.unchanged += answer.number == PCP_HANDLED && !answer.changed;
    met.refused += answer.number != PCP_HANDLED;
    met.phases[pcp_device_phase(d->record)]++;
}

static void try_answer(device *d)
{
    device before = *d, other = *d;
    size_t length = make_to_device(d);
    int condition = below(10) == 0 ? PCP_BUSY : PCP_READY;
    size_t room = below(20) == 0 ? PCP_DEVICE_REPLY - 1 : PCP_DEVICE_REPLY;
    pcp_answer answer = give(d, length, condition, room), again;
    int changed = memcmp(&before.record, d->record, sizeof d->record) != 0;

    for (size_t i = 0; i < ROOM; i++)
        other.image[i] ^= 0xFF;
    again = give(&other, length, condition, room);
    if (answer.number == PCP_ALREADY_STORED) /* then every byte differs */
        expect("repeat with another image", PCP_REPEAT_DIFFERS, again.number,
               message, length);
    else if (answer.number != PCP_REPEAT_DIFFERS)
        expect("number with another image", answer.number, again.number,
               message, length);
    expect("changed", (unsigned)changed, answer.changed, message, length);
    if (!changed)
        expect("map of an unchanged record", 0,
               memcmp(before.map, d->map, sizeof d->map) != 0, message, length);
    if (answer.number == PCP_REPEAT_DIFFERS) {
        before.record[0] = PCP_DEVICE_FAILED;
        expect("a repeat that differs changes the phase alone", 0,
               memcmp(before.record, d->record, sizeof d->record) != 0 ||
                   memcmp(before.map, d->map, sizeof d->map) != 0,
               message, length);
    } else if (answer.number != PCP_HANDLED)
        expect("refused, but changed", 0, (unsigned)changed, message, length);
    expect_written(answer, d, &other);
    note_met(answer, d);
    compared++;
}

static void expect_met(const char *what, unsigned long times)
{
    expect(what, 1, times >= 100, record, 0);
}

static void try_answers(void)
{
    static device d;

    expect("making", 0, pcp_device_new(d.record, sizeof d.record, "V0.9", 4),
           d.record, sizeof d.record);
    for (int i = 0; i < ANSWERS; i++) {
        try_answer(&d);
        if (pcp_device_phase(d.record) == PCP_DEVICE_INSTALLING &&
            below(10) == 0)
            pcp_device_install_finished(d.record, sizeof d.record,
                                        PCP_INSTALL_FAILED);
    }
    expect_met("fragments stored", met.stored);
    expect_met("short last fragments", met.short_last);
    expect_met("reserved bits handled", met.reserved);
    expect_met("repeats", met.repeated);
    expect_met("repeats that differ", met.differed);
    expect_met("changes", met.changed);
    expect_met("handled without a change", met.unchanged);
    expect_met("refusals", met.refused);
    for (int phase = 0; phase < 7; phase++)
        expect_met("phase", met.phases[phase]);
}

/* The looks, against the fields of an announcement as they were sent. */
static void try_looks(void)
{
    device d;
    size_t length = make_announcement();

    set_word(24, 33);
    set_word(26, 9);
    set_word(28, 0x1234);
    message[9] = '2';
    seal(length);
    pcp_device_new(d.record, sizeof d.record, "V0.9", 4);
    expect("announcement", 0,
           give(&d, length, PCP_READY, PCP_DEVICE_REPLY).number, message,
           length);
    expect("running", 0, memcmp(pcp_device_running(d.record), "V0.9\0", 5) != 0,
           message, length);
    expect("target", 0,
           memcmp(pcp_device_target(d.record), message + 8,
                  PCP_VERSION_LENGTH) != 0,
           message, length);
    expect("size", 33, pcp_device_size(d.record), message, length);
    expect("total", 9, pcp_device_total(d.record), message, length);
    expect("code", 0x1234, pcp_device_code(d.record), message, length);
    expect("stored", 0, pcp_device_stored(d.record), message, length);
    expect("map length", 2, pcp_device_map_length(d.record), message, length);
    compared++;
}

/* Digests.  The package is the fragment that 01 prints, its digest is md5sum's;
   the code is its check, or 0. */

static const uint8_t hello_digest[PCP_DIGEST_LENGTH] = {
    0xC9, 0xAB, 0xE6, 0xC6, 0xC4, 0xA2, 0xD1, 0x2B,
    0xD3, 0x3E, 0x63, 0x89, 0x1A, 0xA4, 0x31, 0x33};
static const char hello[] =
    "FFFE0115E107001300000048454C4C4F2C20496F5420534F544121";

enum { DIGEST_SET = 44, DIGEST = 45 }; /* places in the record */

/* The announcement that 01 prints, with this code; the phase after it. */
static unsigned announce_hello(unsigned code)
{
    uint8_t reply[PCP_DEVICE_REPLY];
    size_t length = make_from_hex(
        "FFFE01143AE6001656312E3000000000000000000000000001F400010000");

    set_word(28, code);
    seal(length);
    expect("announcement", 0,
           pcp_device_receive(record, sizeof record, 1, 1, PCP_READY, message,
                              length, image, sizeof image, map, sizeof map,
                              reply, sizeof reply)
               .number,
           message, length);
    return pcp_device_phase(record);
}

/* A digest is given, of the first bytes of one, or as NULL if there are none;
   nothing but flag and digest changes, and nothing at all if it is refused. */
static void give_digest(const char *what, const uint8_t *digest, size_t length,
                        unsigned number)
{
    uint8_t expected[PCP_DEVICE_RECORD];

    memcpy(expected, record, sizeof expected);
    if (number == PCP_HANDLED) {
        expected[DIGEST_SET] = 1;
        memcpy(expected + DIGEST, digest, PCP_DIGEST_LENGTH);
    }
    expect(what, number,
           pcp_device_give_digest(record, sizeof record,
                                  length == 0 ? NULL : digest, length),
           record, sizeof record);
    expect("record after a digest", 0,
           memcmp(expected, record, sizeof record) != 0, record, sizeof record);
    compared++;
}

static void expect_set(const char *what, int set, const uint8_t *digest)
{
    static const uint8_t zeros[PCP_DIGEST_LENGTH] = {0};

    expect(what, (unsigned)set, record[DIGEST_SET], record, sizeof record);
    expect(what, (unsigned)set, pcp_device_digest_set(record), record,
           sizeof record);
    expect(what, 0,
           memcmp(record + DIGEST, set ? digest : zeros, sizeof zeros) != 0,
           record, sizeof record);
    expect(what, 0,
           memcmp(pcp_device_digest(record), record + DIGEST, sizeof zeros) != 0,
           record, sizeof record);
    compared++;
}

/* The phase in which the download ends with a digest of which one bit is
   changed; 128: none. */
static unsigned hello_ended(unsigned code, unsigned bit)
{
    uint8_t digest[PCP_DIGEST_LENGTH + 1] = {0};

    memcpy(digest, hello_digest, sizeof hello_digest);
    digest[bit / 8] ^= (uint8_t)(1 << bit % 8);
    pcp_device_new(record, sizeof record, "V0.9", 4);
    announce_hello(code);
    give_digest("digest", digest, PCP_DIGEST_LENGTH, 0);
    device_given(hello, PCP_READY, PCP_DEVICE_REPLY);
    expect_set("digest after the download", 1, digest);
    return pcp_device_phase(record);
}

static void try_digests_tested(void)
{
    unsigned check = own_check((const uint8_t *)"HELLO, IoT SOTA!", 16);

    for (unsigned bit = 0; bit <= 8 * PCP_DIGEST_LENGTH; bit++) {
        unsigned ended = bit == 8 * PCP_DIGEST_LENGTH ? PCP_DEVICE_LOADED
                                                      : PCP_DEVICE_FAILED;

        expect("download with a digest", ended, hello_ended(check, bit), record,
               sizeof record);
        expect("download with a digest, no code", ended, hello_ended(0, bit),
               record, sizeof record);
        expect("download with a digest, wrong code", PCP_DEVICE_FAILED,
               hello_ended(check ^ 1, bit), record, sizeof record);
    }
}

/* 9 outside Loading, 64 for another length, 29 for a flag that is none; a digest
   replaces another, a resume keeps it, another announcement clears it. */
static void try_digests_given(void)
{
    static const uint8_t zeros[PCP_DIGEST_LENGTH] = {0};
    uint8_t longer[2 * PCP_DIGEST_LENGTH] = {0};
    unsigned check = own_check((const uint8_t *)"HELLO, IoT SOTA!", 16);

    pcp_device_new(record, sizeof record, "V0.9", 4);
    expect_set("digest of a new record", 0, NULL);
    give_digest("digest in Idle", hello_digest, PCP_DIGEST_LENGTH, PCP_NO_USE);
    announce_hello(check);
    for (size_t length = 0; length <= sizeof longer; length++)
        give_digest("digest of a length", longer, length,
                    length == PCP_DIGEST_LENGTH ? 0 : PCP_SHORT_RECORD);
    expect_set("digest of zeros", 1, zeros);
    give_digest("second digest", hello_digest, PCP_DIGEST_LENGTH, 0);
    expect("resume", PCP_DEVICE_LOADING, announce_hello(check), record, 0);
    expect_set("digest after a resume", 1, hello_digest);
    expect("recut", PCP_DEVICE_LOADING, announce_hello(check ^ 1), record, 0);
    expect_set("digest after another announcement", 0, NULL);
    for (int flag = 2; flag < 256; flag++) {
        record[DIGEST_SET] = (uint8_t)flag;
        give_digest("digest over a bad flag", hello_digest, PCP_DIGEST_LENGTH,
                    PCP_BAD_RECORD);
        expect("bad flag", PCP_BAD_RECORD,
               device_given(hello, PCP_READY, PCP_DEVICE_REPLY), record,
               sizeof record);
    }
    give_digest("64 before 29", hello_digest, PCP_DIGEST_LENGTH - 1,
                PCP_SHORT_RECORD);
    expect("short record", PCP_SHORT_RECORD,
           pcp_device_give_digest(record, PCP_DEVICE_RECORD - 1, hello_digest,
                                  PCP_DIGEST_LENGTH),
           record, sizeof record);
    expect("no record", PCP_SHORT_RECORD,
           pcp_device_give_digest(NULL, 0, hello_digest, PCP_DIGEST_LENGTH),
           record, sizeof record);
}

/* Captures.  The bytes at work: 55, a query toward the device, an empty record
   from it, 4C, and behind that 55. */

static uint8_t capture[24];
enum { CAPTURE = 18 }; /* the bytes of it that are read */

/* A record of the first bytes of the message at work; none are lent as NULL. */
static void try_record(const char *what, int toward, size_t length,
                       uint8_t *buffer, size_t room, size_t at, unsigned number)
{
    const uint8_t *lent = length == 0 ? NULL : message;
    pcp_written written =
        pcp_capture_write(toward, lent, length, buffer, room, at);
    size_t next = number == PCP_HANDLED ? at + 4 + length : at;

    expect(what, number, written.number, message, length);
    expect(what, 1, written.next == next, message, length);
    compared++;
}

static void try_records(void)
{
    static const uint8_t bytes[] = {
        0x55, 0x4C, 0x3E, 0x00, 0x08, 0xFF, 0xFE, 0x01, 0x13, 0x4C, 0x9A, 0x00,
        0x00, 0x4C, 0x3C, 0x00, 0x00, 0x4C, 0x55, 0x55, 0x55, 0x55, 0x55, 0x55};
    size_t length = make_from_hex("FFFE01134C9A0000"), room = sizeof capture;

    memset(capture, 0x55, room);
    capture[17] = 0x4C;
    try_record("record", 1, length, capture, room, 1, 0);
    try_record("empty record", 0, 0, capture, room, 13, 0);
    try_record("one byte short", 1, length, capture, room, 13, 22);
    try_record("at the end", 1, 0, capture, room, room, 22);
    try_record("far away", 1, 0, capture, room, SIZE_MAX, 22);
    try_record("in no buffer", 1, 0, NULL, 0, 0, 22);
    expect("capture", 0, memcmp(capture, bytes, sizeof bytes) != 0, capture,
           room);
    for (size_t i = 0; i < WIDE; i++) { /* any number but 0 is toward */
        uint8_t written[4];

        try_record("wide direction", wide[i], 0, written, sizeof written, 0, 0);
        expect("wide direction", 0, memcmp(written, "\x4C\x3E\0\0", 4) != 0,
               written, sizeof written);
    }
}

static void expect_item(const char *what, pcp_item item, unsigned kind,
                        size_t start, size_t length, size_t next)
{
    int is_there =
        item.start == start && item.length == length && item.next == next;

    expect(what, kind, item.kind, capture, CAPTURE);
    expect(what, 1, (unsigned)is_there, capture, CAPTURE);
    compared++;
}

static void try_items(void)
{
    static const struct {
        size_t at;
        unsigned kind;
        size_t start, next, mended;
    } item[] = {
        {0, PCP_BAD_MARK, 0, 0, 1},
        {1, PCP_ITEM_TO_DEVICE, 5, 13, 13},
        {2, PCP_BAD_MARK, 2, 2, CAPTURE},
        {13, PCP_ITEM_FROM_DEVICE, 17, 17, 17},
        {17, PCP_CUT_SHORT, 17, 17, CAPTURE},
        {CAPTURE, PCP_ITEM_END, CAPTURE, CAPTURE, CAPTURE},
        {19, PCP_ITEM_END, 19, 19, 19},
        {SIZE_MAX, PCP_ITEM_END, SIZE_MAX, SIZE_MAX, SIZE_MAX},
    };

    for (size_t i = 0; i < sizeof item / sizeof item[0]; i++) {
        size_t at = item[i].at, start = item[i].start;

        expect_item("next", pcp_capture_next(capture, CAPTURE, at),
                    item[i].kind, start, item[i].next - start, item[i].next);
        expect_item("mended", pcp_capture_mended(capture, CAPTURE, at),
                    item[i].kind, start, item[i].mended - start,
                    item[i].mended);
    }
    expect_item("nothing", pcp_capture_next(NULL, 0, 0), 0, 0, 0, 0);
    expect_item("nothing mended", pcp_capture_mended(NULL, 0, 0), 0, 0, 0, 0);
}

/* The longest message fills its buffer, right before memory that cannot be
   used.  A longer one, or a shorter buffer, is refused. */
static void try_longest_record(void)
{
    size_t most = PCP_CAPTURE_MESSAGE_MOST, all = 4 + most;
    uint8_t *buffer = guard - all, *longer = buffer - 1;

    fill_random(0, most + 1);
    memset(longer, 0x55, all + 1);
    try_record("longest, one byte short", 0, most, buffer + 1, all - 1, 0, 22);
    try_record("longer", 0, most + 1, longer, all + 1, 0, 22);
    for (size_t i = 0; i <= all; i++)
        expect("refused record", 0x55, longer[i], message, most);
    try_record("longest", 0, most, buffer, all, 0, 0);
    expect("longest record", 0,
           memcmp(buffer, "\x4C\x3C\xFF\xFF", 4) != 0 ||
               memcmp(buffer + 4, message, most) != 0,
           message, most);
    expect_item("longest", pcp_capture_next(buffer, all, 0),
                PCP_ITEM_FROM_DEVICE, 4, most, all);
    expect_item("longest cut", pcp_capture_next(buffer, all - 1, 0),
                PCP_CUT_SHORT, 0, 0, 0);
}

/* Digests.  No bytes are lent as NULL. */

enum { BEHIND = 9 }; /* bytes behind a state */

static const uint8_t *or_null(const uint8_t *bytes, size_t length)
{
    return length == 0 ? NULL : bytes;
}

static void expect_digest(const char *what, const char *hex,
                          const uint8_t *digest)
{
    char found[2 * PCP_DIGEST_LENGTH + 1];

    for (size_t i = 0; i < PCP_DIGEST_LENGTH; i++)
        snprintf(found + 2 * i, 3, "%02x", digest[i]);
    expect(what, 0, strcmp(hex, found) != 0, digest, PCP_DIGEST_LENGTH);
    compared++;
}

/* In two pieces, with an empty one between them.  Finishing is done twice: it
   changes no state, and what is behind that stays. */
static void try_pieces(const uint8_t *bytes, size_t length, size_t cut,
                       const char *hex)
{
    uint8_t state[PCP_MD5_STATE + BEHIND], before[sizeof state];
    uint8_t digest[PCP_DIGEST_LENGTH];
    unsigned number;

    memset(state, 0x55, sizeof state);
    number = pcp_md5_new(state, sizeof state);
    number |= pcp_md5_feed(state, sizeof state, or_null(bytes, cut), cut);
    number |= pcp_md5_feed(state, sizeof state, NULL, 0);
    number |= pcp_md5_feed(state, sizeof state,
                           or_null(bytes + cut, length - cut), length - cut);
    memcpy(before, state, sizeof before);
    for (int times = 0; times < 2; times++) {
        memset(digest, 0, sizeof digest);
        number |= pcp_md5_finish(state, sizeof state, digest, sizeof digest);
        expect_digest("digest of pieces", hex, digest);
    }
    expect("pieces", 0, number, bytes, length);
    expect("finished state", 0, memcmp(before, state, sizeof state) != 0, state,
           sizeof state);
    for (size_t i = PCP_MD5_STATE; i < sizeof state; i++)
        expect("behind the state", 0x55, state[i], state, sizeof state);
}

/* The test suite of RFC 1321 (A.5), right before memory that cannot be read. */
static void try_suite(void)
{
    static const struct {
        const char *text, *digest;
    } suite[] = {
        {"", "d41d8cd98f00b204e9800998ecf8427e"},
        {"a", "0cc175b9c0f1b6a831c399e269772661"},
        {"abc", "900150983cd24fb0d6963f7d28e17f72"},
        {"message digest", "f96b697d7cb7938d525a2f31aaf161d0"},
        {"abcdefghijklmnopqrstuvwxyz", "c3fcd3d76192e4007dfb496cca67e13b"},
        {"ABCDEFGHIJKLMNOPQRSTUVWXYZabcdefghijklmnopqrstuvwxyz0123456789",
         "d174ab98d277d9f5a5611c2c9f419d9f"},
        {"1234567890123456789012345678901234567890"
         "1234567890123456789012345678901234567890",
         "57edf4a22be3c955ac49da2e2107b67a"},
    };

    for (size_t i = 0; i < sizeof suite / sizeof suite[0]; i++) {
        size_t length = strlen(suite[i].text);
        uint8_t *lent = guard - length, digest[PCP_DIGEST_LENGTH];

        memcpy(lent, suite[i].text, length);
        expect("digest", 0,
               pcp_md5(or_null(lent, length), length, digest, sizeof digest),
               lent, length);
        expect_digest("digest", suite[i].digest, digest);
        for (size_t cut = 0; cut <= length; cut++)
            try_pieces(lent, length, cut, suite[i].digest);
    }
}

/* Buffers of other lengths are refused, and stay. */
static void try_digest_lengths(void)
{
    static const size_t states[] = {0, 1, 16, 87};
    static const size_t digests[] = {0, 1, 15, 17, 88};
    uint8_t state[PCP_MD5_STATE], bytes[PCP_MD5_STATE];

    memset(bytes, 0x55, sizeof bytes);
    for (size_t i = 0; i < sizeof states / sizeof states[0]; i++) {
        uint8_t *lent = states[i] == 0 ? NULL : bytes;
        uint8_t digest[PCP_DIGEST_LENGTH] = {0};

        expect("short state made", PCP_SHORT_RECORD,
               pcp_md5_new(lent, states[i]), bytes, states[i]);
        expect("short state fed", PCP_SHORT_RECORD,
               pcp_md5_feed(lent, states[i], message, 64), bytes, states[i]);
        expect("short state finished", PCP_SHORT_RECORD,
               pcp_md5_finish(lent, states[i], digest, sizeof digest), bytes,
               states[i]);
        for (size_t j = 0; j < sizeof digest; j++)
            expect("digest of a short state", 0, digest[j], digest,
                   sizeof digest);
    }
    expect("state made", 0, pcp_md5_new(state, sizeof state), state,
           sizeof state);
    for (size_t i = 0; i < sizeof digests / sizeof digests[0]; i++) {
        uint8_t *lent = digests[i] == 0 ? NULL : bytes;

        expect("digest of another length", PCP_SHORT_RECORD,
               pcp_md5(message, 64, lent, digests[i]), bytes, digests[i]);
        expect("digest of another length, finished", PCP_SHORT_RECORD,
               pcp_md5_finish(state, sizeof state, lent, digests[i]), bytes,
               digests[i]);
        compared++;
    }
    for (size_t i = 0; i < sizeof bytes; i++)
        expect("refused buffer", 0x55, bytes[i], bytes, sizeof bytes);
}

/* A device in Loading is given the digest of what it downloads, and before that
   some that are none. */
static void try_given_digest(void)
{
    static const size_t lengths[] = {0, 1, 15, 17, 32};
    uint8_t before[PCP_DEVICE_RECORD], digest[32] = {0};

    expect("making", 0, pcp_device_new(record, sizeof record, "V0.9", 4),
           record, sizeof record);
    expect("announcement", 0,
           device_given("FFFE01143AE6001656312E30000000000000000000000000"
                        "01F400010000",
                        PCP_READY, PCP_DEVICE_REPLY),
           record, sizeof record);
    memcpy(before, record, sizeof before);
    for (size_t i = 0; i < sizeof lengths / sizeof lengths[0]; i++)
        expect_refused("digest given of another length", PCP_SHORT_RECORD,
                       pcp_device_give_digest(record, sizeof record,
                                              lengths[i] == 0 ? NULL : digest,
                                              lengths[i]),
                       before);
    pcp_md5((const uint8_t *)"HELLO, IoT SOTA!", 16, digest,
            PCP_DIGEST_LENGTH);
    expect("digest given", 0,
           pcp_device_give_digest(record, sizeof record, digest,
                                  PCP_DIGEST_LENGTH),
           record, sizeof record);
    expect("fragment", 0,
           device_given("FFFE0115E107001300000048454C4C4F2C20496F5420534F544121",
                        PCP_READY, PCP_DEVICE_REPLY),
           record, sizeof record);
    expect("phase", PCP_DEVICE_LOADED, pcp_device_phase(record), record,
           sizeof record);
    compared++;
}

/* The longest input, whole and in random pieces. */
static void try_long_digest(void)
{
    uint8_t state[PCP_MD5_STATE];
    uint8_t whole[PCP_DIGEST_LENGTH], pieces[PCP_DIGEST_LENGTH];

    fill_random(0, LONGEST);
    pcp_md5(message, LONGEST, whole, sizeof whole);
    pcp_md5_new(state, sizeof state);
    for (size_t at = 0, n; at < LONGEST; at += n) {
        n = at_most(LONGEST - at, below(2) == 0 ? below(200) : below(100000));
        pcp_md5_feed(state, sizeof state, message + at, n);
    }
    pcp_md5_finish(state, sizeof state, pieces, sizeof pieces);
    expect("digest of a long input", 0,
           memcmp(whole, pieces, sizeof whole) != 0, pieces, sizeof pieces);
    compared++;
}

int main(void)
{
    uint8_t *room = mmap(NULL, (size_t)LONGEST + GUARD, PROT_READ | PROT_WRITE,
                         MAP_PRIVATE | MAP_ANONYMOUS, -1, 0);

    if (room == MAP_FAILED || mprotect(room + LONGEST, GUARD, PROT_NONE) != 0) {
        perror("c host");
        return 2;
    }
    guard = room + LONGEST;
    fill_table();

    try_printed_checks();
    try_printed_messages();
    for (uint8_t code = 19; code <= 24; code++)
        try_messages_of_code(code);
    try_header_bytes();
    try_version_bytes();
    try_short_with_right_check();
    try_facts();
    try_random();
    try_long();
    try_wide_at_device();
    try_wide_sizes();
    try_texts();
    try_answers();
    try_looks();
    try_digests_given();
    try_digests_tested();
    try_records();
    try_items();
    try_longest_record();
    try_suite();
    try_digest_lengths();
    try_given_digest();
    try_long_digest();

    printf("c host: %lu compared, %lu different\n", compared, different);
    return different == 0 ? EXIT_SUCCESS : EXIT_FAILURE;
}
