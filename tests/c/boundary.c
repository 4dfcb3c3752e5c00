/* The library as a host in C calls it.  Each call of the runners differential
   and captures passes through here, to the headers' functions, with copies of
   its buffers: in allocations of exactly their size, then right before memory
   that cannot be used, then right behind such memory.  A use of a byte outside
   stops the program; so does a result that depends on the place. */
#define _DEFAULT_SOURCE /* for MAP_ANONYMOUS */

/* Linked with --wrap for each of the archive's symbols: what the runner calls
   is the function __wrap_ below, and what the headers call is __real_, the
   archive's own. */
#define pcp_check __real_pcp_check
#define pcp_message_check __real_pcp_message_check
#define pcp_recognise __real_pcp_recognise
#define pcp_raw_device_new __real_pcp_raw_device_new
#define pcp_raw_device_receive __real_pcp_raw_device_receive
#define pcp_raw_device_next_message __real_pcp_raw_device_next_message
#define pcp_raw_device_install_finished __real_pcp_raw_device_install_finished
#define pcp_raw_device_give_digest __real_pcp_raw_device_give_digest
#define pcp_raw_gateway_start __real_pcp_raw_gateway_start
#define pcp_raw_gateway_receive __real_pcp_raw_gateway_receive
#define pcp_raw_gateway_next_message __real_pcp_raw_gateway_next_message
#define pcp_raw_capture_kind __real_pcp_raw_capture_kind
#define pcp_raw_capture_next __real_pcp_raw_capture_next
#define pcp_raw_capture_mended __real_pcp_raw_capture_mended
#define pcp_raw_capture_write __real_pcp_raw_capture_write
#define pcp_raw_md5 __real_pcp_raw_md5
#define pcp_raw_md5_new __real_pcp_raw_md5_new
#define pcp_raw_md5_feed __real_pcp_raw_md5_feed
#define pcp_raw_md5_finish __real_pcp_raw_md5_finish
#include "pcp_capture.h"
#include "pcp_md5.h"

#include <stdio.h>
#include <stdlib.h>
#include <string.h>
#include <sys/mman.h>

enum {
    ROOM = 1 << 22, /* more than any buffer of the runner */
    GUARD = 1 << 16 /* a whole number of pages */
};

/* The buffers that a call may have.  MD5's state is lent as RECORD, a digest
   that is written as REPLY. */
enum { RECORD, INPUT, IMAGE, MAP, PACKAGE, REPLY, CAPTURE, BUFFERS };

/* Where their copies are. */
enum { ALLOCATED, BEFORE_GUARD, BEHIND_GUARD, PLACES };

typedef struct {
    const uint8_t *bytes;
    uint8_t *writable; /* the same; NULL if the call may only read them */
    size_t length;
} buffer;

typedef struct {
    buffer buffers[BUFFERS];
    uint8_t supported, pcp, condition, code, checked, toward;
    uint16_t size;
    size_t at;
} call;

typedef uint64_t function(const call *c, uint8_t *const at[BUFFERS]);

/* The program is stopped by a signal, on which the runner tells the call. */
const char *__asan_default_options(void)
{
    return "abort_on_error=1:handle_segv=0:handle_sigbus=0";
}

static void expect(int holds, const char *what)
{
    if (holds)
        return;
    fprintf(stderr, "boundary: %s\n", what);
    abort();
}

/* A room between two guards, one for each buffer. */
static uint8_t *room_of(int which)
{
    static uint8_t *rooms[BUFFERS];

    if (rooms[which] == NULL) {
        uint8_t *all = mmap(NULL, ROOM + 2 * GUARD, PROT_NONE,
                            MAP_PRIVATE | MAP_ANONYMOUS, -1, 0);

        expect(all != MAP_FAILED, "no memory");
        expect(mprotect(all + GUARD, ROOM, PROT_READ | PROT_WRITE) == 0,
               "no guard");
        rooms[which] = all + GUARD;
    }
    return rooms[which];
}

/* A copy, or NULL for no bytes: the header allows that. */
static uint8_t *copy_to(int place, int which, const buffer *b)
{
    uint8_t *at;

    if (b->length == 0)
        return NULL;
    expect(b->length <= ROOM, "a buffer is longer than its room");
    if (place == ALLOCATED)
        at = malloc(b->length);
    else if (place == BEFORE_GUARD)
        at = room_of(which) + ROOM - b->length;
    else
        at = room_of(which);
    expect(at != NULL, "no memory");
    memcpy(at, b->bytes, b->length);
    return at;
}

static int same(const uint8_t *a, const uint8_t *b, size_t length)
{
    return length == 0 || memcmp(a, b, length) == 0;
}

/* Gives what the call wrote back to the runner, and frees the copies. */
static void give_back(const call *c, uint8_t *const at[BUFFERS])
{
    for (int i = 0; i < BUFFERS; i++) {
        const buffer *b = &c->buffers[i];

        if (b->writable == NULL)
            expect(same(at[i], b->bytes, b->length), "wrote what is only lent");
        else if (b->length > 0)
            memcpy(b->writable, at[i], b->length);
        free(at[i]);
    }
}

static uint64_t make(function *f, const call *c)
{
    uint8_t *first[BUFFERS] = {NULL}, *at[BUFFERS] = {NULL};
    uint64_t result;

    for (int i = 0; i < BUFFERS; i++)
        first[i] = copy_to(ALLOCATED, i, &c->buffers[i]);
    result = f(c, first);
    for (int place = BEFORE_GUARD; place < PLACES; place++) {
        for (int i = 0; i < BUFFERS; i++)
            at[i] = copy_to(place, i, &c->buffers[i]);
        expect(f(c, at) == result, "the result depends on the place");
        for (int i = 0; i < BUFFERS; i++)
            expect(same(at[i], first[i], c->buffers[i].length),
                   "what is written depends on the place");
    }
    give_back(c, first);
    return result;
}

static buffer reads(const uint8_t *bytes, size_t length)
{
    buffer b = {bytes, NULL, length};

    return b;
}

static buffer writes(uint8_t *bytes, size_t length)
{
    buffer b = {bytes, bytes, length};

    return b;
}

static uint32_t packed(pcp_answer answer)
{
    return answer.number + 256u * answer.length;
}

/* These bytes of a buffer are as the call found them. */
static int unchanged(const call *c, uint8_t *const at[BUFFERS], int which,
                     size_t from, size_t to)
{
    return same(at[which] + from, c->buffers[which].bytes + from, to - from);
}

/* What the answer says of record and image is so. */
static void expect_told(const call *c, uint8_t *const at[BUFFERS],
                        pcp_answer answer, size_t record)
{
    size_t image = c->buffers[IMAGE].length, from = answer.image_at;

    if (answer.number == PCP_HANDLED || answer.number == PCP_REPEAT_DIFFERS)
        expect(answer.changed == !unchanged(c, at, RECORD, 0, record),
               "the answer is wrong about the record");
    else
        expect(answer.changed == 0, "a refused call tells of changes");
    if (answer.number != PCP_HANDLED)
        expect(answer.image_length == 0, "a refused call tells of the image");
    if (image == 0)
        return;
    expect(from + answer.image_length <= image &&
               unchanged(c, at, IMAGE, 0, from) &&
               unchanged(c, at, IMAGE, from + answer.image_length, image) &&
               (answer.image_length == 0 ||
                same(at[IMAGE] + from, at[INPUT] + 11, answer.image_length)),
           "the answer is wrong about the image");
}

/* The headers' functions, on copies.  A buffer passes as two arguments. */
#define COPY(which) at[which], c->buffers[which].length

static uint64_t check(const call *c, uint8_t *const at[BUFFERS])
{
    return pcp_check_of_bytes(COPY(INPUT));
}

static uint64_t message_check(const call *c, uint8_t *const at[BUFFERS])
{
    return pcp_check_of_message(COPY(INPUT));
}

static uint64_t recognise(const call *c, uint8_t *const at[BUFFERS])
{
    return pcp_recognise_message(c->supported, c->pcp, COPY(INPUT));
}

static uint64_t device_new(const call *c, uint8_t *const at[BUFFERS])
{
    return pcp_device_new(COPY(RECORD), COPY(INPUT));
}

static uint64_t device_receive(const call *c, uint8_t *const at[BUFFERS])
{
    pcp_answer answer =
        pcp_device_receive(COPY(RECORD), c->supported, c->pcp, c->condition,
                           COPY(INPUT), COPY(IMAGE), COPY(MAP), COPY(REPLY));

    expect_told(c, at, answer, PCP_DEVICE_RECORD);
    return packed(answer);
}

static uint64_t device_next_message(const call *c, uint8_t *const at[BUFFERS])
{
    return packed(pcp_device_next_message(COPY(RECORD), COPY(IMAGE), COPY(MAP),
                                          COPY(REPLY)));
}

static uint64_t device_install_finished(const call *c,
                                        uint8_t *const at[BUFFERS])
{
    return pcp_device_install_finished(COPY(RECORD), c->code);
}

static uint64_t device_give_digest(const call *c, uint8_t *const at[BUFFERS])
{
    return pcp_device_give_digest(COPY(RECORD), COPY(INPUT));
}

static uint64_t gateway_start(const call *c, uint8_t *const at[BUFFERS])
{
    return pcp_gateway_start(COPY(RECORD), COPY(INPUT), c->size, COPY(PACKAGE),
                             c->checked);
}

static uint64_t gateway_receive(const call *c, uint8_t *const at[BUFFERS])
{
    pcp_answer answer =
        pcp_gateway_receive(COPY(RECORD), c->supported, c->pcp, COPY(INPUT),
                            COPY(PACKAGE), COPY(REPLY));

    expect_told(c, at, answer, PCP_GATEWAY_RECORD);
    return packed(answer);
}

static uint64_t gateway_next_message(const call *c, uint8_t *const at[BUFFERS])
{
    return packed(pcp_gateway_next_message(COPY(RECORD), COPY(PACKAGE),
                                           COPY(REPLY)));
}

/* The record of an item stands there: its mark, its length and its message. */
static int is_record(const call *c, uint8_t *const at[BUFFERS], pcp_item item)
{
    const uint8_t *record = at[CAPTURE] + c->at;

    return item.start == c->at + PCP_CAPTURE_HEADER &&
           item.next == item.start + item.length &&
           item.next <= c->buffers[CAPTURE].length && record[0] == 0x4C &&
           record[1] == (item.kind == PCP_ITEM_TO_DEVICE ? 0x3E : 0x3C) &&
           record[2] * 256u + record[3] == item.length;
}

/* What an item says of itself is so.  Bytes passed over are at least one. */
static void expect_item(const call *c, uint8_t *const at[BUFFERS],
                        pcp_item item, int is_mended)
{
    size_t length = c->buffers[CAPTURE].length;

    if (item.kind == PCP_ITEM_TO_DEVICE || item.kind == PCP_ITEM_FROM_DEVICE) {
        expect(is_record(c, at, item), "the item is no such record");
        return;
    }
    expect(item.start == c->at && item.next == c->at + item.length,
           "the item is not at its place");
    if (item.kind == PCP_ITEM_END)
        expect(c->at >= length && item.length == 0, "this is not the end");
    else
        expect(is_mended ? item.length >= 1 && item.next <= length
                         : item.length == 0,
               "the item is no such stretch");
}

static uint64_t capture_kind(const call *c, uint8_t *const at[BUFFERS])
{
    pcp_item item = pcp_capture_next(COPY(CAPTURE), c->at);

    expect_item(c, at, item, 0);
    return item.kind;
}

static uint64_t capture_next(const call *c, uint8_t *const at[BUFFERS])
{
    pcp_item item = pcp_capture_next(COPY(CAPTURE), c->at);

    expect_item(c, at, item, 0);
    return item.next;
}

static uint64_t capture_mended(const call *c, uint8_t *const at[BUFFERS])
{
    pcp_item item = pcp_capture_mended(COPY(CAPTURE), c->at);

    expect_item(c, at, item, 1);
    return item.next;
}

static uint64_t capture_write(const call *c, uint8_t *const at[BUFFERS])
{
    size_t record = PCP_CAPTURE_HEADER + c->buffers[INPUT].length;
    pcp_written written =
        pcp_capture_write(c->toward, COPY(INPUT), COPY(CAPTURE), c->at);

    expect(written.next == c->at + (written.number == PCP_HANDLED ? record : 0),
           "the writer is wrong about the next place");
    return written.number;
}

static uint64_t md5(const call *c, uint8_t *const at[BUFFERS])
{
    return pcp_md5(COPY(INPUT), COPY(REPLY));
}

static uint64_t md5_new(const call *c, uint8_t *const at[BUFFERS])
{
    return pcp_md5_new(COPY(RECORD));
}

static uint64_t md5_feed(const call *c, uint8_t *const at[BUFFERS])
{
    return pcp_md5_feed(COPY(RECORD), COPY(INPUT));
}

static uint64_t md5_finish(const call *c, uint8_t *const at[BUFFERS])
{
    return pcp_md5_finish(COPY(RECORD), COPY(REPLY));
}

/* What the runner calls: as the archive's own symbols, see the headers. */

uint16_t __wrap_pcp_check(const uint8_t *bytes, size_t length)
{
    call c = {.buffers[INPUT] = reads(bytes, length)};

    return (uint16_t)make(check, &c);
}

uint16_t __wrap_pcp_message_check(const uint8_t *message, size_t length)
{
    call c = {.buffers[INPUT] = reads(message, length)};

    return (uint16_t)make(message_check, &c);
}

uint8_t __wrap_pcp_recognise(uint8_t supported, uint8_t pcp,
                           const uint8_t *message, size_t length)
{
    call c = {.buffers[INPUT] = reads(message, length),
              .supported = supported,
              .pcp = pcp};

    return (uint8_t)make(recognise, &c);
}

uint8_t __wrap_pcp_raw_device_new(uint8_t *record, size_t record_length,
                            const uint8_t *version, size_t version_length)
{
    call c = {.buffers[RECORD] = writes(record, record_length),
              .buffers[INPUT] = reads(version, version_length)};

    return (uint8_t)make(device_new, &c);
}

uint32_t __wrap_pcp_raw_device_receive(uint8_t *record, size_t record_length,
                                 uint8_t supported, uint8_t pcp,
                                 uint8_t condition, const uint8_t *message,
                                 size_t message_length, uint8_t *image,
                                 size_t image_length, uint8_t *map,
                                 size_t map_length, uint8_t *reply,
                                 size_t reply_length)
{
    call c = {.buffers[RECORD] = writes(record, record_length),
              .buffers[INPUT] = reads(message, message_length),
              .buffers[IMAGE] = writes(image, image_length),
              .buffers[MAP] = writes(map, map_length),
              .buffers[REPLY] = writes(reply, reply_length),
              .supported = supported,
              .pcp = pcp,
              .condition = condition};

    return (uint32_t)make(device_receive, &c);
}

uint32_t __wrap_pcp_raw_device_next_message(const uint8_t *record,
                                      size_t record_length,
                                      const uint8_t *image, size_t image_length,
                                      const uint8_t *map, size_t map_length,
                                      uint8_t *reply, size_t reply_length)
{
    call c = {.buffers[RECORD] = reads(record, record_length),
              .buffers[IMAGE] = reads(image, image_length),
              .buffers[MAP] = reads(map, map_length),
              .buffers[REPLY] = writes(reply, reply_length)};

    return (uint32_t)make(device_next_message, &c);
}

uint8_t __wrap_pcp_raw_device_install_finished(uint8_t *record, size_t record_length,
                                         uint8_t code)
{
    call c = {.buffers[RECORD] = writes(record, record_length), .code = code};

    return (uint8_t)make(device_install_finished, &c);
}

uint8_t __wrap_pcp_raw_device_give_digest(uint8_t *record, size_t record_length,
                                          const uint8_t *digest,
                                          size_t digest_length)
{
    call c = {.buffers[RECORD] = writes(record, record_length),
              .buffers[INPUT] = reads(digest, digest_length)};

    return (uint8_t)make(device_give_digest, &c);
}

uint8_t __wrap_pcp_raw_gateway_start(uint8_t *record, size_t record_length,
                               const uint8_t *version, size_t version_length,
                               uint16_t size, const uint8_t *package,
                               size_t package_length, uint8_t checked)
{
    call c = {.buffers[RECORD] = writes(record, record_length),
              .buffers[INPUT] = reads(version, version_length),
              .buffers[PACKAGE] = reads(package, package_length),
              .size = size,
              .checked = checked};

    return (uint8_t)make(gateway_start, &c);
}

uint32_t __wrap_pcp_raw_gateway_receive(uint8_t *record, size_t record_length,
                                  uint8_t supported, uint8_t pcp,
                                  const uint8_t *message, size_t message_length,
                                  const uint8_t *package, size_t package_length,
                                  uint8_t *reply, size_t reply_length)
{
    call c = {.buffers[RECORD] = writes(record, record_length),
              .buffers[INPUT] = reads(message, message_length),
              .buffers[PACKAGE] = reads(package, package_length),
              .buffers[REPLY] = writes(reply, reply_length),
              .supported = supported,
              .pcp = pcp};

    return (uint32_t)make(gateway_receive, &c);
}

uint32_t __wrap_pcp_raw_gateway_next_message(const uint8_t *record,
                                       size_t record_length,
                                       const uint8_t *package,
                                       size_t package_length, uint8_t *reply,
                                       size_t reply_length)
{
    call c = {.buffers[RECORD] = reads(record, record_length),
              .buffers[PACKAGE] = reads(package, package_length),
              .buffers[REPLY] = writes(reply, reply_length)};

    return (uint32_t)make(gateway_next_message, &c);
}

uint8_t __wrap_pcp_raw_capture_kind(const uint8_t *capture,
                                    size_t capture_length, size_t at)
{
    call c = {.buffers[CAPTURE] = reads(capture, capture_length), .at = at};

    return (uint8_t)make(capture_kind, &c);
}

size_t __wrap_pcp_raw_capture_next(const uint8_t *capture,
                                   size_t capture_length, size_t at)
{
    call c = {.buffers[CAPTURE] = reads(capture, capture_length), .at = at};

    return (size_t)make(capture_next, &c);
}

size_t __wrap_pcp_raw_capture_mended(const uint8_t *capture,
                                     size_t capture_length, size_t at)
{
    call c = {.buffers[CAPTURE] = reads(capture, capture_length), .at = at};

    return (size_t)make(capture_mended, &c);
}

uint8_t __wrap_pcp_raw_capture_write(uint8_t toward, const uint8_t *message,
                                     size_t message_length, uint8_t *buffer,
                                     size_t buffer_length, size_t at)
{
    call c = {.buffers[INPUT] = reads(message, message_length),
              .buffers[CAPTURE] = writes(buffer, buffer_length),
              .toward = toward,
              .at = at};

    return (uint8_t)make(capture_write, &c);
}

uint8_t __wrap_pcp_raw_md5(const uint8_t *bytes, size_t length, uint8_t *digest,
                           size_t digest_length)
{
    call c = {.buffers[INPUT] = reads(bytes, length),
              .buffers[REPLY] = writes(digest, digest_length)};

    return (uint8_t)make(md5, &c);
}

uint8_t __wrap_pcp_raw_md5_new(uint8_t *state, size_t state_length)
{
    call c = {.buffers[RECORD] = writes(state, state_length)};

    return (uint8_t)make(md5_new, &c);
}

uint8_t __wrap_pcp_raw_md5_feed(uint8_t *state, size_t state_length,
                                const uint8_t *piece, size_t piece_length)
{
    call c = {.buffers[RECORD] = writes(state, state_length),
              .buffers[INPUT] = reads(piece, piece_length)};

    return (uint8_t)make(md5_feed, &c);
}

uint8_t __wrap_pcp_raw_md5_finish(const uint8_t *state, size_t state_length,
                                  uint8_t *digest, size_t digest_length)
{
    call c = {.buffers[RECORD] = reads(state, state_length),
              .buffers[REPLY] = writes(digest, digest_length)};

    return (uint8_t)make(md5_finish, &c);
}
