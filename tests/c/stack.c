/* stack MANUAL - how much stack each call takes, through the header, in a whole
   upgrade with refused calls between.  Each runs on a stack of its own that was
   painted before: the bytes from the caller's frame down to the last that lost
   its paint, arguments included.  Fails if the manual's table states less than
   was measured, or more than STATED times as much and a little. */
#define _XOPEN_SOURCE 700 /* for ucontext.h */
#include "pcp_capture.h"
#include "pcp_driver.h"
#include "pcp_md5.h"

#include <stdio.h>
#include <stdlib.h>
#include <ucontext.h>

enum { STACK = 1 << 16, PAINT = 0xA5, SIZE = PCP_SIZE_MAX, PACKAGE = 3 * SIZE + 77 };

#define STATED 1.25
#define LITTLE 64

/* Measuring. */

typedef struct {
    const char *name;
    void (*work)(void);
    size_t most;
} measured;

static uint8_t stack[STACK] __attribute__((aligned(16)));
static uint8_t *frame; /* of the caller */
static const measured *at_work;
static ucontext_t back, on_stack;

static void call_on_stack(void)
{
    frame = (uint8_t *)__builtin_frame_address(0);
    at_work->work();
}

static size_t depth(const measured *call)
{
    size_t untouched = 0;

    at_work = call;
    memset(stack, PAINT, sizeof stack);
    if (getcontext(&on_stack) != 0)
        exit(2);
    on_stack.uc_stack.ss_sp = stack;
    on_stack.uc_stack.ss_size = sizeof stack;
    on_stack.uc_link = &back;
    makecontext(&on_stack, call_on_stack, 0);
    if (swapcontext(&back, &on_stack) != 0)
        exit(2);
    while (stack[untouched] == PAINT)
        untouched++;
    return (size_t)(frame - (stack + untouched));
}

static void measure(measured *call)
{
    size_t taken = depth(call);

    if (taken > call->most)
        call->most = taken;
}

/* The calls, on the state of one device and one gateway. */

static uint8_t device[PCP_DEVICE_RECORD], gateway[PCP_GATEWAY_RECORD];
static uint8_t image[4 * SIZE], map[8], package[PACKAGE];
static uint8_t to_device[PCP_GATEWAY_REPLY], to_gateway[PCP_DEVICE_REPLY];
static size_t to_device_length, to_gateway_length;
static uint8_t reply[PCP_GATEWAY_REPLY];
static size_t reply_room = sizeof reply;
static int condition = PCP_READY, code = PCP_INSTALLED;
static pcp_answer answer;
static volatile unsigned result;

static void check_of_bytes(void)
{
    result = pcp_check_of_bytes(package, sizeof package);
}

static void check_of_message(void)
{
    result = pcp_check_of_message(to_device, to_device_length);
}

static void recognise_message(void)
{
    result = pcp_recognise_message(1, 1, to_device, to_device_length);
}

static void device_new(void)
{
    result = pcp_device_new(device, sizeof device, "V1.0", 4);
}

static void device_receive(void)
{
    answer = pcp_device_receive(device, sizeof device, 1, 1, condition,
                                to_device, to_device_length, image,
                                sizeof image, map, sizeof map, reply,
                                reply_room);
}

static void device_next_message(void)
{
    answer = pcp_device_next_message(device, sizeof device, image,
                                     sizeof image, map, sizeof map, reply,
                                     reply_room);
}

static void device_install_finished(void)
{
    result = pcp_device_install_finished(device, sizeof device, code);
}

static uint8_t state[PCP_MD5_STATE], digest[PCP_DIGEST_LENGTH];
static size_t state_room = sizeof state, piece_length;

static void device_give_digest(void)
{
    result = pcp_device_give_digest(device, sizeof device, digest,
                                    sizeof digest);
}

static void gateway_start(void)
{
    result = pcp_gateway_start(gateway, sizeof gateway, "V2.0", 4, SIZE,
                               package, sizeof package, 1);
}

static void gateway_receive(void)
{
    answer = pcp_gateway_receive(gateway, sizeof gateway, 1, 1, to_gateway,
                                 to_gateway_length, package, sizeof package,
                                 reply, reply_room);
}

static void gateway_next_message(void)
{
    answer = pcp_gateway_next_message(gateway, sizeof gateway, package,
                                      sizeof package, reply, reply_room);
}

/* A capture of what went toward the device, damaged in its first mark. */
static uint8_t capture[2 * (PCP_CAPTURE_HEADER + PCP_GATEWAY_REPLY)];
static size_t capture_place;

static void capture_write(void)
{
    result = pcp_capture_write(1, to_device, to_device_length, capture,
                               sizeof capture, capture_place)
                 .number;
}

static void capture_next(void)
{
    result = pcp_capture_next(capture, sizeof capture, capture_place).kind;
}

static void capture_mended(void)
{
    result = pcp_capture_mended(capture, sizeof capture, capture_place).kind;
}

static void md5(void)
{
    result = pcp_md5(package, sizeof package, digest, sizeof digest);
}

static void md5_new(void)
{
    result = pcp_md5_new(state, state_room);
}

static void md5_feed(void)
{
    result = pcp_md5_feed(state, state_room, package, piece_length);
}

static void md5_finish(void)
{
    result = pcp_md5_finish(state, state_room, digest, sizeof digest);
}

/* The drivers, over the same package; what they save is taken up again. */
static pcp_driver_config config;
static pcp_device_driver device_driver;
static pcp_gateway_driver gateway_driver;
static uint8_t driven_image[PACKAGE + 1]; /* enough for some sizes */
static uint8_t device_state[PCP_DEVICE_STATE(sizeof driven_image)];
static uint8_t device_slots[2][sizeof device_state];
static uint8_t gateway_slots[2][PCP_GATEWAY_STATE];
static pcp_action action;
static uint64_t now;

static void device_driver_start(void)
{
    result = pcp_device_driver_start(
        &device_driver, &config, "V1.0", 4, driven_image, sizeof driven_image,
        device_state, sizeof device_state, device_slots[0],
        sizeof device_slots[0], device_slots[1], sizeof device_slots[1], now);
}

static void device_driver_receive(void)
{
    result = pcp_device_driver_receive(&device_driver, now, PCP_READY,
                                       to_device, to_device_length);
}

static void device_driver_poll(void)
{
    action = pcp_device_driver_poll(&device_driver, now);
}

static void gateway_driver_start(void)
{
    result = pcp_gateway_driver_start(
        &gateway_driver, &config, "V2.0", 4, package, sizeof package,
        gateway_slots[0], sizeof gateway_slots[0], gateway_slots[1],
        sizeof gateway_slots[1], now);
}

static void gateway_driver_receive(void)
{
    result = pcp_gateway_driver_receive(&gateway_driver, now, to_gateway,
                                        to_gateway_length);
}

static void gateway_driver_poll(void)
{
    action = pcp_gateway_driver_poll(&gateway_driver, now);
}

enum {
    CHECK,
    MESSAGE_CHECK,
    RECOGNISE,
    DEVICE_NEW,
    DEVICE_RECEIVE,
    DEVICE_NEXT,
    DEVICE_DIGEST,
    DEVICE_FINISHED,
    GATEWAY_START,
    GATEWAY_RECEIVE,
    GATEWAY_NEXT,
    CAPTURE_WRITE,
    CAPTURE_NEXT,
    CAPTURE_MENDED,
    MD5,
    MD5_NEW,
    MD5_FEED,
    MD5_FINISH,
    DEVICE_DRIVER_START,
    DEVICE_DRIVER_RECEIVE,
    DEVICE_DRIVER_POLL,
    GATEWAY_DRIVER_START,
    GATEWAY_DRIVER_RECEIVE,
    GATEWAY_DRIVER_POLL,
    CALLS
};

static measured calls[CALLS] = {
    [CHECK] = {"pcp_check_of_bytes", check_of_bytes, 0},
    [MESSAGE_CHECK] = {"pcp_check_of_message", check_of_message, 0},
    [RECOGNISE] = {"pcp_recognise_message", recognise_message, 0},
    [DEVICE_NEW] = {"pcp_device_new", device_new, 0},
    [DEVICE_RECEIVE] = {"pcp_device_receive", device_receive, 0},
    [DEVICE_NEXT] = {"pcp_device_next_message", device_next_message, 0},
    [DEVICE_DIGEST] = {"pcp_device_give_digest", device_give_digest, 0},
    [DEVICE_FINISHED] = {"pcp_device_install_finished",
                         device_install_finished, 0},
    [GATEWAY_START] = {"pcp_gateway_start", gateway_start, 0},
    [GATEWAY_RECEIVE] = {"pcp_gateway_receive", gateway_receive, 0},
    [GATEWAY_NEXT] = {"pcp_gateway_next_message", gateway_next_message, 0},
    [CAPTURE_WRITE] = {"pcp_capture_write", capture_write, 0},
    [CAPTURE_NEXT] = {"pcp_capture_next", capture_next, 0},
    [CAPTURE_MENDED] = {"pcp_capture_mended", capture_mended, 0},
    [MD5] = {"pcp_md5", md5, 0},
    [MD5_NEW] = {"pcp_md5_new", md5_new, 0},
    [MD5_FEED] = {"pcp_md5_feed", md5_feed, 0},
    [MD5_FINISH] = {"pcp_md5_finish", md5_finish, 0},
    [DEVICE_DRIVER_START] = {"pcp_device_driver_start", device_driver_start, 0},
    [DEVICE_DRIVER_RECEIVE] = {"pcp_device_driver_receive",
                               device_driver_receive, 0},
    [DEVICE_DRIVER_POLL] = {"pcp_device_driver_poll", device_driver_poll, 0},
    [GATEWAY_DRIVER_START] = {"pcp_gateway_driver_start", gateway_driver_start,
                              0},
    [GATEWAY_DRIVER_RECEIVE] = {"pcp_gateway_driver_receive",
                                gateway_driver_receive, 0},
    [GATEWAY_DRIVER_POLL] = {"pcp_gateway_driver_poll", gateway_driver_poll, 0},
};

/* The upgrade. */

static void take_to_device(void)
{
    memcpy(to_device, reply, to_device_length = answer.length);
}

static void take_to_gateway(void)
{
    memcpy(to_gateway, reply, to_gateway_length = answer.length);
}

/* Writes the record, and reads it in its place, from a damaged byte before it,
   and where there is no room. */
static void capture_to_device(void)
{
    capture[0] = 0;
    for (size_t place = 0; place < 2; place++) {
        capture_place = 1;
        measure(&calls[CAPTURE_WRITE]);
        capture_place = place;
        measure(&calls[CAPTURE_NEXT]);
        measure(&calls[CAPTURE_MENDED]);
    }
    capture_place = sizeof capture;
    measure(&calls[CAPTURE_WRITE]);
}

/* Also with a short reply buffer, a condition that refuses, and a damaged
   byte; that last changes no record, for a damaged message is refused. */
static void give_to_device(void)
{
    measure(&calls[CHECK]);
    measure(&calls[MESSAGE_CHECK]);
    measure(&calls[RECOGNISE]);
    capture_to_device();
    reply_room = 0;
    measure(&calls[DEVICE_RECEIVE]);
    reply_room = sizeof reply;
    to_device[to_device_length - 1] ^= 1;
    measure(&calls[DEVICE_RECEIVE]);
    to_device[to_device_length - 1] ^= 1;
    condition = PCP_LOW_POWER;
    if (to_device[3] == PCP_ANNOUNCE || to_device[3] == PCP_EXECUTE)
        measure(&calls[DEVICE_RECEIVE]);
    condition = PCP_READY;
    measure(&calls[DEVICE_RECEIVE]);
    take_to_gateway();
}

static void give_to_gateway(void)
{
    to_gateway[to_gateway_length - 1] ^= 1;
    measure(&calls[GATEWAY_RECEIVE]);
    to_gateway[to_gateway_length - 1] ^= 1;
    measure(&calls[GATEWAY_RECEIVE]);
    take_to_device();
}

/* The gateway begins: it asks, the device answers. */
static void gateway_begins(void)
{
    measure(&calls[GATEWAY_NEXT]);
    take_to_device();
    give_to_device();
    if (to_gateway_length > 0)
        give_to_gateway();
}

/* The device begins, as long as it has something to send. */
static void device_begins(void)
{
    for (;;) {
        measure(&calls[DEVICE_NEXT]);
        if (answer.length == 0)
            return;
        take_to_gateway();
        give_to_gateway();
        give_to_device();
    }
}

/* Pieces that leave a block open, make it whole and go beyond it, and a buffer
   that is too short. */
static void digest_in_pieces(void)
{
    static const size_t pieces[] = {0, 63, 1, 3, 64, 61, 200, PACKAGE};

    measure(&calls[MD5_NEW]);
    for (size_t i = 0; i < sizeof pieces / sizeof pieces[0]; i++) {
        piece_length = pieces[i];
        measure(&calls[MD5_FEED]);
        measure(&calls[MD5_FINISH]);
    }
    state_room = 0;
    measure(&calls[MD5_NEW]);
    measure(&calls[MD5_FEED]);
    measure(&calls[MD5_FINISH]);
    state_room = sizeof state;
}

static void upgrade(void)
{
    digest_in_pieces();
    measure(&calls[MD5]); /* the package's, which the device is given */
    measure(&calls[DEVICE_NEW]);
    measure(&calls[DEVICE_DIGEST]); /* refused */
    measure(&calls[GATEWAY_START]);
    gateway_begins(); /* query */
    gateway_begins(); /* announcement */
    measure(&calls[DEVICE_DIGEST]);
    device_begins(); /* fragments, the image's check and digest, download result */
    gateway_begins(); /* execute */
    code = -1;
    measure(&calls[DEVICE_FINISHED]);
    code = PCP_INSTALLED;
    measure(&calls[DEVICE_FINISHED]);
    device_begins(); /* report */
    measure(&calls[GATEWAY_NEXT]);
}

/* Polls until the driver waits; of what it sends, the last is delivered.  Tells
   when it wants to be polled again. */
static uint64_t drive_device(void)
{
    for (;;) {
        measure(&calls[DEVICE_DRIVER_POLL]);
        if (action.kind == PCP_ACTION_WAIT)
            return action.until;
        if (action.kind == PCP_ACTION_SAVE)
            memcpy(device_slots[action.slot], action.bytes, action.length);
        if (action.kind == PCP_ACTION_SEND)
            memcpy(to_gateway, action.bytes, to_gateway_length = action.length);
        if (action.kind == PCP_ACTION_INSTALL)
            pcp_device_driver_installed(&device_driver, PCP_INSTALLED);
    }
}

static uint64_t drive_gateway(void)
{
    for (;;) {
        measure(&calls[GATEWAY_DRIVER_POLL]);
        if (action.kind == PCP_ACTION_WAIT || action.kind == PCP_ACTION_END)
            return action.until;
        if (action.kind == PCP_ACTION_SAVE)
            memcpy(gateway_slots[action.slot], action.bytes, action.length);
        if (action.kind == PCP_ACTION_SEND)
            memcpy(to_device, action.bytes, to_device_length = action.length);
    }
}

/* An upgrade by the drivers, which begins with a size that the device does not
   take, so that others are looked for.  Both restart in it, and the device is
   given the package's digest. */
static uint8_t driven_upgrade(void)
{
    uint64_t device_wake, gateway_wake;
    int restarted = 0;

    config = pcp_driver_defaults();
    config.size = 33;
    config.size_most = SIZE;
    memcpy(config.digest_version, "V2.0", 4);
    memcpy(config.digest, digest, sizeof config.digest);
    memset(device_slots, 0, sizeof device_slots);
    memset(gateway_slots, 0, sizeof gateway_slots);
    now = 0;
    measure(&calls[DEVICE_DRIVER_START]);
    measure(&calls[GATEWAY_DRIVER_START]);
    for (;;) {
        to_gateway_length = to_device_length = 0;
        device_wake = drive_device();
        gateway_wake = drive_gateway();
        if (action.kind == PCP_ACTION_END)
            return pcp_gateway_driver_outcome(&gateway_driver);
        if (to_device_length + to_gateway_length == 0)
            now = device_wake < gateway_wake ? device_wake : gateway_wake;
        if (to_device_length > 0)
            measure(&calls[DEVICE_DRIVER_RECEIVE]);
        if (to_gateway_length > 0)
            measure(&calls[GATEWAY_DRIVER_RECEIVE]);
        if (!restarted &&
            pcp_device_stored(pcp_device_driver_record(&device_driver)) > 1) {
            restarted = 1;
            drive_device();
            drive_gateway();
            measure(&calls[DEVICE_DRIVER_START]);
            measure(&calls[GATEWAY_DRIVER_START]);
        }
    }
}

/* The manual's table has the rows | `call` | bytes |. */

static size_t stated_in(const char *manual, const char *name)
{
    char row[64];
    const char *at;

    snprintf(row, sizeof row, "\n| `%s` | ", name);
    for (at = strstr(manual, row); at != NULL; at = strstr(at + 1, row)) {
        char *end;
        unsigned long bytes = strtoul(at + strlen(row), &end, 10);

        if (strncmp(end, " |\n", 3) == 0)
            return bytes;
    }
    return 0;
}

static int compare(const char *manual)
{
    int good = 1;

    for (int i = 0; i < CALLS; i++) {
        size_t stated = stated_in(manual, calls[i].name);
        int holds = stated >= calls[i].most &&
                    (double)stated <=
                        STATED * (double)calls[i].most + LITTLE;

        printf("stack: %s takes %lu bytes, the manual says %lu%s\n",
               calls[i].name, (unsigned long)calls[i].most,
               (unsigned long)stated, holds ? "" : ": wrong");
        good = good && holds;
    }
    return good;
}

int main(int count, char **arguments)
{
    static char manual[1 << 20];
    FILE *file = count == 2 ? fopen(arguments[1], "rb") : NULL;

    if (file == NULL || fread(manual, 1, sizeof manual - 1, file) == 0) {
        fputs("usage: stack MANUAL\n", stderr);
        return 2;
    }
    fclose(file);
    upgrade(); /* for the linker may do its work in first calls */
    for (int i = 0; i < CALLS; i++)
        calls[i].most = 0;
    upgrade();
    if (pcp_gateway_phase(gateway) != PCP_GATEWAY_ENDED ||
        pcp_gateway_ending(gateway) != PCP_ENDING_SUCCESS ||
        driven_upgrade() != PCP_OUTCOME_SUCCESS) {
        fputs("stack: the upgrade did not succeed\n", stderr);
        return EXIT_FAILURE;
    }
    return compare(manual) ? EXIT_SUCCESS : EXIT_FAILURE;
}
