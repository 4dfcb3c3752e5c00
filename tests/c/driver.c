/* driver [CALLS [SEED]] - random calls on the drivers of both ends, in any
   order: any bytes and conditions, times that jump and go back, codes that are
   none, saves that are torn, exchanged or of the other end, starts in between,
   buffers of any length, digests that are right, wrong or none.  To be run
   under sanitizers.  Seen to: image bytes come first, actions lie within what
   was lent, a known digest is set in Loading, and a driver waits before long;
   and between all that, upgrades succeed.  Then some cases that only a host in
   C can bring about. */
#include "pcp_driver.h"
#include "pcp_md5.h"

#include <stdio.h>
#include <stdlib.h>

enum {
    MOST_IMAGE = 4096,
    MOST_STATE = PCP_DEVICE_STATE(MOST_IMAGE),
    MOST_PACKAGE = 3000,
    QUEUE = 16,
    MOST_ACTIONS = 16 /* that a driver tells before it waits, at one time */
};

static uint64_t random_state;

static uint64_t draw(void)
{
    uint64_t z = random_state += UINT64_C(0x9E3779B97F4A7C15);

    z = (z ^ (z >> 30)) * UINT64_C(0xBF58476D1CE4E5B9);
    z = (z ^ (z >> 27)) * UINT64_C(0x94D049BB133111EB);
    return z ^ (z >> 31);
}

static uint32_t below(uint32_t bound)
{
    return (uint32_t)(draw() % bound);
}

static void expect(int holds, const char *what)
{
    if (holds)
        return;
    fprintf(stderr, "driver: %s\n", what);
    exit(EXIT_FAILURE);
}

static uint64_t pick(const uint64_t *numbers, size_t count)
{
    return numbers[draw() % count];
}

#define PICK(...)                                                              \
    pick((const uint64_t[]){__VA_ARGS__},                                      \
         sizeof((const uint64_t[]){__VA_ARGS__}) / sizeof(uint64_t))

/* Messages, in either direction; the oldest is the first. */
typedef struct {
    uint8_t bytes[QUEUE][PCP_GATEWAY_REPLY];
    size_t lengths[QUEUE];
    size_t count;
} queue;

static void put(queue *to, const uint8_t *bytes, size_t length)
{
    if (to->count == QUEUE)
        to->count = 0; /* all lost */
    memcpy(to->bytes[to->count], bytes, length);
    to->lengths[to->count++] = length;
}

/* What arrives: the oldest message, or any, or any bytes; at times damaged,
   with a check that is right all the same, or cut. */
static size_t take(queue *from, uint8_t *bytes)
{
    size_t length = 0, at = below(8) == 0 ? below(QUEUE) : 0;

    if (at < from->count && below(8) > 0) {
        length = from->lengths[at];
        memcpy(bytes, from->bytes[at], length);
        if (below(8) > 0) {
            from->count--;
            memmove(from->bytes[at], from->bytes[at + 1],
                    (from->count - at) * sizeof from->bytes[0]);
            memmove(from->lengths + at, from->lengths + at + 1,
                    (from->count - at) * sizeof from->lengths[0]);
        }
    } else {
        length = below(40);
        for (size_t i = 0; i < length; i++)
            bytes[i] = (uint8_t)draw();
        if (length > 8) {
            uint8_t start[8] = {0xFF, 0xFE, 0x01, 0, 0, 0, 0, 0};

            start[3] = (uint8_t)(19 + below(6));
            start[7] = (uint8_t)(length - 8);
            memcpy(bytes, start, sizeof start);
        }
    }
    if (length > 0 && below(16) == 0)
        bytes[below((uint32_t)length)] ^= (uint8_t)(1 << below(8));
    if (length > 8 && below(8) == 0) {
        uint16_t check = pcp_check_of_message(bytes, length);

        bytes[4] = (uint8_t)(check / 256);
        bytes[5] = (uint8_t)(check % 256);
    }
    return below(32) == 0 ? below((uint32_t)length + 1) : length;
}

/* What a slot holds after a restart. */
typedef struct {
    uint8_t bytes[MOST_STATE + 8];
    size_t length;
} slot;

static void tear(slot *torn)
{
    switch (below(16)) {
    case 0:
        torn->length = below((uint32_t)torn->length + 1);
        break;
    case 1:
        if (torn->length > 0)
            torn->bytes[below((uint32_t)torn->length)] = (uint8_t)draw();
        break;
    case 2: /* whole, but with something else in it */
        if (torn->length >= PCP_DRIVER_HEADER) {
            torn->bytes[below((uint32_t)torn->length)] = (uint8_t)draw();
            pcp_driver_put(torn->bytes + PCP_DRIVER_CRC, 4,
                           pcp_driver_crc_of(torn->bytes, torn->length));
        }
        break;
    case 3:
        torn->length = below(sizeof torn->bytes);
        for (size_t i = 0; i < torn->length; i++)
            torn->bytes[i] = (uint8_t)draw();
    }
}

static pcp_driver_config any_config(void)
{
    pcp_driver_config config = pcp_driver_defaults();

    if (below(2) == 0) { /* such that upgrades succeed */
        config.retry = 20;
        config.quiet = 5;
        config.installation = 400;
        config.later = 10;
        config.linger = 10;
        return config;
    }
    config.retry = PICK(0, 1, 20, UINT64_MAX);
    config.quiet = PICK(0, 1, 20, UINT64_MAX);
    config.installation = PICK(0, 1, 200, UINT64_MAX);
    config.later = PICK(0, 1, 200, UINT64_MAX);
    config.linger = PICK(0, 1, 200, UINT64_MAX);
    config.time_limit = PICK(0, 1, 2000, UINT64_MAX);
    config.gateway_limit = (uint32_t)PICK(0, 1, 5, UINT32_MAX);
    config.failure_limit = (uint16_t)PICK(0, 1, 5, UINT16_MAX);
    config.size = (uint16_t)PICK(32, 33, 48, 100, 500, 501, 1024);
    if (below(16) == 0)
        config.size = (uint16_t)PICK(0, 31, 1025, UINT16_MAX);
    config.size_most = (uint16_t)PICK(0, 32, 500, 1024, UINT16_MAX);
    config.save_every = (uint16_t)PICK(0, 1, 16, UINT16_MAX);
    config.install_limit = (uint8_t)PICK(0, 1, 5, UINT8_MAX);
    return config;
}

/* One world: a device, a gateway, and their storage. */
static pcp_driver_config config;
static pcp_device_driver device;
static pcp_gateway_driver gateway;
static uint8_t *image, *state; /* exactly as long as told, so that a byte more
                                  is seen */
static size_t image_length, state_length, package_length;
static uint8_t *package;
static slot device_slots[2], gateway_slots[2];
static queue to_device, to_gateway;
static uint64_t now;
static int started_device, started_gateway;
static uint64_t device_wake, gateway_wake;
static int wild; /* times are any; otherwise they only go on */
static unsigned long upgrades, installations, kinds[17];
static unsigned long digests, failures; /* seen in Loaded, and in Failed */

/* Mostly a little later, or, where nothing is on its way, when a driver wants
   to be polled. */
static uint64_t any_time(uint64_t wake)
{
    if (wake != PCP_NEVER && wake > now && to_device.count == 0 &&
        to_gateway.count == 0)
        return now = wake;
    switch (wild ? below(64) : 3) {
    case 0:
        return now = draw();
    case 1:
        return UINT64_MAX;
    case 2:
        return now - below(40);
    default:
        return now += below(3);
    }
}

/* What the device's host knows: mostly nothing or the package's digest; else
   another one, one of another version, or one with a text that is none. */
static void any_digest(void)
{
    static const char *const versions[] = {"", "V2.0", "V1.0", "V2.0.", "V 2"};
    const char *version = versions[below(8) == 0 ? below(5) : below(2)];

    memset(config.digest_version, 0, sizeof config.digest_version);
    memcpy(config.digest_version, version, strlen(version));
    expect(pcp_md5(package, package_length, config.digest,
                   sizeof config.digest) == PCP_HANDLED,
           "no digest");
    if (below(8) == 0)
        config.digest[below(PCP_DIGEST_LENGTH)] ^= (uint8_t)(1 << below(8));
}

/* What is known is set. */
static void see_digest(void)
{
    const uint8_t *record = pcp_device_driver_record(&device);

    expect(device.config.digest_version[0] == 0 ||
               pcp_device_phase(record) != PCP_DEVICE_LOADING ||
               memcmp(pcp_device_target(record), device.config.digest_version,
                      PCP_VERSION_LENGTH) != 0 ||
               (pcp_device_digest_set(record) &&
                memcmp(pcp_device_digest(record), device.config.digest,
                       PCP_DIGEST_LENGTH) == 0),
           "a known digest is not set");
    digests += pcp_device_phase(record) == PCP_DEVICE_LOADED &&
               pcp_device_digest_set(record);
    failures += pcp_device_phase(record) == PCP_DEVICE_FAILED &&
                pcp_device_digest_set(record);
}

static void start_device(void)
{
    static const char *const versions[] = {"V1.0", "V2.0", "", "no text"};
    const char *version = versions[below(8) == 0 ? below(4) : 0];
    size_t one = below(16) > 0;

    for (int i = 0; i < 2; i++)
        tear(&device_slots[i]);
    if (below(4) == 0)
        any_digest();
    started_device =
        pcp_device_driver_start(
            &device, &config, version, strlen(version), image, image_length,
            state, state_length, one ? device_slots[0].bytes : NULL,
            one ? device_slots[0].length : 0,
            below(32) > 0 ? device_slots[1].bytes : gateway_slots[0].bytes,
            below(32) > 0 ? device_slots[1].length : 0,
            wild && below(4) == 0 ? draw() : now) == PCP_HANDLED;
}

static void start_gateway(void)
{
    const char *version = below(32) > 0 ? "V2.0" : "V2.1";

    for (int i = 0; i < 2; i++)
        tear(&gateway_slots[i]);
    started_gateway =
        pcp_gateway_driver_start(
            &gateway, &config, version, 4, package, package_length,
            gateway_slots[0].bytes, gateway_slots[0].length,
            gateway_slots[1].bytes, gateway_slots[1].length,
            wild && below(4) == 0 ? draw() : now) == PCP_HANDLED;
}

static void new_world(void)
{
    free(image);
    free(state);
    free(package);
    config = any_config();
    package_length = 1 + below(below(2) == 0 ? 200 : MOST_PACKAGE);
    image_length = below(4) > 0
                       ? MOST_IMAGE
                       : (size_t)PICK(0, 1, 64, package_length);
    state_length = below(8) == 0 ? below(100) : PCP_DEVICE_STATE(image_length);
    image = (uint8_t *)malloc(image_length > 0 ? image_length : 1);
    state = (uint8_t *)malloc(state_length > 0 ? state_length : 1);
    package = (uint8_t *)malloc(package_length);
    expect(image != NULL && state != NULL && package != NULL, "no memory");
    memset(image, 0xFF, image_length);
    for (size_t i = 0; i < package_length; i++)
        package[i] = (uint8_t)draw();
    memset(device_slots, 0, sizeof device_slots);
    memset(gateway_slots, 0, sizeof gateway_slots);
    to_device.count = to_gateway.count = 0;
    wild = below(4) == 0;
    device_wake = gateway_wake = PCP_NEVER;
    now = below(2) == 0 ? 0 : draw() / 2;
    any_digest();
    start_device();
    start_gateway();
}

/* An action lies within what was lent. */
static void see_within(const pcp_action *action, const uint8_t *from,
                       size_t length)
{
    expect(action->length <= length &&
               (action->length == 0 ||
                (action->bytes >= from &&
                 action->bytes + action->length <= from + length)),
           "an action's bytes are elsewhere");
}

static void save(slot *slots, const pcp_action *action)
{
    expect(action->slot < 2 && action->length <= MOST_STATE, "no slot");
    memcpy(slots[action->slot].bytes, action->bytes, action->length);
    slots[action->slot].length = action->length;
}

/* Polls, and does what is told, until the driver waits: it has to, while the
   time stands. */
static void work_device(void)
{
    uint64_t time = any_time(device_wake);
    uint8_t last = 0;

    for (int i = 0; started_device; i++) {
        pcp_action action = pcp_device_driver_poll(&device, time);

        expect(i < MOST_ACTIONS, "the device does not wait");
        kinds[action.kind]++;
        expect(action.kind > last || action.kind != PCP_ACTION_WRITE,
               "image bytes after something else");
        switch (action.kind) {
        case PCP_ACTION_WRITE:
            see_within(&action, image, image_length);
            expect(action.bytes == image + action.at, "another place");
            break;
        case PCP_ACTION_SAVE:
            see_within(&action, state, state_length);
            save(device_slots, &action);
            break;
        case PCP_ACTION_SEND:
            expect(action.length <= PCP_DEVICE_REPLY, "a long message");
            put(&to_gateway, action.bytes, action.length);
            break;
        case PCP_ACTION_INSTALL:
            see_within(&action, image, image_length);
            installations++;
            if (below(4) > 0)
                pcp_device_driver_installed(&device, PCP_INSTALLED);
            break;
        default:
            expect(action.kind == PCP_ACTION_WAIT, "no action of a device");
            device_wake = action.until;
            return;
        }
        last = action.kind;
        if (below(256) == 0)
            start_device();
        if (below(256) == 0)
            return; /* not confirmed */
    }
}

static void work_gateway(void)
{
    uint64_t time = any_time(gateway_wake);

    for (int i = 0; started_gateway; i++) {
        pcp_action action = pcp_gateway_driver_poll(&gateway, time);

        expect(i < MOST_ACTIONS, "the gateway does not wait");
        kinds[action.kind]++;
        switch (action.kind) {
        case PCP_ACTION_SAVE:
            expect(action.length == PCP_GATEWAY_STATE, "another length");
            save(gateway_slots, &action);
            break;
        case PCP_ACTION_SEND:
            expect(action.length <= PCP_GATEWAY_REPLY, "a long message");
            put(&to_device, action.bytes, action.length);
            break;
        case PCP_ACTION_END:
            upgrades += pcp_gateway_driver_outcome(&gateway) ==
                        PCP_OUTCOME_SUCCESS;
            new_world();
            return;
        default:
            expect(action.kind == PCP_ACTION_WAIT, "no action of a gateway");
            gateway_wake = action.until;
            return;
        }
        if (below(256) == 0)
            start_gateway();
        if (below(256) == 0)
            return;
    }
}

static void give_device(void)
{
    uint8_t bytes[PCP_GATEWAY_REPLY];
    size_t length = take(&to_device, bytes);
    int condition =
        below(8) > 0 ? PCP_READY : (int)PICK(0, 1, 2, 3, 4, 127, 300);

    if (started_device)
        pcp_device_driver_receive(&device, any_time(PCP_NEVER), condition,
                                  length > 0 ? bytes : NULL, length);
}

static void give_gateway(void)
{
    uint8_t bytes[PCP_GATEWAY_REPLY];
    size_t length = take(&to_gateway, bytes);

    if (started_gateway)
        pcp_gateway_driver_receive(&gateway, any_time(PCP_NEVER),
                                   length > 0 ? bytes : NULL, length);
}

static void step(void)
{
    switch (below(256)) {
    case 0:
        start_device();
        break;
    case 1:
        start_gateway();
        break;
    case 2:
        if (below(8) == 0 || !started_device || !started_gateway)
            new_world();
        break;
    case 3:
        if (started_device)
            pcp_device_driver_installed(&device, (int)draw());
        break;
    default:
        switch (below(4)) {
        case 0:
            work_device();
            break;
        case 1:
            work_gateway();
            break;
        case 2:
            give_device();
            break;
        default:
            give_gateway();
        }
    }
    if (started_device)
        expect(pcp_device_phase(pcp_device_driver_record(&device)) ==
                       PCP_DEVICE_IDLE ||
                   pcp_device_stored(pcp_device_driver_record(&device)) <=
                       pcp_device_total(pcp_device_driver_record(&device)),
               "more stored than there are");
    if (started_device)
        see_digest();
    if (started_gateway)
        expect(pcp_gateway_driver_served(&gateway) <=
                   pcp_gateway_driver_total(&gateway),
               "more served than there are");
}

/* Cases. */

/* A package that changes before the next gateway starts. */
static void changed_package(void)
{
    static uint8_t bytes[100];
    pcp_driver_config given = pcp_driver_defaults();
    uint8_t failed[9] = {0xFF, 0xFE, 0x01, 20, 0, 0, 0, 1, 0x01};
    uint16_t check;
    uint64_t time = 0;

    expect(pcp_gateway_driver_start(&gateway, &given, "V2.0", 4, bytes,
                                    sizeof bytes, NULL, 0, NULL, 0,
                                    0) == PCP_HANDLED,
           "does not start");
    while (pcp_gateway_driver_outcome(&gateway) == PCP_OUTCOME_NONE) {
        pcp_action action = pcp_gateway_driver_poll(&gateway, time);
        uint8_t runs[25] = {0xFF, 0xFE, 0x01, 19, 0, 0, 0, 17, 0, 'V', '1'};

        if (action.kind == PCP_ACTION_WAIT)
            time = action.until;
        if (action.kind != PCP_ACTION_SEND)
            continue;
        expect(bytes[0] == 0, "goes on with another package");
        pcp_gateway_driver_poll(&gateway, time);
        check = pcp_check_of_message(runs, sizeof runs);
        runs[4] = (uint8_t)(check / 256);
        runs[5] = (uint8_t)(check % 256);
        check = pcp_check_of_message(failed, sizeof failed);
        failed[4] = (uint8_t)(check / 256);
        failed[5] = (uint8_t)(check % 256);
        if (pcp_gateway_driver_receive(&gateway, time, failed, sizeof failed) ==
            PCP_HANDLED)
            bytes[0] = 1;
        pcp_gateway_driver_receive(&gateway, time, runs, sizeof runs);
    }
    expect(pcp_gateway_driver_outcome(&gateway) == PCP_OUTCOME_PACKAGE &&
               pcp_gateway_driver_fault(&gateway) == PCP_BAD_PACKAGE,
           "the changed package is not seen");
}

/* A code that is none ends an installation as an internal error. */
static void unknown_code(int code)
{
    static uint8_t saved[PCP_DEVICE_STATE_FIXED], memory[PCP_DEVICE_STATE(64)];
    static uint8_t package_image[64];
    pcp_driver_config given = pcp_driver_defaults();
    uint8_t *record = saved + PCP_DRIVER_DEVICE;

    memset(saved, 0, sizeof saved);
    expect(pcp_device_new(record, PCP_DEVICE_RECORD, "V1.0", 4) == PCP_HANDLED,
           "no record");
    record[0] = PCP_DEVICE_INSTALLING;
    record[18] = '2'; /* the target */
    record[34] = 32;
    record[36] = 2;
    record[40] = 2;
    record[42] = 32;
    pcp_driver_put(saved + PCP_DRIVER_IMAGE_CRC, 4,
                   pcp_driver_crc(0, package_image, sizeof package_image));
    pcp_driver_seal(saved, 'D', sizeof saved, 1);
    expect(pcp_device_driver_start(&device, &given, "V1.0", 4, package_image,
                                   sizeof package_image, memory, sizeof memory,
                                   saved, sizeof saved, NULL, 0,
                                   0) == PCP_HANDLED,
           "does not start");
    expect(pcp_device_driver_poll(&device, 0).kind == PCP_ACTION_SAVE &&
               pcp_device_driver_poll(&device, 0).kind == PCP_ACTION_INSTALL,
           "does not begin the installation again");
    pcp_device_driver_installed(&device, code);
    expect(pcp_device_driver_poll(&device, 0).kind == PCP_ACTION_SAVE &&
               pcp_device_driver_poll(&device, 0).kind == PCP_ACTION_SEND,
           "does not report");
    expect(device.reply[3] == PCP_UPGRADE_RESULT &&
               device.reply[8] == PCP_INSTALL_INTERNAL_ERROR,
           "reports something else");
}

/* A record that somebody damaged gives way to a new one, and that is told. */
static void damaged_record(void)
{
    static uint8_t memory[PCP_DEVICE_STATE(64)], bytes[64];
    pcp_driver_config given = pcp_driver_defaults();
    static const uint8_t query[8] = {0xFF, 0xFE, 0x01, 19, 0x4C, 0x9A, 0, 0};

    expect(pcp_device_driver_start(&device, &given, "V1.0", 4, bytes,
                                   sizeof bytes, memory, sizeof memory, NULL, 0,
                                   NULL, 0, 0) == PCP_HANDLED,
           "does not start");
    while (pcp_device_driver_poll(&device, 0).kind != PCP_ACTION_WAIT)
        ;
    memory[PCP_DRIVER_DEVICE] = 99;
    expect(pcp_device_driver_receive(&device, 0, PCP_READY, query,
                                     sizeof query) == PCP_BAD_RECORD,
           "the damage is not seen");
    expect(pcp_device_driver_fault(&device) == PCP_BAD_RECORD, "no fault");
    expect(pcp_device_driver_poll(&device, 0).kind == PCP_ACTION_SAVE &&
               pcp_device_phase(pcp_device_driver_record(&device)) ==
                   PCP_DEVICE_IDLE,
           "no new record");
}

/* So it is where a save is due: its length is not gone by. */
static void damaged_between_polls(void)
{
    static uint8_t memory[PCP_DEVICE_STATE(64)], bytes[64];
    pcp_driver_config given = pcp_driver_defaults();
    pcp_action action;

    expect(pcp_device_driver_start(&device, &given, "V1.0", 4, bytes,
                                   sizeof bytes, memory, sizeof memory, NULL, 0,
                                   NULL, 0, 0) == PCP_HANDLED,
           "does not start");
    memory[PCP_DRIVER_DEVICE] = PCP_DEVICE_LOADING;
    memset(memory + PCP_DRIVER_DEVICE + 33, 0xFF, 4); /* size and total */
    action = pcp_device_driver_poll(&device, 0);
    expect(action.kind == PCP_ACTION_SAVE &&
               action.length == PCP_DEVICE_STATE_FIXED,
           "a length that was damaged is gone by");
    expect(pcp_device_driver_fault(&device) == PCP_BAD_MEMORY, "no fault");
}

/* A digest for a text that is no version's does not start. */
static void bad_digest_version(void)
{
    static uint8_t memory[PCP_DEVICE_STATE(64)], bytes[64];
    static const char *const texts[] = {"V 2.0", "V2.0\0x"};
    pcp_driver_config given = pcp_driver_defaults();

    for (int i = 0; i < 2; i++) {
        memcpy(given.digest_version, texts[i], 6);
        expect(pcp_device_driver_start(&device, &given, "V1.0", 4, bytes,
                                       sizeof bytes, memory, sizeof memory,
                                       NULL, 0, NULL, 0,
                                       0) == PCP_BAD_VERSION_TEXT,
               "a digest of no version is taken");
    }
}

/* CRC-32 as it is published. */
static void check_crc(void)
{
    expect(pcp_driver_crc(0, (const uint8_t *)"123456789", 9) == 0xCBF43926,
           "the CRC is another");
}

int main(int count, char **arguments)
{
    unsigned long calls = count > 1 ? strtoul(arguments[1], NULL, 10) : 1000000;

    random_state = count > 2 ? strtoul(arguments[2], NULL, 10) : 21;
    check_crc();
    changed_package();
    unknown_code(-1);
    unknown_code(256);
    unknown_code(3);
    damaged_record();
    damaged_between_polls();
    bad_digest_version();
    new_world();
    for (unsigned long i = 0; i < calls; i++)
        step();
    free(image);
    free(state);
    free(package);
    expect(calls < 100000 || (upgrades > 0 && installations > 0),
           "no upgrade succeeded");
    expect(calls < 100000 || (digests > 0 && failures > 0),
           "no download was tested by a digest, or none failed");
    printf("driver: %lu random steps, %lu writes, %lu saves, %lu sent, %lu "
           "installations, %lu upgrades; with a digest, %lu steps in Loaded "
           "and %lu in Failed\n",
           calls, kinds[PCP_ACTION_WRITE], kinds[PCP_ACTION_SAVE],
           kinds[PCP_ACTION_SEND], installations, upgrades, digests, failures);
    return EXIT_SUCCESS;
}
