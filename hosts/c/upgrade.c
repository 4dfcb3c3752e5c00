/* upgrade [--capture FILE] [--digest HEX] PACKAGE [SEED [SIZE]]
   upgrade --udp device [OPTION VALUE].. FOLDER
   upgrade --udp gateway [OPTION VALUE].. FOLDER VERSION PACKAGE

   Upgrades a simulated device from a package file, over a simulated link that
   loses, repeats, delays and reorders messages, and is down at times.  Either
   end's process is killed at times, between any two things that it does, and
   started again from what it had saved.  The seed, a number, fixes what goes
   wrong.  The size is that of a fragment: as in public platforms' packages, if
   none is given.  With a file, the exchange is recorded there as a capture:
   what arrives at the device, and what it sends.  With a digest, the package's
   MD5 in 32 hex digits as md5sum prints it, the device tests the image by that
   too.  With --udp it is one end alone, over UDP: udp.c.

   This is an example of both hosts over the drivers of pcp_driver.h.  Device
   and gateway know of each other only what the link brings.  What a host has to
   do, and can be copied:

   - device_start, gateway_start: start the driver, with what the slots hold
   - device_turn, gateway_turn: do what the driver tells, until it waits
   - device_receive, gateway_receive: hand in what arrived

   The rest is the simulation, and the account of it.  hosts/rust/upgrade.rs is
   the same program in Rust, and prints the same. */
#include "upgrade.h"

#include "pcp_capture.h"

#include <errno.h>
#include <stdlib.h>
#include <string.h>

#define RUNNING "V1.0" /* the version on the device */
#define TARGET "V2.0"  /* the version of the package */

enum { ERASED = 0xFF }; /* a byte of erased flash */

/* Time passes in ticks. */
enum {
    LONGEST_DELAY = 8,     /* of a message on the link */
    INSTALLATION = 40,     /* what the installer takes */
    OUTAGE = 300,          /* how long the link is down */
    AWAY = 25,             /* how long a process that was killed */
    MOST_TICKS = 2000000   /* then the program gives up */
};

/* How often things go wrong: once in so many times.  A process is killed before
   something that it is to do. */
enum { LOST = 6, REPEATED = 10, DOWN = 1500, BUSY = 8, KILLED = 500 };

/* The times and limits of both ends.  A digest is the package's, and so belongs
   to the version that this brings; the driver gives it to the device. */
static pcp_driver_config settings(uint16_t size, const uint8_t *digest)
{
    pcp_driver_config config = pcp_driver_defaults();

    config.retry = 20;
    config.quiet = 2 * LONGEST_DELAY + 1; /* a message and its reply are here */
    config.installation = 200;
    config.later = 50;
    config.linger = 200;
    config.time_limit = MOST_TICKS;
    config.size = size;
    if (digest != NULL) {
        memcpy(config.digest_version, TARGET, strlen(TARGET));
        memcpy(config.digest, digest, PCP_DIGEST_LENGTH);
    }
    return config;
}

/* Random numbers that a seed fixes (SplitMix64). */

static uint64_t draw(uint64_t *random)
{
    uint64_t z = *random += UINT64_C(0x9E3779B97F4A7C15);

    z = (z ^ (z >> 30)) * UINT64_C(0xBF58476D1CE4E5B9);
    z = (z ^ (z >> 27)) * UINT64_C(0x94D049BB133111EB);
    return z ^ (z >> 31);
}

static bool once_in(uint64_t *random, uint64_t times)
{
    return draw(random) % times == 0;
}

/* The link. */

enum end { DEVICE, GATEWAY };

struct message {
    enum end to;
    unsigned long due; /* the tick of its arrival */
    size_t length;
    uint8_t bytes[PCP_GATEWAY_REPLY]; /* none is longer */
};

struct link {
    uint64_t random;
    unsigned long down_until;
    struct message in_flight[64];
    size_t count;
    unsigned long sent, lost, repeated;
};

static void link_tick(struct link *link, unsigned long now)
{
    if (now >= link->down_until && once_in(&link->random, DOWN))
        link->down_until = now + OUTAGE;
}

/* Each copy has a delay of its own, so that messages overtake each other. */
static void link_launch(struct link *link, unsigned long now, enum end to,
                        const uint8_t *bytes, size_t length)
{
    struct message *message = &link->in_flight[link->count];

    if (link->count == sizeof link->in_flight / sizeof link->in_flight[0])
        return; /* as good as lost */
    message->to = to;
    message->due = now + 1 + draw(&link->random) % LONGEST_DELAY;
    message->length = length;
    memcpy(message->bytes, bytes, length);
    link->count++;
}

/* An empty message is none: calls without a reply give one. */
static void link_send(struct link *link, unsigned long now, enum end to,
                      const uint8_t *bytes, size_t length)
{
    if (length == 0)
        return;
    link->sent++;
    if (now < link->down_until || once_in(&link->random, LOST)) {
        link->lost++;
        return;
    }
    link_launch(link, now, to, bytes, length);
    if (once_in(&link->random, REPEATED)) {
        link->repeated++;
        link_launch(link, now, to, bytes, length);
    }
}

/* Takes one message that is due; false if there is none. */
static bool link_take(struct link *link, unsigned long now,
                      struct message *message)
{
    for (size_t i = 0; i < link->count; i++)
        if (link->in_flight[i].due <= now) {
            *message = link->in_flight[i];
            link->count--;
            memmove(&link->in_flight[i], &link->in_flight[i + 1],
                    (link->count - i) * sizeof *message);
            return true;
        }
    return false;
}

/* Both hosts. */

void capture_message(FILE *capture, bool toward_device, const uint8_t *message,
                     size_t length)
{
    uint8_t record[PCP_CAPTURE_HEADER + MOST_MESSAGE];
    pcp_written written;

    if (capture == NULL || length == 0)
        return;
    written = pcp_capture_write(toward_device, message, length, record,
                                sizeof record, 0);
    fwrite(record, 1, written.next, capture);
    fflush(capture); /* the caller sees by ferror if it failed */
}

const char *gateway_phase_name(uint8_t phase)
{
    static const char *const names[] = {"Ask", "Offer", "Serve", "Run",
                                        "Ended"};

    return names[phase];
}

/* The device's host. */

struct device {
    pcp_device_driver driver;
    bool up;               /* the process runs; if not, */
    unsigned long up_at;   /* it starts then */
    const char *version;   /* the one that runs */
    uint8_t image[IMAGE_LENGTH], state[STATE_LENGTH]; /* gone when killed */
    uint8_t flash[IMAGE_LENGTH], slots[2][STATE_LENGTH]; /* not gone */
    unsigned long installed_at; /* when the installer will be done; 0: it is not
                                   at work */
    size_t installed; /* bytes of what was installed */
    uint64_t random;
    FILE *capture; /* of the exchange; NULL if it is not recorded */
    unsigned long stored, repeated, killed, tested, failed;
};

static void device_start(struct device *device, const pcp_driver_config *config,
                         unsigned long now)
{
    memcpy(device->image, device->flash, sizeof device->image);
    pcp_device_driver_start(&device->driver, config, device->version,
                            strlen(device->version), device->image,
                            sizeof device->image, device->state,
                            sizeof device->state, device->slots[0],
                            sizeof device->slots[0], device->slots[1],
                            sizeof device->slots[1], now);
    device->up = true;
}

/* What was in memory is gone, and an installation cut off. */
static void device_kill(struct device *device, unsigned long now)
{
    memset(&device->driver, ERASED, sizeof device->driver);
    device->up = false;
    device->up_at = now + AWAY;
    device->installed_at = 0;
    device->killed++;
    printf("tick %lu: the device restarts\n", now);
}

/* A real installer copies these bytes to where they run. */
static void device_install(struct device *device, unsigned long now,
                           size_t length)
{
    device->installed = length;
    device->installed_at = now + INSTALLATION;
}

/* Half of the installers restart the device: the driver hears of it by the
   version that runs then. */
static void device_installed(struct device *device, unsigned long now)
{
    device->installed_at = 0;
    device->version = TARGET;
    if (once_in(&device->random, 2))
        device_kill(device, now);
    else
        pcp_device_driver_installed(&device->driver, PCP_INSTALLED);
}

static void device_send(struct device *device, struct link *link,
                        unsigned long now, const uint8_t *bytes, size_t length)
{
    capture_message(device->capture, false, bytes, length);
    link_send(link, now, GATEWAY, bytes, length);
}

static void device_turn(struct device *device, struct link *link,
                        unsigned long now)
{
    for (;;) {
        pcp_action action = pcp_device_driver_poll(&device->driver, now);

        if (action.kind == PCP_ACTION_WAIT)
            return;
        if (once_in(&device->random, KILLED)) {
            device_kill(device, now);
            return;
        }
        switch (action.kind) {
        case PCP_ACTION_WRITE:
            memcpy(device->flash + action.at, action.bytes, action.length);
            device->stored++;
            break;
        case PCP_ACTION_SAVE:
            memcpy(device->slots[action.slot], action.bytes, action.length);
            break;
        case PCP_ACTION_SEND:
            device_send(device, link, now, action.bytes, action.length);
            break;
        case PCP_ACTION_INSTALL:
            device_install(device, now, action.length);
        }
    }
}

/* A device would look at its battery, its signal and its own work. */
static uint8_t device_condition(struct device *device)
{
    return once_in(&device->random, BUSY) ? PCP_BUSY : PCP_READY;
}

/* What comes last leaves the device in one of these. */
static bool device_has_all(const uint8_t *record)
{
    return pcp_device_phase(record) == PCP_DEVICE_LOADED ||
           (pcp_device_phase(record) == PCP_DEVICE_FAILED &&
            pcp_device_stored(record) == pcp_device_total(record));
}

/* For the account: all is stored, and was tested. */
static void device_tested(struct device *device, unsigned long now)
{
    const uint8_t *record = pcp_device_driver_record(&device->driver);
    uint16_t code = pcp_device_code(record);
    uint16_t check =
        pcp_check_of_bytes(device->image, pcp_device_image_length(record));
    bool by_digest = code == 0 || code == check;

    device->tested += pcp_device_digest_set(record);
    if (pcp_device_phase(record) != PCP_DEVICE_FAILED)
        return;
    device->failed += by_digest;
    printf("tick %lu: all is stored, and the image's %s\n", now,
           by_digest ? "MD5 is not the one given"
                     : "check is not the one announced");
}

static void device_receive(struct device *device, struct link *link,
                           unsigned long now, const struct message *message)
{
    const uint8_t *record;
    uint8_t number, before;

    if (!device->up)
        return;
    record = pcp_device_driver_record(&device->driver);
    before = pcp_device_phase(record);
    capture_message(device->capture, true, message->bytes, message->length);
    number = pcp_device_driver_receive(&device->driver, now,
                                       device_condition(device), message->bytes,
                                       message->length);
    if (number == PCP_ALREADY_STORED)
        device->repeated++;
    if (before == PCP_DEVICE_LOADING && device_has_all(record))
        device_tested(device, now);
    device_turn(device, link, now);
}

static void device_tick(struct device *device, struct link *link,
                        const pcp_driver_config *config, unsigned long now)
{
    if (!device->up && now >= device->up_at)
        device_start(device, config, now);
    if (device->installed_at > 0 && now >= device->installed_at)
        device_installed(device, now);
    if (device->up)
        device_turn(device, link, now);
}

/* The gateway's host. */

struct gateway {
    pcp_gateway_driver driver;
    bool up;
    unsigned long up_at;
    const uint8_t *package;
    size_t package_length;
    uint8_t slots[2][PCP_GATEWAY_STATE];
    uint64_t random;
    bool ended; /* the driver told the end */
    unsigned long killed;
    uint32_t started; /* gateways, as far as told */
    uint8_t phase;    /* of the last one, likewise */
};

static uint8_t gateway_start(struct gateway *gateway,
                             const pcp_driver_config *config, unsigned long now)
{
    uint8_t number = pcp_gateway_driver_start(
        &gateway->driver, config, TARGET, strlen(TARGET), gateway->package,
        gateway->package_length, gateway->slots[0], sizeof gateway->slots[0],
        gateway->slots[1], sizeof gateway->slots[1], now);

    gateway->up = number == PCP_HANDLED;
    return number;
}

static void gateway_kill(struct gateway *gateway, unsigned long now)
{
    memset(&gateway->driver, ERASED, sizeof gateway->driver);
    gateway->up = false;
    gateway->up_at = now + AWAY;
    gateway->killed++;
    printf("tick %lu: the gateway restarts\n", now);
}

/* For the account: tells of a gateway that ended, or after which another
   started. */
static void gateway_tell(struct gateway *gateway, unsigned long now)
{
    static const char *const meaning[] = {
        "success",           "the version is running already",
        "offer refused",     "download failed",
        "execution refused", "installation failed"};
    const uint8_t *record = pcp_gateway_driver_record(&gateway->driver);
    uint32_t started = pcp_gateway_driver_gateways(&gateway->driver);
    uint8_t phase = pcp_gateway_phase(record);

    if (started > gateway->started && gateway->started > 0 &&
        gateway->phase != PCP_GATEWAY_ENDED)
        printf("tick %lu: gateway %lu stood still in %s\n", now,
               (unsigned long)gateway->started,
               gateway_phase_name(gateway->phase));
    if (phase == PCP_GATEWAY_ENDED && gateway->phase != PCP_GATEWAY_ENDED)
        printf("tick %lu: gateway %lu ended with %u, %s; "
               "the device said %02X\n",
               now, (unsigned long)started,
               (unsigned)pcp_gateway_ending(record),
               meaning[pcp_gateway_ending(record)],
               (unsigned)pcp_gateway_driver_said(&gateway->driver));
    gateway->started = started;
    gateway->phase = phase;
}

static void gateway_turn(struct gateway *gateway, struct link *link,
                         unsigned long now)
{
    for (;;) {
        pcp_action action;

        gateway_tell(gateway, now);
        action = pcp_gateway_driver_poll(&gateway->driver, now);
        gateway->ended = action.kind == PCP_ACTION_END;
        if (gateway->ended || action.kind == PCP_ACTION_WAIT)
            return;
        if (once_in(&gateway->random, KILLED)) {
            gateway_kill(gateway, now);
            return;
        }
        if (action.kind == PCP_ACTION_SAVE)
            memcpy(gateway->slots[action.slot], action.bytes, action.length);
        else
            link_send(link, now, DEVICE, action.bytes, action.length);
    }
}

static void gateway_receive(struct gateway *gateway, struct link *link,
                            unsigned long now, const struct message *message)
{
    if (!gateway->up)
        return;
    pcp_gateway_driver_receive(&gateway->driver, now, message->bytes,
                               message->length);
    gateway_turn(gateway, link, now);
}

static void gateway_tick(struct gateway *gateway, struct link *link,
                         const pcp_driver_config *config, unsigned long now)
{
    if (!gateway->up && now >= gateway->up_at)
        gateway_start(gateway, config, now);
    if (gateway->up)
        gateway_turn(gateway, link, now);
}

/* The program. */

/* What the program is called with. */
struct call {
    const char *capture;   /* NULL if there is none */
    const uint8_t *digest; /* likewise */
    const char *package;
    uint64_t seed, size;
};

static void deliver(struct device *device, struct gateway *gateway,
                    struct link *link, unsigned long now)
{
    struct message message;

    while (link_take(link, now, &message))
        if (message.to == DEVICE)
            device_receive(device, link, now, &message);
        else
            gateway_receive(gateway, link, now, &message);
}

/* Runs both hosts until the upgrade is over, and the device at rest; how it
   ended. */
static uint8_t upgrade(struct device *device, struct gateway *gateway,
                       struct link *link, const pcp_driver_config *config)
{
    for (unsigned long now = 0; now < MOST_TICKS; now++) {
        uint8_t outcome;

        link_tick(link, now);
        deliver(device, gateway, link, now);
        device_tick(device, link, config, now);
        gateway_tick(gateway, link, config, now);
        if (!gateway->up || !gateway->ended || !device->up)
            continue;
        outcome = pcp_gateway_driver_outcome(&gateway->driver);
        if (outcome != PCP_OUTCOME_SUCCESS ||
            pcp_device_phase(pcp_device_driver_record(&device->driver)) ==
                PCP_DEVICE_IDLE)
            return outcome;
    }
    return PCP_OUTCOME_TIME;
}

static bool image_is_package(const struct device *device,
                             const struct gateway *gateway)
{
    return device->installed == gateway->package_length &&
           memcmp(device->flash, gateway->package, gateway->package_length) ==
               0;
}

/* The account, and the program's exit status. */
static int report(const struct call *call, const struct device *device,
                  const struct gateway *gateway, const struct link *link,
                  uint8_t outcome)
{
    printf("messages: %lu sent, %lu lost, %lu repeated\n", link->sent,
           link->lost, link->repeated);
    printf("fragments: %lu stored, %lu came again\n", device->stored,
           device->repeated);
    printf("restarts: %lu of the device, %lu of the gateway; gateways: %lu\n",
           device->killed, gateway->killed, (unsigned long)gateway->started);
    if (call->digest != NULL)
        printf("digest: %lu images tested by it, %lu failed\n", device->tested,
               device->failed);
    if (outcome != PCP_OUTCOME_SUCCESS)
        printf("gave up: %s\n", pcp_outcome_reason(outcome));
    else if (strcmp(device->version, TARGET) != 0)
        puts("the device does not run " TARGET);
    else if (!image_is_package(device, gateway))
        puts("upgraded to " TARGET ", but the image is not the package");
    else {
        printf("upgraded to " TARGET ": %lu bytes, image equals package\n",
               (unsigned long)gateway->package_length);
        return EXIT_SUCCESS;
    }
    return EXIT_FAILURE;
}

static int run(const struct call *call, const uint8_t *package,
               size_t package_length, FILE *capture)
{
    static struct device device; /* too large for a stack */
    static struct gateway gateway;
    struct link link = {.random = call->seed};
    pcp_driver_config config = settings((uint16_t)call->size, call->digest);
    uint8_t number;

    gateway.package = package;
    gateway.package_length = package_length;
    gateway.random = call->seed + 1;
    number = gateway_start(&gateway, &config, 0);
    if (number != PCP_HANDLED) {
        fprintf(stderr, "upgrade: refused with %u, %s\n",
                (unsigned)number, pcp_reason(number));
        return EXIT_FAILURE;
    }
    memset(device.flash, ERASED, sizeof device.flash);
    memset(device.slots, ERASED, sizeof device.slots);
    device.version = RUNNING;
    device.random = ~call->seed;
    device.capture = capture;
    device_start(&device, &config, 0);
    return report(call, &device, &gateway, &link,
                  upgrade(&device, &gateway, &link, &config));
}

/* The arguments. */

bool read_file(const char *path, uint8_t *bytes, size_t most, size_t *length)
{
    FILE *file = fopen(path, "rb");
    bool good;

    if (file == NULL)
        return false;
    *length = fread(bytes, 1, most, file);
    good = !ferror(file);
    fclose(file);
    return good;
}

/* Digits alone, for strtoull also takes signs and blanks. */
const char *read_number(const char *text, char end, uint64_t most,
                        uint64_t *number)
{
    size_t length = strspn(text, "0123456789");

    if (length == 0 || text[length] != end)
        return NULL;
    errno = 0;
    *number = strtoull(text, NULL, 10);
    if (errno != 0 || *number > most)
        return NULL;
    return text + length + (end != 0);
}

bool read_digest(const char *text, uint8_t *digest)
{
    if (strlen(text) != 2 * PCP_DIGEST_LENGTH ||
        strspn(text, "0123456789abcdefABCDEF") != strlen(text))
        return false;
    for (size_t i = 0; i < PCP_DIGEST_LENGTH; i++) {
        char digits[3] = {text[2 * i], text[2 * i + 1], 0};

        digest[i] = (uint8_t)strtoul(digits, NULL, 16);
    }
    return true;
}

/* Takes the options from the front; false if one is wrong. */
static bool read_options(int *count, char ***arguments, struct call *call)
{
    static uint8_t digest[PCP_DIGEST_LENGTH];

    while (*count > 1 && strncmp((*arguments)[1], "--", 2) == 0) {
        const char *option = (*arguments)[1], *value = (*arguments)[2];

        if (value == NULL)
            return false;
        if (strcmp(option, "--capture") == 0)
            call->capture = value;
        else if (strcmp(option, "--digest") == 0 && read_digest(value, digest))
            call->digest = digest;
        else
            return false;
        *arguments += 2;
        *count -= 2;
    }
    return true;
}

static bool read_call(int count, char **arguments, struct call *call)
{
    if (!read_options(&count, &arguments, call) || count < 2 || count > 4)
        return false;
    call->package = arguments[1];
    return (count < 3 ||
            read_number(arguments[2], 0, UINT64_MAX, &call->seed) != NULL) &&
           (count < 4 ||
            read_number(arguments[3], 0, UINT16_MAX, &call->size) != NULL);
}

/* Runs, and sees that the capture was written, if there is one. */
static int run_captured(const struct call *call, const uint8_t *package,
                        size_t package_length)
{
    const char *path = call->capture;
    FILE *capture = path == NULL ? NULL : fopen(path, "wb");
    int status;

    if (path != NULL && capture == NULL) {
        fprintf(stderr, "upgrade: cannot write %s: %s\n", path,
                strerror(errno));
        return EXIT_FAILURE;
    }
    status = run(call, package, package_length, capture);
    if (capture != NULL && (ferror(capture) | fclose(capture)) != 0) {
        fprintf(stderr, "upgrade: cannot write %s\n", path);
        return EXIT_FAILURE;
    }
    return status;
}

/* Reads no more of a package than shows that it is too long. */
static int run_simulated(int count, char **arguments)
{
    static uint8_t package[MOST_PACKAGE + 1];
    size_t length;
    struct call call = {.seed = 1, .size = PCP_SIZE_PUBLIC};

    if (!read_call(count, arguments, &call))
        return WRONG_USE;
    if (!read_file(call.package, package, sizeof package, &length)) {
        fprintf(stderr, "upgrade: cannot read %s: %s\n", call.package,
                strerror(errno));
        return EXIT_FAILURE;
    }
    return run_captured(&call, package, length);
}

static void tell_use(FILE *to)
{
    fputs("usage: upgrade [--capture FILE] [--digest HEX] PACKAGE"
          " [SEED [SIZE]]\n"
          "       upgrade --udp device [OPTION VALUE].. FOLDER\n"
          "       upgrade --udp gateway [OPTION VALUE].. FOLDER VERSION"
          " PACKAGE\n"
          "options with --udp: --ports DEVICE:GATEWAY, --lose PERCENT,\n"
          "    --capture FILE, --digest VERSION:HEX, --size SIZE\n",
          to);
}

int main(int count, char **arguments)
{
    int status;

    if (count == 2 && strcmp(arguments[1], "--help") == 0) {
        tell_use(stdout);
        return EXIT_SUCCESS;
    }
    if (count > 1 && strcmp(arguments[1], "--udp") == 0)
        status = run_over_udp(count - 2, arguments + 2);
    else
        status = run_simulated(count, arguments);
    if (status == WRONG_USE)
        tell_use(stderr);
    return status;
}
