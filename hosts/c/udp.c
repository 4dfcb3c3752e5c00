/* upgrade --udp device [OPTION VALUE].. FOLDER
   upgrade --udp gateway [OPTION VALUE].. FOLDER VERSION PACKAGE

   One end of an upgrade, a process of its own, over UDP on this machine.  The
   folder is the end's storage: kill the process at any time, start it again
   with the same words, and it goes on.  The device never ends by itself; the
   gateway does, with exit status 0 when the device runs the package.

   Options: --ports DEVICE:GATEWAY, 7001:7002 if not given; --lose PERCENT, of
   what this end sends; --capture FILE, to which each message is appended as a
   record of a capture; --digest VERSION:HEX, which the device tests the package
   of that version by, as md5sum prints it; --size SIZE, of the gateway's
   fragments.

   A device's folder has its image, two slots for the driver's saves, the
   version that runs (V1.0 if there is none), and what was installed.  Where
   standard error is a terminal, the progress is a line there that is written
   over; elsewhere a line for each phase.  hosts/rust/udp.rs is the same in
   Rust: each end may be of either. */
#define _POSIX_C_SOURCE 200809L /* for sockets, clock and files */
#include "upgrade.h"

#include <arpa/inet.h>
#include <errno.h>
#include <fcntl.h>
#include <inttypes.h>
#include <poll.h>
#include <stdarg.h>
#include <stdlib.h>
#include <sys/socket.h>
#include <time.h>
#include <unistd.h>

enum {
    MOST_PATH = 4096,
    LONGEST_WAIT = 500, /* then the progress is shown anew, */
    SHOWN = 100         /* but no more often */
};

static void fail(const char *what)
{
    fprintf(stderr, "upgrade: %s: %s\n", what, strerror(errno));
    exit(EXIT_FAILURE);
}

/* Milliseconds. */
static uint64_t clock_now(void)
{
    struct timespec now;

    clock_gettime(CLOCK_MONOTONIC, &now);
    return (uint64_t)now.tv_sec * 1000 + (uint64_t)now.tv_nsec / 1000000;
}

/* What both ends are called with, and their radio. */
struct host {
    bool is_device;
    const char *folder, *version, *package;
    uint64_t ports[2], lose, random;
    int radio;
    FILE *capture; /* NULL if there is none */
    pcp_driver_config config;
    bool on_terminal;
    const char *phase; /* as shown last, at this time */
    uint64_t shown_at;
    unsigned from; /* fragments that were there at this time */
    uint64_t since;
};

/* Times for a link on which nothing is on its way for long. */
static pcp_driver_config settings(void)
{
    pcp_driver_config config = pcp_driver_defaults();

    config.retry = 200;
    config.quiet = 400;
    config.installation = 10000;
    config.later = 2000;
    config.linger = 1000;
    return config;
}

/* Storage: the files of a folder. */

static const char *path_of(const struct host *host, const char *name)
{
    static char path[MOST_PATH];

    if (snprintf(path, sizeof path, "%s/%s", host->folder, name) >= MOST_PATH) {
        errno = ENAMETOOLONG;
        fail(host->folder);
    }
    return path;
}

/* What the folder has under this name, as far as there is room: its length, 0
   if there is no such file. */
static size_t read_stored(const struct host *host, const char *name,
                          void *bytes, size_t most)
{
    const char *path = path_of(host, name);
    size_t length = 0;

    if (!read_file(path, bytes, most, &length) && errno != ENOENT)
        fail(path);
    return length;
}

/* Bytes to a place of a file.  If that fails, the process ends: it starts again
   from what is saved. */
static void write_file(const struct host *host, const char *name, size_t at,
                       const void *bytes, size_t length)
{
    const char *path = path_of(host, name);
    int file = open(path, O_WRONLY | O_CREAT, 0666);

    errno = file < 0 ? errno : ENOSPC; /* unless another reason is told */
    if (file < 0 || pwrite(file, bytes, length, (off_t)at) != (ssize_t)length ||
        close(file) != 0)
        fail(path);
}

/* A whole file in the place of the one before, if that was there. */
static void replace_file(const struct host *host, const char *name,
                         const void *bytes, size_t length)
{
    char path[MOST_PATH];

    remove(path_of(host, "new"));
    write_file(host, "new", 0, bytes, length);
    strcpy(path, path_of(host, name));
    if (rename(path_of(host, "new"), path) != 0)
        fail(path);
}

static void write_slot(const struct host *host, const pcp_action *action)
{
    write_file(host, action->slot == 0 ? "slot0" : "slot1", 0, action->bytes,
               action->length);
}

/* The radio: a socket that is connected, so that it hears the other end
   alone. */

static struct sockaddr_in at_port(uint64_t port)
{
    struct sockaddr_in address = {.sin_family = AF_INET};

    address.sin_port = htons((uint16_t)port);
    address.sin_addr.s_addr = htonl(INADDR_LOOPBACK);
    return address;
}

static void radio_open(struct host *host)
{
    struct sockaddr_in own = at_port(host->ports[host->is_device ? 0 : 1]);
    struct sockaddr_in other = at_port(host->ports[host->is_device ? 1 : 0]);

    char port[32];

    snprintf(port, sizeof port, "port %u", (unsigned)ntohs(own.sin_port));
    host->radio = socket(AF_INET, SOCK_DGRAM, 0);
    if (host->radio < 0 ||
        bind(host->radio, (struct sockaddr *)&own, sizeof own) != 0 ||
        connect(host->radio, (struct sockaddr *)&other, sizeof other) != 0)
        fail(port);
}

static void capture(const struct host *host, bool toward_device,
                    const uint8_t *bytes, size_t length)
{
    capture_message(host->capture, toward_device, bytes, length);
    if (host->capture != NULL && ferror(host->capture))
        fail("the capture");
}

static bool is_lost(struct host *host)
{
    host->random =
        host->random * UINT64_C(6364136223846793005) + 1442695040888963407;
    return (host->random >> 33) % 100 < host->lose;
}

/* That nobody listens is as good as lost. */
static void radio_send(struct host *host, const pcp_action *action)
{
    capture(host, !host->is_device, action->bytes, action->length);
    if (!is_lost(host))
        (void)send(host->radio, action->bytes, action->length, 0);
}

/* A message; its length is 0 if none came before the time. */
static size_t radio_receive(const struct host *host, uint8_t *bytes,
                            uint64_t until)
{
    struct pollfd wait = {.fd = host->radio, .events = POLLIN};
    uint64_t now = clock_now(), left = until > now ? until - now : 0;
    ssize_t length = 0;

    if (poll(&wait, 1, left < LONGEST_WAIT ? (int)left : LONGEST_WAIT) > 0)
        length = recv(host->radio, bytes, MOST_MESSAGE, 0);
    if (length <= 0)
        return 0;
    capture(host, host->is_device, bytes, (size_t)length);
    return (size_t)length;
}

static const char *end_of(const struct host *host)
{
    return host->is_device ? "device" : "gateway";
}

/* A line for the log; the progress is shown again below it. */
static void tell(struct host *host, const char *format, ...)
{
    va_list values;

    fprintf(stderr, "%s%s: ", host->on_terminal ? "\r\033[K" : "",
            end_of(host));
    va_start(values, format);
    vfprintf(stderr, format, values);
    va_end(values);
    fputc('\n', stderr);
}

/* The progress: phase, fragments of how many, how many in a second since the
   first that was seen, and the seconds left at that rate. */
static void show(struct host *host, const char *phase, unsigned done,
                 unsigned total)
{
    const char *end = end_of(host);
    uint64_t now = clock_now(), passed;
    bool is_new = host->phase != phase;

    if (is_new || done < host->from || host->from == 0) {
        host->from = done;
        host->since = now;
    }
    host->phase = phase;
    if (!is_new && (!host->on_terminal || now < host->shown_at + SHOWN))
        return;
    host->shown_at = now;
    if (!host->on_terminal) {
        fprintf(stderr, "%s: %s\n", end, phase);
        return;
    }
    fprintf(stderr, "\r\033[K%s: %s", end, phase);
    if (done < total)
        fprintf(stderr, ", %u of %u fragments", done, total);
    done -= host->from;
    passed = now - host->since;
    if (done > 0 && passed > 0 && done + host->from < total)
        fprintf(stderr, ", %" PRIu64 " a second, %" PRIu64 " s left",
                done * 1000 / passed,
                (total - host->from - done) * passed / done / 1000);
    fflush(stderr);
}

static void show_device(struct host *host, const uint8_t *record)
{
    static const char *const phases[] = {"Idle",   "Loading",    "Loaded",
                                         "Acked",  "Failed",     "Installing",
                                         "Reporting"};
    bool loading = pcp_device_phase(record) == PCP_DEVICE_LOADING;

    show(host, phases[pcp_device_phase(record)],
         loading ? pcp_device_stored(record) : 0,
         loading ? pcp_device_total(record) : 0);
}

static void show_gateway(struct host *host, const pcp_gateway_driver *driver)
{
    uint8_t phase = pcp_gateway_phase(pcp_gateway_driver_record(driver));
    bool serving = phase == PCP_GATEWAY_SERVE;

    show(host, gateway_phase_name(phase),
         serving ? pcp_gateway_driver_served(driver) : 0,
         serving ? pcp_gateway_driver_total(driver) : 0);
}

/* The device. */

/* Puts the package where it runs, then says so by its version: killed in
   between, it is installed again. */
static int install(struct host *host, const uint8_t *record,
                   const pcp_action *action)
{
    char version[PCP_VERSION_LENGTH + 1] = "";

    memcpy(version, pcp_device_target(record), PCP_VERSION_LENGTH);
    replace_file(host, "installed", action->bytes, action->length);
    replace_file(host, "version", version, strlen(version));
    tell(host, "installed %s, %zu bytes", version, action->length);
    return PCP_INSTALLED;
}

static int device(struct host *host)
{
    static uint8_t image[IMAGE_LENGTH], state[STATE_LENGTH];
    static uint8_t slots[2][STATE_LENGTH], message[MOST_MESSAGE];
    static pcp_device_driver driver;
    char version[PCP_VERSION_LENGTH + 1];
    const uint8_t *record;
    size_t length = read_stored(host, "version", version, sizeof version);
    uint8_t number;

    if (length > 0 && version[length - 1] == '\n')
        length--;
    if (length == 0)
        memcpy(version, "V1.0", length = 4);
    tell(host, "process %d, port %" PRIu64 ", runs %.*s", (int)getpid(),
         host->ports[0], (int)length, version);
    read_stored(host, "image", image, sizeof image);
    read_stored(host, "slot0", slots[0], sizeof slots[0]);
    read_stored(host, "slot1", slots[1], sizeof slots[1]);
    number = pcp_device_driver_start(
        &driver, &host->config, version, length, image, sizeof image, state,
        sizeof state, slots[0], sizeof slots[0], slots[1], sizeof slots[1],
        clock_now());
    if (number != PCP_HANDLED) {
        fprintf(stderr, "upgrade: refused with %u, %s\n",
                (unsigned)number, pcp_reason(number));
        return EXIT_FAILURE;
    }
    record = pcp_device_driver_record(&driver);
    for (;;) {
        pcp_action action = pcp_device_driver_poll(&driver, clock_now());

        show_device(host, record);
        if (action.kind == PCP_ACTION_WRITE)
            write_file(host, "image", action.at, action.bytes, action.length);
        else if (action.kind == PCP_ACTION_SAVE)
            write_slot(host, &action);
        else if (action.kind == PCP_ACTION_SEND)
            radio_send(host, &action);
        else if (action.kind == PCP_ACTION_INSTALL)
            pcp_device_driver_installed(&driver,
                                        install(host, record, &action));
        else {
            length = radio_receive(host, message, action.until);
            if (length > 0)
                pcp_device_driver_receive(&driver, clock_now(), PCP_READY,
                                          message, length);
        }
    }
}

/* The gateway. */

static int gateway(struct host *host)
{
    static uint8_t package[MOST_PACKAGE + 1], message[MOST_MESSAGE];
    static uint8_t slots[2][PCP_GATEWAY_STATE];
    static pcp_gateway_driver driver;
    size_t length;
    uint8_t number;

    if (!read_file(host->package, package, sizeof package, &length))
        fail(host->package);
    tell(host, "process %d, port %" PRIu64 ", brings %s, %zu bytes",
         (int)getpid(), host->ports[1], host->version, length);
    read_stored(host, "slot0", slots[0], sizeof slots[0]);
    read_stored(host, "slot1", slots[1], sizeof slots[1]);
    number = pcp_gateway_driver_start(
        &driver, &host->config, host->version, strlen(host->version), package,
        length, slots[0], sizeof slots[0], slots[1], sizeof slots[1],
        clock_now());
    if (number != PCP_HANDLED) {
        fprintf(stderr, "upgrade: refused with %u, %s\n",
                (unsigned)number, pcp_reason(number));
        return EXIT_FAILURE;
    }
    if (pcp_gateway_driver_outcome(&driver) != PCP_OUTCOME_NONE)
        tell(host, "by the folder's save this upgrade has ended before; to "
                   "begin it anew, empty the folder");
    for (;;) {
        pcp_action action = pcp_gateway_driver_poll(&driver, clock_now());

        show_gateway(host, &driver);
        if (action.kind == PCP_ACTION_SAVE)
            write_slot(host, &action);
        else if (action.kind == PCP_ACTION_SEND)
            radio_send(host, &action);
        else if (action.kind == PCP_ACTION_END)
            break;
        else {
            length = radio_receive(host, message, action.until);
            if (length > 0)
                pcp_gateway_driver_receive(&driver, clock_now(), message,
                                           length);
        }
    }
    number = pcp_gateway_driver_outcome(&driver);
    fprintf(stderr, "%s", host->on_terminal ? "\n" : "");
    if (pcp_gateway_ending(pcp_gateway_driver_record(&driver)) ==
        PCP_ENDING_ALREADY_RUNNING)
        tell(host, "the device ran that version when it was asked");
    if (number == PCP_OUTCOME_SUCCESS) {
        printf("the device runs %s\n", host->version);
        return EXIT_SUCCESS;
    }
    printf("gave up: %s", pcp_outcome_reason(number));
    if (number == PCP_OUTCOME_NO_ROOM || number == PCP_OUTCOME_FAILED)
        printf("; the device said %02X",
               (unsigned)pcp_gateway_driver_said(&driver));
    putchar('\n');
    return EXIT_FAILURE;
}

/* The arguments. */

/* A version, a colon and the digest. */
static bool read_package_digest(const char *text, pcp_driver_config *config)
{
    const char *colon = strchr(text, ':');
    uint8_t record[PCP_DEVICE_RECORD]; /* to see whether it is a version */

    if (colon == NULL || !read_digest(colon + 1, config->digest) ||
        pcp_device_new(record, sizeof record, text, (size_t)(colon - text)) !=
            PCP_HANDLED)
        return false;
    memset(config->digest_version, 0, sizeof config->digest_version);
    memcpy(config->digest_version, text, (size_t)(colon - text));
    return true;
}

static bool read_option(struct host *host, const char *option,
                        const char *value)
{
    uint64_t size;

    if (strcmp(option, "--ports") == 0) {
        value = read_number(value, ':', 65535, &host->ports[0]);
        return value != NULL &&
               read_number(value, 0, 65535, &host->ports[1]) != NULL &&
               host->ports[0] > 0 && host->ports[1] > 0 &&
               host->ports[0] != host->ports[1];
    }
    if (strcmp(option, "--lose") == 0)
        return read_number(value, 0, 100, &host->lose) != NULL;
    if (strcmp(option, "--digest") == 0)
        return read_package_digest(value, &host->config);
    if (strcmp(option, "--size") == 0 &&
        read_number(value, 0, 65535, &size) != NULL) {
        host->config.size = (uint16_t)size;
        return true;
    }
    if (strcmp(option, "--capture") != 0)
        return false;
    host->capture = fopen(value, "ab");
    if (host->capture == NULL)
        fail(value);
    return true;
}

int run_over_udp(int count, char **arguments)
{
    struct host host = {.ports = {7001, 7002}};

    host.config = settings();
    host.random = clock_now() + (uint64_t)getpid();
    host.on_terminal = isatty(STDERR_FILENO);
    if (count < 1)
        return WRONG_USE;
    host.is_device = strcmp(arguments[0], "device") == 0;
    if (!host.is_device && strcmp(arguments[0], "gateway") != 0)
        return WRONG_USE;
    arguments++;
    count--;
    while (count > 1 && strncmp(arguments[0], "--", 2) == 0) {
        if (!read_option(&host, arguments[0], arguments[1]))
            return WRONG_USE;
        arguments += 2;
        count -= 2;
    }
    if (count != (host.is_device ? 1 : 3))
        return WRONG_USE;
    host.folder = arguments[0];
    if (access(host.folder, W_OK | X_OK) != 0)
        fail(host.folder);
    radio_open(&host);
    if (host.is_device)
        return device(&host);
    host.version = arguments[1];
    host.package = arguments[2];
    return gateway(&host);
}
