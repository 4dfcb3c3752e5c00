/* The hosts of the manual's section on the driver, compiled as they stand
   there: each a process of its own, over a pair of sockets that loses messages.
   Either is killed at times, in the midst of a write too, and started again
   from its storage.  In the end the gateway must tell success, and the device
   have installed the package and run its version. */
#define _DEFAULT_SOURCE /* for MAP_ANONYMOUS */
#define TEST "manual_hosts"
#include "pcp_driver.h"
#include "testing.h"

#include <poll.h>
#include <signal.h>
#include <sys/mman.h>
#include <sys/socket.h>
#include <sys/wait.h>
#include <time.h>
#include <unistd.h>

enum {
    UPGRADES = 3,
    PACKAGE = 9000,
    IMAGE = 65536,
    SLOT = PCP_DEVICE_STATE(IMAGE),
    KILLED = 60,       /* once in so many things that a host does */
    LOST = 8,          /* once in so many messages */
    MOST_SECONDS = 300 /* then the test gives up */
};

/* What outlives a process. */
struct storage {
    uint8_t image[IMAGE], device_slots[2][SLOT];
    uint8_t gateway_slots[2][PCP_GATEWAY_STATE];
    char version[5];
    int wrong; /* something else than the package was installed */
    int installed;
};

static struct storage *storage;
static uint8_t package[PACKAGE];
static int radio; /* this end's */
static uint8_t (*slots)[SLOT];
static size_t slot_length;

enum { WAS_KILLED = 77 };

static void maybe_killed(void)
{
    if (below(KILLED) == 0)
        _exit(WAS_KILLED);
}

/* What the hosts call. */

static uint64_t clock_now(void)
{
    struct timespec now;

    clock_gettime(CLOCK_MONOTONIC, &now);
    return (uint64_t)now.tv_sec * 1000 + (uint64_t)now.tv_nsec / 1000000;
}

static void store(uint8_t *to, const uint8_t *bytes, size_t length)
{
    size_t cut = below(KILLED) == 0 ? below((uint32_t)length + 1) : length;

    memcpy(to, bytes, cut);
    if (cut < length)
        _exit(WAS_KILLED);
}

static void read_image(uint8_t *image, size_t length)
{
    memcpy(image, storage->image, length);
}

static void write_image(size_t at, const uint8_t *bytes, size_t length)
{
    store(storage->image + at, bytes, length);
}

static uint8_t *slot_at(size_t slot)
{
    return (uint8_t *)slots + slot * slot_length;
}

static void read_slots(uint8_t *one, uint8_t *other, size_t length)
{
    memcpy(one, slot_at(0), length);
    memcpy(other, slot_at(1), length);
}

static void write_slot(size_t slot, const uint8_t *bytes, size_t length)
{
    store(slot_at(slot), bytes, length);
}

static void radio_send(const uint8_t *bytes, size_t length)
{
    maybe_killed();
    if (below(LOST) > 0)
        send(radio, bytes, length, MSG_DONTWAIT);
}

static size_t radio_receive(uint8_t *bytes, size_t length, uint64_t until)
{
    struct pollfd wait = {.fd = radio, .events = POLLIN};
    uint64_t now = clock_now();
    uint64_t left = until > now ? until - now : 0;
    ssize_t got = 0;

    maybe_killed();
    if (poll(&wait, 1, left > 1000 ? 1000 : (int)left) > 0)
        got = recv(radio, bytes, length, 0);
    return got > 0 ? (size_t)got : 0;
}

static int condition_now(void)
{
    return below(8) == 0 ? PCP_BUSY : PCP_READY;
}

/* Half of the installers restart the device. */
static int install(const uint8_t *bytes, size_t length)
{
    maybe_killed();
    if (length != PACKAGE || memcmp(bytes, package, PACKAGE) != 0)
        storage->wrong = 1;
    strcpy(storage->version, "V2.0");
    storage->installed++;
    if (below(2) == 0)
        _exit(WAS_KILLED);
    return PCP_INSTALLED;
}

/* The manual's hosts take the defaults, which would last for minutes here. */
static pcp_driver_config fast(void)
{
    pcp_driver_config config = pcp_driver_defaults();

    config.retry = 20;
    config.quiet = 10;
    config.installation = 400;
    config.later = 50;
    config.linger = 200;
    config.gateway_limit = 0;
    return config;
}

#define pcp_driver_defaults fast
#include "manual_device.c"
#include "manual_gateway.c"
#undef pcp_driver_defaults

/* The processes. */

static pid_t begin(int end, int device)
{
    uint64_t seed = ((uint64_t)below(UINT32_MAX) << 32 | below(UINT32_MAX)) | 1;
    pid_t process;

    fflush(NULL);
    process = fork();
    expect(process >= 0, "no process");
    if (process > 0)
        return process;
    random_state = seed;
    radio = end;
    alarm(MOST_SECONDS);
    if (device) {
        slots = storage->device_slots;
        slot_length = SLOT;
        device_host(storage->version);
    }
    slots = (uint8_t(*)[SLOT])(void *)storage->gateway_slots;
    slot_length = PCP_GATEWAY_STATE;
    _exit(gateway_host("V2.0", package, PACKAGE));
}

/* One upgrade; how often a process was killed. */
static unsigned upgrade(void)
{
    int ends[2], status;
    unsigned killed = 0;
    pid_t device, gateway, ended;

    memset(storage, 0xFF, sizeof *storage);
    strcpy(storage->version, "V1.0");
    storage->wrong = storage->installed = 0;
    for (size_t i = 0; i < PACKAGE; i++)
        package[i] = (uint8_t)below(256);
    expect(socketpair(AF_UNIX, SOCK_DGRAM, 0, ends) == 0, "no sockets");
    device = begin(ends[0], 1);
    gateway = begin(ends[1], 0);
    for (;;) {
        ended = wait(&status);
        expect(ended >= 0 && WIFEXITED(status), "a process was stopped");
        if (WEXITSTATUS(status) != WAS_KILLED)
            break;
        killed++;
        if (ended == device)
            device = begin(ends[0], 1);
        else
            gateway = begin(ends[1], 0);
    }
    expect(ended == gateway && WEXITSTATUS(status) == PCP_OUTCOME_SUCCESS,
           "the gateway does not tell success");
    kill(device, SIGKILL);
    waitpid(device, &status, 0);
    close(ends[0]);
    close(ends[1]);
    expect(!storage->wrong && storage->installed > 0 &&
               strcmp(storage->version, "V2.0") == 0,
           "the device does not run the package");
    return killed;
}

int main(void)
{
    unsigned killed = 0;

    random_state = 20250102;
    storage = (struct storage *)mmap(NULL, sizeof *storage,
                                     PROT_READ | PROT_WRITE,
                                     MAP_SHARED | MAP_ANONYMOUS, -1, 0);
    expect(storage != MAP_FAILED, "no memory");
    for (int i = 0; i < UPGRADES; i++)
        killed += upgrade();
    printf("manual_hosts: %d upgrades, %u processes killed\n", UPGRADES,
           killed);
    return EXIT_SUCCESS;
}
