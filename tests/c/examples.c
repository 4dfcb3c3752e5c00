/* The examples of include/pcp.h, compiled as they stand there, upgrade a device
   over a link that loses and repeats messages, while batteries are pulled: the
   device's after any byte that goes to its flash and before anything that it
   sends or begins, the gateway's before anything that it saves or sends.  After
   each restart the last save must be there, and what its map marks be whole in
   the image; an order to install that was accepted must be known; what is
   installed must be the package, and not run already; and in the end the device
   must run it. */
#define TEST "examples"
#include "pcp.h"
#include "testing.h"

#include <setjmp.h>

enum {
    IMAGE = 0, /* places in flash */
    SLOTS = 65536,
    FLASH = SLOTS + 1024,
    RETRY = 12, /* times, in ticks */
    QUIET = 20,
    INSTALLATION = 30,
    STANDSTILL = 400,
    MOST_TICKS = 200000,
    MOST_PACKAGE = 20000
};

static const uint8_t old_version[PCP_VERSION_LENGTH] = "V1.0";
static const uint8_t new_version[PCP_VERSION_LENGTH] = "V2.0";

/* The batteries.  Each has so many steps left; 0: it stays in. */
static jmp_buf pulled;
static unsigned long device_steps, gateway_steps;
static unsigned long cuts, installations;

static int is_cut(unsigned long *steps)
{
    return *steps > 0 && --*steps == 0;
}

static void step(unsigned long *steps)
{
    if (is_cut(steps))
        longjmp(pulled, 1);
}

/* The link: messages arrive in order, two ticks later, once or more, or not. */
struct message {
    int to_device;
    unsigned long due;
    size_t length;
    uint8_t bytes[PCP_GATEWAY_REPLY];
};

static struct message link_queue[64];
static size_t link_count;
static unsigned long now;
static uint32_t lost_once_in; /* 0: never */

static void link_send(int to_device, const uint8_t *bytes, size_t length)
{
    uint32_t copies = 1;

    if (lost_once_in > 0)
        copies = below(lost_once_in) == 0 ? 0 : below(lost_once_in) == 0 ? 2 : 1;
    for (; copies > 0 && link_count < 64; copies--) {
        struct message *message = &link_queue[link_count++];

        message->to_device = to_device;
        message->due = now + 2;
        message->length = length;
        memcpy(message->bytes, bytes, length);
    }
}

/* What the device's example needs of its host. */

static uint8_t flash[FLASH];
static uint8_t device_version[PCP_VERSION_LENGTH]; /* the one that runs */
static unsigned long device_timer, installed_at;
static unsigned attempts;
static int will_install; /* the device has said so */
static uint8_t package[MOST_PACKAGE];
static size_t package_length;

/* A byte during which the power goes becomes any. */
static void flash_write(size_t place, const void *bytes, size_t length)
{
    for (size_t i = 0; i < length; i++) {
        int cut = is_cut(&device_steps);

        flash[place + i] = cut ? (uint8_t)below(256) : ((const uint8_t *)bytes)[i];
        if (cut)
            longjmp(pulled, 1);
    }
}

static void flash_read(size_t place, void *bytes, size_t length)
{
    memcpy(bytes, flash + place, length);
}

static uint32_t crc32(const void *bytes, size_t length)
{
    uint32_t crc = 0xFFFFFFFF;

    for (size_t i = 0; i < length; i++) {
        crc ^= ((const uint8_t *)bytes)[i];
        for (int bit = 0; bit < 8; bit++)
            crc = crc % 2 == 1 ? crc / 2 ^ 0xEDB88320 : crc / 2;
    }
    return ~crc;
}

static void device_send(const uint8_t *bytes, size_t length)
{
    step(&device_steps);
    will_install |= bytes[3] == PCP_EXECUTE && bytes[8] == 0x00;
    link_send(0, bytes, length);
}

static void device_set_timer(unsigned long ticks)
{
    device_timer = now + ticks;
}

static int condition_now(void)
{
    return lost_once_in > 0 && below(8) == 0 ? PCP_BUSY : PCP_READY;
}

static void begin_installer(const uint8_t *image, uint32_t length)
{
    step(&device_steps);
    expect(memcmp(device_version, new_version, sizeof new_version) != 0,
           "what runs is installed again");
    expect(length == package_length && memcmp(image, package, length) == 0,
           "what is installed is not the package");
    installed_at = now + INSTALLATION;
    attempts++;
}

static int may_begin_again(void)
{
    return attempts < 100;
}

static int image_is_whole(void);

#define record device_record
#define save device_save
#define on_timer device_on_timer
#define on_receive device_on_receive
#define radio_send device_send
#define set_timer device_set_timer
#include "example_device.c"
#undef record
#undef save
#undef on_timer
#undef on_receive
#undef radio_send
#undef set_timer

static int image_is_whole(void)
{
    return pcp_check_of_bytes(image, pcp_device_image_length(device_record)) ==
           pcp_device_code(device_record);
}

/* What the gateway's example needs of its host. */

static unsigned long gateway_timer, heard_at, over_at;
static unsigned long requests; /* that this gateway answered */
static int over;

static void gateway_send(const uint8_t *bytes, size_t length)
{
    step(&gateway_steps);
    link_send(1, bytes, length);
}

static void gateway_set_timer(unsigned long ticks)
{
    gateway_timer = now + ticks;
}

static void upgrade_ended(uint8_t ending)
{
    (void)ending;
    over = 1;
    over_at = now;
}

static void gateway_save(void);

#define record gateway_record
#define save gateway_save
#define on_timer gateway_on_timer
#define on_receive gateway_on_receive
#define radio_send gateway_send
#define set_timer gateway_set_timer
#include "example_gateway.c"
#undef record
#undef save
#undef on_timer
#undef on_receive
#undef radio_send
#undef set_timer

static uint8_t saved_record[PCP_GATEWAY_RECORD];
static int saved_executing;

static void gateway_save(void)
{
    step(&gateway_steps);
    memcpy(saved_record, gateway_record, sizeof saved_record);
    saved_executing = executing;
}

/* Restarts. */

/* Every fragment that the map marks is the package's, at its place. */
static void expect_whole(void)
{
    uint8_t phase = pcp_device_phase(device_record);
    size_t size = pcp_device_size(device_record), marked = 0;

    if (phase < PCP_DEVICE_LOADING || phase > PCP_DEVICE_ACKED)
        return;
    for (size_t i = 0; i < pcp_device_total(device_record); i++) {
        size_t left = package_length - i * size;

        if ((map[i / 8] >> i % 8 & 1) == 0)
            continue;
        marked++;
        expect(memcmp(image + i * size, package + i * size,
                      left < size ? left : size) == 0,
               "a marked fragment is not whole after a restart");
    }
    expect(marked == pcp_device_stored(device_record),
           "the stored count is not that of the map after a restart");
}

/* What was in RAM is gone; of the saves at most the one at work. */
static void device_restart(void)
{
    uint32_t counter = last.counter;

    memset(device_record, 0xA5, sizeof device_record);
    memset(image, 0xA5, sizeof image);
    memset(map, 0xA5, sizeof map);
    memset(&last, 0, sizeof last);
    installed_at = 0;
    on_power_up(device_version);
    expect(last.counter + 1 >= counter, "a save is lost after a restart");
    expect(!will_install ||
               pcp_device_phase(device_record) >= PCP_DEVICE_INSTALLING,
           "the order to install is lost after a restart");
    expect_whole();
}

static void gateway_restart(void)
{
    memcpy(gateway_record, saved_record, sizeof gateway_record);
    executing = saved_executing;
    gateway_set_timer(QUIET);
}

/* Runs a part of the program; afterwards, a device or a gateway whose battery
   was pulled in it is restarted, if need be more than once. */
static void with_power(void (*part)(void), void (*restart)(void))
{
    void (*volatile run)(void) = part;

    if (setjmp(pulled) != 0) {
        cuts++;
        if (restart == device_restart && below(4) == 0)
            device_steps = 1 + below(700);
        run = restart;
    }
    run();
}

/* The program. */

static struct message arrived;

static void give_to_device(void)
{
    device_on_receive(arrived.bytes, arrived.length);
}

static void give_to_gateway(void)
{
    gateway_on_receive(arrived.bytes, arrived.length, package, package_length);
}

static void ask_gateway(void)
{
    gateway_on_timer(package, package_length);
}

/* The new software runs from its installation on, whether that was heard of or
   not.  Half of the installers restart the device. */
static void finish_installation(void)
{
    installed_at = 0;
    memcpy(device_version, new_version, sizeof device_version);
    installations++;
    step(&device_steps);
    if (below(2) == 0)
        device_restart();
    else
        on_installed(PCP_INSTALLED);
}

static void deliver(void)
{
    while (link_count > 0 && link_queue[0].due <= now) {
        arrived = link_queue[0];
        memmove(link_queue, link_queue + 1, --link_count * sizeof arrived);
        if (arrived.to_device)
            with_power(give_to_device, device_restart);
        else {
            heard_at = now;
            requests += arrived.bytes[3] == PCP_FRAGMENT;
            with_power(give_to_gateway, gateway_restart);
        }
    }
}

/* Another size if the device may hold all already, see the header. */
static void start_gateway(void)
{
    static size_t size = PCP_SIZE_PUBLIC;
    int acked = pcp_gateway_phase(gateway_record) == PCP_GATEWAY_SERVE &&
                requests == 0;

    expect(begin(package, package_length) == PCP_HANDLED, "start refused");
    size = acked && size == PCP_SIZE_PUBLIC ? 480 : PCP_SIZE_PUBLIC;
    if (size != PCP_SIZE_PUBLIC)
        expect(pcp_gateway_start(gateway_record, sizeof gateway_record,
                                 new_version, 4, size, package, package_length,
                                 1) == PCP_HANDLED,
               "start refused");
    over = 0;
    requests = 0;
    heard_at = now;
    gateway_steps = 0; /* the start itself is saved */
    gateway_save();
}

static int has_succeeded(void)
{
    return pcp_gateway_phase(gateway_record) == PCP_GATEWAY_ENDED &&
           pcp_gateway_ending(gateway_record) <= PCP_ENDING_ALREADY_RUNNING;
}

static void tick(void)
{
    deliver();
    if (pcp_device_phase(device_record) == PCP_DEVICE_IDLE)
        will_install = 0; /* and has reported */
    if (installed_at > 0 && now >= installed_at)
        with_power(finish_installation, device_restart);
    if (now >= device_timer)
        with_power(device_on_timer, device_restart);
    if (!over && now >= gateway_timer)
        with_power(ask_gateway, gateway_restart);
    if (!over && now >= heard_at + STANDSTILL)
        upgrade_ended(0);
    if (over && !has_succeeded() && now >= over_at + QUIET)
        start_gateway();
}

static int is_done(void)
{
    return has_succeeded() &&
           pcp_device_phase(device_record) == PCP_DEVICE_IDLE;
}

/* One upgrade of a package of this length. */
static void upgrade(size_t length, uint32_t losses, unsigned long device_cut,
                    unsigned long gateway_cut)
{
    package_length = length;
    for (size_t i = 0; i < length; i++)
        package[i] = (uint8_t)below(256);
    memset(flash, 0xFF, sizeof flash);
    last.counter = 0;
    memcpy(device_version, old_version, sizeof device_version);
    lost_once_in = losses;
    link_count = 0;
    now = 1;
    attempts = 0;
    will_install = 0;
    device_steps = 0;
    device_restart();
    start_gateway();
    device_steps = device_cut;
    gateway_steps = gateway_cut;
    while (!is_done()) {
        tick();
        expect(++now < MOST_TICKS, "the upgrade does not end");
        if (losses > 0 && device_steps == 0 && below(40) == 0)
            device_steps = 1 + below(6000);
        if (losses > 0 && gateway_steps == 0 && below(200) == 0)
            gateway_steps = 1 + below(4);
    }
    expect(memcmp(device_version, new_version, sizeof new_version) == 0 &&
               memcmp(pcp_device_running(device_record), new_version,
                      sizeof new_version) == 0,
           "the device does not run the package");
}

int main(void)
{
    unsigned long upgrades = 0, before;

    random_state = 20240907;
    do { /* one cut, after each step of a run without losses */
        before = cuts;
        upgrade(1300, 0, ++upgrades, 0);
    } while (cuts > before);
    for (unsigned long at = 1; at < 20; at++, upgrades++)
        upgrade(1300, 0, 0, at);
    for (int i = 0; i < 300; i++, upgrades++)
        upgrade(1 + below(MOST_PACKAGE), 4 + below(12), 0, 0);
    printf("examples: %lu upgrades, %lu batteries pulled, %lu installations\n",
           upgrades, cuts, installations);
    return EXIT_SUCCESS;
}
