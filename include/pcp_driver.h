/* pcp_driver.h - a driver for each end of a PCP upgrade, for C99 and C++

   pcp.h is the protocol.  What a host has to do around it, when to send again,
   what to save first, when another gateway has to follow, is done here: a state
   machine for the device and one for the gateway.  Neither sends, receives,
   waits or allocates.  The host hands in the time, the messages that arrived
   and the installer's end, and does what it is told, one action after the
   other:

       for (;;) {
           pcp_action action = pcp_device_driver_poll(&driver, clock_now());

           switch (action.kind) {
           case PCP_ACTION_WRITE:   image bytes to storage, at action.at
           case PCP_ACTION_SAVE:    state bytes to slot action.slot, 0 or 1
           case PCP_ACTION_SEND:    bytes to the other end
           case PCP_ACTION_INSTALL: begins the installer on these image bytes
           case PCP_ACTION_WAIT:    listens until action.until, and hands in
                                    what arrived by pcp_device_driver_receive
           }
       }

   The next poll says that the action was done.  So nothing is sent or installed
   before it is saved, and a host cannot get that order wrong.  If an action
   cannot be done (the flash fails), do not poll again: start the driver anew
   from what is saved, as after a power cut.

   Time is a counter that never goes back while the driver lives, in any unit:
   that of the config's times.  It may begin again at 0 with each start.
   Polling later than action.until is no fault, only slower: a device that
   sleeps may do so.

   Saving.  There are two slots, each for PCP_DEVICE_STATE(image length) or
   PCP_GATEWAY_STATE bytes.  A save goes to the slot that does not hold the last
   one, and is sealed with its length, a counter and a CRC-32.  After a restart
   the start is given what the slots hold, whatever it is: the newest whole save
   is taken, and if there is none, the end begins anew.  A host whose storage
   replaces a whole file at once may use one and the same file for both.

   A digest.  Where a device's host knows the package's MD5, it stands in the
   config with the version that it belongs to.  The driver gives it to each
   download of that version, before the announcement is saved and answered; and
   at a start in Loading, if another or none is set.  A host that learns it
   later starts the driver anew.

   What stays with the host: radio, clock, storage, the installer; that messages
   come whole and from the right end (duties 6 and 8 of the manual); a signature
   (13); version texts (14, 18); a package that stays as it is (17).  The limits
   of pcp.h hold: image and state at the device, and the package at the gateway,
   are lent from the start to the last call, and nobody else writes them. */
#ifndef PCP_DRIVER_H
#define PCP_DRIVER_H

#include "pcp.h"

#ifdef __cplusplus
extern "C" {
#endif

/* A time that does not come. */
#define PCP_NEVER UINT64_MAX

/* Lengths of what is saved.  The device's state is lent by its host; it needs
   PCP_DEVICE_STATE bytes for an image of this length. */
#define PCP_DEVICE_STATE(image_length) \
    (PCP_DEVICE_STATE_FIXED + ((image_length) + 255) / 256)

enum {
    PCP_DEVICE_STATE_FIXED = 81, /* all but the map */
    PCP_GATEWAY_STATE = 72
};

/* The times and limits of both ends.  pcp_driver_defaults has the values named
   here, for a counter of milliseconds. */
typedef struct {
    /* Without an answer for so long: send again.  Longer than the way there and
       back.  10 seconds. */
    uint64_t retry;
    /* Until nothing that was sent can still arrive, in either direction: the
       longest way there and back.  The gateway waits so long before it starts
       and in Offer (duty 19), the device is silent up to three times as long
       after a query.  30 seconds. */
    uint64_t quiet;
    /* The longest installation, with its restart and some tries of the report.
       A gateway that saw no progress for so long stands still; so it has to be
       longer than quiet and some retries.  10 minutes. */
    uint64_t installation;
    /* Until the next gateway, where the device was busy or low on power, or its
       installation failed.  10 minutes. */
    uint64_t later;
    /* How long after the end, and after the silence of a device that was asked
       for its version, reports are still waited for: some retries.  One
       minute. */
    uint64_t linger;
    /* The gateway gives up after so long in all, not counting the time in which
       its process did not run; 0: never.  7 days. */
    uint64_t time_limit;
    /* After so many gateways; 0: never.  100. */
    uint32_t gateway_limit;
    /* After so many downloads or installations that failed; 0: never.  3. */
    uint16_t failure_limit;
    /* The fragment size to begin with, and the largest to be tried if the
       device has not room enough in its map.  PCP_SIZE_PUBLIC, both. */
    uint16_t size, size_most;
    /* In Loading the device saves after so many fragments; after a restart
       those since then are fetched again.  At first it saves after 1, 2, 4 and
       so on, so that one that restarts often gets on too.  16. */
    uint16_t save_every;
    /* How often an installation is begun at most, that was cut off by restarts.
       5. */
    uint8_t install_limit;
    /* For the device: the version of the package whose MD5 is known, a text
       that is filled up with 00, and that MD5, in the order in which md5sum
       prints it.  An empty text: none is known, as by default. */
    uint8_t digest_version[PCP_VERSION_LENGTH];
    uint8_t digest[PCP_DIGEST_LENGTH];
} pcp_driver_config;

static inline pcp_driver_config pcp_driver_defaults(void)
{
    pcp_driver_config config;

    config.retry = 10000;
    config.quiet = 30000;
    config.installation = 600000;
    config.later = 600000;
    config.linger = 60000;
    config.time_limit = UINT64_C(604800000);
    config.gateway_limit = 100;
    config.failure_limit = 3;
    config.size = PCP_SIZE_PUBLIC;
    config.size_most = PCP_SIZE_PUBLIC;
    config.save_every = 16;
    config.install_limit = 5;
    memset(config.digest_version, 0, sizeof config.digest_version);
    memset(config.digest, 0, sizeof config.digest);
    return config;
}

/* What the host has to do. */
enum {
    PCP_ACTION_WAIT = 0,    /* nothing before the time until, unless a message
                               arrives or the installer ends; PCP_NEVER: only
                               then */
    PCP_ACTION_WRITE = 1,   /* bytes of the image, from the place at on, to
                               storage; if the image lent is storage: nothing */
    PCP_ACTION_SAVE = 2,    /* bytes to the slot, 0 or 1 */
    PCP_ACTION_SEND = 4,    /* bytes to the other end */
    PCP_ACTION_INSTALL = 8, /* begin the installer on these bytes, the package;
                               its end: pcp_device_driver_installed */
    PCP_ACTION_END = 16     /* the gateway's upgrade is over, and no report has
                               come for linger: see the outcome.  Reports that
                               are still handed in are answered */
};

typedef struct {
    uint8_t kind;
    uint8_t slot;
    const uint8_t *bytes; /* until the driver's next call */
    size_t length;
    size_t at;
    uint64_t until;
} pcp_action;

/* How an upgrade ended at the gateway. */
enum {
    PCP_OUTCOME_NONE = 0,     /* it is under way */
    PCP_OUTCOME_SUCCESS = 1,  /* the device runs the target */
    PCP_OUTCOME_NO_ROOM = 2,  /* the device refuses every fragment size: its
                                 image (said is 05) or its map (09) is short */
    PCP_OUTCOME_FAILED = 3,   /* the limit of failures: see ending and said */
    PCP_OUTCOME_GATEWAYS = 4, /* the limit of gateways */
    PCP_OUTCOME_TIME = 5,     /* the limit of time */
    PCP_OUTCOME_PACKAGE = 6   /* the package is not the one of the start */
};

/* An outcome in words, as pcp_reason has the numbers. */
static inline const char *pcp_outcome_reason(int outcome)
{
    switch (outcome) {
    case PCP_OUTCOME_NONE:
        return "under way";
    case PCP_OUTCOME_SUCCESS:
        return "the device runs the target";
    case PCP_OUTCOME_NO_ROOM:
        return "the device has no room for the package";
    case PCP_OUTCOME_FAILED:
        return "too many downloads or installations failed";
    case PCP_OUTCOME_GATEWAYS:
        return "too many gateways";
    case PCP_OUTCOME_TIME:
        return "out of time";
    case PCP_OUTCOME_PACKAGE:
        return "the package changed";
    default:
        return "unknown outcome";
    }
}

/* A device and its driver.  Look at it by the functions below. */
typedef struct {
    pcp_driver_config config;
    uint8_t *image;
    size_t image_length;
    uint8_t *state; /* header, record and map, as they are saved */
    size_t state_length;
    uint8_t version[PCP_VERSION_LENGTH]; /* that runs */
    uint8_t reply[PCP_DEVICE_REPLY];
    uint8_t reply_length;
    uint8_t pending;    /* actions that are due, a bit each */
    uint8_t given;      /* the one that poll gave last */
    uint8_t installing; /* PCP_ACTION_INSTALL was given since the start */
    uint8_t installed;  /* the installer has ended, with this code: */
    uint8_t code;
    uint8_t fault;
    uint16_t unsaved;    /* fragments since the last save */
    uint16_t save_after; /* so many: save */
    uint16_t write_length;
    uint32_t write_at;
    uint32_t counter; /* of the last save */
    uint64_t now;
    uint64_t ask_at;       /* when to ask for the next message */
    uint64_t silent_until; /* asks nothing before, after a query */
} pcp_device_driver;

/* A gateway and its driver. */
typedef struct {
    pcp_driver_config config;
    const uint8_t *package;
    size_t package_length;
    uint8_t state[PCP_GATEWAY_STATE]; /* as it is saved; the record in it is
                                         the one at work */
    uint8_t version[PCP_VERSION_LENGTH]; /* the target */
    uint8_t reply[PCP_GATEWAY_REPLY];
    uint16_t reply_length;
    uint8_t pending, given;
    uint8_t flags, outcome, said;
    uint8_t repeats; /* of the request for the first fragment asked for */
    uint8_t stuck;   /* gateways in a row that got no further than that */
    uint8_t unasked; /* gateways in a row that were asked for nothing */
    uint8_t fault;
    uint16_t failures;
    uint16_t delivered; /* size that the device said it has all of */
    uint16_t size;      /* of the next gateway's fragments */
    uint16_t largest;   /* bounds of it, see pcp_driver_size_fits */
    uint16_t waste_below, map_below;
    uint16_t index, served; /* asked for last; one more than the highest */
    uint32_t gateways;      /* started so far */
    uint32_t counter;
    uint64_t now;
    uint64_t since;       /* when counting of the time began, */
    uint64_t spent;       /* and what was spent before that */
    uint64_t ask_at;      /* when to ask for the next message */
    uint64_t progress_at; /* when there was progress */
    uint64_t start_at;    /* when the next gateway starts */
    uint64_t end_at;      /* when reports are no longer waited for */
} pcp_gateway_driver;


/* Helpers.  Used by the functions below only. */

static inline uint64_t pcp_driver_after(uint64_t now, uint64_t wait)
{
    return wait > PCP_NEVER - now ? PCP_NEVER : now + wait;
}

static inline int pcp_driver_due(uint64_t at, uint64_t now)
{
    return at != PCP_NEVER && now >= at;
}

static inline uint64_t pcp_driver_sooner(uint64_t one, uint64_t other)
{
    return one < other ? one : other;
}

/* A counter that went back is taken as standing. */
static inline void pcp_driver_clock(uint64_t *clock, uint64_t now)
{
    if (now > *clock)
        *clock = now;
}

/* How long a device is silent after a query, at most: its answer and the
   announcement are on their way, and the gateway waits in between. */
static inline uint64_t pcp_driver_silence(const pcp_driver_config *config,
                                          uint64_t now)
{
    now = pcp_driver_after(now, config->quiet);
    now = pcp_driver_after(now, config->quiet);
    return pcp_driver_after(now, config->quiet);
}

/* Times of 0 that would make a driver ask or start without an end. */
static inline pcp_driver_config pcp_driver_sane(const pcp_driver_config *given)
{
    pcp_driver_config config = *given;

    if (config.retry == 0)
        config.retry = 1;
    if (config.installation == 0)
        config.installation = 1;
    return config;
}

static inline void pcp_driver_put(uint8_t *to, unsigned length, uint64_t number)
{
    while (length-- > 0) {
        to[length] = (uint8_t)(number % 256);
        number /= 256;
    }
}

static inline uint64_t pcp_driver_get(const uint8_t *from, unsigned length)
{
    uint64_t number = 0;

    while (length-- > 0)
        number = number * 256 + *from++;
    return number;
}

/* CRC-32, that of IEEE 802.3, by nibbles.  Goes on from the CRC of what stood
   before; 0 at the beginning. */
static inline uint32_t pcp_driver_crc(uint32_t crc, const uint8_t *bytes,
                                      size_t length)
{
    static const uint32_t table[16] = {
        0x00000000, 0x1DB71064, 0x3B6E20C8, 0x26D930AC, 0x76DC4190, 0x6B6B51F4,
        0x4DB26158, 0x5005713C, 0xEDB88320, 0xF00F9344, 0xD6D6A3E8, 0xCB61B38C,
        0x9B64C2B0, 0x86D3D2D4, 0xA00AE278, 0xBDBDF21C};
    size_t i;

    crc = ~crc;
    for (i = 0; i < length; i++) {
        crc ^= bytes[i];
        crc = crc >> 4 ^ table[crc & 15];
        crc = crc >> 4 ^ table[crc & 15];
    }
    return ~crc;
}

/* What is saved, of either end, offsets in bytes; high byte first:

        0  'D' or 'G'
        1  version of the layout, 1
        2  length of all, 2 bytes
        4  CRC-32 of all but these 4 bytes
        8  counter, 4 bytes

   The device, behind that:

       12  how often the installation was begun
       13  3 bytes 0
       16  CRC-32 of the image, 4 bytes; from Loaded on
       20  record, 61 bytes
       81  map; in Loading, Loaded and Acked

   The gateway:

       12  flags
       13  outcome
       14  said: byte 8 of the message that ended the last gateway
       15  gateways in a row whose fragments did not get through
       16  failures, 2 bytes
       18  largest fragment size, 2 bytes; waste and map bound, 2 bytes each
       24  gateways started, 4 bytes
       28  time spent, 8 bytes
       36  size of the next gateway, 2 bytes
       38  size that the device said it has all of, 2 bytes
       40  gateways in a row that were asked for nothing
       41  0
       42  record, 30 bytes

   The first 12 bytes are the same in every version of the layout.  A newest
   save of another version is not taken up, and the end begins anew: the older
   slot may say what was long past when other software wrote here. */
enum {
    PCP_DRIVER_LAYOUT = 1,
    PCP_DRIVER_CRC = 4,
    PCP_DRIVER_COUNTER = 8,
    PCP_DRIVER_HEADER = 12,
    PCP_DRIVER_BEGUN = 12,
    PCP_DRIVER_IMAGE_CRC = 16,
    PCP_DRIVER_DEVICE = 20,
    PCP_DRIVER_GATEWAY = 42
};

static inline uint32_t pcp_driver_crc_of(const uint8_t *state, size_t length)
{
    uint32_t crc = pcp_driver_crc(0, state, PCP_DRIVER_CRC);

    return pcp_driver_crc(crc, state + PCP_DRIVER_COUNTER,
                          length - PCP_DRIVER_COUNTER);
}

static inline void pcp_driver_seal(uint8_t *state, uint8_t kind, size_t length,
                                   uint32_t counter)
{
    state[0] = kind;
    state[1] = PCP_DRIVER_LAYOUT;
    pcp_driver_put(state + 2, 2, length);
    pcp_driver_put(state + PCP_DRIVER_COUNTER, 4, counter);
    pcp_driver_put(state + PCP_DRIVER_CRC, 4, pcp_driver_crc_of(state, length));
}

static inline size_t pcp_driver_length(const uint8_t *saved)
{
    return (size_t)pcp_driver_get(saved + 2, 2);
}

/* Whether a whole save of this kind stands at the front of a slot. */
static inline int pcp_driver_whole(const uint8_t *slot, size_t slot_length,
                                   uint8_t kind)
{
    return slot_length >= PCP_DRIVER_HEADER && slot[0] == kind &&
           pcp_driver_length(slot) >= PCP_DRIVER_HEADER &&
           pcp_driver_length(slot) <= slot_length &&
           pcp_driver_get(slot + PCP_DRIVER_CRC, 4) ==
               pcp_driver_crc_of(slot, pcp_driver_length(slot));
}

/* The newest whole save of two slots; NULL if there is none.  The counters are
   compared so that they may pass their end. */
static inline const uint8_t *pcp_driver_newest(const uint8_t *one,
                                               size_t one_length,
                                               const uint8_t *other,
                                               size_t other_length,
                                               uint8_t kind)
{
    uint32_t ahead;

    if (!pcp_driver_whole(one, one_length, kind))
        one = NULL;
    if (!pcp_driver_whole(other, other_length, kind))
        return one;
    if (one == NULL)
        return other;
    ahead = (uint32_t)pcp_driver_get(other + PCP_DRIVER_COUNTER, 4) -
            (uint32_t)pcp_driver_get(one + PCP_DRIVER_COUNTER, 4);
    return ahead < UINT32_C(0x80000000) ? other : one;
}

static inline pcp_action pcp_driver_action(uint8_t kind, const uint8_t *bytes,
                                           size_t length)
{
    pcp_action action;

    action.kind = kind;
    action.slot = 0;
    action.bytes = bytes;
    action.length = length;
    action.at = 0;
    action.until = PCP_NEVER;
    return action;
}

static inline pcp_action pcp_driver_wait(uint8_t kind, uint64_t until)
{
    pcp_action action = pcp_driver_action(kind, NULL, 0);

    action.until = until;
    return action;
}

static inline uint8_t *pcp_driver_device(const pcp_device_driver *driver)
{
    return driver->state + PCP_DRIVER_DEVICE;
}

static inline uint8_t *pcp_driver_gateway(pcp_gateway_driver *driver)
{
    return driver->state + PCP_DRIVER_GATEWAY;
}


/* Looking at a device: its record (for pcp_device_phase, pcp_device_stored and
   so on; pcp_device_stored of pcp_device_total is the progress, and
   pcp_device_digest_set tells whether the image is tested by a digest), and
   the last number from 13 on that a call of the driver's met, for a log; 0:
   none. */

static inline const uint8_t *pcp_device_driver_record(
    const pcp_device_driver *driver)
{
    return pcp_driver_device(driver);
}

static inline uint8_t pcp_device_driver_fault(const pcp_device_driver *driver)
{
    return driver->fault;
}


/* The device.  Helpers first. */

static inline void pcp_driver_device_due(pcp_device_driver *driver,
                                         uint8_t action)
{
    driver->pending = (uint8_t)(driver->pending | action);
}

/* A new record, with the version that runs: gives up the download.  What was to
   be sent stays. */
static inline void pcp_driver_device_renew(pcp_device_driver *driver)
{
    pcp_device_new(pcp_driver_device(driver), PCP_DEVICE_RECORD,
                   driver->version, sizeof driver->version);
    driver->pending = (uint8_t)(driver->pending & PCP_ACTION_SEND);
    pcp_driver_device_due(driver, PCP_ACTION_SAVE);
    driver->ask_at = PCP_NEVER;
}

/* A number that only damaged memory gives, or a record that does not go with
   what is lent: as after the loss of a save. */
static inline void pcp_driver_device_broken(pcp_device_driver *driver,
                                            uint8_t number)
{
    driver->fault = number;
    pcp_driver_device_renew(driver);
}

static inline int pcp_driver_device_has_map(const uint8_t *record)
{
    return pcp_device_phase(record) >= PCP_DEVICE_LOADING &&
           pcp_device_phase(record) <= PCP_DEVICE_ACKED;
}

static inline size_t pcp_driver_device_length(const uint8_t *state)
{
    const uint8_t *record = state + PCP_DRIVER_DEVICE;

    return PCP_DEVICE_STATE_FIXED + (pcp_driver_device_has_map(record)
                                         ? pcp_device_map_length(record)
                                         : 0u);
}

static inline pcp_answer pcp_driver_device_next(pcp_device_driver *driver)
{
    return pcp_device_next_message(
        pcp_driver_device(driver), PCP_DEVICE_RECORD, driver->image,
        driver->image_length, driver->state + PCP_DEVICE_STATE_FIXED,
        driver->state_length - PCP_DEVICE_STATE_FIXED, driver->reply,
        sizeof driver->reply);
}

static inline uint32_t pcp_driver_device_image_crc(
    const pcp_device_driver *driver)
{
    return pcp_driver_crc(0, driver->image,
                          pcp_device_image_length(pcp_driver_device(driver)));
}

static inline int pcp_driver_device_fits(const pcp_device_driver *driver)
{
    return pcp_device_image_length(pcp_driver_device(driver)) <=
           driver->image_length;
}

/* Whether the image is the one that was completed. */
static inline int pcp_driver_device_image_stands(
    const pcp_device_driver *driver)
{
    return pcp_driver_device_fits(driver) &&
           pcp_driver_get(driver->state + PCP_DRIVER_IMAGE_CRC, 4) ==
               pcp_driver_device_image_crc(driver);
}

/* Gives the digest that the host knows, in Loading, if another or none is set
   and the download is of the version that it belongs to: the call itself names
   none.  Whether it was given; with these tests nothing refuses it. */
static inline int pcp_driver_device_give_digest(pcp_device_driver *driver)
{
    const pcp_driver_config *config = &driver->config;
    uint8_t *record = pcp_driver_device(driver);

    return config->digest_version[0] != 0 &&
           pcp_device_phase(record) == PCP_DEVICE_LOADING &&
           !(pcp_device_digest_set(record) &&
             memcmp(pcp_device_digest(record), config->digest,
                    PCP_DIGEST_LENGTH) == 0) &&
           memcmp(pcp_device_target(record), config->digest_version,
                  PCP_VERSION_LENGTH) == 0 &&
           pcp_device_give_digest(record, PCP_DEVICE_RECORD, config->digest,
                                  PCP_DIGEST_LENGTH) == PCP_HANDLED;
}

/* The last fragment was stored, and the image has passed its tests.  Its CRC is
   kept: after a restart nothing else tells whether the image still stands. */
static inline void pcp_driver_device_completed(pcp_device_driver *driver)
{
    pcp_driver_put(driver->state + PCP_DRIVER_IMAGE_CRC, 4,
                   pcp_driver_device_image_crc(driver));
}

/* Installing has just begun. */
static inline void pcp_driver_device_install(pcp_device_driver *driver)
{
    if (!pcp_driver_device_fits(driver)) {
        pcp_driver_device_broken(driver, PCP_BAD_RECORD);
        return;
    }
    driver->state[PCP_DRIVER_BEGUN] = 1;
    pcp_driver_device_due(driver, PCP_ACTION_INSTALL);
}

/* The installer has ended: the report follows. */
static inline void pcp_driver_device_finish(pcp_device_driver *driver, int code)
{
    uint8_t *record = pcp_driver_device(driver);
    uint8_t number =
        pcp_device_install_finished(record, PCP_DEVICE_RECORD, code);

    if (number == PCP_BAD_INSTALL_CODE)
        number = pcp_device_install_finished(record, PCP_DEVICE_RECORD,
                                             PCP_INSTALL_INTERNAL_ERROR);
    driver->installing = 0;
    if (number == PCP_BAD_RECORD) {
        pcp_driver_device_broken(driver, number);
        return;
    }
    if (number != PCP_HANDLED)
        return;
    if (code == PCP_INSTALLED)
        memcpy(driver->version, pcp_device_running(record),
               sizeof driver->version);
    pcp_driver_device_due(driver, PCP_ACTION_SAVE);
    driver->ask_at = driver->now;
}

/* Begins the installation again that a restart cut off, or reports that it
   failed. */
static inline void pcp_driver_device_install_again(pcp_device_driver *driver)
{
    uint8_t *begun = driver->state + PCP_DRIVER_BEGUN;

    if (*begun < driver->config.install_limit &&
        pcp_driver_device_image_stands(driver)) {
        ++*begun;
        pcp_driver_device_due(driver, PCP_ACTION_SAVE | PCP_ACTION_INSTALL);
    } else
        pcp_driver_device_finish(driver, PCP_INSTALL_FAILED);
}

/* Takes up a save; 0 if its record is none, or does not go with what is lent:
   from Loaded on the image is not fetched or tested again. */
static inline int pcp_driver_device_load(pcp_device_driver *driver,
                                         const uint8_t *saved)
{
    size_t length = pcp_driver_length(saved);
    uint8_t number, phase;

    if (saved[1] != PCP_DRIVER_LAYOUT || length < PCP_DEVICE_STATE_FIXED ||
        length > driver->state_length)
        return 0;
    memcpy(driver->state, saved, length);
    number = pcp_driver_device_next(driver).number;
    if (number == PCP_BAD_RECORD || number == PCP_BAD_MEMORY ||
        length != pcp_driver_device_length(driver->state))
        return 0;
    phase = pcp_device_phase(pcp_driver_device(driver));
    return (phase != PCP_DEVICE_LOADED && phase != PCP_DEVICE_ACKED) ||
           pcp_driver_device_image_stands(driver);
}

/* Goes on from a save, by its phase and the version that runs. */
static inline void pcp_driver_device_resume(pcp_device_driver *driver)
{
    const uint8_t *record = pcp_driver_device(driver);

    if (pcp_device_phase(record) == PCP_DEVICE_INSTALLING) {
        if (memcmp(pcp_device_target(record), driver->version,
                   sizeof driver->version) == 0)
            pcp_driver_device_finish(driver, PCP_INSTALLED);
        else
            pcp_driver_device_install_again(driver);
    } else if (memcmp(pcp_device_running(record), driver->version,
                      sizeof driver->version) != 0)
        pcp_driver_device_renew(driver);
    else {
        if (pcp_driver_device_give_digest(driver))
            pcp_driver_device_due(driver, PCP_ACTION_SAVE);
        driver->ask_at = pcp_driver_after(driver->now, driver->config.retry);
    }
}

/* The record has changed, by a message that was handled or by number 23. */
static inline void pcp_driver_device_changed(pcp_device_driver *driver,
                                             const pcp_answer *answer)
{
    uint8_t phase = pcp_device_phase(pcp_driver_device(driver));

    driver->ask_at = driver->now;
    if (answer->image_length > 0) {
        driver->write_at = answer->image_at;
        driver->write_length = answer->image_length;
        pcp_driver_device_due(driver, PCP_ACTION_WRITE);
        driver->unsaved++;
        if (phase == PCP_DEVICE_LOADED)
            pcp_driver_device_completed(driver);
    }
    if (answer->image_length == 0 || phase != PCP_DEVICE_LOADING ||
        driver->unsaved >= driver->save_after)
        pcp_driver_device_due(driver, PCP_ACTION_SAVE);
    if (phase == PCP_DEVICE_INSTALLING)
        pcp_driver_device_install(driver);
    if (phase == PCP_DEVICE_IDLE)
        pcp_driver_device_renew(driver);
}

/* After the answer to a query the device is silent until the announcement
   comes, or for longer than the gateway waits: what it sent meanwhile would be
   late there.  Further queries do not lengthen that.  An announcement that
   changed nothing, and so was a repeat or is a resume, is answered by itself:
   a radio that loses the first of two messages would lose each answer. */
static inline void pcp_driver_device_handled(pcp_device_driver *driver,
                                             uint8_t code, uint8_t changed)
{
    if (code == PCP_QUERY && driver->now >= driver->silent_until)
        driver->silent_until =
            pcp_driver_silence(&driver->config, driver->now);
    if (code == PCP_ANNOUNCE || code == PCP_EXECUTE)
        driver->silent_until = 0;
    if (code == PCP_ANNOUNCE && !changed && driver->ask_at <= driver->now)
        driver->ask_at = pcp_driver_after(driver->now, driver->config.retry);
}

static inline void pcp_driver_device_ask(pcp_device_driver *driver)
{
    pcp_answer answer = pcp_driver_device_next(driver);

    driver->ask_at = PCP_NEVER; /* nothing to send in this phase */
    if (answer.number == PCP_BAD_RECORD || answer.number == PCP_BAD_MEMORY)
        pcp_driver_device_broken(driver, answer.number);
    if (answer.number != PCP_HANDLED)
        return;
    driver->reply_length = (uint8_t)answer.length;
    pcp_driver_device_due(driver, PCP_ACTION_SEND);
    driver->ask_at = pcp_driver_after(driver->now, driver->config.retry);
}

/* Fragments were stored: after how many more the next save is due. */
static inline uint16_t pcp_driver_device_save_after(
    const pcp_device_driver *driver)
{
    uint16_t most = driver->config.save_every;

    return driver->save_after < most / 2 ? (uint16_t)(driver->save_after * 2)
                                         : most;
}

static inline pcp_action pcp_driver_device_save(pcp_device_driver *driver)
{
    pcp_action action =
        pcp_driver_action(PCP_ACTION_SAVE, driver->state,
                          pcp_driver_device_length(driver->state));

    if (driver->unsaved >= driver->save_after)
        driver->save_after = pcp_driver_device_save_after(driver);
    driver->unsaved = 0;
    driver->counter++;
    action.slot = driver->counter % 2;
    pcp_driver_seal(driver->state, 'D', action.length, driver->counter);
    return action;
}

static inline pcp_action pcp_driver_device_write(
    const pcp_device_driver *driver)
{
    pcp_action action = pcp_driver_action(PCP_ACTION_WRITE,
                                          driver->image + driver->write_at,
                                          driver->write_length);

    action.at = driver->write_at;
    return action;
}

static inline pcp_action pcp_driver_device_wait(
    const pcp_device_driver *driver)
{
    return pcp_driver_wait(PCP_ACTION_WAIT,
                           driver->ask_at > driver->silent_until
                               ? driver->ask_at
                               : driver->silent_until);
}

/* The record lies in memory that the host lends.  One that was damaged there
   since the last call is given up before its lengths are gone by. */
static inline void pcp_driver_device_see_lengths(pcp_device_driver *driver)
{
    if ((driver->pending & PCP_ACTION_SAVE) != 0 &&
        pcp_driver_device_length(driver->state) > driver->state_length)
        pcp_driver_device_broken(driver, PCP_BAD_MEMORY);
    if ((driver->pending & PCP_ACTION_INSTALL) != 0 &&
        !pcp_driver_device_fits(driver))
        pcp_driver_device_broken(driver, PCP_BAD_RECORD);
}

/* The action that is due first. */
static inline pcp_action pcp_driver_device_action(pcp_device_driver *driver)
{
    pcp_action action;

    pcp_driver_device_see_lengths(driver);
    if (driver->pending & PCP_ACTION_WRITE)
        action = pcp_driver_device_write(driver);
    else if (driver->pending & PCP_ACTION_SAVE)
        action = pcp_driver_device_save(driver);
    else if (driver->pending & PCP_ACTION_SEND)
        action = pcp_driver_action(PCP_ACTION_SEND, driver->reply,
                                   driver->reply_length);
    else if (driver->pending & PCP_ACTION_INSTALL) {
        driver->installing = 1;
        action = pcp_driver_action(
            PCP_ACTION_INSTALL, driver->image,
            pcp_device_image_length(pcp_driver_device(driver)));
    } else
        action = pcp_driver_device_wait(driver);
    driver->given = action.kind; /* 0 for a wait: nothing to confirm */
    return action;
}

/* A record of the version that runs.  A digest for a text that no announcement
   can have is refused too: it is a mistake that would not be seen otherwise. */
static inline uint8_t pcp_driver_device_new(uint8_t *record,
                                            const pcp_driver_config *config,
                                            const void *version,
                                            size_t version_length)
{
    uint8_t number = PCP_HANDLED;

    if (config->digest_version[0] != 0)
        number = pcp_device_new(record, PCP_DEVICE_RECORD,
                                config->digest_version, PCP_VERSION_LENGTH);
    if (number == PCP_HANDLED)
        number = pcp_device_new(record, PCP_DEVICE_RECORD, version,
                                version_length);
    return number;
}

/* Starts a device's driver, at every start of the device.  The version is the
   one that runs now (see pcp_device_new).  The image holds what storage holds
   of it; the state, at least PCP_DEVICE_STATE_FIXED bytes and PCP_DEVICE_STATE
   for every fragment size, is overwritten.  The slots hold what was saved
   there, or anything: length 0 is nothing.  They are not used after the call,
   and must not overlap the state.
   By the save's phase the driver goes on, reports what became of an
   installation, or begins it again; see section 8 of the manual.  If what runs
   is not what the save says, or there is none, the record is a new one.
   Numbers: 64 for a short state, 17, also for the digest's version.  On these
   the driver is not started. */
static inline uint8_t pcp_device_driver_start(
    pcp_device_driver *driver, const pcp_driver_config *config,
    const void *version, size_t version_length, uint8_t *image,
    size_t image_length, uint8_t *state, size_t state_length,
    const uint8_t *slot0, size_t slot0_length, const uint8_t *slot1,
    size_t slot1_length, uint64_t now)
{
    uint8_t record[PCP_DEVICE_RECORD], number;
    const uint8_t *saved =
        pcp_driver_newest(slot0, slot0_length, slot1, slot1_length, 'D');

    if (state_length < PCP_DEVICE_STATE_FIXED)
        return PCP_SHORT_RECORD;
    number = pcp_driver_device_new(record, config, version, version_length);
    if (number != PCP_HANDLED)
        return number;
    memset(driver, 0, sizeof *driver);
    driver->config = pcp_driver_sane(config);
    driver->image = image;
    driver->image_length = image_length;
    driver->state = state;
    driver->state_length = state_length;
    memcpy(driver->version, pcp_device_running(record), sizeof driver->version);
    driver->now = now;
    driver->save_after = 1;
    driver->ask_at = PCP_NEVER;
    if (saved != NULL)
        driver->counter =
            (uint32_t)pcp_driver_get(saved + PCP_DRIVER_COUNTER, 4);
    if (saved != NULL && pcp_driver_device_load(driver, saved))
        pcp_driver_device_resume(driver);
    else {
        memset(state, 0, PCP_DEVICE_STATE_FIXED);
        pcp_driver_device_renew(driver);
    }
    return PCP_HANDLED;
}

/* A message arrived from the gateway; the condition is one of pcp.h, as it is
   now.  The number is that of pcp_device_receive; also 9 if an action is still
   due or was not confirmed by another poll: the message counts as lost. */
static inline uint8_t pcp_device_driver_receive(pcp_device_driver *driver,
                                                uint64_t now, int condition,
                                                const uint8_t *message,
                                                size_t message_length)
{
    uint8_t *record = pcp_driver_device(driver);
    uint8_t before[PCP_DEVICE_RECORD];
    pcp_answer answer;

    if (driver->pending != 0)
        return PCP_NO_USE;
    pcp_driver_clock(&driver->now, now);
    memcpy(before, record, sizeof before);
    answer = pcp_device_receive(
        record, PCP_DEVICE_RECORD, 1, 1, condition, message,
        message_length, driver->image, driver->image_length,
        driver->state + PCP_DEVICE_STATE_FIXED,
        driver->state_length - PCP_DEVICE_STATE_FIXED, driver->reply,
        sizeof driver->reply);
    driver->reply_length = (uint8_t)answer.length;
    if (answer.length > 0)
        pcp_driver_device_due(driver, PCP_ACTION_SEND);
    if (answer.number >= PCP_UNKNOWN_CONDITION)
        driver->fault = answer.number;
    if (answer.number == PCP_BAD_RECORD || answer.number == PCP_BAD_MEMORY)
        pcp_driver_device_broken(driver, answer.number);
    /* An announcement without a code that comes again clears the digest and
       begins the download anew; given again, all may be as it was. */
    if (answer.number == PCP_HANDLED && message[3] == PCP_ANNOUNCE &&
        pcp_driver_device_give_digest(driver))
        answer.changed = memcmp(before, record, sizeof before) != 0;
    if (answer.changed)
        pcp_driver_device_changed(driver, &answer);
    if (answer.number == PCP_HANDLED)
        pcp_driver_device_handled(driver, message[3], answer.changed);
    return answer.number;
}

/* The installer has ended with one of its codes (pcp.h); another counts as
   PCP_INSTALL_INTERNAL_ERROR.  Without effect where none was begun.  An
   installer that restarts the device does not come to this call: the start
   tells by the version that runs. */
static inline void pcp_device_driver_installed(pcp_device_driver *driver,
                                               int code)
{
    if (!driver->installing)
        return;
    driver->installed = 1;
    driver->code = pcp_byte_or_bad(code);
}

/* What is to be done now; the action before this one has been done. */
static inline pcp_action pcp_device_driver_poll(pcp_device_driver *driver,
                                                uint64_t now)
{
    pcp_driver_clock(&driver->now, now);
    driver->pending = (uint8_t)(driver->pending & ~driver->given);
    driver->given = 0;
    if (driver->pending == 0 && driver->installed) {
        driver->installed = 0;
        pcp_driver_device_finish(driver, driver->code);
    }
    if (driver->pending == 0 && pcp_driver_due(driver->ask_at, driver->now) &&
        pcp_driver_due(driver->silent_until, driver->now))
        pcp_driver_device_ask(driver);
    return pcp_driver_device_action(driver);
}


/* Looking at a gateway: its record (for pcp_gateway_phase), the outcome, byte 8
   of the message that ended the last gateway, how many gateways were started,
   the last number from 13 on for a log, and the progress: how many fragments
   the device has asked this gateway for, up to the highest, of how many. */

static inline const uint8_t *pcp_gateway_driver_record(
    const pcp_gateway_driver *driver)
{
    return driver->state + PCP_DRIVER_GATEWAY;
}

static inline uint8_t pcp_gateway_driver_outcome(
    const pcp_gateway_driver *driver)
{
    return driver->outcome;
}

static inline uint8_t pcp_gateway_driver_said(const pcp_gateway_driver *driver)
{
    return driver->said;
}

static inline uint32_t pcp_gateway_driver_gateways(
    const pcp_gateway_driver *driver)
{
    return driver->gateways;
}

static inline uint8_t pcp_gateway_driver_fault(const pcp_gateway_driver *driver)
{
    return driver->fault;
}

static inline uint16_t pcp_gateway_driver_size(const pcp_gateway_driver *driver)
{
    return pcp_word(driver->state + PCP_DRIVER_GATEWAY + 18);
}

static inline uint16_t pcp_gateway_driver_served(
    const pcp_gateway_driver *driver)
{
    return driver->served;
}

static inline uint16_t pcp_gateway_driver_total(
    const pcp_gateway_driver *driver)
{
    uint16_t size = pcp_gateway_driver_size(driver);

    return (uint16_t)((driver->package_length + size - 1) / size);
}


/* The gateway.  Helpers first. */

/* Flags. */
enum {
    PCP_DRIVER_EXECUTING = 1, /* 23 was answered with 00 */
    PCP_DRIVER_ASKED = 2,     /* this gateway was asked for a fragment, */
    PCP_DRIVER_MOVED = 4,     /* and for another one */
    PCP_DRIVER_OVER = 8,      /* it has ended or stands still, or none has
                                 started yet: the next one follows */
    PCP_DRIVER_LATER = 16     /* after a longer wait */
};

/* A device that asks so often for one fragment does not get it; and one that
   asks so many gateways for nothing may be in Acked. */
enum { PCP_DRIVER_REPEATS = 4, PCP_DRIVER_UNASKED = 3 };

/* No fragment has this index.  The one asked for last is not saved: after a
   start none is known. */
enum { PCP_DRIVER_NO_INDEX = 65535 };

static inline void pcp_driver_gateway_due(pcp_gateway_driver *driver,
                                          uint8_t action)
{
    driver->pending = (uint8_t)(driver->pending | action);
}

static inline void pcp_driver_gateway_flag(pcp_gateway_driver *driver,
                                           uint8_t flag)
{
    driver->flags = (uint8_t)(driver->flags | flag);
}

/* Whether the gateway is to answer, ask and be watched. */
static inline int pcp_driver_gateway_at_work(const pcp_gateway_driver *driver)
{
    return (driver->flags & PCP_DRIVER_OVER) == 0 &&
           driver->outcome == PCP_OUTCOME_NONE;
}

static inline uint64_t pcp_driver_gateway_spent(
    const pcp_gateway_driver *driver)
{
    return pcp_driver_after(driver->spent, driver->now - driver->since);
}

static inline uint64_t pcp_driver_total_of(const pcp_gateway_driver *driver,
                                           uint32_t size)
{
    return ((uint64_t)driver->package_length + size - 1) / size;
}

/* Bytes of the image that a size needs beyond the package. */
static inline uint64_t pcp_driver_waste(const pcp_gateway_driver *driver,
                                        uint32_t size)
{
    return size * pcp_driver_total_of(driver, size) - driver->package_length;
}

static inline uint64_t pcp_driver_map(const pcp_gateway_driver *driver,
                                      uint32_t size)
{
    return (pcp_driver_total_of(driver, size) + 7) / 8;
}

/* Whether a size may be tried: not larger than what gets through, and with less
   waste or map than what the device refused. */
static inline int pcp_driver_size_fits(const pcp_gateway_driver *driver,
                                       uint32_t size)
{
    return size >= PCP_SIZE_MIN && size <= PCP_SIZE_MAX &&
           size <= driver->largest &&
           pcp_driver_total_of(driver, size) <= 65535 &&
           pcp_driver_waste(driver, size) < driver->waste_below &&
           pcp_driver_map(driver, size) < driver->map_below;
}

/* The largest size with at most this waste; if there is none, that with the
   least; 0 if none may be tried. */
static inline uint16_t pcp_driver_pick_size(const pcp_gateway_driver *driver,
                                            uint64_t waste)
{
    uint32_t size, best = 0;

    for (size = PCP_SIZE_MAX; size >= PCP_SIZE_MIN; size--) {
        if (!pcp_driver_size_fits(driver, size))
            continue;
        if (pcp_driver_waste(driver, size) <= waste)
            return (uint16_t)size;
        if (best == 0 || pcp_driver_waste(driver, size) <
                             pcp_driver_waste(driver, best))
            best = size;
    }
    return (uint16_t)best;
}

/* Another size than this one: the first one again, or the next smaller one, else
   the next larger, by steps of 16, so that fragments stay aligned, else of 1;
   the same if there is none.  To a device that has the whole package another is
   no resume. */
static inline uint16_t pcp_driver_other_size(const pcp_gateway_driver *driver,
                                             uint32_t size)
{
    uint32_t step, other;

    if (size != driver->config.size &&
        pcp_driver_size_fits(driver, driver->config.size))
        return driver->config.size;
    for (step = 16; step > 0; step /= 16) {
        for (other = size; other > step; other -= step)
            if (pcp_driver_size_fits(driver, other - step))
                return (uint16_t)(other - step);
        for (other = size + step; other <= PCP_SIZE_MAX; other += step)
            if (pcp_driver_size_fits(driver, other))
                return (uint16_t)other;
    }
    return (uint16_t)size;
}

/* The size after a gateway in Serve that was asked for nothing.  If the device
   has said that it has all, it is in Acked, and another size gets it out of
   there.  If not, it may just have been away, and another size would cost it
   what it has; but what it said may have been forgotten here. */
static inline uint16_t pcp_driver_size_unasked(pcp_gateway_driver *driver,
                                               uint16_t size)
{
    if (size != driver->delivered &&
        ++driver->unasked < PCP_DRIVER_UNASKED)
        return size;
    driver->delivered = 0;
    driver->unasked = 0;
    return pcp_driver_other_size(driver, size);
}

/* The largest size up to this one, and from now on no larger one is tried; the
   current size if there is none. */
static inline uint16_t pcp_driver_size_up_to(pcp_gateway_driver *driver,
                                             uint16_t most, uint16_t current)
{
    uint16_t before = driver->largest, size;

    driver->largest = most;
    size = pcp_driver_pick_size(driver, PCP_SIZE_MAX);
    if (size != 0)
        return size;
    driver->largest = before;
    return current;
}

/* Reports are waited for from now on: a device that was asked for its version
   may be silent before it reports. */
static inline void pcp_driver_gateway_linger(pcp_gateway_driver *driver)
{
    driver->end_at =
        pcp_driver_after(pcp_driver_silence(&driver->config, driver->now),
                         driver->config.linger);
}

static inline void pcp_driver_gateway_end(pcp_gateway_driver *driver,
                                          uint8_t outcome)
{
    driver->outcome = outcome;
    pcp_driver_gateway_linger(driver);
    pcp_driver_gateway_due(driver, PCP_ACTION_SAVE);
}

/* The wait before a start (duty 19), from now on. */
static inline void pcp_driver_gateway_pause(pcp_gateway_driver *driver)
{
    uint64_t wait = driver->config.quiet;

    if ((driver->flags & PCP_DRIVER_LATER) != 0 && driver->config.later > wait)
        wait = driver->config.later;
    driver->start_at = pcp_driver_after(driver->now, wait);
}

/* The next gateway is to follow, with this size; 0: no size is left. */
static inline void pcp_driver_gateway_over(pcp_gateway_driver *driver,
                                           uint16_t size, uint8_t later)
{
    if (size == 0) {
        pcp_driver_gateway_end(driver, PCP_OUTCOME_NO_ROOM);
        return;
    }
    driver->size = size;
    pcp_driver_gateway_flag(driver, (uint8_t)(PCP_DRIVER_OVER | later));
    pcp_driver_gateway_pause(driver);
    pcp_driver_gateway_due(driver, PCP_ACTION_SAVE);
}

/* The largest size that the config allows. */
static inline uint16_t pcp_driver_size_most(const pcp_driver_config *config)
{
    return config->size_most < config->size ? config->size : config->size_most;
}

/* A size for a device that refused the announcement; 0 if it takes none.  That
   larger ones do not get through was a guess, and is given up before. */
static inline uint16_t pcp_driver_gateway_refused(pcp_gateway_driver *driver,
                                                  uint16_t size)
{
    uint64_t waste = PCP_SIZE_MAX;

    if (driver->said == 0x05) { /* image too short */
        driver->waste_below = (uint16_t)pcp_driver_waste(driver, size);
        waste = driver->waste_below / 2;
    } else if (driver->said == 0x09) /* map too short */
        driver->map_below = (uint16_t)pcp_driver_map(driver, size);
    else
        return size;
    size = pcp_driver_pick_size(driver, waste);
    if (size == 0) {
        driver->largest = pcp_driver_size_most(&driver->config);
        size = pcp_driver_pick_size(driver, waste);
    }
    return size;
}

static inline void pcp_driver_gateway_ended(pcp_gateway_driver *driver)
{
    uint16_t size = pcp_gateway_driver_size(driver);
    uint8_t said = driver->said, later = PCP_DRIVER_LATER;

    switch (pcp_gateway_ending(pcp_driver_gateway(driver))) {
    case PCP_ENDING_SUCCESS:
    case PCP_ENDING_ALREADY_RUNNING:
        pcp_driver_gateway_end(driver, PCP_OUTCOME_SUCCESS);
        return;
    case PCP_ENDING_NOT_ACCEPTED:
        if (said == 0x03 || said == 0x05 || said == 0x09)
            later = 0;
        size = pcp_driver_gateway_refused(driver, size);
        break;
    case PCP_ENDING_DOWNLOAD_FAILED:
        driver->failures++;
        later = 0;
        break;
    case PCP_ENDING_NOT_EXECUTED:
        break;
    default: /* the installation failed */
        if (said != PCP_INSTALL_BUSY && said != PCP_INSTALL_LOW_POWER)
            driver->failures++;
    }
    if (driver->outcome != PCP_OUTCOME_NONE)
        pcp_driver_gateway_due(driver, PCP_ACTION_SAVE); /* had given up */
    else if (driver->config.failure_limit > 0 &&
             driver->failures >= driver->config.failure_limit)
        pcp_driver_gateway_end(driver, PCP_OUTCOME_FAILED);
    else
        pcp_driver_gateway_over(driver, size, later);
}

/* Nothing new for longer than the longest installation. */
static inline void pcp_driver_gateway_stands_still(pcp_gateway_driver *driver)
{
    uint16_t size = pcp_gateway_driver_size(driver);

    switch (pcp_gateway_phase(pcp_driver_gateway(driver))) {
    case PCP_GATEWAY_ASK: /* another would ask the same; the time is saved */
        driver->progress_at = driver->now;
        pcp_driver_gateway_due(driver, PCP_ACTION_SAVE);
        return;
    case PCP_GATEWAY_OFFER: /* the device may not know larger sizes */
        if (size > PCP_SIZE_PUBLIC)
            size = pcp_driver_size_up_to(driver, PCP_SIZE_PUBLIC, size);
        break;
    case PCP_GATEWAY_SERVE:
        if ((driver->flags & PCP_DRIVER_ASKED) == 0)
            size = pcp_driver_size_unasked(driver, size);
        else if ((driver->flags & PCP_DRIVER_MOVED) == 0 &&
                 driver->repeats >= PCP_DRIVER_REPEATS &&
                 ++driver->stuck == 2) {
            /* Fragments of this size do not get through. */
            driver->stuck = 0;
            size = pcp_driver_size_up_to(driver, size / 2, size);
        }
        break;
    default: /* Run: a device that has not installed may still be in Loaded */
        break;
    }
    pcp_driver_gateway_over(driver, size, 0);
}

/* The next gateway starts. */
static inline void pcp_driver_gateway_next(pcp_gateway_driver *driver)
{
    uint8_t *record = pcp_driver_gateway(driver);
    uint8_t fresh[PCP_GATEWAY_RECORD], number;

    if (driver->config.gateway_limit > 0 &&
        driver->gateways >= driver->config.gateway_limit) {
        pcp_driver_gateway_end(driver, PCP_OUTCOME_GATEWAYS);
        return;
    }
    number = pcp_gateway_start(fresh, sizeof fresh, driver->version,
                               sizeof driver->version, driver->size,
                               driver->package, driver->package_length, 1);
    if (number != PCP_HANDLED ||
        memcmp(fresh + 28, record + 28, 2) != 0) { /* another code */
        driver->fault = PCP_BAD_PACKAGE;
        pcp_driver_gateway_end(driver, PCP_OUTCOME_PACKAGE);
        return;
    }
    memcpy(record, fresh, sizeof fresh);
    driver->gateways++;
    driver->flags = 0;
    driver->served = 0;
    driver->repeats = 0;
    driver->ask_at = driver->now;
    driver->progress_at = driver->now;
    pcp_driver_gateway_due(driver, PCP_ACTION_SAVE);
}

static inline void pcp_driver_gateway_ask(pcp_gateway_driver *driver)
{
    pcp_answer answer = pcp_gateway_next_message(
        pcp_driver_gateway(driver), PCP_GATEWAY_RECORD, driver->package,
        driver->package_length, driver->reply, sizeof driver->reply);

    driver->ask_at = PCP_NEVER; /* nothing to send in this phase */
    if (answer.number >= PCP_UNKNOWN_CONDITION)
        driver->fault = answer.number;
    if (answer.number != PCP_HANDLED)
        return;
    driver->reply_length = answer.length;
    pcp_driver_gateway_due(driver, PCP_ACTION_SEND);
    driver->ask_at = pcp_driver_after(driver->now, driver->config.retry);
}

/* Whether the gateway is to get a message of this code; see section 7 of the
   manual.  Of the answers to 23 the first 00 counts: a later one is to a 23
   that was sent before. */
static inline int pcp_driver_gateway_wants(const pcp_gateway_driver *driver,
                                           uint8_t code)
{
    const uint8_t *record = pcp_gateway_driver_record(driver);
    uint8_t phase = pcp_gateway_phase(record);
    int at_work = pcp_driver_gateway_at_work(driver);
    int serves = at_work && (phase == PCP_GATEWAY_SERVE ||
                             phase == PCP_GATEWAY_RUN);

    switch (code) {
    case PCP_UPGRADE_RESULT:
        return 1;
    case PCP_FRAGMENT:
        return serves;
    case PCP_DOWNLOAD_RESULT:
        return serves ||
               (phase == PCP_GATEWAY_ENDED &&
                pcp_gateway_ending(record) == PCP_ENDING_DOWNLOAD_FAILED);
    case PCP_EXECUTE:
        return at_work && (driver->flags & PCP_DRIVER_EXECUTING) == 0;
    default:
        return at_work;
    }
}

/* A request for a fragment was answered: progress if it is another than the
   last. */
static inline void pcp_driver_gateway_requested(pcp_gateway_driver *driver,
                                                const uint8_t *message)
{
    uint16_t index = pcp_word(message + 24);
    uint8_t flags = driver->flags;

    if (driver->reply[8] != 0x00) /* no such upgrade or fragment */
        return;
    if ((flags & PCP_DRIVER_ASKED) != 0 && index != driver->index &&
        driver->index != PCP_DRIVER_NO_INDEX) {
        pcp_driver_gateway_flag(driver, PCP_DRIVER_MOVED);
        driver->stuck = 0;
    }
    pcp_driver_gateway_flag(driver, PCP_DRIVER_ASKED);
    if (flags != driver->flags)
        pcp_driver_gateway_due(driver, PCP_ACTION_SAVE);
    if ((flags & PCP_DRIVER_ASKED) == 0 || index != driver->index)
        driver->progress_at = driver->now;
    else if (driver->repeats < PCP_DRIVER_REPEATS)
        driver->repeats++;
    driver->index = index;
    driver->unasked = 0;
    if (index >= driver->served)
        driver->served = (uint16_t)(index + 1);
}

/* The record has changed. */
static inline void pcp_driver_gateway_changed(pcp_gateway_driver *driver,
                                              const uint8_t *message)
{
    uint8_t phase = pcp_gateway_phase(pcp_driver_gateway(driver));

    pcp_driver_gateway_due(driver, PCP_ACTION_SAVE);
    driver->progress_at = driver->now;
    driver->ask_at = phase == PCP_GATEWAY_OFFER
                         ? pcp_driver_after(driver->now, driver->config.quiet)
                         : driver->now;
    if (phase == PCP_GATEWAY_RUN) {
        driver->delivered = pcp_gateway_driver_size(driver);
        driver->unasked = 0;
        driver->stuck = 0;
    }
    if (phase == PCP_GATEWAY_ENDED) {
        driver->said = message[8];
        pcp_driver_gateway_ended(driver);
    }
}

/* What time brings about: nothing while an action is due. */
static inline void pcp_driver_gateway_work(pcp_gateway_driver *driver)
{
    uint64_t now = driver->now;

    if (driver->pending != 0 || driver->outcome != PCP_OUTCOME_NONE)
        return;
    if (driver->config.time_limit > 0 &&
        pcp_driver_gateway_spent(driver) >= driver->config.time_limit)
        pcp_driver_gateway_end(driver, PCP_OUTCOME_TIME);
    else if ((driver->flags & PCP_DRIVER_OVER) != 0) {
        if (pcp_driver_due(driver->start_at, now))
            pcp_driver_gateway_next(driver);
    } else if (pcp_driver_due(pcp_driver_after(driver->progress_at,
                                               driver->config.installation),
                              now))
        pcp_driver_gateway_stands_still(driver);
    else if (pcp_driver_due(driver->ask_at, now) &&
             (driver->flags & PCP_DRIVER_EXECUTING) == 0)
        pcp_driver_gateway_ask(driver);
}

/* When work has something to do next. */
static inline uint64_t pcp_driver_gateway_wake(const pcp_gateway_driver *driver)
{
    uint64_t wake = PCP_NEVER, limit = driver->config.time_limit;

    if (limit > 0)
        wake = pcp_driver_after(driver->since, limit - driver->spent);
    if ((driver->flags & PCP_DRIVER_OVER) != 0)
        return pcp_driver_sooner(wake, driver->start_at);
    if ((driver->flags & PCP_DRIVER_EXECUTING) == 0)
        wake = pcp_driver_sooner(wake, driver->ask_at);
    return pcp_driver_sooner(wake,
                             pcp_driver_after(driver->progress_at,
                                              driver->config.installation));
}

static inline void pcp_driver_gateway_seal(pcp_gateway_driver *driver)
{
    uint8_t *state = driver->state;

    state[12] = driver->flags;
    state[13] = driver->outcome;
    state[14] = driver->said;
    state[15] = driver->stuck;
    pcp_driver_put(state + 16, 2, driver->failures);
    pcp_driver_put(state + 18, 2, driver->largest);
    pcp_driver_put(state + 20, 2, driver->waste_below);
    pcp_driver_put(state + 22, 2, driver->map_below);
    pcp_driver_put(state + 24, 4, driver->gateways);
    pcp_driver_put(state + 28, 8, pcp_driver_gateway_spent(driver));
    pcp_driver_put(state + 36, 2, driver->size);
    pcp_driver_put(state + 38, 2, driver->delivered);
    state[40] = driver->unasked;
    state[41] = 0;
    driver->counter++;
    pcp_driver_seal(state, 'G', PCP_GATEWAY_STATE, driver->counter);
}

/* Asking tests the record, then the package, and is refused in any case: no
   package is empty. */
static inline int pcp_driver_gateway_is_record(pcp_gateway_driver *driver,
                                               const uint8_t *record)
{
    return pcp_gateway_next_message(record, PCP_GATEWAY_RECORD, NULL, 0,
                                    driver->reply, sizeof driver->reply)
               .number != PCP_BAD_RECORD;
}

/* Takes up a save; 0 if it is not of this package and version.  Waits begin
   anew. */
static inline int pcp_driver_gateway_load(pcp_gateway_driver *driver,
                                          const uint8_t *saved)
{
    const uint8_t *record = saved + PCP_DRIVER_GATEWAY;
    uint8_t fresh[PCP_GATEWAY_RECORD];
    uint64_t wait = driver->config.retry;

    if (saved[1] != PCP_DRIVER_LAYOUT ||
        pcp_driver_length(saved) != PCP_GATEWAY_STATE ||
        pcp_gateway_start(fresh, sizeof fresh, driver->version,
                          sizeof driver->version, pcp_word(record + 18),
                          driver->package, driver->package_length,
                          1) != PCP_HANDLED ||
        memcmp(fresh + 2, record + 2, sizeof fresh - 2) != 0 ||
        !pcp_driver_gateway_is_record(driver, record) ||
        saved[13] > PCP_OUTCOME_PACKAGE)
        return 0;
    memcpy(driver->state, saved, PCP_GATEWAY_STATE);
    driver->flags = saved[12];
    driver->outcome = saved[13];
    driver->said = saved[14];
    driver->stuck = saved[15];
    driver->failures = pcp_word(saved + 16);
    driver->largest = pcp_word(saved + 18);
    driver->waste_below = pcp_word(saved + 20);
    driver->map_below = pcp_word(saved + 22);
    driver->gateways = (uint32_t)pcp_driver_get(saved + 24, 4);
    driver->spent = pcp_driver_get(saved + 28, 8);
    driver->size = pcp_word(saved + 36);
    driver->delivered = pcp_word(saved + 38);
    driver->unasked = saved[40];
    if (pcp_gateway_phase(record) == PCP_GATEWAY_OFFER)
        wait = driver->config.quiet;
    driver->ask_at = pcp_driver_after(driver->now, wait);
    return 1;
}

/* Starts a gateway's driver, which brings one device to this version with this
   package: for a new upgrade, and after a restart, with what the slots hold.  A
   save of another version or package counts as none.  The first message goes
   out after the wait of duty 19.
   Numbers: 17, 18, 19, for the version, the config's size and the package.  On
   these the driver is not started. */
static inline uint8_t pcp_gateway_driver_start(
    pcp_gateway_driver *driver, const pcp_driver_config *config,
    const void *version, size_t version_length, const uint8_t *package,
    size_t package_length, const uint8_t *slot0, size_t slot0_length,
    const uint8_t *slot1, size_t slot1_length, uint64_t now)
{
    uint8_t record[PCP_GATEWAY_RECORD];
    uint8_t number =
        pcp_gateway_start(record, sizeof record, version, version_length,
                          config->size, package, package_length, 1);
    const uint8_t *saved =
        pcp_driver_newest(slot0, slot0_length, slot1, slot1_length, 'G');

    if (number != PCP_HANDLED)
        return number;
    memset(driver, 0, sizeof *driver);
    driver->config = pcp_driver_sane(config);
    driver->package = package;
    driver->package_length = package_length;
    memcpy(driver->version, record + 2, sizeof driver->version);
    driver->now = now;
    driver->since = now;
    driver->ask_at = PCP_NEVER;
    driver->progress_at = now;
    driver->index = PCP_DRIVER_NO_INDEX;
    if (saved != NULL)
        driver->counter =
            (uint32_t)pcp_driver_get(saved + PCP_DRIVER_COUNTER, 4);
    if (saved == NULL || !pcp_driver_gateway_load(driver, saved)) {
        memcpy(pcp_driver_gateway(driver), record, sizeof record);
        driver->size = config->size;
        driver->largest = pcp_driver_size_most(config);
        driver->waste_below = PCP_SIZE_MAX;
        driver->map_below = 65535 / 8 + 2;
        driver->flags = PCP_DRIVER_OVER;
        pcp_driver_gateway_due(driver, PCP_ACTION_SAVE);
    }
    pcp_driver_gateway_pause(driver);
    pcp_driver_gateway_linger(driver);
    return PCP_HANDLED;
}

/* A message arrived from the device.  The number is that of
   pcp_gateway_receive; also 9 if the driver drops the message, or an action is
   still due or was not confirmed by another poll: the message counts as
   lost. */
static inline uint8_t pcp_gateway_driver_receive(pcp_gateway_driver *driver,
                                                 uint64_t now,
                                                 const uint8_t *message,
                                                 size_t message_length)
{
    uint8_t number = pcp_recognise_message(1, 1, message, message_length);
    pcp_answer answer;

    if (number != PCP_RECOGNISED)
        return number;
    if (driver->pending != 0 || !pcp_driver_gateway_wants(driver, message[3]))
        return PCP_NO_USE;
    pcp_driver_clock(&driver->now, now);
    answer = pcp_gateway_receive(pcp_driver_gateway(driver), PCP_GATEWAY_RECORD,
                                 1, 1, message, message_length, driver->package,
                                 driver->package_length, driver->reply,
                                 sizeof driver->reply);
    if (answer.number >= PCP_UNKNOWN_CONDITION)
        driver->fault = answer.number;
    if (answer.number != PCP_HANDLED)
        return answer.number;
    driver->reply_length = answer.length;
    if (answer.length > 0)
        pcp_driver_gateway_due(driver, PCP_ACTION_SEND);
    pcp_driver_gateway_linger(driver);
    if (message[3] == PCP_FRAGMENT)
        pcp_driver_gateway_requested(driver, message);
    if (answer.changed)
        pcp_driver_gateway_changed(driver, message);
    else if (message[3] == PCP_EXECUTE) { /* 00, or the record had changed */
        pcp_driver_gateway_flag(driver, PCP_DRIVER_EXECUTING);
        pcp_driver_gateway_due(driver, PCP_ACTION_SAVE);
        driver->progress_at = driver->now;
    }
    return PCP_HANDLED;
}

/* What is to be done now; the action before this one has been done. */
static inline pcp_action pcp_gateway_driver_poll(pcp_gateway_driver *driver,
                                                 uint64_t now)
{
    pcp_action action;

    pcp_driver_clock(&driver->now, now);
    driver->pending = (uint8_t)(driver->pending & ~driver->given);
    driver->given = 0;
    pcp_driver_gateway_work(driver);
    if (driver->pending & PCP_ACTION_SAVE) {
        driver->given = PCP_ACTION_SAVE;
        pcp_driver_gateway_seal(driver);
        action = pcp_driver_action(PCP_ACTION_SAVE, driver->state,
                                   sizeof driver->state);
        action.slot = driver->counter % 2;
    } else if (driver->pending & PCP_ACTION_SEND) {
        driver->given = PCP_ACTION_SEND;
        action = pcp_driver_action(PCP_ACTION_SEND, driver->reply,
                                   driver->reply_length);
    } else if (driver->outcome == PCP_OUTCOME_NONE)
        action = pcp_driver_wait(PCP_ACTION_WAIT,
                                 pcp_driver_gateway_wake(driver));
    else if (pcp_driver_due(driver->end_at, driver->now))
        action = pcp_driver_wait(PCP_ACTION_END, PCP_NEVER);
    else
        action = pcp_driver_wait(PCP_ACTION_WAIT, driver->end_at);
    return action;
}

#ifdef __cplusplus
}
#endif

#endif
