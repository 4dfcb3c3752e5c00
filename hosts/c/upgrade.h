/* What the two files of the example host share: upgrade.c has the definitions,
   udp.c each end over UDP.  The text at the head of upgrade.c tells the use. */
#ifndef UPGRADE_H
#define UPGRADE_H

#include "pcp_driver.h"

#include <stdbool.h>
#include <stdio.h>

enum {
    MOST_PACKAGE = PCP_SIZE_MAX * 65535,
    MOST_MESSAGE = 2048,    /* none of PCP is longer than PCP_GATEWAY_REPLY */
    IMAGE_LENGTH = 1 << 20, /* the device's storage for a package */
    STATE_LENGTH = PCP_DEVICE_STATE(IMAGE_LENGTH),
    WRONG_USE = 2           /* the exit status */
};

/* A file's first bytes, at most so many; false, with errno, if it cannot be
   read. */
bool read_file(const char *path, uint8_t *bytes, size_t most, size_t *length);

/* The digits up to the character that ends the number: what is behind that;
   NULL if it is no number, or a larger one. */
const char *read_number(const char *text, char end, uint64_t most,
                        uint64_t *number);

/* Two hex digits for each byte, as md5sum prints them, or capital ones. */
bool read_digest(const char *text, uint8_t *digest);

/* Appends a record of the exchange at once, so that none is cut when the
   process is killed.  There may be no capture, and an empty message is none. */
void capture_message(FILE *capture, bool toward_device, const uint8_t *message,
                     size_t length);

const char *gateway_phase_name(uint8_t phase);

/* One end over UDP, with the arguments behind --udp: the exit status. */
int run_over_udp(int count, char **arguments);

#endif
