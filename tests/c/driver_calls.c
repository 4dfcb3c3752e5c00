/* The driver of pcp_driver.h as symbols: its functions are inline, and a
   program in another language cannot call those.  Drivers stand in memory that
   the caller lends, of the sizes told here. */
#include "pcp_driver.h"

/* the defaults; lengths of a device's state for this image, and a gateway's */
void calls_defaults(pcp_driver_config *config, size_t image_length,
                    size_t *lengths);

size_t calls_device_size(void);
uint8_t calls_device_start(pcp_device_driver *driver,
                           const pcp_driver_config *config,
                           const uint8_t *version, size_t version_length,
                           uint8_t *image, size_t image_length, uint8_t *state,
                           size_t state_length, const uint8_t *slot0,
                           size_t slot0_length, const uint8_t *slot1,
                           size_t slot1_length, uint64_t now);
uint8_t calls_device_receive(pcp_device_driver *driver, uint64_t now,
                             int condition, const uint8_t *message,
                             size_t message_length);
void calls_device_installed(pcp_device_driver *driver, int code);
void calls_device_poll(pcp_device_driver *driver, uint64_t now,
                       pcp_action *action);
const uint8_t *calls_device_record(const pcp_device_driver *driver);
uint8_t calls_device_fault(const pcp_device_driver *driver);

size_t calls_gateway_size(void);
uint8_t calls_gateway_start(pcp_gateway_driver *driver,
                            const pcp_driver_config *config,
                            const uint8_t *version, size_t version_length,
                            const uint8_t *package, size_t package_length,
                            const uint8_t *slot0, size_t slot0_length,
                            const uint8_t *slot1, size_t slot1_length,
                            uint64_t now);
uint8_t calls_gateway_receive(pcp_gateway_driver *driver, uint64_t now,
                              const uint8_t *message, size_t message_length);
void calls_gateway_poll(pcp_gateway_driver *driver, uint64_t now,
                        pcp_action *action);
const uint8_t *calls_gateway_record(const pcp_gateway_driver *driver);
/* outcome, said, fault, gateways, served, total */
void calls_gateway_look(const pcp_gateway_driver *driver, uint32_t *look);

void calls_defaults(pcp_driver_config *config, size_t image_length,
                    size_t *lengths)
{
    *config = pcp_driver_defaults();
    lengths[0] = PCP_DEVICE_STATE(image_length);
    lengths[1] = PCP_GATEWAY_STATE;
}

size_t calls_device_size(void)
{
    return sizeof(pcp_device_driver);
}

uint8_t calls_device_start(pcp_device_driver *driver,
                           const pcp_driver_config *config,
                           const uint8_t *version, size_t version_length,
                           uint8_t *image, size_t image_length, uint8_t *state,
                           size_t state_length, const uint8_t *slot0,
                           size_t slot0_length, const uint8_t *slot1,
                           size_t slot1_length, uint64_t now)
{
    return pcp_device_driver_start(driver, config, version, version_length,
                                   image, image_length, state, state_length,
                                   slot0, slot0_length, slot1, slot1_length,
                                   now);
}

uint8_t calls_device_receive(pcp_device_driver *driver, uint64_t now,
                             int condition, const uint8_t *message,
                             size_t message_length)
{
    return pcp_device_driver_receive(driver, now, condition, message,
                                     message_length);
}

void calls_device_installed(pcp_device_driver *driver, int code)
{
    pcp_device_driver_installed(driver, code);
}

void calls_device_poll(pcp_device_driver *driver, uint64_t now,
                       pcp_action *action)
{
    *action = pcp_device_driver_poll(driver, now);
}

const uint8_t *calls_device_record(const pcp_device_driver *driver)
{
    return pcp_device_driver_record(driver);
}

uint8_t calls_device_fault(const pcp_device_driver *driver)
{
    return pcp_device_driver_fault(driver);
}

size_t calls_gateway_size(void)
{
    return sizeof(pcp_gateway_driver);
}

uint8_t calls_gateway_start(pcp_gateway_driver *driver,
                            const pcp_driver_config *config,
                            const uint8_t *version, size_t version_length,
                            const uint8_t *package, size_t package_length,
                            const uint8_t *slot0, size_t slot0_length,
                            const uint8_t *slot1, size_t slot1_length,
                            uint64_t now)
{
    return pcp_gateway_driver_start(driver, config, version, version_length,
                                    package, package_length, slot0,
                                    slot0_length, slot1, slot1_length, now);
}

uint8_t calls_gateway_receive(pcp_gateway_driver *driver, uint64_t now,
                              const uint8_t *message, size_t message_length)
{
    return pcp_gateway_driver_receive(driver, now, message, message_length);
}

void calls_gateway_poll(pcp_gateway_driver *driver, uint64_t now,
                        pcp_action *action)
{
    *action = pcp_gateway_driver_poll(driver, now);
}

const uint8_t *calls_gateway_record(const pcp_gateway_driver *driver)
{
    return pcp_gateway_driver_record(driver);
}

void calls_gateway_look(const pcp_gateway_driver *driver, uint32_t *look)
{
    look[0] = pcp_gateway_driver_outcome(driver);
    look[1] = pcp_gateway_driver_said(driver);
    look[2] = pcp_gateway_driver_fault(driver);
    look[3] = pcp_gateway_driver_gateways(driver);
    look[4] = pcp_gateway_driver_served(driver);
    look[5] = pcp_gateway_driver_total(driver);
}
