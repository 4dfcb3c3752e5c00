/* A program that knows the library as installed alone: it upgrades nothing, but
   calls the archive through its headers, and prints the version. */
#include <pcp_capture.h>
#include <pcp_driver.h>
#include <pcp_md5.h>

#include <stdio.h>

int main(void)
{
    static const uint8_t query[8] = {0xFF, 0xFE, 0x01, 0x13, 0x4C, 0x9A, 0, 0};
    uint8_t record[PCP_DEVICE_RECORD], reply[PCP_DEVICE_REPLY], capture[64];
    uint8_t digest[PCP_DIGEST_LENGTH];
    pcp_answer answer;
    pcp_item item;

    if (pcp_device_new(record, sizeof record, "V1.0", 4) != PCP_HANDLED)
        return 1;
    answer = pcp_device_receive(record, sizeof record, 1, 1, PCP_READY, query,
                                sizeof query, NULL, 0, NULL, 0, reply,
                                sizeof reply);
    if (answer.number != PCP_HANDLED || answer.length != 25)
        return 1;
    if (pcp_capture_write(0, reply, answer.length, capture, sizeof capture, 0)
            .number != PCP_HANDLED)
        return 1;
    item = pcp_capture_next(capture, sizeof capture, 0);
    if (item.kind != PCP_ITEM_FROM_DEVICE || item.length != answer.length)
        return 1;
    if (pcp_md5(reply, answer.length, digest, sizeof digest) != PCP_HANDLED)
        return 1;
    if (pcp_driver_defaults().size != PCP_SIZE_PUBLIC)
        return 1;
    printf("%s\n", pcp_version());
    return 0;
}
