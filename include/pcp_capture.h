/* pcp_capture.h - captures of PCP exchanges: written, read and mended, for C99
   and C++

   A capture is records one after the other, and nothing else.  A record:

       0  4C 3E      toward the device; 4C 3C: from it
       2  length     two bytes, high byte first, of the message
       4  message    any bytes, up to 65,535

   A host that records an exchange writes each message as it passes, in either
   direction: into a buffer of PCP_CAPTURE_HEADER + PCP_GATEWAY_REPLY bytes if it
   appends to a file, which is room for any message of PCP.  The replay program
   plays the capture to a device.

   A place in a capture is an offset in bytes.  The functions keep nothing, so
   that a host may read a capture in any order, and from any place; a place
   after the end counts as the end.  To read all records:

       pcp_item item;

       for (size_t at = 0;; at = item.next) {
           item = pcp_capture_next(capture, length, at);
           if (item.kind != PCP_ITEM_TO_DEVICE &&
               item.kind != PCP_ITEM_FROM_DEVICE)
               break;
           use(capture + item.start, item.length);
       }

   The loop ends at the end, and where there is no record: with PCP_BAD_MARK or
   PCP_CUT_SHORT.  There the next place is the same place.

   A damaged capture.  pcp_capture_mended goes on where there is no record.  It
   tries the places behind, one after the other, for a whole record that holds a
   message of PCP (pcp_recognise_message, both facts yes, gives 0), and takes the
   first.  The bytes up to there it gives as an item of its own, of the kind
   PCP_BAD_MARK or PCP_CUT_SHORT; if no place will do, these are all that is
   left.  A loop over it ends with PCP_ITEM_END alone.  Without damage both give
   the same records.

   What mending cannot see.  That nothing was passed over does not show that
   there is no damage: messages may be damaged, for a record is not tested where
   one follows the other; and a damaged length may lead to a later mark, and so
   swallow records.  Nor is every record given that was sent: those whose
   message is none of PCP are passed over after damage, up to the next that is.

   Time.  pcp_capture_next looks at four bytes.  pcp_capture_mended, where bytes
   are passed over, tests each place up to the one where it goes on, in one
   call; the manual says what that costs at worst.

   The rules for buffers, answers and threads are those of pcp.h. */
#ifndef PCP_CAPTURE_H
#define PCP_CAPTURE_H

#include "pcp.h"

#ifdef __cplusplus
extern "C" {
#endif

/* Lengths in a record. */
enum {
    PCP_CAPTURE_HEADER = 4,          /* mark and length */
    PCP_CAPTURE_MESSAGE_MOST = 65535 /* the longest message */
};

/* Kinds of items.  Where there is no record, the kind is PCP_BAD_MARK or
   PCP_CUT_SHORT, of the numbers of pcp.h.  0 to 2 are kinds alone: they do not
   mean what the numbers 0 to 2 of pcp.h mean. */
enum {
    PCP_ITEM_END = 0,        /* nothing is left */
    PCP_ITEM_TO_DEVICE = 1,  /* a record toward the device */
    PCP_ITEM_FROM_DEVICE = 2 /* a record from it */
};

/* An item of a capture: length bytes from the place start on, which are a
   record's message, or what was passed over.  Otherwise the length is 0, and
   start may be after the end: take no address of it.  The next item is at the
   place next. */
typedef struct {
    uint8_t kind;
    size_t start, length, next;
} pcp_item;

/* What writing gives: 0 or PCP_DOES_NOT_FIT, and the place after the record; if
   it was refused, the place itself. */
typedef struct {
    uint8_t number;
    size_t next;
} pcp_written;

/* The archive's own symbols.  Call the functions below instead: these must not
   be given NULL, even with length 0. */
uint8_t pcp_raw_capture_kind(const uint8_t *capture, size_t capture_length,
                             size_t at);
size_t pcp_raw_capture_next(const uint8_t *capture, size_t capture_length,
                            size_t at);
size_t pcp_raw_capture_mended(const uint8_t *capture, size_t capture_length,
                              size_t at);
uint8_t pcp_raw_capture_write(uint8_t toward, const uint8_t *message,
                              size_t message_length, uint8_t *buffer,
                              size_t buffer_length, size_t at);

/* A record, or what is passed over, stands between its place and the next.  Used
   by the functions below only. */
static inline pcp_item pcp_item_between(uint8_t kind, size_t at, size_t next)
{
    int is_record = kind == PCP_ITEM_TO_DEVICE || kind == PCP_ITEM_FROM_DEVICE;
    pcp_item item;

    item.kind = kind;
    item.start = is_record ? at + PCP_CAPTURE_HEADER : at;
    item.length = next - item.start;
    item.next = next;
    return item;
}

/* The record at a place of a capture, the end, or why there is none. */
static inline pcp_item pcp_capture_next(const uint8_t *capture,
                                        size_t capture_length, size_t at)
{
    const uint8_t *bytes = pcp_not_null(capture, capture_length);

    return pcp_item_between(pcp_raw_capture_kind(bytes, capture_length, at), at,
                            pcp_raw_capture_next(bytes, capture_length, at));
}

/* The same where the capture may be damaged: with PCP_BAD_MARK and
   PCP_CUT_SHORT, the item is the bytes that are passed over, at least one. */
static inline pcp_item pcp_capture_mended(const uint8_t *capture,
                                          size_t capture_length, size_t at)
{
    const uint8_t *bytes = pcp_not_null(capture, capture_length);

    return pcp_item_between(pcp_raw_capture_kind(bytes, capture_length, at), at,
                            pcp_raw_capture_mended(bytes, capture_length, at));
}

/* Writes the record of a message into the buffer, from a place on.  The bytes
   before and after it stay; message and buffer must not overlap.  toward_device
   is 0 for a message from the device, anything else for one toward it.  A
   record that the buffer has no room for, or a message longer than
   PCP_CAPTURE_MESSAGE_MOST, is refused whole.
   Numbers: 22. */
static inline pcp_written pcp_capture_write(int toward_device,
                                            const uint8_t *message,
                                            size_t message_length,
                                            uint8_t *buffer,
                                            size_t buffer_length, size_t at)
{
    pcp_written written;

    written.number = pcp_raw_capture_write(
        toward_device != 0, pcp_not_null(message, message_length),
        message_length, pcp_not_null_buffer(buffer, buffer_length),
        buffer_length, at);
    written.next = written.number == PCP_HANDLED
                       ? at + PCP_CAPTURE_HEADER + message_length
                       : at;
    return written;
}

#ifdef __cplusplus
}
#endif

#endif
