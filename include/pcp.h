/* pcp.h - both ends of a PCP software upgrade, for C99 and C++

   PCP is the protocol by which an IoT platform (here: the gateway) upgrades the
   software of a device over a radio link.  This library is the protocol at both
   ends: it reads what arrives, keeps the upgrade's state, and writes what is to
   be sent.  It sends and receives nothing itself, knows no clock and allocates
   nothing: its caller, the host, owns radio, timers and flash.  What a host has
   to do around these calls is done by the drivers of pcp_driver.h: begin there.
   What a host has to know that makes the calls itself is in this file.

   The functions to call:

     at the device
       pcp_device_new               makes the record of a device
       pcp_device_receive           a message arrived: takes it, gives a reply
       pcp_device_next_message      gives what the device has to send
       pcp_device_install_finished  the installer has ended
       pcp_device_give_digest       the package's MD5 is known

     at the gateway
       pcp_gateway_start            makes the record of an upgrade
       pcp_gateway_receive          a message arrived: takes it, gives a reply
       pcp_gateway_next_message     gives what the gateway has to send

     at either
       pcp_recognise_message        is this a PCP message; if not, why not
       pcp_check_of_message         the check that a message ought to carry
       pcp_check_of_bytes           the check of any bytes
       pcp_reason                   what a number means, in words
       pcp_version                  the version of this library

   and, to look into a record: pcp_device_phase, pcp_device_running,
   pcp_device_target, pcp_device_size, pcp_device_total, pcp_device_code,
   pcp_device_stored, pcp_device_digest_set, pcp_device_digest,
   pcp_device_image_length, pcp_device_map_length, pcp_gateway_phase,
   pcp_gateway_ending.  Two other headers of the same archive have what is
   beside an upgrade: captures of exchanges in pcp_capture.h, MD5 digests in
   pcp_md5.h.

   Building.  The library is one archive for x86-64 Linux, libpcp.a, which runs
   on processors of the level x86-64-v2 or above (SSE4.2 and all before it).  It
   needs memcpy, memmove and memset from the C library, at most 1,650 bytes of
   stack, and no heap:

       cc -std=c99 -Iinclude gateway.c -Ltarget/staticlib -lpcp -o gateway

   Installed (scripts/install PREFIX), pkg-config knows it:

       cc -std=c99 gateway.c $(pkg-config --cflags --libs pcp) -o gateway

   Bytes are in hex (80), all other numbers are decimal.  "Asked" is a device or
   gateway on which ..._next_message is called.


   An upgrade
   ----------

       code          gateway to device           device to gateway
       19  query     asks for the version        its running version
       20  announce  version, fragment size,     accepted (00), or why not
                     number of fragments, code
       21  fragment  the fragment                asks for a fragment
       22  download  answer to the result        the download's result
       23  execute   orders the installation     accepted (00), or why not
       24  result    answer to the result        the upgrade's result

   The gateway begins 19, 20 and 23, the device 21, 22 and 24; the other end's
   message of the same code is the reply.  In a run without losses the gateway
   asks for the version and announces the package; the device fetches it by
   fragments, one for each request, and says that it has it; the gateway orders
   the installation; the device's host installs the image; the device reports.

   Each end is in a phase: the device in Idle, Loading, Loaded, Acked, Failed,
   Installing or Reporting, the gateway in Ask, Offer, Serve, Run or Ended.  The
   constants below say what each means.  A package's code is its check, against
   which the device tests the whole image; 0: there is none.

   PCP messages may share a port with other traffic.  A message, offsets in
   bytes; two-byte fields are sent high byte first:

       0  FF FE      start
       2  01         protocol version, in the lower four bits; the upper four
                     are reserved: any are taken, 0 is sent
       3  code       13 to 18 hex (19 to 24)
       4  check      two bytes
       6  length     two bytes, the number of data bytes
       8  data       most answers: one byte, 00 for yes

   A package has 1 to 65,535 fragments of 32 to 1,024 bytes each (PCP_SIZE_MIN,
   PCP_SIZE_MAX), the last one of at least 1: up to 67,107,840 bytes.  Public
   platforms cut theirs into fragments of at most 500 bytes, PCP_SIZE_PUBLIC.
   Take no more where the device may have been made for one of those, or has an
   earlier version of this library: it does not answer a larger announcement.  A
   version is a text of 1 to 16 bytes from A to Z, a to z, 0 to 9, underscore,
   hyphen and dot.


   What a host does
   ----------------

   At both ends:

   - It hands over whole messages, one in each call: the library does not cut a
     stream into messages.
   - It gives a device only what its gateway sent toward it, a gateway only what
     its device sent toward it, and lets one gateway at a time work on a device.
     A message names neither sender nor receiver nor direction (22 with 00 is
     the same bytes both ways): an end that hears itself, or another pair, moves
     on.
   - It lends each call the record, and the memory that goes with it, as the
     last call left them.  Between the calls nobody else writes them.
   - It sends the reply's first length bytes, and nothing if length is 0.
   - It asks: at once when a message or an installer's end changed the record (a
     gateway in Offer: after a wait), otherwise by a timer.  Nothing moves on by
     itself.  See "When messages are lost".
   - It looks at the phase only after a call that gave 0 or 23: bytes that are
     no record may read like any phase.

   At the device:

   - It lends an image that takes byte writes at any place.  If the flash
     cannot, lend RAM.
   - It states in each call the condition that the device is in then.
   - When a call gave 0 and the phase is PCP_DEVICE_INSTALLING, it installs the
     image's first pcp_device_image_length bytes: once, however often 23
     arrives, and only if the image has that many (past Acked no call compares a
     damaged record with the image; if it has fewer, make a new record).  Then
     it calls pcp_device_install_finished, and asks, so that the report is sent.
   - If it matters who made a package, it tests that first, by a signature: who
     can send can upgrade.
   - The software in a package calls itself by the version announced: that is
     what the record will say is running.

   At the gateway:

   - It has one record for each device and package, and keeps the package byte
     for byte the same until it is done with this gateway.
   - It gives every build a version text of its own.  Two packages with the same
     version, size, number of fragments and code count as one: a device that
     holds half of one goes on with the other.
   - It stops asking in Run when 23 was answered, drops some messages, waits at
     two places, and follows a gateway that has not succeeded by a new one: see
     "When messages are lost".


   Buffers
   -------

   Records.  A record is the state of one end, in bytes that the host keeps from
   one call to the next: PCP_DEVICE_RECORD for a device, PCP_GATEWAY_RECORD for
   a gateway.  It holds no pointers: it may be put away and lent again later,
   also by another process.  The layout is below; read it, never write it.  Any
   bytes may be lent: those that break a record's rules get PCP_BAD_RECORD, and
   none make a call do harm.

   Image and map are the device's memory for the package, lent to each of its
   calls.  The image takes the fragments, each at its place; it needs size times
   total bytes, which may be more than the package has.  The map has one bit for
   each fragment, so total / 8 bytes, rounded up; the image's length / 256,
   rounded up, is enough for every size.  Longer buffers are welcome: bytes
   behind are not touched.  Neither needs to be cleared: an announcement that
   begins a download zeroes its part of the map, and of the image nothing counts
   but what the map says is stored.  Record, image and map belong together in
   Loading, Loaded and Acked; in the other phases the record alone counts, and
   image and map may be any.

   A new record (pcp_device_new) gives up a download, and is always a way on for
   a device whose record, image and map are not for certain as the last call
   left them.  The gateway at work learns nothing of it: in Serve it stands
   still, in Run it does that or ends with PCP_ENDING_NOT_EXECUTED.  A new one
   has to follow it.

   The package is lent to each of the gateway's calls, the same bytes each time.
   Its length is tested, its bytes are not.

   The reply buffer gets the message to send: PCP_DEVICE_REPLY bytes at the
   device, PCP_GATEWAY_REPLY at the gateway, or more.

   Rules for all of them.  A buffer passes as pointer and length.  With length 0
   the pointer is not used and may be NULL; with any other, that many bytes must
   be readable there, and writable where the pointer is not const.  One that a
   call writes must not overlap any other of that call.  They are used during
   the call only: nothing is kept, allocated or freed.

   Threads.  The library has no state of its own.  Any threads may call at any
   time, as long as nobody else uses a buffer that a call writes, and nobody
   writes one that it reads, while it runs.


   Answers
   -------

   Each call gives a number: 0 (PCP_HANDLED), or why the call was refused.  The
   tests are made in the order that the function's comment names, and the first
   that fails gives the number.  A refused call has changed nothing: record,
   image, map and reply are as they were, and the reply's length is 0.  The one
   exception is the number 23 (PCP_REPEAT_DIFFERS) of pcp_device_receive: it
   makes the phase Failed, and changes nothing else.  On 0 the reply, if there
   is one, fills the front of its buffer; the rest stays.  No bytes that arrive,
   from wherever, lead to anything else.

   1 to 12 are part of normal work: what arrived is of no use and is dropped, or
   an end that was asked has nothing to send (PCP_NO_USE).  Of these, 1 and 2
   repeat what the host states of the device, and 9 from
   pcp_device_install_finished says that no installation is under way.  9 from
   pcp_device_give_digest says that the device is not in Loading: it is too
   early, or too late, and then the image was tested by no other digest than the
   one that is set (see that function).  The number 23 says that a fragment came
   twice and not the same: fragments of two builds have met, or there is damage
   that no check saw, or the image is not as the last call left it.  The device
   has given the download up, and has to be asked, so that it tells its gateway.
   The other higher numbers are mistakes of the host, in what it lends or
   states: the same call again gets the same number.

   A number is not a result.  Number 0 with a reply whose byte 8 is 01 is a
   message that was handled, and answered no.


   When messages are lost
   ----------------------

   Messages may be lost, repeated, delayed and overtaken by others.  The library
   bears all of it, and the host sees to it that the upgrade goes on:

   - Asking changes nothing and gives the same bytes again.  Ask at once after a
     call that changed the record (the answer says so), otherwise by a timer
     that is longer than the way there and back.  A host that asks after every
     arrival makes two of each message once one was repeated.
   - A gateway in Run stops asking when the device's answer to 23 has arrived
     (code 23, number 0).  A device that has already installed refuses to do it
     again, which would end the gateway with PCP_ENDING_NOT_EXECUTED.
   - A gateway outside Serve and Run answers 21 and 22 with 80, no such upgrade,
     and the device drops what it has stored.  To keep that for a resume, drop
     such messages (byte 3 is the code): the device asks again.  But a gateway
     that ended with PCP_ENDING_DOWNLOAD_FAILED is given 22: a device in Failed
     repeats it until it is answered.  24 is never dropped: any answer lets a
     device get out of Reporting, also that of a gateway that ended.
   - A gateway that ended with neither PCP_ENDING_SUCCESS nor
     PCP_ENDING_ALREADY_RUNNING, or that stands still (nothing was handled for
     longer than the longest installation), is followed by a new one on the same
     package: pcp_gateway_start.  The device resumes its download if version,
     size, total and code are those that it holds, and the code is not 0.
   - The two waits.  Before a new gateway starts, wait until nothing that was
     sent before, in either direction, can still arrive.  And as long again when
     it has come to Offer, before it is asked: what the device sent while it was
     in Ask, late, would count for the new upgrade.  21 and 22 are dropped
     meanwhile, as said.
   - If a new gateway stands still in Serve, and the device asks for nothing,
     the device may be in Acked: it has all, and has said so to an earlier
     gateway.  Start with another fragment size (that fits image and map), or
     without a code, for that is no resume; the device downloads again and says
     so again.  Without a code the image is not tested, unless the device
     is given a digest.

   What can be relied on.  Let both ends use this library, let nothing reach
   either but what the other sent after the gateway came to Offer, undamaged,
   and let nobody else write record, image, map and package.  Then, whatever is
   lost, repeated or reordered: when the device answers 23 with 00, its image
   begins with the gateway's package; and when the gateway ends with
   PCP_ENDING_SUCCESS, this installation was reported finished with 00; and no
   call gives the number 23.  What the device had stored before, under an
   announcement of the same version, size, total and code, must be the same
   package's, undamaged.  This is proved.

   What cannot.  Damage on the way is found by the messages' 16-bit check: most
   of it, not all.  What always passes: two neighbouring bytes xored with 0A
   and C3; with a byte behind them, two bytes whose places differ by a multiple
   of 13, exchanged or xored with one value, and 13 bytes 00 or FF put in or
   left out.  The package's code is the same check, so what the one does not
   see, the other may not see either, and two builds may have the same code:
   give the device the package's MD5 (pcp_device_give_digest), or put a hash of
   your own into the package.  A package without a code (checked 0, or its check
   happens to be 0) is never resumed, and the device tests it only if it has a
   digest.  Nothing here protects against forgery.  Nothing is promised of time:
   the call that stores the last missing fragment runs over the whole image.
   Nor that an upgrade ends: losses are the hosts' matter.


   Saving, and coming back after a restart
   ---------------------------------------

   A host that keeps an end over a restart saves it after each call that changed
   the record (pcp_device_install_finished and pcp_device_give_digest count as
   such, if they give 0), before it sends the reply, asks, or begins the
   installer: a device that has answered 23, loses power and comes back as it
   was before would install twice.  A call of which nothing was saved, sent or
   begun counts as not made; so after a pulled battery the end is as it was
   before the call, or after it.  An older copy than the last save is never
   lent.

   Software that comes with a newer version of this library may find what the
   older one saved, and has to go on from there: otherwise an upgrade that
   brings the library loses its report.  It looks for slots of its own form
   first, only where none of these is right for one of the older form, and never
   writes its first save over that one.  (The slots of the example below have
   grown: new ones need another place.)  A device's record had 44 bytes before
   it held a digest; with 17 bytes 00 behind them they are a record of today.

   At the device.  Lend record and map in RAM.  Storage holds the image, and two
   slots for record and map, each with a counter and a check over all of it (a
   CRC-32, say).  After a call that changed the record:

     1. Write the bytes of the image that the call wrote (image_at and
        image_length of the answer), if the image itself is not in storage.
     2. When they are there: write the counter plus 1, the record, the map's
        first pcp_device_map_length bytes and the check to the slot that does
        not hold the last save.
     3. When that is there: send, ask, install.

   After a restart, take the slot whose check is right; of two, the one with the
   higher counter; if there is none, make a new record.  Where power can go:

     in the call, or in 1     The last save.  The image may have a part of a
                              fragment that this map does not mark: it counts
                              for nothing, and is asked for again.
     in 2                     The same.  The torn slot's check tells it.
     after 2                  The new save.  If the reply was not sent, it
                              counts as lost: the gateway sends again.

   In Loading, 2 may be left out after a stored fragment (image_length is not 0,
   the phase is still Loading), to spare the flash: what came since the last
   save is fetched again.  It may not after an announcement, for the save before
   may mark fragments of another download, which are then overwritten.

   Not covered: a record or map that is lent in storage itself, where a cut may
   leave half of what a call writes; storage that says too early that bytes are
   there, or loses them later (the image is tested once, against code and
   digest, when the last fragment is stored; and a fragment of it, against what
   arrives, when it comes again); and the installer's own work.  What is proved
   is proved of runs without cuts.

   After a restart the host knows which version runs.  By the phase saved:

     Installing               The target runs: call pcp_device_install_finished
                              with PCP_INSTALLED, save, ask.  Another runs: the
                              installer was not begun, was cut off, or failed.
                              If it may begin again and the image is still whole
                              (pcp_device_image_length bytes; by a hash, or its
                              check is pcp_device_code, if that is not 0, and
                              its MD5 pcp_device_digest, if one is set), begin
                              it, as if the phase had just been seen; but count,
                              for a package that never starts would be installed
                              for ever.  If not: PCP_INSTALL_FAILED, save, ask.
     any other, and the       Go on; in Loading, Loaded and Acked with image and
     running version runs     map.  A report is sent until it is answered.
     any other, and another   Somebody else changed the software, or it fell
     version runs             back after the report: a new record.

   So an installation that restarts the device has to keep the record's bytes
   alone; if image and map are not kept, a new record is made when the report
   was answered, and what can be relied on counts from there.  The new software
   reports PCP_INSTALLED when it runs, not the old one before: a report cannot
   be taken back.

   At the gateway.  Save record, and whether 23 was answered, in the same way,
   before the reply is sent; the package is lent again as it was.  If that is
   not certain: a new gateway, after the wait.


   Example: a device
   -----------------

   The functions that are called and not defined here are the host's own; so are
   IMAGE and SLOTS, places in flash, and RETRY, a time longer than the way there
   and back.

       #include "pcp.h"
       #include <string.h>

       struct slot { // record and map, as they are saved
           uint32_t counter;
           uint8_t record[PCP_DEVICE_RECORD], unused[3]; // no padding
           uint8_t map[65536 / 32 / 8];
           uint32_t check;
       };

       static uint8_t record[PCP_DEVICE_RECORD], image[65536];
       static uint8_t map[65536 / 32 / 8];
       static struct slot last; // the last save
       static int begun;        // the installer is at work

       // Image bytes first, then record and map to the slot of the save before
       // the last.  flash_write returns when the bytes are there.
       static void save(uint32_t image_at, uint32_t image_length)
       {
           flash_write(IMAGE + image_at, image + image_at, image_length);
           if (image_length > 0 &&
               pcp_device_phase(record) == PCP_DEVICE_LOADING &&
               pcp_device_stored(record) % 16 != 0)
               return; // at most 16 fragments are fetched again
           last.counter++;
           memcpy(last.record, record, sizeof record);
           memcpy(last.map, map, sizeof map);
           last.check = crc32(&last, offsetof(struct slot, check));
           flash_write(SLOTS + last.counter % 2 * sizeof last, &last,
                       sizeof last);
       }

       static int restored(void)
       {
           struct slot slot;
           int found = 0;

           for (size_t i = 0; i < 2; i++) {
               flash_read(SLOTS + i * sizeof slot, &slot, sizeof slot);
               if (slot.check == crc32(&slot, offsetof(struct slot, check)) &&
                   (!found || slot.counter > last.counter)) {
                   last = slot;
                   found = 1;
               }
           }
           if (found) {
               memcpy(record, last.record, sizeof record);
               memcpy(map, last.map, sizeof map);
               flash_read(IMAGE, image, sizeof image);
           }
           return found;
       }

       void on_timer(void)
       {
           uint8_t reply[PCP_DEVICE_REPLY];
           pcp_answer answer = pcp_device_next_message(
               record, sizeof record, image, sizeof image, map, sizeof map,
               reply, sizeof reply);

           if (answer.length > 0)
               radio_send(reply, answer.length);
           set_timer(RETRY);
       }

       void on_installed(int code) // PCP_INSTALLED, or why not
       {
           begun = 0;
           if (pcp_device_install_finished(record, sizeof record, code) != 0)
               return;
           save(0, 0);
           on_timer(); // sends the report
       }

       static void install(void)
       {
           uint32_t length = pcp_device_image_length(record);

           if (begun || length > sizeof image)
               return; // longer: the record is damaged
           begun = 1;
           begin_installer(image, length); // on_installed follows
       }

       void on_receive(const uint8_t *bytes, size_t length)
       {
           uint8_t reply[PCP_DEVICE_REPLY];
           pcp_answer answer = pcp_device_receive(
               record, sizeof record, 1, 1, condition_now(), bytes, length,
               image, sizeof image, map, sizeof map, reply, sizeof reply);

           if (answer.number != PCP_HANDLED &&
               answer.number != PCP_REPEAT_DIFFERS)
               return;
           if (answer.changed)
               save(answer.image_at, answer.image_length);
           if (answer.length > 0)
               radio_send(reply, answer.length);
           if (pcp_device_phase(record) == PCP_DEVICE_INSTALLING)
               install();
           else if (answer.changed)
               on_timer();
       }

       // Bytes that are no record, as one that an earlier version of the
       // library made with a version text that is refused now, get 29. The call
       // changes nothing: -1 is no installer's code.
       static int is_record(void)
       {
           return pcp_device_install_finished(record, sizeof record, -1) !=
                  PCP_BAD_RECORD;
       }

       // version is the one that runs, 16 bytes, filled up with 00.
       void on_power_up(const uint8_t *version)
       {
           int found = restored() && is_record();

           begun = 0;
           set_timer(RETRY);
           if (found && pcp_device_phase(record) == PCP_DEVICE_INSTALLING) {
               if (memcmp(pcp_device_target(record), version, 16) == 0)
                   on_installed(PCP_INSTALLED);
               else if (may_begin_again() && image_is_whole())
                   install();
               else
                   on_installed(PCP_INSTALL_FAILED);
           } else if (!found ||
                      memcmp(pcp_device_running(record), version, 16) != 0) {
               pcp_device_new(record, sizeof record, version, 16);
               save(0, 0);
           }
       }

   Example: a gateway
   ------------------

   QUIET is the wait of "When messages are lost".

       #include "pcp.h"

       static uint8_t record[PCP_GATEWAY_RECORD];
       static int executing; // the device has answered 23

       // After the first wait, if another gateway went before.
       uint8_t begin(const uint8_t *package, size_t package_length)
       {
           executing = 0;
           set_timer(0);
           return pcp_gateway_start(record, sizeof record, "V2.0", 4,
                                    PCP_SIZE_PUBLIC, package, package_length,
                                    1);
       }

       void on_timer(const uint8_t *package, size_t package_length)
       {
           uint8_t reply[PCP_GATEWAY_REPLY];
           pcp_answer answer;

           if (executing)
               return;
           answer = pcp_gateway_next_message(record, sizeof record, package,
                                             package_length, reply,
                                             sizeof reply);
           if (answer.length > 0)
               radio_send(reply, answer.length);
           set_timer(RETRY);
       }

       static int wanted(uint8_t code, uint8_t phase)
       {
           if (code != PCP_FRAGMENT && code != PCP_DOWNLOAD_RESULT)
               return 1;
           return phase == PCP_GATEWAY_SERVE || phase == PCP_GATEWAY_RUN ||
                  (code == PCP_DOWNLOAD_RESULT &&
                   pcp_gateway_ending(record) == PCP_ENDING_DOWNLOAD_FAILED);
       }

       void on_receive(const uint8_t *bytes, size_t length,
                       const uint8_t *package, size_t package_length)
       {
           uint8_t reply[PCP_GATEWAY_REPLY];
           pcp_answer answer;

           if (length < 4 || !wanted(bytes[3], pcp_gateway_phase(record)))
               return;
           answer = pcp_gateway_receive(record, sizeof record, 1, 1, bytes,
                                        length, package, package_length, reply,
                                        sizeof reply);
           if (answer.number != PCP_HANDLED)
               return;
           if (bytes[3] == PCP_EXECUTE)
               executing = 1;
           save(); // record and executing, if they are kept over a restart
           if (answer.length > 0)
               radio_send(reply, answer.length);
           if (!answer.changed)
               return;
           if (pcp_gateway_phase(record) == PCP_GATEWAY_ENDED)
               upgrade_ended(pcp_gateway_ending(record));
           else if (pcp_gateway_phase(record) == PCP_GATEWAY_OFFER)
               set_timer(QUIET);
           else
               on_timer(package, package_length);
       }
*/
#ifndef PCP_H
#define PCP_H

#include <stddef.h>
#include <stdint.h>
#include <string.h>

#ifdef __cplusplus
extern "C" {
#endif

/* The version of this library, as numbers and as a text.  The numbers stand
   here alone: all else that names the version is compared with them. */
#define PCP_VERSION_MAJOR 0
#define PCP_VERSION_MINOR 1
#define PCP_VERSION_PATCH 0
#define PCP_VERSION_STRING                                                     \
    PCP_TEXT_OF(PCP_VERSION_MAJOR)                                             \
    "." PCP_TEXT_OF(PCP_VERSION_MINOR) "." PCP_TEXT_OF(PCP_VERSION_PATCH)

/* A macro's value as a text.  Used by the line above only. */
#define PCP_TEXT_OF(value) PCP_TEXT(value)
#define PCP_TEXT(text) #text

/* The numbers that calls give.  A message too short to hold the field that one
   of the tests 3 to 7 looks at fails that test. */
enum {
    PCP_HANDLED = 0,
    PCP_RECOGNISED = 0,           /* all tests passed: a PCP message */
    PCP_UNSUPPORTED = 1,          /* the device does not support software
                                     upgrade */
    PCP_OTHER_PROTOCOL = 2,       /* it is upgraded by another protocol */
    PCP_BAD_START = 3,            /* bytes 0 and 1 are not FF FE: other traffic
                                     of this port */
    PCP_BAD_VERSION = 4,          /* the lower four bits of byte 2 are not 1 */
    PCP_BAD_CODE = 5,             /* byte 3 is not one of 19 to 24 */
    PCP_BAD_CHECK = 6,            /* the check field is not the message's check,
                                     or there are only 4 to 7 bytes: damaged; if
                                     often, are messages cut or joined? */
    PCP_BAD_LENGTH = 7,           /* the check is right, and the length field is
                                     not the length less 8: a sender's fault,
                                     or damage that the check does not see */
    PCP_BAD_DATA = 8,             /* the data is not what this code carries
                                     toward this end; if often, are the ends
                                     exchanged? */
    PCP_NO_USE = 9,               /* this phase has no use for the message or
                                     the call: late, or repeated; asked: nothing
                                     to send */
    PCP_BAD_INDEX = 10,           /* no fragment of the download held */
    PCP_BAD_FRAGMENT_LENGTH = 11, /* not size long (the last: longer) */
    PCP_ALREADY_STORED = 12,      /* this fragment is there already, with the
                                     same bytes and length */
    PCP_UNKNOWN_CONDITION = 13,   /* none of the conditions below */
    PCP_BAD_MEMORY = 14,          /* device, in Loading, Loaded and Acked: image
                                     or map shorter than the download needs;
                                     gateway: package length is not the one at
                                     the start.  Lend what was lent before, or
                                     make a new record */
    PCP_SHORT_REPLY = 15,         /* reply buffer below PCP_DEVICE_REPLY or
                                     PCP_GATEWAY_REPLY */
    PCP_BAD_INSTALL_CODE = 16,    /* none of the installer's codes below */
    PCP_BAD_VERSION_TEXT = 17,    /* see pcp_device_new */
    PCP_BAD_SIZE = 18,            /* fragment size not from PCP_SIZE_MIN to
                                     PCP_SIZE_MAX */
    PCP_BAD_PACKAGE = 19,         /* package empty, or longer than 65,535
                                     fragments */
    PCP_BAD_MARK = 20,            /* of captures, see pcp_capture.h: no record
                                     begins here */
    PCP_CUT_SHORT = 21,           /* of captures: a record is not whole */
    PCP_DOES_NOT_FIT = 22,        /* of captures: no room for the record, or its
                                     message is longer than 65,535 bytes */
    PCP_REPEAT_DIFFERS = 23,      /* this fragment is there already, with other
                                     bytes or another length: the phase is now
                                     Failed.  Save, and ask, so that the gateway
                                     is told by a 22 with 07.  Image and map
                                     stay until the next announcement */
    PCP_BAD_RECORD = 29,          /* the record breaks its rules, see below; or
                                     a device in Loading is asked, and its map
                                     has no fragment missing.  Make a new one,
                                     and look for who wrote there */
    PCP_SHORT_RECORD = 64         /* record buffer below PCP_DEVICE_RECORD or
                                     PCP_GATEWAY_RECORD, MD5's state (see
                                     pcp_md5.h) below PCP_MD5_STATE, or digest
                                     not of PCP_DIGEST_LENGTH */
};

/* Fragment sizes. */
enum {
    PCP_SIZE_MIN = 32,
    PCP_SIZE_MAX = 1024,
    PCP_SIZE_PUBLIC = 500 /* the most in public platforms' packages */
};

/* Lengths of buffers. */
enum {
    PCP_DEVICE_RECORD = 61,  /* a device's record, exactly; more may be lent */
    PCP_GATEWAY_RECORD = 30, /* a gateway's */
    PCP_DEVICE_REPLY = 26,   /* a device's reply buffer, at least */
    PCP_GATEWAY_REPLY = PCP_SIZE_MAX + 11, /* a gateway's */
    PCP_VERSION_LENGTH = 16, /* a version text in records and messages */
    PCP_DIGEST_LENGTH = 16   /* an MD5 digest */
};

/* The messages' codes, byte 3. */
enum {
    PCP_QUERY = 19,
    PCP_ANNOUNCE = 20,
    PCP_FRAGMENT = 21,
    PCP_DOWNLOAD_RESULT = 22,
    PCP_EXECUTE = 23,
    PCP_UPGRADE_RESULT = 24
};

/* The phases of a device. */
enum {
    PCP_DEVICE_IDLE = 0,
    PCP_DEVICE_LOADING = 1,    /* fetches fragments */
    PCP_DEVICE_LOADED = 2,     /* has all; says so until it is answered */
    PCP_DEVICE_ACKED = 3,      /* waits for the order to install */
    PCP_DEVICE_FAILED = 4,     /* has all, but the package's check is not the
                                  code announced, which is not 0, or its MD5
                                  not the digest given; or a stored fragment
                                  came again and was not the same (number 23),
                                  and then some may be missing; says so until
                                  answered */
    PCP_DEVICE_INSTALLING = 5, /* the host installs, and reports the end */
    PCP_DEVICE_REPORTING = 6   /* reports to the gateway until answered */
};

/* The conditions of a device, as its host states them in each call.  One that
   is not PCP_READY is the answer to an announcement.  Busy and low power are
   also the answer to the order to install; an internal error is answered as
   busy there, and a weak signal is no obstacle.  A device in Installing or
   Reporting is busy for announcements, whatever is stated.  The other answers
   that refuse an announcement: 03, this version runs; 05, the image is too
   short; 09, the map is too short. */
enum {
    PCP_READY = 0,
    PCP_BUSY = 1,
    PCP_WEAK_SIGNAL = 2,
    PCP_LOW_POWER = 4,
    PCP_INTERNAL_ERROR = 127
};

/* The codes with which an installer can end. */
enum {
    PCP_INSTALLED = 0x00,              /* the new version runs */
    PCP_INSTALL_BUSY = 0x01,           /* the device was busy */
    PCP_INSTALL_LOW_POWER = 0x04,      /* the battery is too low */
    PCP_INSTALL_NO_SPACE = 0x05,       /* no room for the software */
    PCP_INSTALL_NO_MEMORY = 0x09,      /* not enough working memory */
    PCP_INSTALL_FAILED = 0x0A,         /* it failed, or the package is not
                                          genuine */
    PCP_INSTALL_INTERNAL_ERROR = 0x7F  /* anything else */
};

/* The phases of a gateway. */
enum {
    PCP_GATEWAY_ASK = 0,   /* asks the device for its version */
    PCP_GATEWAY_OFFER = 1, /* announces the package */
    PCP_GATEWAY_SERVE = 2, /* gives fragments; has nothing to send itself */
    PCP_GATEWAY_RUN = 3,   /* orders the installation, waits for its report */
    PCP_GATEWAY_ENDED = 4  /* see the ending number */
};

/* The ending numbers of a gateway; 0 also before the end, so look at the phase
   first.  They say what the device answered, which may be older than what it
   does now. */
enum {
    PCP_ENDING_SUCCESS = 0,         /* the device reported 00 and the target */
    PCP_ENDING_ALREADY_RUNNING = 1, /* the target ran before the offer */
    PCP_ENDING_NOT_ACCEPTED = 2,    /* it refused the announcement; byte 8 of
                                       its answer says why.  A condition: later.
                                       05: a fragment size with a smaller size
                                       times total.  09: a larger size */
    PCP_ENDING_DOWNLOAD_FAILED = 3, /* it reported a failed download: 07, the
                                       image's check is not the code, or its
                                       MD5 not the digest that the device was
                                       given, or a fragment came twice and not
                                       the same, which ends it before all is
                                       there.  Did the package change?  For a
                                       new gateway the device fetches all
                                       again */
    PCP_ENDING_NOT_EXECUTED = 4,    /* an order to install was refused.  The
                                       device may install all the same, or have
                                       installed: it took another order, whose
                                       answer was lost or comes later.  A new
                                       gateway asks it which version runs */
    PCP_ENDING_UPGRADE_FAILED = 5   /* it reported a failed installation (byte 8
                                       of the report is its code), or another
                                       version */
};

/* The record of a device, offsets in bytes; numbers stand high byte first:

        0  phase
        1  running version, 16 bytes, filled up with 00
       17  target version, likewise
       33  fragment size, 2 bytes
       35  total, the number of fragments, 2 bytes
       37  check code of the package, 2 bytes; 0: it has none
       39  stored, how many fragments there are, 2 bytes
       41  length of the last fragment, 2 bytes; 0 until it is stored
       43  the code that the installer ended with
       44  whether a digest is set: 0, or 1
       45  the digest that the package must have, 16 bytes; 00 if none is set

   The record of a gateway:

        0  phase
        1  ending number
        2  target version, 16 bytes, filled up with 00
       18  fragment size, 2 bytes
       20  length of the package, 8 bytes
       28  check code of the package, 2 bytes; 0: it has none

   What a record must keep to, or it is PCP_BAD_RECORD.  A device: one of the
   phases, two version texts, one of the installer's codes, 0 or 1 for whether a
   digest is set; outside Idle also a size as above, a total of at least 1,
   stored at most total (in Loading less), last length at most size.  A gateway:
   one of the phases, an ending number, a version text, a size as above, a
   length of 1 to 65,535 fragments. */

/* What calls with a reply give.  Image bytes are written by pcp_device_receive
   alone: those of a fragment that it stored. */
typedef struct {
    uint8_t number;        /* 0, or why the call was refused */
    uint8_t changed;       /* 1: the record is another than before: save, and
                              ask at once; 0: image and map did not change
                              either */
    uint16_t length;       /* of the reply; 0 if there is none */
    uint16_t image_length; /* how many bytes of the image were written, */
    uint32_t image_at;     /* from this place on */
} pcp_answer;

/* The archive's own symbols.  Call the functions below instead: these must not
   be given NULL, even with length 0.  A uint32_t is the number plus 256 times
   the length of the reply. */
uint16_t pcp_check(const uint8_t *bytes, size_t length);
uint16_t pcp_message_check(const uint8_t *message, size_t length);
uint8_t pcp_recognise(uint8_t supported, uint8_t pcp, const uint8_t *message,
                      size_t length);
uint8_t pcp_raw_device_new(uint8_t *record, size_t record_length,
                           const uint8_t *version, size_t version_length);
uint32_t pcp_raw_device_receive(uint8_t *record, size_t record_length,
                                uint8_t supported, uint8_t pcp,
                                uint8_t condition, const uint8_t *message,
                                size_t message_length, uint8_t *image,
                                size_t image_length, uint8_t *map,
                                size_t map_length, uint8_t *reply,
                                size_t reply_length);
uint32_t pcp_raw_device_next_message(const uint8_t *record,
                                     size_t record_length,
                                     const uint8_t *image, size_t image_length,
                                     const uint8_t *map, size_t map_length,
                                     uint8_t *reply, size_t reply_length);
uint8_t pcp_raw_device_install_finished(uint8_t *record, size_t record_length,
                                        uint8_t code);
uint8_t pcp_raw_device_give_digest(uint8_t *record, size_t record_length,
                                   const uint8_t *digest,
                                   size_t digest_length);
uint8_t pcp_raw_gateway_start(uint8_t *record, size_t record_length,
                              const uint8_t *version, size_t version_length,
                              uint16_t size, const uint8_t *package,
                              size_t package_length, uint8_t checked);
uint32_t pcp_raw_gateway_receive(uint8_t *record, size_t record_length,
                                 uint8_t supported, uint8_t pcp,
                                 const uint8_t *message, size_t message_length,
                                 const uint8_t *package, size_t package_length,
                                 uint8_t *reply, size_t reply_length);
uint32_t pcp_raw_gateway_next_message(const uint8_t *record,
                                      size_t record_length,
                                      const uint8_t *package,
                                      size_t package_length, uint8_t *reply,
                                      size_t reply_length);

/* The version of this library: of its headers, for the archive has none of its
   own. */
static inline const char *pcp_version(void)
{
    return PCP_VERSION_STRING;
}

/* What a number means, in words, for a log or a person.  One that no call gives
   is an unknown number.  The crate for Rust says the same. */
static inline const char *pcp_reason(int number)
{
    switch (number) {
    case PCP_HANDLED:
        return "handled";
    case PCP_UNSUPPORTED:
        return "the device does not support software upgrade";
    case PCP_OTHER_PROTOCOL:
        return "the device is upgraded by another protocol";
    case PCP_BAD_START:
        return "not the start of a PCP message";
    case PCP_BAD_VERSION:
        return "unknown protocol version";
    case PCP_BAD_CODE:
        return "unknown message code";
    case PCP_BAD_CHECK:
        return "wrong check, or cut short before the data";
    case PCP_BAD_LENGTH:
        return "wrong data length";
    case PCP_BAD_DATA:
        return "the data is not what this code carries toward this end";
    case PCP_NO_USE:
        return "this phase has no use for it";
    case PCP_BAD_INDEX:
        return "no such fragment";
    case PCP_BAD_FRAGMENT_LENGTH:
        return "wrong fragment length";
    case PCP_ALREADY_STORED:
        return "fragment already stored";
    case PCP_UNKNOWN_CONDITION:
        return "unknown condition";
    case PCP_BAD_MEMORY:
        return "image or map too short for the download, or package of "
               "another length than at the start";
    case PCP_SHORT_REPLY:
        return "reply buffer too short";
    case PCP_BAD_INSTALL_CODE:
        return "unknown installer code";
    case PCP_BAD_VERSION_TEXT:
        return "bad version text";
    case PCP_BAD_SIZE:
        return "fragment size not from 32 to 1024";
    case PCP_BAD_PACKAGE:
        return "package empty, or longer than 65,535 fragments";
    case PCP_BAD_MARK:
        return "no record of a capture begins here";
    case PCP_CUT_SHORT:
        return "a record of a capture is not whole";
    case PCP_DOES_NOT_FIT:
        return "no room for a record, or its message is longer than 65,535 "
               "bytes";
    case PCP_REPEAT_DIFFERS:
        return "fragment already stored with other bytes: the download has "
               "failed";
    case PCP_BAD_RECORD:
        return "not a record, or not this map's";
    case PCP_SHORT_RECORD:
        return "buffer too short for a record or for MD5's state, or a "
               "digest's of another length";
    default:
        return "unknown number";
    }
}

/* Looking into a record, of PCP_DEVICE_RECORD or PCP_GATEWAY_RECORD bytes.
   Nothing is tested here: look after a call that gave 0 or 23. */

static inline uint8_t pcp_device_phase(const uint8_t *record)
{
    return record[0];
}

/* The running version and the target: 16 bytes, the text filled up with 00.  A
   text of 16 bytes has no 00 behind it. */
static inline const uint8_t *pcp_device_running(const uint8_t *record)
{
    return record + 1;
}

static inline const uint8_t *pcp_device_target(const uint8_t *record)
{
    return record + 17;
}

/* Two bytes, high byte first.  Used by the functions below only. */
static inline uint16_t pcp_word(const uint8_t *bytes)
{
    return (uint16_t)(bytes[0] * 256 + bytes[1]);
}

/* Of the download held: the fragment size, the number of fragments, the
   package's check code (0: it has none), and how many fragments are stored. */
static inline uint16_t pcp_device_size(const uint8_t *record)
{
    return pcp_word(record + 33);
}

static inline uint16_t pcp_device_total(const uint8_t *record)
{
    return pcp_word(record + 35);
}

static inline uint16_t pcp_device_code(const uint8_t *record)
{
    return pcp_word(record + 37);
}

static inline uint16_t pcp_device_stored(const uint8_t *record)
{
    return pcp_word(record + 39);
}

/* Whether a digest is set: 1, or 0 for none.  In Loaded, Acked, Installing and
   Reporting the image was tested by a digest that is set.  In Failed it need
   not have been; in Idle it is left over from the last download. */
static inline uint8_t pcp_device_digest_set(const uint8_t *record)
{
    return record[44];
}

/* The digest: PCP_DIGEST_LENGTH bytes, 00 each if none is set. */
static inline const uint8_t *pcp_device_digest(const uint8_t *record)
{
    return record + 45;
}

/* How many of the image's first bytes are the package, once all fragments are
   stored (Loaded, Acked, Installing, Reporting).  The value is only as good as
   the record.  In Loaded and Acked the calls see that the image has
   that many (PCP_BAD_MEMORY), later they do not: compare before you use it. */
static inline uint32_t pcp_device_image_length(const uint8_t *record)
{
    uint32_t size = pcp_device_size(record), total = pcp_device_total(record);
    uint32_t last = pcp_word(record + 41);

    return total == 0 ? 0 : size * (total - 1) + last;
}

/* How many of the map's first bytes the download uses. */
static inline uint16_t pcp_device_map_length(const uint8_t *record)
{
    return (uint16_t)((pcp_device_total(record) + 7) / 8);
}

static inline uint8_t pcp_gateway_phase(const uint8_t *record)
{
    return record[0];
}

static inline uint8_t pcp_gateway_ending(const uint8_t *record)
{
    return record[1];
}

/* Pointers that the archive may be given: never NULL where there are no bytes.
   Used by the functions below only. */
static inline const uint8_t *pcp_not_null(const uint8_t *bytes, size_t length)
{
    static const uint8_t nothing[1] = {0};

    return length == 0 ? nothing : bytes;
}

static inline uint8_t *pcp_not_null_buffer(uint8_t *bytes, size_t length)
{
    static uint8_t nothing[1] = {0};

    return length == 0 ? nothing : bytes;
}

/* Numbers as the archive takes them.  One that does not fit becomes one that is
   always refused; cut short, it could pass for another: 256, a wait status of a
   failed installer, for PCP_INSTALLED.  Used by the functions below only. */
static inline uint8_t pcp_byte_or_bad(int number)
{
    return number >= 0 && number <= 255 ? (uint8_t)number : 255;
}

static inline uint16_t pcp_size_or_bad(size_t size)
{
    return size <= 65535 ? (uint16_t)size : 0;
}

/* An answer, taken apart.  Used by the functions below only. */
static inline pcp_answer pcp_answer_of(uint32_t raw)
{
    pcp_answer answer;

    answer.number = (uint8_t)(raw % 256);
    answer.changed = 0;
    answer.length = (uint16_t)(raw / 256);
    answer.image_length = 0;
    answer.image_at = 0;
    return answer;
}

/* The check of these bytes, all as they stand; 0 if there are none.  It is the
   check that PCP's published messages carry, and not that of a usual CRC-16. */
static inline uint16_t pcp_check_of_bytes(const uint8_t *bytes, size_t length)
{
    return pcp_check(pcp_not_null(bytes, length), length);
}

/* The check that this message ought to carry: that of its bytes with the check
   field, bytes 4 and 5, taken as 00 00, whatever stands there.  A message
   shorter than 6 bytes lacks one or both of these, and what it lacks is not
   counted. */
static inline uint16_t pcp_check_of_message(const uint8_t *message,
                                            size_t length)
{
    return pcp_message_check(pcp_not_null(message, length), length);
}

/* PCP_RECOGNISED if this is a PCP message, otherwise the number, 1 to 7, of the
   first test that it fails.  The caller knows two facts of the device, 0 for no
   and anything else for yes: supported, that its software can be upgraded, and
   pcp, that this is done by PCP.  The data is not looked into.  The calls that
   receive do all this themselves. */
static inline uint8_t pcp_recognise_message(int supported, int pcp,
                                            const uint8_t *message,
                                            size_t length)
{
    return pcp_recognise(supported != 0, pcp != 0,
                         pcp_not_null(message, length), length);
}

/* Makes the record of a device that runs this version: Idle, with nothing
   downloaded.  The version is a text of 1 to 16 bytes from A to Z, a to z,
   0 to 9, _, - and dot.  Bytes 00 behind it are filling, as far as there are at
   most 16 bytes in all: an array of 32 with a text and zeros, passed whole, is
   refused with 17.
   Numbers: 64, 17. */
static inline uint8_t pcp_device_new(uint8_t *record, size_t record_length,
                                     const void *version,
                                     size_t version_length)
{
    return pcp_raw_device_new(
        pcp_not_null_buffer(record, record_length), record_length,
        pcp_not_null((const uint8_t *)version, version_length), version_length);
}

/* A message arrived at the device.  The two facts are those of
   pcp_recognise_message; the condition is one of those above.  A reply is for
   the gateway.  It is there on 19, 20 and 23.

   - 20 is accepted in all phases but Installing and Reporting, if the device is
     ready, the version is not the running one, and image and map are long
     enough; if not, the reply says so, the number is 0 and nothing has changed.
     It resumes the download held, if that is the same, or replaces it.
   - 21 stores a fragment; with the last that was missing, the image is tested:
     Loaded, or Failed.  One that is stored already is compared: number 12 if it
     is the same, number 23 and Failed if not.
   - 22 and 24 are the gateway's answers to download result and report: Acked,
     and Idle.  80 in 21 or 22 says that there is no such upgrade: Idle, and the
     download is given up.
   - 23 brings Loaded or Acked to Installing, if the condition allows it, and is
     answered 00 there again; in all other phases it is answered 01.  The host
     that sees this phase after a call with number 0 installs, see "What a host
     does".
   Numbers: 64, 15, 13, 29, 14, 1 to 8, 9, 10, 11, 12 or 23. */
static inline pcp_answer pcp_device_receive(
    uint8_t *record, size_t record_length, int supported, int pcp,
    int condition, const uint8_t *message, size_t message_length,
    uint8_t *image, size_t image_length, uint8_t *map, size_t map_length,
    uint8_t *reply, size_t reply_length)
{
    uint8_t before[PCP_DEVICE_RECORD] = {0};
    pcp_answer answer;

    if (record_length >= sizeof before)
        memcpy(before, record, sizeof before);
    answer = pcp_answer_of(pcp_raw_device_receive(
        pcp_not_null_buffer(record, record_length), record_length,
        supported != 0, pcp != 0, pcp_byte_or_bad(condition),
        pcp_not_null(message, message_length), message_length,
        pcp_not_null_buffer(image, image_length), image_length,
        pcp_not_null_buffer(map, map_length), map_length,
        pcp_not_null_buffer(reply, reply_length), reply_length));
    if (answer.number != PCP_HANDLED && answer.number != PCP_REPEAT_DIFFERS)
        return answer;
    answer.changed = memcmp(before, record, sizeof before) != 0;
    if (answer.number == PCP_HANDLED && message[3] == PCP_FRAGMENT &&
        message[8] == 0x00) { /* was stored */
        answer.image_length = (uint16_t)(message_length - 11);
        answer.image_at =
            (uint32_t)pcp_word(message + 9) * pcp_device_size(record);
    }
    return answer;
}

/* What the device has to send: in Loading, 21 for the lowest fragment that is
   missing; in Loaded and Failed, 22; in Reporting, 24; otherwise nothing, 9.
   Nothing but the reply buffer is written: asking again gives the same again.
   Numbers: 64, 15, 29, 14, 9; last, 29 if the map has no fragment missing. */
static inline pcp_answer pcp_device_next_message(
    const uint8_t *record, size_t record_length, const uint8_t *image,
    size_t image_length, const uint8_t *map, size_t map_length, uint8_t *reply,
    size_t reply_length)
{
    return pcp_answer_of(pcp_raw_device_next_message(
        pcp_not_null(record, record_length), record_length,
        pcp_not_null(image, image_length), image_length,
        pcp_not_null(map, map_length), map_length,
        pcp_not_null_buffer(reply, reply_length), reply_length));
}

/* The installer has ended with one of its codes, in Installing.  The device
   goes to Reporting; with PCP_INSTALLED the target is now the running version.
   Numbers: 64, 29, 9, 16. */
static inline uint8_t pcp_device_install_finished(uint8_t *record,
                                                  size_t record_length,
                                                  int code)
{
    return pcp_raw_device_install_finished(
        pcp_not_null_buffer(record, record_length), record_length,
        pcp_byte_or_bad(code));
}

/* Gives the device, in Loading, the MD5 of the package that it is downloading:
   PCP_DIGEST_LENGTH bytes, not their 32 hex digits, in the order in which
   md5sum prints them.  When all fragments are stored, the image must have this
   digest, beside the check code announced, or the phase is Failed.  The call
   that stores the last one then takes much longer: a nanosecond or two for each
   byte of the image on a large processor, far more on a small one.
     One that was given before is replaced.  An announcement that begins a
   download clears it, and a resume keeps it: so give it after each 20 that was
   handled, if the phase is then Loading and another or none is set.  (A package
   without a code is never resumed: there every 20 that is accepted clears it.)
   It names no package: give it when the download is the one that it belongs to
   (pcp_device_target, and _size, _total and _code where the host knows them).
     From Loaded on it is too late: 9.  Unless it is the one that is set,
   compare it with the image's MD5 (pcp_md5.h) before you install; if they
   differ, report PCP_INSTALL_FAILED in Installing, or make a new record.
     MD5 helps against accidents, and not against someone who means harm.
   Numbers: 64 (also for a digest of another length), 29, 9. */
static inline uint8_t pcp_device_give_digest(uint8_t *record,
                                             size_t record_length,
                                             const uint8_t *digest,
                                             size_t digest_length)
{
    return pcp_raw_device_give_digest(
        pcp_not_null_buffer(record, record_length), record_length,
        pcp_not_null(digest, digest_length), digest_length);
}

/* Makes the record of a gateway that is to bring one device to this version
   with this package, in fragments of size bytes (PCP_SIZE_MIN to PCP_SIZE_MAX).
   The version text is as for pcp_device_new.  With checked, the package's check
   is announced as its code: the device then tests the whole image, and can
   resume.  Otherwise (or if that check happens to be 0) the code is 0: no
   test, unless the device is given a digest, and no resume.
   Numbers: 64, 17, 18, 19. */
static inline uint8_t pcp_gateway_start(uint8_t *record, size_t record_length,
                                        const void *version,
                                        size_t version_length, size_t size,
                                        const uint8_t *package,
                                        size_t package_length, int checked)
{
    return pcp_raw_gateway_start(
        pcp_not_null_buffer(record, record_length), record_length,
        pcp_not_null((const uint8_t *)version, version_length), version_length,
        pcp_size_or_bad(size), pcp_not_null(package, package_length),
        package_length, checked != 0);
}

/* A message arrived at the gateway.  The two facts are those of
   pcp_recognise_message.  A reply is for the device.  It is there on 21, 22 and
   24, in every phase: one that the phase has no use for is answered 80.  The
   answer to 19 brings Ask to Offer, that to 20 Offer to Serve, 22 brings Serve
   to Run, and 24 ends Run; or each of them, and the answer to 23, ends the
   upgrade without success.
   Numbers: 64, 15, 29, 14, 1 to 8, 9. */
static inline pcp_answer pcp_gateway_receive(
    uint8_t *record, size_t record_length, int supported, int pcp,
    const uint8_t *message, size_t message_length, const uint8_t *package,
    size_t package_length, uint8_t *reply, size_t reply_length)
{
    uint8_t before[PCP_GATEWAY_RECORD] = {0};
    pcp_answer answer;

    if (record_length >= sizeof before)
        memcpy(before, record, sizeof before);
    answer = pcp_answer_of(pcp_raw_gateway_receive(
        pcp_not_null_buffer(record, record_length), record_length,
        supported != 0, pcp != 0, pcp_not_null(message, message_length),
        message_length, pcp_not_null(package, package_length), package_length,
        pcp_not_null_buffer(reply, reply_length), reply_length));
    if (answer.number == PCP_HANDLED)
        answer.changed = memcmp(before, record, sizeof before) != 0;
    return answer;
}

/* What the gateway has to send: 19 in Ask, 20 in Offer, 23 in Run; otherwise
   nothing, 9.  Nothing but the reply buffer is written: asking again gives the
   same again.
   Numbers: 64, 15, 29, 14, 9. */
static inline pcp_answer pcp_gateway_next_message(
    const uint8_t *record, size_t record_length, const uint8_t *package,
    size_t package_length, uint8_t *reply, size_t reply_length)
{
    return pcp_answer_of(pcp_raw_gateway_next_message(
        pcp_not_null(record, record_length), record_length,
        pcp_not_null(package, package_length), package_length,
        pcp_not_null_buffer(reply, reply_length), reply_length));
}

#ifdef __cplusplus
}
#endif

#endif
