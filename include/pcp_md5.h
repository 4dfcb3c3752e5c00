/* pcp_md5.h - MD5 digests (RFC 1321), for C99 and C++

   The digest of a package, as pcp_device_give_digest of pcp.h takes it, or of
   any bytes: by pcp_md5 where they are in one buffer.  Where they come in
   pieces, as from a file, a state is kept between these:

       uint8_t state[PCP_MD5_STATE], digest[PCP_DIGEST_LENGTH];
       uint8_t piece[4096];
       size_t length;

       pcp_md5_new(state, sizeof state);
       while ((length = fread(piece, 1, sizeof piece, file)) > 0)
           pcp_md5_feed(state, sizeof state, piece, length);
       if (ferror(file))
           give_up();   (what was read is not the whole)
       pcp_md5_finish(state, sizeof state, digest, sizeof digest);

   How the bytes are cut, also into empty pieces, does not matter to the digest.
   This is proved.

   What it is worth.  MD5 helps against accidents, and not against someone who
   means harm: that one can make two packages of the same digest.  A host that
   needs such a guard verifies a signature (for example) over the image's first
   pcp_device_image_length bytes before it installs.

   The state, offsets in bytes; numbers stand high byte first:

        0  the words A, B, C and D, 4 bytes each, after the whole blocks so far
       16  how many bytes were fed, modulo 2^64, 8 bytes
       24  the block that is not whole yet, 64 bytes: at its front the bytes
           fed since the last whole block, which are the number at 16 modulo 64

   It holds no pointers: it may be put away and lent again later, also by
   another process.  Read it, never write it.  Any PCP_MD5_STATE bytes are a
   state.  One that pcp_md5_new did not make, or that somebody else wrote, gives
   some digest, of which nothing can be said, and never a fault; nor does a call
   tell it from others.  So put a check of your own beside one that is put away.

   The order of the calls is free.  pcp_md5_finish only reads the state: again,
   it gives the same digest, and pieces that are fed afterwards follow those
   before.  A copy of a state goes on by itself.

   Lengths.  A state is lent in a buffer of PCP_MD5_STATE bytes or more; bytes
   behind are not touched.  A digest has PCP_DIGEST_LENGTH bytes, and its buffer
   exactly that many.  Each call gives PCP_HANDLED, or PCP_SHORT_RECORD for a
   shorter state or a digest's buffer of another length, and has then changed
   nothing.  There is no other refusal.

   The rules for buffers, answers and threads are those of pcp.h.  So the buffer
   that a call writes must overlap none that it reads: pcp_md5's digest not the
   bytes, pcp_md5_feed's state not the piece, pcp_md5_finish's digest not the
   state. */
#ifndef PCP_MD5_H
#define PCP_MD5_H

#include "pcp.h"

#ifdef __cplusplus
extern "C" {
#endif

/* Lengths of buffers.  That of a digest is PCP_DIGEST_LENGTH, in pcp.h. */
enum {
    PCP_MD5_STATE = 88 /* a state; more may be lent */
};

/* The archive's own symbols.  Call the functions below instead: these must not
   be given NULL, even with length 0. */
uint8_t pcp_raw_md5(const uint8_t *bytes, size_t length, uint8_t *digest,
                    size_t digest_length);
uint8_t pcp_raw_md5_new(uint8_t *state, size_t state_length);
uint8_t pcp_raw_md5_feed(uint8_t *state, size_t state_length,
                         const uint8_t *piece, size_t piece_length);
uint8_t pcp_raw_md5_finish(const uint8_t *state, size_t state_length,
                           uint8_t *digest, size_t digest_length);

/* Writes the digest of these bytes.
   Numbers: 64. */
static inline uint8_t pcp_md5(const uint8_t *bytes, size_t length,
                              uint8_t *digest, size_t digest_length)
{
    return pcp_raw_md5(pcp_not_null(bytes, length), length,
                       pcp_not_null_buffer(digest, digest_length),
                       digest_length);
}

/* Makes a state to which nothing was fed.
   Numbers: 64. */
static inline uint8_t pcp_md5_new(uint8_t *state, size_t state_length)
{
    return pcp_raw_md5_new(pcp_not_null_buffer(state, state_length),
                           state_length);
}

/* Feeds the state a piece, of any length.
   Numbers: 64. */
static inline uint8_t pcp_md5_feed(uint8_t *state, size_t state_length,
                                   const uint8_t *piece, size_t piece_length)
{
    return pcp_raw_md5_feed(pcp_not_null_buffer(state, state_length),
                            state_length, pcp_not_null(piece, piece_length),
                            piece_length);
}

/* Writes the digest of all that was fed.  The state stays.
   Numbers: 64. */
static inline uint8_t pcp_md5_finish(const uint8_t *state, size_t state_length,
                                     uint8_t *digest, size_t digest_length)
{
    return pcp_raw_md5_finish(pcp_not_null(state, state_length), state_length,
                              pcp_not_null_buffer(digest, digest_length),
                              digest_length);
}

#ifdef __cplusplus
}
#endif

#endif
