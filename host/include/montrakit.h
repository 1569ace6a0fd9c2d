/*
 * Montrakit: both ends of a recorder line (MODBUS RTU), for C and C++.
 *
 * Link libmontrakit.a, which is built for x86-64 (System V calling convention); it needs no other library. Four functions:
 *
 *   montrakit_respond       a station's half: answers one received frame
 *   montrakit_build         a master's half: builds a request
 *   montrakit_read          a master's half: reads the reply beside its request
 *   montrakit_check_word    the check word of any bytes
 *
 * A station with two areas:
 *
 *   static const uint16_t areas[] = {
 *       0, 100, MONTRAKIT_READ_WRITE,
 *       100, 20, MONTRAKIT_READ_ONLY,
 *   };
 *   static uint16_t image[120];
 *   static uint8_t reply[MONTRAKIT_LEAST_ROOM];
 *
 *   void frame_received(const uint8_t *frame, size_t frame_len)
 *   {
 *       uint32_t result = montrakit_respond(20, MONTRAKIT_MOD_BUS, MONTRAKIT_READY,
 *                                           areas, 2 * MONTRAKIT_AREA_WORDS,
 *                                           frame, frame_len, image, 120, reply, sizeof reply);
 *       size_t n = montrakit_to_send(result);
 *       if (n > 0)
 *           send_on_the_line(reply, n);
 *   }
 *
 * A master that reads two words:
 *
 *   uint8_t request[MONTRAKIT_LEAST_ROOM], words[MONTRAKIT_LEAST_ROOM];
 *   uint32_t built = montrakit_build(20, MONTRAKIT_READ_WORDS_03, 1, 2, NULL, 0, request, sizeof request);
 *   if (MONTRAKIT_KIND(built) != MONTRAKIT_BUILT)
 *       return;
 *   send_on_the_line(request, MONTRAKIT_NUMBER(built));
 *   ... the reply is received ...
 *   uint32_t result = montrakit_read(20, MONTRAKIT_READ_WORDS_03, 1, 2, reply, reply_len, words, sizeof words);
 *   if (MONTRAKIT_KIND(result) == MONTRAKIT_VALUES)
 *       first = (uint16_t)(words[0] << 8 | words[1]);
 *
 * host/c/talk.c is a whole program that does both, and host/example builds and runs it.
 *
 * Where a frame begins and ends is told by the gaps between characters, and these belong to the driver of the line: each call is
 * given one whole frame, address and check word included.
 *
 * ====================================================================================================================
 * WHAT THE CALLER OWES. Nothing in the library can check it, and of a call that breaks it nothing is promised.
 *
 *   1. NO TWO BUFFERS OF A CALL OVERLAP, not by a single byte. One buffer for the received frame and for the reply, as firmware
 *      likes to have it, IS NOT ALLOWED: frame and reply are two buffers; so are data and frame of montrakit_build, and reply and out
 *      of montrakit_read. The areas do not lie inside the image.
 *   2. Each pointer is valid for the length told beside it: to read, and where it is not const, to write. Lengths of uint16_t
 *      buffers count words, those of uint8_t buffers count bytes.
 *   3. Pointers to 16-bit words are aligned to 2 bytes.
 *   4. Nothing else touches the buffers during the call: no task, no interrupt, no DMA, no other processor. A call is not one step:
 *      who looks at the image meanwhile may see half of a write.
 *
 * A buffer of length 0 may be a null pointer. Any values may stand in the buffers and in the other arguments: what means nothing
 * is answered too.
 *
 * WHAT THE LIBRARY OWES. What the result, the image and the buffers are after a call is proved for every call that keeps the four
 * rules above (crates/montrakit/src/lib.rt has the contracts).
 *
 *   - Every call returns. There is no error beside the result.
 *   - It allocates nothing, keeps nothing between calls, calls no function outside of itself, and has no memory of its own to write.
 *     So calls may be made from several tasks at once, and from an interrupt amid another call, each with buffers of its own.
 *   - It reads and writes only the buffers that it is lent.
 *   - Of the image only the words or bits that a write addresses change, and only if the result is of kind MONTRAKIT_REPLY.
 *   - Of the reply buffer only the first montrakit_to_send(result) bytes change; of the other buffers that are written, only the bytes
 *     that the result counts. A refusal, a silence and a bad argument change nothing at all.
 *
 * How long a call takes and how much stack it needs, no contract says (host/sizes measures the stack).
 * ====================================================================================================================
 */
#ifndef MONTRAKIT_H
#define MONTRAKIT_H

#include <stddef.h>
#include <stdint.h>

#ifdef __cplusplus
extern "C" {
#endif

/* A result is kind * 65,536 + number. */
#define MONTRAKIT_KIND(result) ((uint32_t)(result) >> 16)
#define MONTRAKIT_NUMBER(result) ((uint32_t)(result) & 0xFFFFu)
#define MONTRAKIT_RESULT(kind, number) ((uint32_t)(kind) << 16 | (uint32_t)(number))

/* The kinds, and what the number is. */
#define MONTRAKIT_REFUSED 0u      /* nothing was done: MONTRAKIT_REFUSED_... says why */
#define MONTRAKIT_SILENT 1u       /* nothing is to be sent: MONTRAKIT_SILENT_... says why */
#define MONTRAKIT_EXCEPTION 2u    /* an exception: MONTRAKIT_CODE_... */
#define MONTRAKIT_REPLY 3u        /* a reply: its length, 6 to MONTRAKIT_LONGEST_REPLY bytes */
#define MONTRAKIT_BAD_ARGUMENT 4u /* nothing was done: MONTRAKIT_BAD_... says which argument means nothing */
#define MONTRAKIT_BUILT 5u        /* a request: its length in bytes */
#define MONTRAKIT_VALUES 6u       /* bits or words were read: how many bytes of them */
#define MONTRAKIT_WRITTEN 7u      /* the station has done the write: 0 */

/* Why montrakit_respond refuses a call, in the order in which it looks. */
#define MONTRAKIT_REFUSED_OWN_ADDRESS 1u  /* own address is 0 */
#define MONTRAKIT_REFUSED_IMAGE 2u        /* image has 0 words or over 4,095 */
#define MONTRAKIT_REFUSED_AREAS 3u        /* area list breaks a rule */
#define MONTRAKIT_REFUSED_REPLY_BUFFER 4u /* reply buffer under 256 bytes */

/* Why montrakit_build and montrakit_read refuse a call, in the order in which they look. */
#define MONTRAKIT_REFUSED_REQUEST 70u    /* quantity or bit value out of limits, data not of the quantity's size, station 0, no such
                                            function, or a buffer to write under 256 bytes */
#define MONTRAKIT_REFUSED_CHECK_WORD 71u /* reply under 5 bytes or bad check word */
#define MONTRAKIT_REFUSED_REPLY 72u      /* reply doesn't fit the request, or an exception code other than 1, 2, 3, 4 and 8 */

/* Why montrakit_respond is silent. */
#define MONTRAKIT_SILENT_FRAME_LENGTH 10u    /* frame under 4 or over 256 bytes */
#define MONTRAKIT_SILENT_CHECK_WORD 11u      /* last two bytes are not the check word of the rest */
#define MONTRAKIT_SILENT_ANOTHER_STATION 12u /* another station's address; 0 is always another's */
#define MONTRAKIT_SILENT_AT_THE_KEYBOARD 13u /* station is at the keyboard */
#define MONTRAKIT_SILENT_REQUEST_LENGTH 14u  /* length is wrong for the function */
#define MONTRAKIT_SILENT_NO_QUANTITY 15u     /* quantity is 0 */

/* The codes of exceptions. */
#define MONTRAKIT_CODE_FUNCTION 1u  /* there is no such function */
#define MONTRAKIT_CODE_ADDRESS 2u   /* J-Bus start 0, or an addressed word lies in no area */
#define MONTRAKIT_CODE_VALUE 3u     /* quantity over the most, byte count not the quantity's, bit value neither FF00 nor 0000 */
#define MONTRAKIT_CODE_NOT_READY 4u /* station is not ready */
#define MONTRAKIT_CODE_READ_ONLY 8u /* a write touches a word of a read-only area */

/* The arguments of montrakit_respond that may mean nothing. */
#define MONTRAKIT_BAD_COUNTING 1u
#define MONTRAKIT_BAD_STATE 2u

/* How the line counts addresses: MOD-Bus from 0, J-Bus from 1, words and bits alike. */
#define MONTRAKIT_MOD_BUS 0u
#define MONTRAKIT_J_BUS 1u

/* What the station is doing. */
#define MONTRAKIT_READY 0u
#define MONTRAKIT_NOT_READY 1u       /* it answers with exception 4 */
#define MONTRAKIT_AT_THE_KEYBOARD 2u /* someone is at its keyboard: it is silent */

/* The access to an area. */
#define MONTRAKIT_READ_ONLY 0u
#define MONTRAKIT_READ_WRITE 1u

/* The functions. 01 and 02 act alike, and so do 03 and 04. */
#define MONTRAKIT_READ_BITS_01 0x01u
#define MONTRAKIT_READ_BITS_02 0x02u
#define MONTRAKIT_READ_WORDS_03 0x03u
#define MONTRAKIT_READ_WORDS_04 0x04u
#define MONTRAKIT_WRITE_BIT_05 0x05u
#define MONTRAKIT_WRITE_WORD_06 0x06u
#define MONTRAKIT_WRITE_BITS_0F 0x0Fu
#define MONTRAKIT_WRITE_WORDS_10 0x10u

/* The values of function 05. */
#define MONTRAKIT_BIT_ON 0xFF00u
#define MONTRAKIT_BIT_OFF 0x0000u

/* Limits. */
#define MONTRAKIT_LEAST_ROOM 256u       /* the fewest bytes of a buffer to write: reply of montrakit_respond, frame, out */
#define MONTRAKIT_MOST_AREAS 16u        /* the most areas of a list */
#define MONTRAKIT_AREA_WORDS 3u         /* an area in the list: first word, count of words, access */
#define MONTRAKIT_MOST_IMAGE_WORDS 4095u /* the most words of an image */
#define MONTRAKIT_MOST_WORDS 80u        /* the most words of a request */
#define MONTRAKIT_MOST_BITS 256u        /* the most bits of a request */
#define MONTRAKIT_SHORTEST_FRAME 4u     /* a received frame has 4 to 256 bytes */
#define MONTRAKIT_LONGEST_FRAME 256u
#define MONTRAKIT_LONGEST_REPLY 165u    /* a reply has at most 165 bytes, .. */
#define MONTRAKIT_EXCEPTION_LENGTH 5u   /* .. and an exception 5 */

/*
 * The check word of any bytes; that of no bytes is FFFF hex. Behind a frame its low byte goes first.
 *
 *   bytes, bytes_len    any bytes
 */
uint16_t montrakit_check_word(const uint8_t *bytes, size_t bytes_len);

/*
 * Answers one received frame: the table of document 01, "What is answered, in this order".
 *
 *   own                 the station's own address, 1 to 255
 *   counting            MONTRAKIT_MOD_BUS or MONTRAKIT_J_BUS
 *   state               MONTRAKIT_READY, MONTRAKIT_NOT_READY or MONTRAKIT_AT_THE_KEYBOARD
 *   areas, areas_len    the addressable words of the image: MONTRAKIT_AREA_WORDS words for each area (first word, counted from 0;
 *                       count, at least 1; MONTRAKIT_READ_ONLY or MONTRAKIT_READ_WRITE), 0 to 16 areas. areas_len counts words, so 3
 *                       for each area. Areas ascend, don't overlap and end inside the image; two may touch, and a request may run
 *                       across them. A word in no area is not addressable.
 *   frame, frame_len    the received frame, address and check word included
 *   image, image_len    the registers, 1 to 4,095 words; image_len counts words. Bit address = word address * 16 + bit number, bit 0
 *                       being the least significant: there is no second bit memory
 *   reply, reply_len    where the reply is written; at least MONTRAKIT_LEAST_ROOM bytes
 *
 * The result is of one of these kinds:
 *
 *   MONTRAKIT_BAD_ARGUMENT    before all else: counting, then state, is none of those above
 *   MONTRAKIT_REFUSED         1 to 4; an areas_len that is no multiple of 3, and an access that is none, are refusal 3
 *   MONTRAKIT_SILENT          10 to 15: the station sends nothing
 *   MONTRAKIT_EXCEPTION       1, 2, 3, 4 or 8: the first 5 bytes of the reply buffer go onto the line; the image is as it was
 *   MONTRAKIT_REPLY           so many bytes of the reply buffer go onto the line; a write is done
 */
uint32_t montrakit_respond(uint8_t own, uint8_t counting, uint8_t state,
                           const uint16_t *areas, size_t areas_len,
                           const uint8_t *frame, size_t frame_len,
                           uint16_t *image, size_t image_len,
                           uint8_t *reply, size_t reply_len);

/* How many bytes of the reply buffer go onto the line after montrakit_respond; 0 where nothing is sent. */
static inline size_t montrakit_to_send(uint32_t result)
{
    switch (MONTRAKIT_KIND(result)) {
    case MONTRAKIT_EXCEPTION:
        return MONTRAKIT_EXCEPTION_LENGTH;
    case MONTRAKIT_REPLY:
        return MONTRAKIT_NUMBER(result);
    default:
        return 0;
    }
}

/*
 * Builds a request.
 *
 *   station             the station asked, 1 to 255
 *   function            one of the eight functions
 *   start               the address as it goes over the line: from 0 for MOD-Bus, one higher for J-Bus. Whether the station has such
 *                       a word or bit is not checked here
 *   value               the quantity, 1 to 80 words or 1 to 256 bits; for 05 MONTRAKIT_BIT_ON or MONTRAKIT_BIT_OFF; for 06 the word
 *   data, data_len      for 0F the bits, eight to a byte, first bit lowest, in the quantity divided by 8 rounded up bytes (spare bits
 *                       are built as 0, whatever they are here); for 10 the words, two bytes each, high byte first; exactly so many
 *                       bytes. For the other functions there are none: data_len is 0
 *   frame, frame_len    where the request is written; at least MONTRAKIT_LEAST_ROOM bytes
 *
 * The result is of one of these kinds:
 *
 *   MONTRAKIT_BUILT           so many bytes of frame go onto the line
 *   MONTRAKIT_REFUSED         70
 */
uint32_t montrakit_build(uint8_t station, uint8_t function, uint16_t start, uint16_t value,
                         const uint8_t *data, size_t data_len,
                         uint8_t *frame, size_t frame_len);

/*
 * Reads a reply beside the request that it answers: it is accepted only if station, function, echoed fields, byte count, spare bits
 * and length fit that request. A request has no number that its reply repeats: that the reply is not a late one, to an earlier
 * request, is for the caller to know.
 *
 *   station, function, start, value    the same as were given to montrakit_build
 *   reply, reply_len                   the received reply, address and check word included
 *   out, out_len                       where the bits or words are written, packed as on the line (words high byte first; bits eight
 *                                      to a byte, first bit lowest, spare bits 0); at least MONTRAKIT_LEAST_ROOM bytes
 *
 * The result is of one of these kinds:
 *
 *   MONTRAKIT_VALUES          01 to 04: out starts with so many bytes of bits or words
 *   MONTRAKIT_WRITTEN         05, 06, 0F, 10: the station has done the write
 *   MONTRAKIT_EXCEPTION       1, 2, 3, 4 or 8: the station answers with an exception
 *   MONTRAKIT_REFUSED         70, 71 or 72
 */
uint32_t montrakit_read(uint8_t station, uint8_t function, uint16_t start, uint16_t value,
                        const uint8_t *reply, size_t reply_len,
                        uint8_t *out, size_t out_len);

#ifdef __cplusplus
}
#endif

#endif
