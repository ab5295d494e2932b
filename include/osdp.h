/*
 * OSDP frames, checked and written, and OSDP payloads, checked and normalised by their code byte (SIA OSDP v2.2, IEC 60839-11-5).
 *
 * A payload is the part of a frame between the code byte and the check; the code byte is not part of it. Twenty kinds are carried:
 * commands LED 0x69, OUT 0x68, TEXT 0x6B, BIOREAD 0x73, BIOMATCH 0x74, FILETRANSFER 0x7C, MFG 0x80, COMSET 0x6E, ACURXSIZE 0x7B,
 * KEEPACTIVE 0xA7; replies RAW 0x50, FMT 0x51, BIOREADR 0x57, BIOMATCHR 0x58, NAK 0x41, XRD 0xB1, KEYPAD 0x53, COM 0x54, PDID 0x45,
 * LSTATR 0x48. A plain byte or number takes every value: also an address above 0x7E, and a byte of a KEYPAD that is no digit. So a program
 * that sends a COMSET has to see to it that the address is one that a reader can have, 0x00 to 0x7E.
 *
 * For every call:
 * - A pointer may be NULL if its length is 0; then it is not read or written.
 * - payload and out must not overlap.
 * - No call keeps a pointer, allocates, blocks, or has state: any thread may call any of them at any time, without a lock.
 * - Nothing beyond frame_len, payload_len and out_len bytes is read or written, whatever frame or payload holds.
 *
 * Link with libosdp.a; nothing else is needed. The only function of the C library that it calls is memmove.
 */
#ifndef OSDP_H
#define OSDP_H

#include <stddef.h>
#include <stdint.h>

#ifdef __cplusplus
extern "C" {
#endif

/* The longest payload that is taken. A buffer as long as the payload always suffices to normalise it. */
#define OSDP_LONGEST 65546

/* The most bytes of a frame, the house limit. A buffer of so many always suffices to write one. */
#define OSDP_LONGEST_FRAME 1440

/*
 * Why a frame or a payload is refused. A call returns the number negated, such as -OSDP_TOO_SHORT; osdp_row_text says what each means. No call of this
 * header gives OSDP_FOLDED and OSDP_SECOND_GENERATION, which are of the strict check.
 */
enum osdp_refusal {
    OSDP_UNKNOWN_COMMAND = 1,
    OSDP_UNKNOWN_REPLY = 2,
    OSDP_LENGTH = 3,
    OSDP_TOO_SHORT = 4,
    OSDP_NOT_MULTIPLE = 5,
    OSDP_DECLARED_LENGTH = 6,
    OSDP_OUTPUT_CODE = 7,
    OSDP_TEXT_BYTE = 8,
    OSDP_TEXT_COMMAND = 9,
    OSDP_NAK_ERROR = 10,
    OSDP_NOT_CARRIED = 14,
    OSDP_NO_ROOM = 15,
    OSDP_FOLDED = 17,
    OSDP_SECOND_GENERATION = 18,
    OSDP_FRAME = 20,
    OSDP_FRAME_CHECK = 21,
    OSDP_HOUSE_LIMIT = 22,
    OSDP_TOO_LONG = 28
};

/*
 * What a row of the refusal table means, also a row that no call of this header gives; in brackets what its two numbers are, which inspect shows and
 * which a program in Rattle is given. A call's answer is asked for negated: osdp_row_text(-n).
 */
static inline const char *osdp_row_text(int32_t row)
{
    switch (row) {
    case OSDP_UNKNOWN_COMMAND: return "command byte in no table";
    case OSDP_UNKNOWN_REPLY: return "reply byte in no table";
    case OSDP_LENGTH: return "not the exact length (expected, got)";
    case OSDP_TOO_SHORT: return "below the least length (least, got)";
    case OSDP_NOT_MULTIPLE: return "empty or not a multiple of the record length (record length, got)";
    case OSDP_DECLARED_LENGTH: return "declared length or count is not the payload's (asked for, got)";
    case OSDP_OUTPUT_CODE: return "output code above 6";
    case OSDP_TEXT_BYTE: return "text byte not printable";
    case OSDP_TEXT_COMMAND: return "TEXT command not 1 to 4";
    case OSDP_NAK_ERROR: return "NAK error above 9";
    case 11: return "list without records";
    case 12: return "tail too long";
    case 13: return "count is not the tail's";
    case OSDP_NOT_CARRIED: return "code known, payload not carried";
    case OSDP_NO_ROOM: return "output buffer too short (needed, given)";
    case 16: return "no such record (record, how many)";
    case OSDP_FOLDED: return "byte that reading would fold (offset, byte)";
    case OSDP_SECOND_GENERATION: return "colour that the first generation does not know (offset, byte)";
    case OSDP_FRAME: return "not a frame's first byte, control byte, address or sequence";
    case OSDP_FRAME_CHECK: return "wrong check of a frame";
    case OSDP_HOUSE_LIMIT: return "above the house limit";
    case OSDP_TOO_LONG: return "payload too long (longest, got)";
    default: return "no row of the refusal table";
    }
}

/* Whether a command's payload is well formed. Returns 0, or the refusal's number negated. */
int32_t osdp_check_command(uint8_t code, const uint8_t *payload, size_t payload_len);

/* Whether a reply's payload is well formed. Returns 0, or the refusal's number negated. */
int32_t osdp_check_reply(uint8_t code, const uint8_t *payload, size_t payload_len);

/*
 * Reads a command's payload and writes it again in normal form: colours above 7, biometric types above 0x11 and biometric formats above 2
 * become 0. Returns how many bytes it wrote to the front of out, or the refusal's number negated. It leaves all other bytes of out unchanged.
 */
int32_t osdp_normalise_command(uint8_t code, const uint8_t *payload, size_t payload_len, uint8_t *out, size_t out_len);

/*
 * Reads a reply's payload and writes it again in normal form: biometric types above 0x11 and biometric formats above 2 become 0, and a NAK whose
 * error is not 0x09 keeps only its first byte. The return value and the effect on out are as for osdp_normalise_command.
 */
int32_t osdp_normalise_reply(uint8_t code, const uint8_t *payload, size_t payload_len, uint8_t *out, size_t out_len);

/*
 * Whether bytes are one whole frame: 0x53, address, length of the whole as two bytes, control, code, payload, and a CRC of two bytes or a sum of one.
 * Returns 0, or the refusal's number negated, of several the first: OSDP_TOO_SHORT below 7 bytes; OSDP_FRAME for another first byte; OSDP_HOUSE_LIMIT;
 * OSDP_DECLARED_LENGTH; OSDP_FRAME for a control byte above 7; OSDP_TOO_SHORT for a CRC in 7 bytes; OSDP_FRAME_CHECK; OSDP_UNKNOWN_COMMAND or
 * OSDP_UNKNOWN_REPLY, by the side that the address names. The payload is not examined.
 */
int32_t osdp_check_frame(const uint8_t *frame, size_t frame_len);

/*
 * Of a frame that osdp_check_frame passed. The payload is the frame's own bytes, which osdp_check_command or osdp_check_reply take; nothing is copied.
 * Address is 0 to 127, sequence 0 to 3; reply is 1 for a reply and 0 for a command, crc is 1 for a CRC and 0 for a sum.
 */
static inline uint8_t osdp_frame_address(const uint8_t *frame) { return (uint8_t)(frame[1] & 0x7F); }
static inline uint8_t osdp_frame_reply(const uint8_t *frame) { return (uint8_t)(frame[1] >> 7); }
static inline uint8_t osdp_frame_sequence(const uint8_t *frame) { return (uint8_t)(frame[4] & 3); }
static inline uint8_t osdp_frame_crc(const uint8_t *frame) { return (uint8_t)(frame[4] >> 2 & 1); }
static inline uint8_t osdp_frame_code(const uint8_t *frame) { return frame[5]; }
static inline const uint8_t *osdp_frame_payload(const uint8_t *frame) { return frame + 6; }
static inline size_t osdp_frame_payload_len(const uint8_t *frame) { return (size_t)(frame[2] | frame[3] << 8) - 7u - osdp_frame_crc(frame); }

/*
 * Writes a frame round a payload, which is not examined, with the length and the check. reply and crc are flags, 0 or not 0: a reply or a command, a CRC
 * or a sum. Returns how many bytes it wrote to the front of out, at most OSDP_LONGEST_FRAME, or the refusal's number negated: OSDP_FRAME for an address
 * above 127 or a sequence above 3, then OSDP_UNKNOWN_COMMAND or OSDP_UNKNOWN_REPLY, then OSDP_HOUSE_LIMIT, and OSDP_NO_ROOM last. It leaves all other
 * bytes of out unchanged.
 */
int32_t osdp_write_frame(uint8_t address, uint8_t reply, uint8_t sequence, uint8_t crc, uint8_t code,
                         const uint8_t *payload, size_t payload_len, uint8_t *out, size_t out_len);

#ifdef __cplusplus
}
#endif

#endif
