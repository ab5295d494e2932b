/*
 * Passes a batch of payloads and of frames to the calls of osdp.h: each payload is checked and normalised, each frame checked, taken apart and
 * written again, and the result is printed and compared with what is expected. Exits with 1 if something differs.
 */
#include <stdio.h>
#include <string.h>

#include "osdp.h"

struct bytes {
    const uint8_t *at;
    size_t len;
};

#define BYTES(...) { (const uint8_t[]){ __VA_ARGS__ }, sizeof (const uint8_t[]){ __VA_ARGS__ } }

struct trial {
    const char *what;
    int is_reply;
    uint8_t code;
    struct bytes payload;
    size_t filled_to;    /* if above 0: bytes 0x41 follow, up to this length */
    size_t room_less;    /* by how many bytes the output buffer is shorter than the payload */
    int32_t checked;     /* what check has to return */
    int32_t normalised;  /* what normalise has to return */
    struct bytes form;   /* what normalise has to write; if empty, the payload's own first bytes */
};

/* The payloads to try (R8 of docs/REQUIREMENTS.md), those of R101, and the rows of the refusal table that these calls give. */
static const struct trial trials[] = {
    { .what = "LED, green over black, then red", .code = 0x69, .payload = BYTES(0, 0, 2, 5, 5, 2, 0, 0x64, 0, 1, 1, 0, 1, 1), .normalised = 14 },
    { .what = "LED, colour 8", .code = 0x69, .payload = BYTES(0, 0, 2, 5, 5, 8, 0, 0x64, 0, 1, 1, 0, 1, 1), .normalised = 14,
      .form = BYTES(0, 0, 2, 5, 5, 0, 0, 0x64, 0, 1, 1, 0, 1, 1) },
    { .what = "LED, two records", .code = 0x69, .payload = BYTES(0, 0, 0, 0, 0, 0, 0, 0, 0, 0, 0, 0, 0, 0, 0, 0, 0, 0, 0, 0, 0, 0, 0, 0, 0, 0, 0, 0),
      .normalised = 28 },
    { .what = "LED, 13 bytes", .code = 0x69, .payload = BYTES(0, 0, 0, 0, 0, 0, 0, 0, 0, 0, 0, 0, 0), .checked = -OSDP_NOT_MULTIPLE,
      .normalised = -OSDP_NOT_MULTIPLE },
    { .what = "LED, empty", .code = 0x69, .checked = -OSDP_NOT_MULTIPLE, .normalised = -OSDP_NOT_MULTIPLE },
    { .what = "OUT, output 3 for 10", .code = 0x68, .payload = BYTES(3, 5, 0x0A, 0), .normalised = 4 },
    { .what = "OUT, a second record with code 7", .code = 0x68, .payload = BYTES(3, 5, 0x0A, 0, 4, 7, 0, 0), .checked = -OSDP_OUTPUT_CODE,
      .normalised = -OSDP_OUTPUT_CODE },
    { .what = "OUT, code 7", .code = 0x68, .payload = BYTES(3, 7, 0x0A, 0), .checked = -OSDP_OUTPUT_CODE, .normalised = -OSDP_OUTPUT_CODE },
    { .what = "TEXT \"Hi\"", .code = 0x6B, .payload = BYTES(0, 1, 0, 1, 1, 2, 'H', 'i'), .normalised = 8 },
    { .what = "TEXT of 255 bytes", .code = 0x6B, .payload = BYTES(0, 1, 0, 1, 1, 255), .filled_to = 6 + 255, .normalised = 6 + 255 },
    { .what = "TEXT, byte 0x1F", .code = 0x6B, .payload = BYTES(0, 1, 0, 1, 1, 1, 0x1F), .checked = -OSDP_TEXT_BYTE, .normalised = -OSDP_TEXT_BYTE },
    { .what = "TEXT, byte 0x1F and command 9", .code = 0x6B, .payload = BYTES(0, 9, 0, 1, 1, 1, 0x1F), .checked = -OSDP_TEXT_BYTE,
      .normalised = -OSDP_TEXT_BYTE },
    { .what = "TEXT, command 9", .code = 0x6B, .payload = BYTES(0, 9, 0, 1, 1, 0), .checked = -OSDP_TEXT_COMMAND, .normalised = -OSDP_TEXT_COMMAND },
    { .what = "BIOREAD, type 0x12 and format 3", .code = 0x73, .payload = BYTES(0, 0x12, 3, 0x32), .normalised = 4, .form = BYTES(0, 0, 0, 0x32) },
    { .what = "BIOREAD, 3 bytes", .code = 0x73, .payload = BYTES(0, 1, 1), .checked = -OSDP_LENGTH, .normalised = -OSDP_LENGTH },
    { .what = "BIOMATCH, template of 1", .code = 0x74, .payload = BYTES(0, 1, 1, 0x32, 1, 0, 0xEE), .normalised = 7 },
    { .what = "FILETRANSFER, fragment of 2", .code = 0x7C, .payload = BYTES(1, 5, 0, 0, 0, 0, 0, 0, 0, 2, 0, 0xAB, 0xCD), .normalised = 13 },
    { .what = "MFG without a tail", .code = 0x80, .payload = BYTES(0, 6, 0x8E), .normalised = 3 },
    { .what = "MFG into 2 bytes", .code = 0x80, .payload = BYTES(0, 6, 0x8E), .room_less = 1, .normalised = -OSDP_NO_ROOM },
    { .what = "MFG, the longest", .code = 0x80, .payload = BYTES(0, 6, 0x8E), .filled_to = OSDP_LONGEST, .normalised = OSDP_LONGEST },
    { .what = "MFG, a byte too long", .code = 0x80, .payload = BYTES(0, 6, 0x8E), .filled_to = OSDP_LONGEST + 1, .checked = -OSDP_TOO_LONG,
      .normalised = -OSDP_TOO_LONG },
    { .what = "COMSET, address 1, 115200 baud", .code = 0x6E, .payload = BYTES(1, 0x00, 0xC2, 0x01, 0x00), .normalised = 5 },
    { .what = "COMSET, address 0x7F, 9600 baud", .code = 0x6E, .payload = BYTES(0x7F, 0x80, 0x25, 0, 0), .normalised = 5 },
    { .what = "COMSET, 4 bytes", .code = 0x6E, .payload = BYTES(1, 0x80, 0x25, 0), .checked = -OSDP_LENGTH, .normalised = -OSDP_LENGTH },
    { .what = "ACURXSIZE, 1440 bytes", .code = 0x7B, .payload = BYTES(0xA0, 0x05), .normalised = 2 },
    { .what = "KEEPACTIVE, 1000 ms", .code = 0xA7, .payload = BYTES(0xE8, 0x03), .normalised = 2 },
    { .what = "KEEPACTIVE into 1 byte", .code = 0xA7, .payload = BYTES(0xE8, 0x03), .room_less = 1, .normalised = -OSDP_NO_ROOM },
    { .what = "POLL", .code = 0x60, .checked = -OSDP_NOT_CARRIED, .normalised = -OSDP_NOT_CARRIED },
    { .what = "no command", .code = 0x63, .checked = -OSDP_UNKNOWN_COMMAND, .normalised = -OSDP_UNKNOWN_COMMAND },
    { .what = "RAW, no bits", .is_reply = 1, .code = 0x50, .payload = BYTES(0, 0, 0, 0), .normalised = 4 },
    { .what = "RAW, 26 bits", .is_reply = 1, .code = 0x50, .payload = BYTES(0, 0, 0x1A, 0, 0x12, 0x34, 0x56, 0x80), .normalised = 8 },
    { .what = "RAW, 65535 bits", .is_reply = 1, .code = 0x50, .payload = BYTES(0, 0, 0xFF, 0xFF), .filled_to = 8196, .normalised = 8196 },
    { .what = "RAW, 65535 bits, a byte too few", .is_reply = 1, .code = 0x50, .payload = BYTES(0, 0, 0xFF, 0xFF), .filled_to = 8195,
      .checked = -OSDP_DECLARED_LENGTH, .normalised = -OSDP_DECLARED_LENGTH },
    { .what = "RAW, 8 bits in no byte", .is_reply = 1, .code = 0x50, .payload = BYTES(0, 0, 8, 0), .checked = -OSDP_DECLARED_LENGTH,
      .normalised = -OSDP_DECLARED_LENGTH },
    { .what = "FMT \"AB\"", .is_reply = 1, .code = 0x51, .payload = BYTES(0, 0, 2, 'A', 'B'), .normalised = 5 },
    { .what = "BIOREADR, type 0x12", .is_reply = 1, .code = 0x57, .payload = BYTES(0, 0x12, 1, 0x32, 1, 0, 0xEE), .normalised = 7,
      .form = BYTES(0, 0, 1, 0x32, 1, 0, 0xEE) },
    { .what = "BIOMATCHR", .is_reply = 1, .code = 0x58, .payload = BYTES(0, 1, 0x63), .normalised = 3 },
    { .what = "NAK, error 3 and a byte", .is_reply = 1, .code = 0x41, .payload = BYTES(3, 0xAA), .normalised = 1 },
    { .what = "NAK, error 9, a completion code", .is_reply = 1, .code = 0x41, .payload = BYTES(9, 0xAA), .normalised = 2 },
    { .what = "NAK, error 10", .is_reply = 1, .code = 0x41, .payload = BYTES(0x0A), .checked = -OSDP_NAK_ERROR, .normalised = -OSDP_NAK_ERROR },
    { .what = "NAK, empty", .is_reply = 1, .code = 0x41, .checked = -OSDP_TOO_SHORT, .normalised = -OSDP_TOO_SHORT },
    { .what = "XRD without a tail", .is_reply = 1, .code = 0xB1, .payload = BYTES(1), .normalised = 1 },
    { .what = "KEYPAD, 1 2 3 4 and enter", .is_reply = 1, .code = 0x53, .payload = BYTES(0, 5, '1', '2', '3', '4', 0x0D), .normalised = 7 },
    { .what = "KEYPAD, a digit too few", .is_reply = 1, .code = 0x53, .payload = BYTES(0, 5, '1', '2', '3', '4'),
      .checked = -OSDP_DECLARED_LENGTH, .normalised = -OSDP_DECLARED_LENGTH },
    { .what = "KEYPAD without its count", .is_reply = 1, .code = 0x53, .payload = BYTES(0), .checked = -OSDP_TOO_SHORT,
      .normalised = -OSDP_TOO_SHORT },
    { .what = "COM, address 1, 9600 baud", .is_reply = 1, .code = 0x54, .payload = BYTES(1, 0x80, 0x25, 0, 0), .normalised = 5 },
    { .what = "PDID, serial number 0x12345678", .is_reply = 1, .code = 0x45, .payload = BYTES(0, 6, 0x8E, 1, 2, 0x78, 0x56, 0x34, 0x12, 3, 4, 5),
      .normalised = 12 },
    { .what = "PDID, a byte too long", .is_reply = 1, .code = 0x45, .payload = BYTES(0, 6, 0x8E, 1, 2, 0x78, 0x56, 0x34, 0x12, 3, 4, 5, 6),
      .checked = -OSDP_LENGTH, .normalised = -OSDP_LENGTH },
    { .what = "LSTATR, tamper", .is_reply = 1, .code = 0x48, .payload = BYTES(1, 0), .normalised = 2 },
    { .what = "no reply", .is_reply = 1, .code = 0x42, .checked = -OSDP_UNKNOWN_REPLY, .normalised = -OSDP_UNKNOWN_REPLY },
};

struct frame_trial {
    const char *what;
    struct bytes frame;
    int32_t checked;     /* what check has to return; if 0, what follows is in the frame */
    uint8_t address, reply, sequence, crc, code;
    size_t payload_len;  /* the payload is the frame's bytes from the seventh on */
};

/* Published frames, one with a payload, and the rows that a received frame can be refused by (R102 of docs/REQUIREMENTS.md). */
static const struct frame_trial frame_trials[] = {
    { .what = "POLL, CRC", .frame = BYTES(0x53, 0, 8, 0, 4, 0x60, 0xEB, 0xAA), .crc = 1, .code = 0x60 },
    { .what = "ACK, sequence 1, CRC", .frame = BYTES(0x53, 0x80, 8, 0, 5, 0x40, 0x68, 0x9F), .reply = 1, .sequence = 1, .crc = 1, .code = 0x40 },
    { .what = "POLL, sum", .frame = BYTES(0x53, 0, 7, 0, 0, 0x60, 0x46), .code = 0x60 },
    { .what = "NAK, address 127, sum", .frame = BYTES(0x53, 0xFF, 8, 0, 3, 0x41, 3, 0x5F), .address = 127, .reply = 1, .sequence = 3,
      .code = 0x41, .payload_len = 1 },
    { .what = "six bytes", .frame = BYTES(0x53, 0, 7, 0, 0, 0x60), .checked = -OSDP_TOO_SHORT },
    { .what = "seven bytes with a CRC", .frame = BYTES(0x53, 0, 7, 0, 4, 0x60, 0x42), .checked = -OSDP_TOO_SHORT },
    { .what = "first byte 0x52", .frame = BYTES(0x52, 0, 7, 0, 0, 0x60, 0x47), .checked = -OSDP_FRAME },
    { .what = "control bit 3", .frame = BYTES(0x53, 0, 7, 0, 8, 0x60, 0x3E), .checked = -OSDP_FRAME },
    { .what = "longer than it says", .frame = BYTES(0x53, 0, 7, 0, 0, 0x60, 0x46, 0), .checked = -OSDP_DECLARED_LENGTH },
    { .what = "wrong sum", .frame = BYTES(0x53, 0, 7, 0, 0, 0x60, 0x47), .checked = -OSDP_FRAME_CHECK },
    { .what = "wrong CRC", .frame = BYTES(0x53, 0, 8, 0, 4, 0x60, 0xEB, 0xAB), .checked = -OSDP_FRAME_CHECK },
    { .what = "no command", .frame = BYTES(0x53, 0, 7, 0, 0, 0x63, 0x43), .checked = -OSDP_UNKNOWN_COMMAND },
    { .what = "no reply", .frame = BYTES(0x53, 0x80, 7, 0, 0, 0x42, 0xE4), .checked = -OSDP_UNKNOWN_REPLY },
};

/*
 * How a controller calls the library. A frame has been received, osdp_check_frame has passed it, and its address and sequence are those that were
 * asked for; code, payload and payload_len are what osdp_frame_code, osdp_frame_payload and osdp_frame_payload_len give.
 *
 * A controller that only wants to know whether to take the payload calls osdp_check_reply and reads from the receive buffer. One that stores or
 * forwards it normalises: what is written has no reserved colour, biometric type or format left, and two payloads that mean the same record
 * become the same bytes. A buffer as long as the payload is always enough, so one of OSDP_LONGEST bytes never gives OSDP_NO_ROOM.
 *
 *     uint8_t out[OSDP_LONGEST];
 *     int32_t n = osdp_normalise_reply(code, payload, payload_len, out, sizeof out);
 *     if (n < 0)
 *         answer with NAK, and log -n, a constant of enum osdp_refusal, and osdp_row_text(-n);
 *     else
 *         store(out, (size_t)n);
 *
 * What the controller is about to send goes through osdp_check_command first; the device would refuse what this call refuses.
 * The values of plain fields are the controller's to see to: a COMSET passes with any address.
 */
static int32_t check(int is_reply, uint8_t code, const uint8_t *payload, size_t len)
{
    return is_reply ? osdp_check_reply(code, payload, len) : osdp_check_command(code, payload, len);
}

static int32_t normalise(int is_reply, uint8_t code, const uint8_t *payload, size_t len, uint8_t *out, size_t room)
{
    return is_reply ? osdp_normalise_reply(code, payload, len, out, room) : osdp_normalise_command(code, payload, len, out, room);
}

#define UNTOUCHED 0xA5

/* Whether out begins with what was to be written and is untouched after it. */
static int written_as(const uint8_t *out, size_t size, const uint8_t *form, int32_t n)
{
    size_t i, written = n < 0 ? 0 : (size_t)n;
    for (i = 0; i < size; i++)
        if (out[i] != (i < written ? form[i] : UNTOUCHED))
            return 0;
    return 1;
}

/* Returns whether the trial went as expected. */
static int run(const struct trial *t)
{
    static uint8_t payload[OSDP_LONGEST + 1], out[OSDP_LONGEST + 1];
    size_t len = t->filled_to > t->payload.len ? t->filled_to : t->payload.len;
    int32_t checked, normalised;
    int good;

    memset(payload, 0x41, sizeof payload);
    if (t->payload.len > 0)
        memcpy(payload, t->payload.at, t->payload.len);
    memset(out, UNTOUCHED, sizeof out);

    checked = check(t->is_reply, t->code, payload, len);
    normalised = normalise(t->is_reply, t->code, payload, len, out, len - t->room_less);

    good = checked == t->checked && normalised == t->normalised && written_as(out, sizeof out, t->form.len > 0 ? t->form.at : payload, normalised);
    printf("%-7s %02X  %5lu bytes  %-32s ", t->is_reply ? "reply" : "command", t->code, (unsigned long)len, t->what);
    if (normalised < 0)
        printf("%s, row %d: %s", checked == 0 ? "accepted, not written" : "refused", (int)-normalised, osdp_row_text(-normalised));
    else
        printf("accepted, %ld bytes written%s", (long)normalised, memcmp(out, payload, (size_t)normalised) == 0 ? "" : ", changed");
    puts(good ? "" : "  <-- NOT AS EXPECTED");
    return good;
}

/* Whether the parts of a frame are those of the trial. */
static int has_parts(const struct frame_trial *t)
{
    const uint8_t *f = t->frame.at;
    return osdp_frame_address(f) == t->address && osdp_frame_reply(f) == t->reply && osdp_frame_sequence(f) == t->sequence &&
           osdp_frame_crc(f) == t->crc && osdp_frame_code(f) == t->code && osdp_frame_payload(f) == f + 6 &&
           osdp_frame_payload_len(f) == t->payload_len;
}

/* Whether the parts of a frame are written as that frame, and not into a byte less. */
static int is_written(const struct frame_trial *t)
{
    uint8_t out[OSDP_LONGEST_FRAME];
    size_t len = t->frame.len;
    int32_t refused, n;

    memset(out, UNTOUCHED, sizeof out);
    refused = osdp_write_frame(t->address, t->reply, t->sequence, t->crc, t->code, t->frame.at + 6, t->payload_len, out, len - 1);
    if (refused != -OSDP_NO_ROOM || !written_as(out, sizeof out, t->frame.at, refused))
        return 0;
    n = osdp_write_frame(t->address, t->reply, t->sequence, t->crc, t->code, t->frame.at + 6, t->payload_len, out, sizeof out);
    return n == (int32_t)len && written_as(out, sizeof out, t->frame.at, n);
}

/* Returns whether the trial went as expected. */
static int run_frame(const struct frame_trial *t)
{
    int32_t checked = osdp_check_frame(t->frame.at, t->frame.len);
    int good = checked == t->checked && (checked != 0 || (has_parts(t) && is_written(t)));

    printf("frame       %5lu bytes  %-32s ", (unsigned long)t->frame.len, t->what);
    if (checked < 0)
        printf("refused, row %d: %s", (int)-checked, osdp_row_text(-checked));
    else
        printf("accepted, code %02X, %lu bytes of payload", osdp_frame_code(t->frame.at), (unsigned long)osdp_frame_payload_len(t->frame.at));
    puts(good ? "" : "  <-- NOT AS EXPECTED");
    return good;
}

/* What no frame trial has: a frame that is too long, and what osdp_write_frame refuses, where each call has the faults of those after it, too. */
static int refuses(void)
{
    static const uint8_t bytes[OSDP_LONGEST_FRAME + 1] = { 0x53 };
    uint8_t out[1];
    return osdp_check_frame(bytes, sizeof bytes) == -OSDP_HOUSE_LIMIT &&
           osdp_write_frame(128, 0, 0, 0, 0x63, bytes, sizeof bytes, out, 0) == -OSDP_FRAME &&
           osdp_write_frame(0, 1, 4, 0, 0x42, bytes, sizeof bytes, out, 0) == -OSDP_FRAME &&
           osdp_write_frame(0, 0, 0, 0, 0x63, bytes, sizeof bytes, out, 0) == -OSDP_UNKNOWN_COMMAND &&
           osdp_write_frame(0, 1, 0, 0, 0x42, bytes, sizeof bytes, out, 0) == -OSDP_UNKNOWN_REPLY &&
           osdp_write_frame(0, 0, 0, 1, 0x80, bytes, OSDP_LONGEST_FRAME - 7, out, 0) == -OSDP_HOUSE_LIMIT &&
           osdp_write_frame(0, 0, 0, 0, 0x80, bytes, OSDP_LONGEST_FRAME - 7, out, 0) == -OSDP_NO_ROOM;
}

int main(void)
{
    size_t i, n = sizeof trials / sizeof trials[0], frames = sizeof frame_trials / sizeof frame_trials[0], good = 0;

    for (i = 0; i < n; i++)
        good += (size_t)run(&trials[i]);
    for (i = 0; i < frames; i++)
        good += (size_t)run_frame(&frame_trials[i]);

    /* A pointer may be NULL if its length is 0. */
    if (osdp_check_reply(0x41, NULL, 0) != -OSDP_TOO_SHORT || osdp_normalise_reply(0x41, NULL, 0, NULL, 0) != -OSDP_TOO_SHORT ||
        osdp_check_frame(NULL, 0) != -OSDP_TOO_SHORT || osdp_write_frame(0, 0, 0, 0, 0x60, NULL, 0, NULL, 0) != -OSDP_NO_ROOM)
        good = 0;
    if (!refuses()) {
        puts("a frame that is too long, or not written  <-- NOT AS EXPECTED");
        good = 0;
    }

    printf("%lu of %lu as expected\n", (unsigned long)good, (unsigned long)(n + frames));
    return good == n + frames ? 0 : 1;
}
