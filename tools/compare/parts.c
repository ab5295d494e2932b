/* The parts of a frame, as osdp.h has them, for a program that is not in C. */
#include "osdp.h"

struct parts {
    const uint8_t *payload;
    size_t payload_len;
    uint8_t address, reply, sequence, crc, code;
};

struct parts parts_of(const uint8_t *frame)
{
    return (struct parts){
        .payload = osdp_frame_payload(frame),
        .payload_len = osdp_frame_payload_len(frame),
        .address = osdp_frame_address(frame),
        .reply = osdp_frame_reply(frame),
        .sequence = osdp_frame_sequence(frame),
        .crc = osdp_frame_crc(frame),
        .code = osdp_frame_code(frame),
    };
}
