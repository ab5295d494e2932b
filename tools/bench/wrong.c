// Stands in for the calls of the library, of the readers and of the check of a text: does what they do, and one thing wrong, which WRONG in the
// environment names, for the code byte that AT names, as in `command 69`, for frames, or for a text by words or singly. The right ones are renamed.
// READERS is the list of the readers, READER(NAME, CODE) each.
#include <stdbool.h>
#include <stdint.h>
#include <stdio.h>
#include <stdlib.h>
#include <string.h>

// More calls of one kind than are made before anything is measured.
enum { EARLY = 1000 };

static int wrong_at(const char *what, const char *code)
{
    const char *named = getenv("WRONG"), *at = getenv("AT");
    return named && at && strcmp(named, what) == 0 && strcmp(at, code) == 0;
}

static int late(void)
{
    static int made;
    return ++made > EARLY;
}

static int32_t check(const char *code, int32_t right)
{
    if (wrong_at("refuses all", code))
        return -5;
    if (wrong_at("accepts all", code))
        return 0;
    return right;
}

static int32_t normalise(const char *code, int32_t n, uint8_t *out, size_t out_len)
{
    if (wrong_at("a byte", code) && n > 0)
        out[n / 2] ^= 1;
    if (wrong_at("a byte behind", code))
        out[out_len] = 0;
    if (wrong_at("a late byte", code) && n > 0 && late())
        out[n - 1] ^= 1;
    if (wrong_at("a late answer", code) && late())
        n -= 1;
    return n;
}

static const char *named(const char *side, uint8_t code)
{
    static char name[16];
    snprintf(name, sizeof name, "%s %02X", side, code);
    return name;
}

#define SIDE(side) \
    int32_t right_osdp_check_##side(uint8_t code, const uint8_t *payload, size_t payload_len); \
    int32_t right_osdp_normalise_##side(uint8_t code, const uint8_t *payload, size_t payload_len, uint8_t *out, size_t out_len); \
    int32_t osdp_check_##side(uint8_t code, const uint8_t *payload, size_t payload_len) \
    { \
        return check(named(#side, code), right_osdp_check_##side(code, payload, payload_len)); \
    } \
    int32_t beside_osdp_check_##side(uint8_t code, const uint8_t *payload, size_t payload_len) \
    { \
        return wrong_at("the other build", named(#side, code)) ? -5 : right_osdp_check_##side(code, payload, payload_len); \
    } \
    int32_t osdp_normalise_##side(uint8_t code, const uint8_t *payload, size_t payload_len, uint8_t *out, size_t out_len) \
    { \
        return normalise(named(#side, code), right_osdp_normalise_##side(code, payload, payload_len, out, out_len), out, out_len); \
    }
SIDE(command)
SIDE(reply)

#define READER(name, code) \
    int32_t right_bench_read_##name(const uint8_t *payload, size_t payload_len); \
    int32_t bench_read_##name(const uint8_t *payload, size_t payload_len) \
    { \
        return right_bench_read_##name(payload, payload_len) + wrong_at("a number", code); \
    }
READERS

int32_t right_bench_read_frame(const uint8_t *f, size_t f_len);
int32_t bench_read_frame(const uint8_t *f, size_t f_len)
{
    int32_t right = right_bench_read_frame(f, f_len);
    if (wrong_at("refuses all", "frame"))
        return -21;
    if (wrong_at("accepts all", "frame") && right < 0)
        return 0;
    if (wrong_at("accepts a wrong check", "frame") && right == -21)
        return 0;
    return right + wrong_at("a number", "frame");
}

// A frame of n bytes that was written with one thing wrong; last is what was in the place of its last byte before.
static int32_t framed(int32_t n, bool crc, uint8_t last, uint8_t *out)
{
    if (wrong_at("a wrong CRC", "frame") && crc)
        out[n - 2] ^= 1;
    if (wrong_at("a wrong checksum", "frame") && !crc)
        out[n - 1] ^= 1;
    if (wrong_at("a wrong length", "frame"))
        out[2] ^= 1;
    if (wrong_at("a byte short", "frame"))
        out[--n] = last;
    return n;
}

int32_t right_bench_write_frame(uint8_t address, bool reply, uint8_t sequence, bool crc, uint8_t code, const uint8_t *payload, size_t payload_len,
                                uint8_t *out, size_t out_len);
int32_t bench_write_frame(uint8_t address, bool reply, uint8_t sequence, bool crc, uint8_t code, const uint8_t *payload, size_t payload_len,
                          uint8_t *out, size_t out_len)
{
    uint8_t last = out_len ? out[out_len - 1] : 0;
    int32_t n = right_bench_write_frame(address, reply, sequence, crc, code, payload, payload_len, out, out_len);
    if (n < 0)
        return wrong_at("writes all", "frame") ? (int32_t)out_len : n;
    return normalise("frame", framed(n, crc, last, out), out, out_len);
}

uint16_t right_bench_crc(uint16_t start, const uint8_t *bytes, size_t bytes_len);
uint16_t bench_crc(uint16_t start, const uint8_t *bytes, size_t bytes_len)
{
    return right_bench_crc(wrong_at("another start", "frame") ? 0 : start, bytes, bytes_len);
}

// What is made of a text with one thing wrong; an answer that reads less of it is the right one of a part.
static int32_t printable(const char *how, int32_t (*right)(const uint8_t *s, size_t s_len), const uint8_t *s, size_t s_len)
{
    if (wrong_at("refuses all", how) || (wrong_at("a late answer", how) && late()))
        return 0;
    if (wrong_at("accepts all", how) || (wrong_at("accepts 0x7F", how) && memchr(s, 0x7F, s_len)))
        return 1;
    if (wrong_at("not the first byte", how) && s_len > 0)
        return right(s + 1, s_len - 1);
    if (wrong_at("not the last byte", how) && s_len > 0)
        return right(s, s_len - 1);
    if (wrong_at("only whole words", how))
        return right(s, s_len / 8 * 8);
    if (wrong_at("only the first word", how) && s_len > 8)
        return right(s, 8);
    return right(s, s_len) + wrong_at("a number", how);
}

int32_t right_bench_printable_text(const uint8_t *s, size_t s_len);
int32_t bench_printable_text(const uint8_t *s, size_t s_len)
{
    return printable("words", right_bench_printable_text, s, s_len);
}

int32_t right_bench_printable_singly(const uint8_t *s, size_t s_len);
int32_t bench_printable_singly(const uint8_t *s, size_t s_len)
{
    return printable("singly", right_bench_printable_singly, s, s_len);
}
