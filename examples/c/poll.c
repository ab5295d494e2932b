/*
 * A guards' round over the calls of osdp.h: a controller and the readers of three posts, in two processes at the two ends of a pseudo-terminal.
 * A guard holds a tag to the reader of each post. The controller polls the readers, prints a log, and at the end the round sheet, by which the round
 * is billed: post, time, tag bits. The script (turns) says what happens at each turn, and what the controller has to conclude. Exits with 1 if it
 * concludes anything else, if the sheet is not the expected one, or if the readers are sent what they must not be sent.
 *
 * Every frame on the line is written by osdp_write_frame. What comes from the line has to pass osdp_check_frame; to be the answer to the command, a
 * reply from this post under the command's sequence number; and to have a payload that passes osdp_check_reply. Only then is it read.
 */
#define _XOPEN_SOURCE 600
#include <fcntl.h>
#include <poll.h>
#include <stdarg.h>
#include <stdio.h>
#include <stdlib.h>
#include <string.h>
#include <sys/wait.h>
#include <termios.h>
#include <time.h>
#include <unistd.h>

#include "osdp.h"

enum { POLL = 0x60, LED = 0x69, TEXT = 0x6B, ACK = 0x40, NAK = 0x41, RAW = 0x50, NO_ANSWER = 0, UNREADABLE = 1 };
enum { POSTS = 4, TRIES = 3, ANSWER_MS = 200, COMMAND_MS = 4000 };  /* how long is waited for an answer, and for a command */

/* The posts, by address; none has address 0. */
static const struct post {
    uint8_t crc;      /* 1: frames have a CRC, 0: a sum */
    uint8_t display;  /* 1: there is one, and so the reader knows TEXT */
    uint8_t color;    /* what the site's configuration lights the lamp in after a tag; 9 is no colour */
} posts[POSTS] = { [1] = { 1, 1, 2 }, [2] = { 1, 1, 9 }, [3] = { 0, 0, 2 } };

/* What happens to the answers to a turn's POLL. */
enum fault {
    NONE,
    DAMAGED,         /* in the first, a bit of the tag is inverted on the line */
    LOST,            /* the first does not arrive */
    WRONG_SEQUENCE,  /* the first is a RAW under another sequence number, though nobody is there */
    SILENT           /* none arrives */
};

#define NO_TAG { 0, { 0 } }
#define TAG_A  { 8, { 0, 0, 26, 0, 0x12, 0x34, 0x56, 0x80 } }
#define TAG_B  { 8, { 0, 0, 26, 0, 0xB7, 0x1C, 0x03, 0x40 } }
#define CUT    { 7, { 0, 0, 26, 0, 0x12, 0x34, 0x56 } }

/* A turn is a POLL of a post, and the commands that a tag gives rise to. */
static const struct turn {
    uint8_t post;
    enum fault fault;
    struct { size_t len; uint8_t at[8]; } raw;  /* the payload of the reader's RAW; it answers ACK if there is none */
    const char *concluded;                      /* what the controller has to conclude, command by command, try by try */
} turns[] = {
    { 1, NONE, NO_TAG, "POLL: ACK" },
    { 1, NONE, TAG_A, "POLL: RAW, LED: ACK, TEXT: ACK" },
    { 2, DAMAGED, TAG_A, "POLL: refused, row 21: wrong check of a frame; RAW, normalised, LED: ACK, TEXT: ACK" },
    { 3, LOST, TAG_A, "POLL: silence; RAW, LED: ACK, TEXT: NAK, error 3" },
    { 1, WRONG_SEQUENCE, TAG_A, "POLL: RAW not taken: post 1, sequence 3; ACK" },
    { 2, NONE, CUT, "POLL: RAW refused, row 6: declared length or count is not the payload's (asked for, got)" },
    { 3, SILENT, NO_TAG, "POLL: silence; silence; silence" },
    { 3, NONE, TAG_B, "POLL: RAW, LED: ACK, TEXT: NAK, error 3" },
};
enum { TURNS = sizeof turns / sizeof turns[0] };

static const char expected_sheet[] =
    "1     22:01  00010010001101000101011010\n"
    "2     22:02  00010010001101000101011010\n"
    "3     22:03  00010010001101000101011010\n"
    "3     22:07  10110111000111000000001101\n";

static long now_ms(void)
{
    struct timespec t;
    clock_gettime(CLOCK_MONOTONIC, &t);
    return (long)t.tv_sec * 1000 + t.tv_nsec / 1000000;
}

/* Up to how many bytes to read next: the first, then up to the length field, then as many as that says. */
static size_t wanted(const uint8_t *frame, size_t have)
{
    return have == 0 ? 1 : have < 4 ? 4 : (size_t)(frame[2] | frame[3] << 8);
}

/*
 * Reads a frame, which may come in pieces. What is before a 0x53 is skipped. Returns how many bytes there are; 0 if they do not come in time, or the
 * line is closed. Of a frame that claims more bytes than a frame may have, four are read, which osdp_check_frame refuses.
 */
static size_t receive(int line, uint8_t frame[OSDP_LONGEST_FRAME], int time_out)
{
    struct pollfd ready = { line, POLLIN, 0 };
    long end = now_ms() + time_out;
    size_t have = 0;

    while (have < wanted(frame, have) && wanted(frame, have) <= OSDP_LONGEST_FRAME) {
        long left = end - now_ms();
        ssize_t n;
        if (left <= 0 || poll(&ready, 1, (int)left) <= 0 || (n = read(line, frame + have, wanted(frame, have) - have)) <= 0)
            return 0;
        have = frame[0] == 0x53 ? have + (size_t)n : 0;
    }
    return have;
}

static int put(int line, const uint8_t *bytes, size_t len) { return write(line, bytes, len) == (ssize_t)len; }

static const char *name_of(uint8_t code)
{
    static const char *const names[256] = { [POLL] = "POLL", [LED] = "LED", [TEXT] = "TEXT", [ACK] = "ACK", [NAK] = "NAK", [RAW] = "RAW" };
    return names[code] ? names[code] : "another code";
}

/* The controller. */
struct round {
    int line;
    unsigned turn;
    uint8_t post;
    uint8_t next[POSTS];                /* the sequence number of the next command to each post; 0 starts afresh */
    uint8_t answer[OSDP_LONGEST_FRAME];
    char words[128];                    /* what the answer comes to */
    char concluded[256];
    char sheet[512];
};

static void say(struct round *r, const char *format, ...)
{
    va_list more;
    va_start(more, format);
    vsnprintf(r->words, sizeof r->words, format, more);
    va_end(more);
}

/* Adds to what is concluded in this turn. */
static void conclude(struct round *r, const char *before, const char *words)
{
    size_t at = strlen(r->concluded);
    snprintf(r->concluded + at, sizeof r->concluded - at, "%s%s", before, words);
}

/* Begins a line of the log. The round's clock is simulated, a minute a turn from 22:00, so that every run has the same sheet. */
static void log_command(const struct round *r, uint8_t code, const uint8_t *payload, size_t len)
{
    size_t i;
    printf("22:%02u post %u: %s", r->turn, (unsigned)r->post, name_of(code));
    for (i = 0; i < len; i++)
        printf(" %02X", payload[i]);
}

/* Drops what is on the line before a command is sent: the rest of an answer, or one that came too late. */
static void drop_input(int line)
{
    struct pollfd ready = { line, POLLIN, 0 };
    uint8_t dropped[64];
    while (poll(&ready, 1, 0) > 0 && read(line, dropped, sizeof dropped) > 0)
        ;
}

/* What came for an answer to a command of this sequence number: a reply's code, NO_ANSWER, or UNREADABLE, and all of them in words. */
static uint8_t judge(struct round *r, size_t len, uint8_t sequence)
{
    const uint8_t *frame = r->answer, *payload = osdp_frame_payload(frame);
    int32_t n = len == 0 ? 0 : osdp_check_frame(frame, len);
    uint8_t code = osdp_frame_code(frame), answer = NO_ANSWER;

    if (len == 0)
        say(r, "silence");
    else if (n != 0)
        say(r, "refused, row %d: %s", (int)-n, osdp_row_text(-n));
    else if (!osdp_frame_reply(frame) || osdp_frame_address(frame) != r->post || osdp_frame_sequence(frame) != sequence)
        say(r, "%s not taken: post %u, sequence %u", name_of(code), (unsigned)osdp_frame_address(frame), (unsigned)osdp_frame_sequence(frame));
    else if (code != ACK && (n = osdp_check_reply(code, payload, osdp_frame_payload_len(frame))) != 0) {
        say(r, "%s refused, row %d: %s", name_of(code), (int)-n, osdp_row_text(-n));
        answer = UNREADABLE;
    } else {
        say(r, code == NAK ? "%s, error %u" : "%s", name_of(code), (unsigned)payload[0]);
        answer = code;
    }
    return answer;
}

/*
 * Sends a command until it is answered, three times at most, each time under the same sequence number: to a repeated command the reader gives the
 * answer that it gave before, so that no tag is lost with an answer that was damaged or did not arrive. Without an answer the post starts afresh.
 */
static uint8_t ask(struct round *r, uint8_t code, const uint8_t *payload, size_t payload_len)
{
    uint8_t command[OSDP_LONGEST_FRAME], crc = posts[r->post].crc, sequence = r->next[r->post], answer = NO_ANSWER;
    int32_t tries, n = osdp_write_frame(r->post, 0, sequence, crc, code, payload, payload_len, command, sizeof command);
    conclude(r, r->concluded[0] == 0 ? "" : ", ", name_of(code));
    conclude(r, n < 0 ? " not sent: " : "", n < 0 ? osdp_row_text(-n) : "");
    for (tries = 0; n > 0 && tries < TRIES && answer == NO_ANSWER; tries++) {
        drop_input(r->line);
        answer = judge(r, put(r->line, command, (size_t)n) ? receive(r->line, r->answer, ANSWER_MS) : 0, sequence);
        log_command(r, code, payload, payload_len);
        printf(", sequence %u, %s: %s\n", (unsigned)sequence, crc ? "CRC" : "sum", r->words);
        conclude(r, tries == 0 ? ": " : "; ", r->words);
    }
    r->next[r->post] = answer == NO_ANSWER ? 0 : (uint8_t)(sequence % 3 + 1);
    return answer;
}

/* Sends a command in normal form, which the log has, and says so where it is not what was configured. */
static void send_normal(struct round *r, uint8_t code, const uint8_t *payload, size_t len)
{
    uint8_t form[OSDP_LONGEST_FRAME];
    int32_t n = osdp_normalise_command(code, payload, len, form, sizeof form);

    if (n != (int32_t)len || memcmp(form, payload, len) != 0) {
        log_command(r, code, NULL, 0);
        n < 0 ? printf(" refused, row %d: %s\n", (int)-n, osdp_row_text(-n)) : puts(" was not in normal form");
        conclude(r, ", ", n < 0 ? "refused" : "normalised");
    }
    if (n >= 0)
        ask(r, code, form, (size_t)n);
}

/* Writes a line of the sheet from the RAW in r->answer. osdp_check_reply has passed it: for each eight bits of its count it has a byte. */
static void note(struct round *r)
{
    const uint8_t *raw = osdp_frame_payload(r->answer);
    unsigned i, bits = (unsigned)(raw[2] | raw[3] << 8);
    size_t at = strlen(r->sheet);

    if (bits + sizeof "1     22:00  \n" > sizeof r->sheet - at)
        return;  /* no room, and so not the expected sheet */
    at += (size_t)sprintf(r->sheet + at, "%-4u  22:%02u  ", (unsigned)r->post, r->turn);
    for (i = 0; i < bits; i++)
        r->sheet[at++] = raw[4 + i / 8] >> (7 - i % 8) & 1 ? '1' : '0';
    strcpy(r->sheet + at, "\n");
}

/* After a tag: the lamp blinks in the post's colour, then it is red again, and the display has the time. */
static void confirm(struct round *r)
{
    const uint8_t led[] = { 0, 0, 2, 5, 5, posts[r->post].color, 0, 100, 0, 1, 1, 0, 1, 1 };
    uint8_t text[32] = { 0, 1, 0, 1, 1 };

    text[5] = (uint8_t)sprintf((char *)text + 6, "22:%02u noted", r->turn);
    send_normal(r, LED, led, sizeof led);
    send_normal(r, TEXT, text, 6u + text[5]);
}

/* Returns whether what is concluded is what has to be. A POLL that starts afresh is not a turn's. */
static int take_turn(struct round *r, const struct turn *t)
{
    r->post = t->post;
    if (r->next[r->post] == 0)
        ask(r, POLL, NULL, 0);
    r->concluded[0] = 0;
    if (ask(r, POLL, NULL, 0) == RAW) {
        note(r);
        confirm(r);
    }
    if (strcmp(r->concluded, t->concluded) == 0)
        return 1;
    printf("NOT AS EXPECTED: %s; it has to be %s\n", r->concluded, t->concluded);
    return 0;
}

/* Returns whether all is as expected. */
static int control(int line)
{
    static struct round r;
    unsigned good = 0;
    int same;

    r.line = line;
    for (r.turn = 0; r.turn < TURNS; r.turn++)
        good += (unsigned)take_turn(&r, &turns[r.turn]);
    same = strcmp(r.sheet, expected_sheet) == 0;
    printf("\npost  time   tag bits\n%s\n", r.sheet);
    printf("%u of %u turns as expected, %s sheet\n", good, (unsigned)TURNS, same ? "the expected" : "NOT the expected");
    return good == TURNS && same;
}

/* What a post's reader keeps, for a command that is repeated. */
struct reader {
    uint8_t sequence;
    size_t len;
    uint8_t answer[OSDP_LONGEST_FRAME];
};

/* Whether the controller may send this: to a post a POLL, or a command in normal form. */
static int may_come(const uint8_t *frame, size_t len)
{
    uint8_t form[OSDP_LONGEST_FRAME];
    const uint8_t *payload = osdp_frame_payload(frame);

    if (osdp_check_frame(frame, len) != 0 || osdp_frame_reply(frame) || osdp_frame_address(frame) >= POSTS)
        return 0;
    len = osdp_frame_payload_len(frame);
    if (osdp_frame_code(frame) == POLL)
        return len == 0;
    return osdp_normalise_command(osdp_frame_code(frame), payload, len, form, sizeof form) == (int32_t)len && memcmp(form, payload, len) == 0;
}

static size_t reply(uint8_t post, uint8_t sequence, uint8_t code, const uint8_t *payload, size_t len, uint8_t out[OSDP_LONGEST_FRAME])
{
    int32_t n = osdp_write_frame(post, 1, sequence, posts[post].crc, code, payload, len, out, OSDP_LONGEST_FRAME);
    return n < 0 ? 0 : (size_t)n;
}

/* The answer to a command that is not repeated; 0 bytes are none. Only a POLL that is a turn's is answered with a tag. */
static size_t answer(const uint8_t *frame, const struct turn *t, int of_turn, uint8_t out[OSDP_LONGEST_FRAME])
{
    static const uint8_t unknown_command = 3;
    uint8_t post = osdp_frame_address(frame), sequence = osdp_frame_sequence(frame), code = osdp_frame_code(frame);

    if (of_turn && t->fault == SILENT)
        return 0;
    if (of_turn && t->raw.len > 0 && t->fault != WRONG_SEQUENCE)
        return reply(post, sequence, RAW, t->raw.at, t->raw.len, out);
    if (code == TEXT && !posts[post].display)
        return reply(post, sequence, NAK, &unknown_command, 1, out);
    return reply(post, sequence, ACK, NULL, 0, out);
}

/* Puts on the line what a fault leaves of an answer: after a byte that is none of it, in two pieces. */
static void deliver(int line, const struct reader *reader, const struct turn *t, enum fault fault)
{
    static const uint8_t idle = 0xFF;
    uint8_t frame[OSDP_LONGEST_FRAME];
    size_t len = reader->len;

    if (fault == LOST || len == 0)
        return;
    memcpy(frame, reader->answer, len);
    if (fault == DAMAGED)
        frame[len - 4] ^= 0x10;  /* the last byte of the tag but one; the CRC is behind them */
    if (fault == WRONG_SEQUENCE)
        len = reply(t->post, (uint8_t)(reader->sequence % 3 + 1), RAW, t->raw.at, t->raw.len, frame);
    if (put(line, &idle, 1) && put(line, frame, 3) && poll(NULL, 0, 2) == 0)
        put(line, frame + 3, len - 3);
}

/* The readers of all posts. Returns, when the line is closed, whether all was right that came, and the script was played to its end. */
static int read_tags(int line)
{
    static struct reader readers[POSTS];
    const struct turn *t = turns, *next = turns;
    uint8_t frame[OSDP_LONGEST_FRAME];
    size_t len;

    while ((len = receive(line, frame, COMMAND_MS)) > 0 && may_come(frame, len)) {
        struct reader *reader = &readers[osdp_frame_address(frame)];
        uint8_t sequence = osdp_frame_sequence(frame);
        int repeated = sequence != 0 && sequence == reader->sequence;
        int of_turn = sequence != 0 && osdp_frame_code(frame) == POLL;  /* one of sequence 0 cannot be repeated, and begins none */

        if (!repeated && of_turn && (next == turns + TURNS || next->post != osdp_frame_address(frame)))
            return 0;
        if (!repeated) {
            t = of_turn ? next++ : t;
            reader->sequence = sequence;
            reader->len = answer(frame, t, of_turn, reader->answer);
        }
        deliver(line, reader, t, of_turn && !repeated ? t->fault : NONE);
    }
    return len == 0 && next == turns + TURNS;
}

/* Opens both ends of a line that takes bytes as they are. Returns whether it could. */
static int open_line(int *near, int *far)
{
    struct termios t;

    if ((*near = posix_openpt(O_RDWR | O_NOCTTY)) < 0 || grantpt(*near) != 0 || unlockpt(*near) != 0)
        return 0;
    if ((*far = open(ptsname(*near), O_RDWR | O_NOCTTY)) < 0 || tcgetattr(*far, &t) != 0)
        return 0;
    t.c_iflag = t.c_oflag = t.c_lflag = 0;
    t.c_cflag = (t.c_cflag & ~(tcflag_t)(CSIZE | PARENB)) | CS8;
    t.c_cc[VMIN] = 1, t.c_cc[VTIME] = 0;
    return tcsetattr(*far, TCSANOW, &t) == 0;
}

int main(void)
{
    int near, far, good, status;
    pid_t child;

    if (!open_line(&near, &far) || (child = fork()) < 0) {
        perror("poll: no line");
        return 1;
    }
    alarm(4);  /* ends either process if it hangs */
    if (child == 0) {
        close(near);
        _exit(read_tags(far) ? 0 : 1);
    }
    close(far);
    good = control(near);
    close(near);
    if (waitpid(child, &status, 0) != child || !WIFEXITED(status) || WEXITSTATUS(status) != 0) {
        puts("NOT AS EXPECTED: the readers were sent what they must not be sent, or did not come to the end of the script");
        return 1;
    }
    return good ? 0 : 1;
}
