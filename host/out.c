/* Standard output, in pieces. A write that fails ends the program, so that no cut listing counts as a whole one. */
#include <errno.h>
#include <stdlib.h>
#include <string.h>
#include <unistd.h>

#include "shelf.h"

static char room[1 << 16];
static size_t used;

static _Noreturn void fail(int error)
{
    if (error == EPIPE)
        say("the listing is cut: the program that reads it has ended");
    else
        say("the listing is cut: it cannot be written: %s", strerror(error));
    exit(NOT_WRITTEN);
}

static void flush(void)
{
    size_t done = 0;
    while (done < used) {
        ssize_t n = write(STDOUT_FILENO, room + done, used - done);
        if (n >= 0)
            done += (size_t)n;
        else if (errno != EINTR)
            fail(errno);
    }
    used = 0;
}

void out_char(char c)
{
    if (used == sizeof room)
        flush();
    room[used++] = c;
}

void out_text(const char *text)
{
    for (; *text != '\0'; text++)
        out_char(*text);
}

void out_digits(uint64_t number, unsigned base)
{
    char digits[20];
    size_t n = 0;
    do {
        digits[n++] = "0123456789abcdef"[number % base];
        number /= base;
    } while (number != 0);
    while (n > 0)
        out_char(digits[--n]);
}

void out_number(uint64_t number)
{
    out_digits(number, 10);
}

void out_signed(int64_t number)
{
    if (number < 0)
        out_char('-');
    out_digits(number < 0 ? 0 - (uint64_t)number : (uint64_t)number, 10);
}

void out_hex(uint64_t number)
{
    out_text("0x");
    out_digits(number, 16);
}

void out_byte(uint8_t byte)
{
    out_char("0123456789abcdef"[byte / 16]);
    out_char("0123456789abcdef"[byte % 16]);
}

/* Bytes as text. One that is no printable character of ASCII is \xNN, in JSON \u00NN. */
void out_quoted(const uint8_t *bytes, size_t count, bool is_json)
{
    out_char('"');
    for (size_t i = 0; i < count; i++) {
        if (bytes[i] == '"' || bytes[i] == '\\') {
            out_char('\\');
            out_char((char)bytes[i]);
        } else if (bytes[i] >= ' ' && bytes[i] <= '~') {
            out_char((char)bytes[i]);
        } else {
            out_text(is_json ? "\\u00" : "\\x");
            out_byte(bytes[i]);
        }
    }
    out_char('"');
}

/* Some disks say only here that they are full. */
void out_end(void)
{
    flush();
    if (close(STDOUT_FILENO) != 0 && errno != EINTR)
        fail(errno);
}
