/*
 * The library's side of the comparison: takes requests from standard input, makes the calls and writes
 * what they answer to standard output. tests/compare/request.rs says what a request and its answer are.
 *
 * What is lent ends right before memory that may be neither read nor written.
 */
#define _DEFAULT_SOURCE

#include "../c/fields.h"

#include <signal.h>
#include <stdint.h>
#include <stdlib.h>
#include <string.h>
#include <sys/mman.h>
#include <unistd.h>

enum { LENT_BYTES = 65536, GUARD_BYTES = 65536, END = -1, UNWRITTEN = 0xa5 };

static uint8_t requests[65536];
static size_t received, taken;

static uint8_t answers[65536];
static size_t answered;

static uint8_t *bytes_end;
static uint8_t *rows_end;
static struct bruskelde_slots *slots;
static struct bruskelde_held *shown;

static void send_answers(void)
{
    for (size_t sent = 0; sent < answered;) {
        ssize_t count = write(STDOUT_FILENO, answers + sent, answered - sent);
        if (count < 0)
            _Exit(2);
        sent += (size_t)count;
    }
    answered = 0;
}

/* A call reached what was not lent: the answers before it go out, so that the comparison can name it. */
static void on_fault(int signal_number)
{
    (void)signal_number;
    send_answers();
    _Exit(3);
}

static int next_byte(void)
{
    if (taken == received) {
        ssize_t count = read(STDIN_FILENO, requests, sizeof requests);
        if (count <= 0)
            return END;
        received = (size_t)count;
        taken = 0;
    }
    return requests[taken++];
}

static void take(void *number, size_t width)
{
    uint8_t *bytes = number;
    for (size_t i = 0; i < width; i++) {
        int byte = next_byte();
        if (byte == END)
            exit(2);
        bytes[i] = (uint8_t)byte;
    }
}

static inline void give(void *number, size_t width)
{
    if (answered + width > sizeof answers)
        send_answers();
    memcpy(answers + answered, number, width);
    answered += width;
}

static uint64_t take_number(void)
{
    uint64_t number;
    take(&number, sizeof number);
    return number;
}

static void give_number(uint64_t number)
{
    give(&number, sizeof number);
}

/* ---- What is lent */

static uint8_t *guarded_end(void)
{
    uint8_t *area = mmap(NULL, LENT_BYTES + GUARD_BYTES, PROT_READ | PROT_WRITE, MAP_PRIVATE | MAP_ANONYMOUS, -1, 0);
    if (area == MAP_FAILED || mprotect(area + LENT_BYTES, GUARD_BYTES, PROT_NONE) != 0)
        exit(2);
    return area + LENT_BYTES;
}

/* Where nothing is lent, every other time by a null pointer. */
static void *lent_before(uint8_t *end, size_t bytes)
{
    static int null_next;
    if (bytes > LENT_BYTES)
        exit(2);
    if (bytes == 0) {
        null_next = !null_next;
        return null_next ? NULL : end;
    }
    return end - bytes;
}

struct payload {
    uint64_t kind;
    uint64_t size;
    size_t length;
    uint8_t *bytes;
};

static struct payload take_payload(void)
{
    struct payload payload;
    payload.kind = take_number();
    payload.size = take_number();
    payload.length = take_number();
    payload.bytes = lent_before(bytes_end, payload.length);
    take(payload.bytes, payload.length);
    return payload;
}

struct lent_rows {
    size_t length;
    uint64_t *numbers;
};

static struct lent_rows take_rows(void)
{
    struct lent_rows rows;
    rows.length = take_number();
    uint64_t pattern = take_number();
    rows.numbers = lent_before(rows_end, rows.length * sizeof(uint64_t));
    for (size_t i = 0; i < rows.length; i++)
        rows.numbers[i] = pattern + i;
    return rows;
}

static void give_rows(struct lent_rows rows)
{
    for (size_t i = 0; i < rows.length; i++)
        give_number(rows.numbers[i]);
}

/* ---- The calls */

static void call_read(void)
{
    struct payload payload = take_payload();
    struct lent_rows row = take_rows();
    give_number(bruskelde_read(payload.kind, payload.size, payload.bytes, payload.length));
    give_number(bruskelde_fields(payload.kind, payload.size, payload.bytes, payload.length, row.numbers, row.length));
    struct bruskelde_part part = bruskelde_part(payload.kind, payload.size, payload.bytes, payload.length);
    give_number(part.offset);
    give_number(part.length);
    give_rows(row);
}

static void give_slots(void)
{
    each_of_slots(slots, give);
}

static void call_start(void)
{
    bruskelde_start(slots);
    give_number(BRUSKELDE_DONE);
    give_slots();
}

/* Slots that no call made, their padding too. */
static void set_slots(void)
{
    memset(slots, (int)take_number(), sizeof *slots);
    each_of_slots(slots, take);
}

static void call_slot(uint32_t (*function)(struct bruskelde_slots *, uint64_t))
{
    give_number(function(slots, take_number()));
    give_slots();
}

static void call_feed(void)
{
    uint64_t slot = take_number();
    struct payload payload = take_payload();
    struct bruskelde_fed fed = bruskelde_feed(slots, slot, payload.kind, payload.size, payload.bytes, payload.length);
    give_number(fed.number);
    give_number(fed.extension);
    give_slots();
}

static void call_picture(void)
{
    memset(shown, UNWRITTEN, sizeof *shown);
    give_number(bruskelde_picture(slots, take_number(), shown));
    each_of_held(shown, give);
    give_slots();
}

static void call_table(void)
{
    uint64_t slot = take_number();
    struct lent_rows rows = take_rows();
    struct bruskelde_tabled tabled = bruskelde_table(slots, slot, rows.numbers, rows.length);
    give_number(tabled.number);
    give_number(tabled.rows);
    give_rows(rows);
}

int main(void)
{
    bytes_end = guarded_end();
    rows_end = guarded_end();
    slots = (struct bruskelde_slots *)guarded_end() - 1;
    shown = (struct bruskelde_held *)guarded_end() - 1;
    signal(SIGSEGV, on_fault);
    signal(SIGBUS, on_fault);
    bruskelde_start(slots);
    for (int request; (request = next_byte()) != END;) {
        switch (request) {
        case 'r': call_read(); break;
        case 'b': call_start(); break;
        case 'v': set_slots(); break;
        case 'o': call_slot(bruskelde_open); break;
        case 'c': call_slot(bruskelde_close); break;
        case 's': call_slot(bruskelde_sequence); break;
        case 'f': call_feed(); break;
        case 'p': call_picture(); break;
        case 't': call_table(); break;
        case '.': send_answers(); break;
        default: return 2;
        }
    }
    return 0;
}
