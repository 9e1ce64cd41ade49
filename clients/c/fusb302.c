/* The model of the FUSB302B as a conversation with the bench: a line for each event, and a line of answer to each. */
#define _POSIX_C_SOURCE 200809L

#include "fusb302.h"

#include <errno.h>
#include <fcntl.h>
#include <poll.h>
#include <pthread.h>
#include <signal.h>
#include <spawn.h>
#include <stdbool.h>
#include <stdio.h>
#include <stdlib.h>
#include <string.h>
#include <sys/types.h>
#include <sys/wait.h>
#include <time.h>
#include <unistd.h>

extern char **environ;

enum {
    LINE = 256,              /* the longest line of the bench, its LF among it */
    DECIMAL_MOST = 9999999,  /* the largest decimal of the bench's text, and so the most events */
    FRAME_SYMBOLS = 73,
    SYMBOL_MOST = 0x1F,
    NUMBER_MOST = 11, /* the bench always lends enough symbols, and so never says 12 */
    CRC_OCTETS = 4,
    MESSAGE_MOST = 30,
    PACKET_MOST = MESSAGE_MOST + CRC_OCTETS,
    PORT = 0x43,
    DEFAULT_LIMIT_MS = 5000
};

struct fusb302 {
    pid_t bench;
    int input;        /* where the bench's input is written */
    int input_kept;   /* its other end: while it is open here, no write meets a pipe without a reader, and SIGPIPE never comes */
    int output;
    uint32_t limit_ms;
    uint32_t events;
    int int_n;
    fusb302_status status;
};

/* One call: until when it may take, and where its outcome goes. */
typedef struct {
    fusb302 *model;
    int64_t until;
    fusb302_outcome *outcome;
} call;

/* A line for the bench, as far as it is written. */
typedef struct {
    char text[LINE];
    size_t length;
} line;

const char *fusb302_status_text(fusb302_status status)
{
    switch (status) {
    case FUSB302_OK: return "ok";
    case FUSB302_NOT_STARTED: return "the bench cannot be started";
    case FUSB302_ENDED: return "the model ended";
    case FUSB302_OUT_OF_FORM: return "the model answered out of form";
    case FUSB302_SILENT: return "the model did not answer within the time limit";
    case FUSB302_TOO_MANY_EVENTS: return "more than 9,999,999 events";
    case FUSB302_NOT_OPEN: return "no model is open";
    }
    return "no status";
}

/* Time limits */

static int64_t now_ms(void)
{
    struct timespec now;
    clock_gettime(CLOCK_MONOTONIC, &now);
    return (int64_t)now.tv_sec * 1000 + now.tv_nsec / 1000000;
}

/* Whether the descriptor became ready for `events` before the time was up. */
static bool ready(int descriptor, short events, int64_t until)
{
    for (;;) {
        int64_t left = until - now_ms();
        int wait = left < 0 ? 0 : left > 60000 ? 60000 : (int)left;
        struct pollfd end = {.fd = descriptor, .events = events};
        int found = poll(&end, 1, wait);
        if (found > 0)
            return true;
        if (left <= 0 && (found == 0 || errno != EINTR))
            return false;
    }
}

/* The conversation */

/* A short line goes into a pipe whole or not at all; it waits only for a bench that does not read. */
static fusb302_status send_text(const fusb302 *model, const char *text, size_t length, int64_t until)
{
    while (write(model->input, text, length) < 0) {
        if (errno == EAGAIN) {
            if (!ready(model->input, POLLOUT, until))
                return FUSB302_SILENT;
        } else if (errno != EINTR) {
            return FUSB302_ENDED;
        }
    }
    return FUSB302_OK;
}

/* A line that nobody asked for would be taken for the answer to the next event. */
static fusb302_status nothing_unasked(const fusb302 *model)
{
    struct pollfd end = {.fd = model->output, .events = POLLIN};
    char octet;
    int found;
    do
        found = poll(&end, 1, 0);
    while (found < 0 && errno == EINTR);
    if (found <= 0)
        return FUSB302_OK;
    return read(model->output, &octet, 1) > 0 ? FUSB302_OUT_OF_FORM : FUSB302_ENDED;
}

/* One line of answer; its LF is the last of `length` octets. What came and is no line is out of form. */
static fusb302_status receive_line(const fusb302 *model, int64_t until, char answer[LINE], size_t *length)
{
    size_t held = 0;
    while (held < LINE) {
        if (!ready(model->output, POLLIN, until))
            return held > 0 ? FUSB302_OUT_OF_FORM : FUSB302_SILENT;
        ssize_t got = read(model->output, answer + held, LINE - held);
        if (got < 0 && errno == EINTR)
            continue;
        if (got <= 0)
            return held > 0 ? FUSB302_OUT_OF_FORM : FUSB302_ENDED;
        held += (size_t)got;
        const char *end = memchr(answer, '\n', held);
        if (end != NULL) {
            *length = held;
            return end + 1 == answer + held ? FUSB302_OK : FUSB302_OUT_OF_FORM;
        }
    }
    return FUSB302_OUT_OF_FORM;
}

/* Answers. Each function takes its part from the front of the text, or answers false. */

static bool take_word(const char **at, const char *word)
{
    size_t length = strlen(word);
    if (strncmp(*at, word, length) != 0)
        return false;
    *at += length;
    return true;
}

static bool take_nibble(const char **at, uint8_t *nibble)
{
    char digit = **at;
    if (digit >= '0' && digit <= '9')
        *nibble = (uint8_t)(digit - '0');
    else if (digit >= 'A' && digit <= 'F')
        *nibble = (uint8_t)(digit - 'A' + 10);
    else
        return false;
    *at += 1;
    return true;
}

static bool take_octet(const char **at, uint8_t *octet)
{
    uint8_t high;
    uint8_t low;
    if (!take_nibble(at, &high) || !take_nibble(at, &low))
        return false;
    *octet = (uint8_t)(high << 4 | low);
    return true;
}

/* A number of no: 1 to 11, in as many digits as it needs. */
static bool take_number(const char **at, uint8_t *number)
{
    unsigned found = 0;
    if (**at == '0')
        return false;
    while (**at >= '0' && **at <= '9' && found <= NUMBER_MOST) {
        found = found * 10 + (unsigned)(**at - '0');
        *at += 1;
    }
    *number = (uint8_t)found;
    return found >= 1 && found <= NUMBER_MOST;
}

static bool take_reply(const char **at, bool is_read, fusb302_outcome *outcome)
{
    if (take_word(at, "no")) {
        outcome->reply = FUSB302_REFUSED;
        return take_number(at, &outcome->number);
    }
    if (is_read) {
        outcome->reply = FUSB302_VALUE;
        return take_word(at, "=") && take_octet(at, &outcome->value);
    }
    outcome->reply = FUSB302_DONE;
    return take_word(at, "ok");
}

static bool take_level(const char **at, int *level)
{
    if (**at != '0' && **at != '1')
        return false;
    *level = **at - '0';
    *at += 1;
    return true;
}

/* The symbols that left go behind those of the call's events before. */
static bool take_symbols(const char **at, fusb302_outcome *outcome)
{
    size_t before = outcome->count;
    if (take_word(at, " -"))
        return true;
    while (take_word(at, " ")) {
        uint8_t symbol;
        if (!take_octet(at, &symbol) || symbol > SYMBOL_MOST)
            return false;
        if (outcome->count == FUSB302_SYMBOLS || outcome->count - before == FRAME_SYMBOLS)
            return false;
        outcome->symbols[outcome->count] = symbol;
        outcome->count += 1;
    }
    return outcome->count > before;
}

static bool take_answer(const char *text, size_t length, bool is_read, fusb302_outcome *outcome)
{
    const char *at = text;
    return take_reply(&at, is_read, outcome) && take_word(&at, " ") && take_level(&at, &outcome->int_n) &&
           take_symbols(&at, outcome) && at + 1 == text + length;
}

/* Events */

/* The outcome of a call of which nothing is answered yet. */
static call begin(fusb302 *model, fusb302_outcome *outcome, fusb302_outcome *unread)
{
    call begun = {.model = model, .outcome = outcome != NULL ? outcome : unread};
    *begun.outcome = (fusb302_outcome){.reply = FUSB302_DONE, .int_n = fusb302_int_n(model)};
    if (model != NULL)
        begun.until = now_ms() + model->limit_ms;
    return begun;
}

static fusb302_status status_of(const fusb302 *model)
{
    return model != NULL ? model->status : FUSB302_NOT_OPEN;
}

static fusb302_status converse(const call *now, const line *asked, bool is_read)
{
    const fusb302 *model = now->model;
    char answer[LINE];
    size_t length = 0;
    fusb302_status status = now_ms() > now->until ? FUSB302_SILENT : nothing_unasked(model);
    if (status == FUSB302_OK)
        status = send_text(model, asked->text, asked->length, now->until);
    if (status == FUSB302_OK)
        status = receive_line(model, now->until, answer, &length);
    if (status != FUSB302_OK)
        return status;
    fusb302_outcome answered = *now->outcome;
    if (!take_answer(answer, length, is_read, &answered))
        return FUSB302_OUT_OF_FORM;
    *now->outcome = answered;
    return FUSB302_OK;
}

/* One event of a call: its line and its answer. An error stays in the model. */
static fusb302_status event(const call *now, const line *asked, bool is_read)
{
    fusb302 *model = now->model;
    if (status_of(model) != FUSB302_OK)
        return status_of(model);
    if (model->events == DECIMAL_MOST) {
        model->status = FUSB302_TOO_MANY_EVENTS;
        return model->status;
    }
    model->events += 1;
    model->status = converse(now, asked, is_read);
    model->int_n = now->outcome->int_n;
    return model->status;
}

static void put_text(line *made, const char *text)
{
    size_t length = strlen(text);
    memcpy(made->text + made->length, text, length);
    made->length += length;
}

static void put_octet(line *made, uint8_t octet)
{
    static const char digits[] = "0123456789ABCDEF";
    made->text[made->length++] = ' ';
    made->text[made->length++] = digits[octet >> 4];
    made->text[made->length++] = digits[octet & 0xF];
}

/* A decimal. One that is too large for the bench's text is refused like the largest that is not. */
static void put_decimal(line *made, uint32_t number)
{
    char digits[16];
    snprintf(digits, sizeof digits, " %lu", (unsigned long)(number < DECIMAL_MOST ? number : DECIMAL_MOST));
    put_text(made, digits);
}

static fusb302_status write_event(const call *now, uint8_t address, uint8_t value)
{
    line asked = {.length = 0};
    put_text(&asked, "w");
    put_octet(&asked, address);
    put_octet(&asked, value);
    put_text(&asked, "\n");
    fusb302_status status = event(now, &asked, false);
    if (status == FUSB302_OK && now->outcome->reply == FUSB302_DONE)
        now->outcome->taken += 1;
    return status;
}

static fusb302_status read_event(const call *now, uint8_t address)
{
    line asked = {.length = 0};
    put_text(&asked, "r");
    put_octet(&asked, address);
    put_text(&asked, "\n");
    fusb302_status status = event(now, &asked, true);
    if (status == FUSB302_OK && now->outcome->reply == FUSB302_VALUE)
        now->outcome->taken += 1;
    return status;
}

fusb302_status fusb302_write(fusb302 *model, uint8_t address, uint8_t value, fusb302_outcome *outcome)
{
    fusb302_outcome unread;
    call now = begin(model, outcome, &unread);
    return write_event(&now, address, value);
}

fusb302_status fusb302_read(fusb302 *model, uint8_t address, fusb302_outcome *outcome)
{
    fusb302_outcome unread;
    call now = begin(model, outcome, &unread);
    return read_event(&now, address);
}

fusb302_status fusb302_pass_time(fusb302 *model, uint32_t microseconds, fusb302_outcome *outcome)
{
    fusb302_outcome unread;
    call now = begin(model, outcome, &unread);
    line asked = {.length = 0};
    put_text(&asked, "t");
    put_decimal(&asked, microseconds);
    put_text(&asked, "\n");
    return event(&now, &asked, false);
}

fusb302_status fusb302_hear_packet_with_crc(fusb302 *model, uint32_t kind, const uint8_t *octets, size_t n,
                                            fusb302_outcome *outcome)
{
    fusb302_outcome unread;
    call now = begin(model, outcome, &unread);
    line asked = {.length = 0};
    put_text(&asked, "p");
    put_decimal(&asked, kind);
    /* One octet too many is refused like any more, and the line stays short. */
    for (size_t i = 0; i < n && i <= PACKET_MOST; i++)
        put_octet(&asked, octets[i]);
    put_text(&asked, "\n");
    return event(&now, &asked, false);
}

static uint32_t crc_32(const uint8_t *octets, size_t n)
{
    uint32_t crc = 0xFFFFFFFFU;
    for (size_t i = 0; i < n; i++) {
        crc ^= octets[i];
        for (int bit = 0; bit < 8; bit++)
            crc = (crc & 1) != 0 ? crc >> 1 ^ 0xEDB88320U : crc >> 1;
    }
    return ~crc;
}

fusb302_status fusb302_hear_packet(fusb302 *model, uint32_t kind, const uint8_t *message, size_t n, fusb302_outcome *outcome)
{
    uint8_t packet[PACKET_MOST + 1];
    size_t length = 0;
    /* One octet too many is refused like any more. */
    for (; length < n && length <= MESSAGE_MOST; length++)
        packet[length] = message[length];
    uint32_t crc = crc_32(packet, length);
    for (size_t i = 0; i < CRC_OCTETS; i++)
        packet[length + i] = (uint8_t)(crc >> 8 * i);
    return fusb302_hear_packet_with_crc(model, kind, packet, length + CRC_OCTETS, outcome);
}

fusb302_status fusb302_hear_hard_reset(fusb302 *model, fusb302_outcome *outcome)
{
    fusb302_outcome unread;
    call now = begin(model, outcome, &unread);
    line asked = {.length = 0};
    put_text(&asked, "h\n");
    return event(&now, &asked, false);
}

fusb302_status fusb302_set_pins(fusb302 *model, uint16_t cc1_mv, uint16_t cc2_mv, uint16_t vbus_mv, fusb302_outcome *outcome)
{
    fusb302_outcome unread;
    call now = begin(model, outcome, &unread);
    line asked = {.length = 0};
    put_text(&asked, "v");
    put_decimal(&asked, cc1_mv);
    put_decimal(&asked, cc2_mv);
    put_decimal(&asked, vbus_mv);
    put_text(&asked, "\n");
    return event(&now, &asked, false);
}

/* The address of the octet after this one: the FIFO port stays (004, note 10). */
static uint8_t next_address(uint8_t address)
{
    return address == PORT ? PORT : (uint8_t)(address + 1);
}

fusb302_status fusb302_i2c_write(fusb302 *model, uint8_t address, const uint8_t *octets, size_t n, fusb302_outcome *outcome)
{
    fusb302_outcome unread;
    call now = begin(model, outcome, &unread);
    fusb302_status status = status_of(model);
    while (status == FUSB302_OK && now.outcome->reply != FUSB302_REFUSED && now.outcome->taken < n) {
        status = write_event(&now, address, octets[now.outcome->taken]);
        address = next_address(address);
    }
    return status;
}

fusb302_status fusb302_i2c_read(fusb302 *model, uint8_t address, uint8_t *octets, size_t n, fusb302_outcome *outcome)
{
    fusb302_outcome unread;
    call now = begin(model, outcome, &unread);
    fusb302_status status = status_of(model);
    while (status == FUSB302_OK && now.outcome->reply != FUSB302_REFUSED && now.outcome->taken < n) {
        size_t before = now.outcome->taken;
        status = read_event(&now, address);
        if (now.outcome->taken > before)
            octets[before] = now.outcome->value;
        address = next_address(address);
    }
    return status;
}

int fusb302_int_n(const fusb302 *model)
{
    return model != NULL ? model->int_n : 1;
}

/* Opening and closing */

/* The ends of two pipes, or -1. */
typedef struct {
    int input_read;
    int input_write;
    int output_read;
    int output_write;
} ends;

static void shut(int *descriptor)
{
    if (*descriptor >= 0)
        close(*descriptor);
    *descriptor = -1;
}

/* Moves an end above standard error, where the bench's own are put, and out of the reach of other programs. */
static int kept_apart(int *end)
{
    int moved = fcntl(*end, F_DUPFD_CLOEXEC, STDERR_FILENO + 1);
    int error = moved < 0 ? errno : 0;
    shut(end);
    *end = moved;
    return error;
}

static int make_pipe(int *read_end, int *write_end)
{
    int both[2];
    if (pipe(both) != 0)
        return errno;
    *read_end = both[0];
    *write_end = both[1];
    int error = kept_apart(read_end);
    return error != 0 ? error : kept_apart(write_end);
}

/* A group of its own: a key that interrupts the caller leaves the bench alone, and what it starts ends with it. */
static int set_attributes(posix_spawnattr_t *attributes)
{
    sigset_t none;
    sigset_t pipe_alone;
    sigemptyset(&none);
    sigemptyset(&pipe_alone);
    sigaddset(&pipe_alone, SIGPIPE);
    int error = posix_spawnattr_setsigmask(attributes, &none);
    if (error == 0)
        error = posix_spawnattr_setsigdefault(attributes, &pipe_alone);
    if (error == 0)
        error = posix_spawnattr_setpgroup(attributes, 0);
    if (error == 0)
        error = posix_spawnattr_setflags(attributes, POSIX_SPAWN_SETSIGMASK | POSIX_SPAWN_SETSIGDEF | POSIX_SPAWN_SETPGROUP);
    return error;
}

static int spawn_with(const posix_spawnattr_t *attributes, pid_t *child, const char *bench, const ends *pipes)
{
    char name[] = "bench";
    char *const arguments[] = {name, NULL};
    posix_spawn_file_actions_t actions;
    int error = posix_spawn_file_actions_init(&actions);
    if (error != 0)
        return error;
    error = posix_spawn_file_actions_adddup2(&actions, pipes->input_read, STDIN_FILENO);
    if (error == 0)
        error = posix_spawn_file_actions_adddup2(&actions, pipes->output_write, STDOUT_FILENO);
    if (error == 0 && bench != NULL)
        error = posix_spawn(child, bench, &actions, attributes, arguments, environ);
    else if (error == 0)
        error = posix_spawnp(child, name, &actions, attributes, arguments, environ);
    posix_spawn_file_actions_destroy(&actions);
    return error;
}

static int spawn(pid_t *child, const char *bench, const ends *pipes)
{
    posix_spawnattr_t attributes;
    int error = posix_spawnattr_init(&attributes);
    if (error != 0)
        return error;
    error = set_attributes(&attributes);
    if (error == 0)
        error = spawn_with(&attributes, child, bench, pipes);
    posix_spawnattr_destroy(&attributes);
    return error;
}

/* Starts the bench; the ends that are the model's own stay open. */
static int start(fusb302 *model, const char *bench)
{
    ends pipes = {-1, -1, -1, -1};
    int error = make_pipe(&pipes.input_read, &pipes.input_write);
    if (error == 0)
        error = make_pipe(&pipes.output_read, &pipes.output_write);
    if (error == 0 && fcntl(pipes.input_write, F_SETFL, O_NONBLOCK) != 0)
        error = errno;
    if (error == 0)
        error = spawn(&model->bench, bench, &pipes);
    shut(&pipes.output_write);
    if (error != 0) {
        shut(&pipes.input_read);
        shut(&pipes.input_write);
        shut(&pipes.output_read);
        return error;
    }
    model->input = pipes.input_write;
    model->input_kept = pipes.input_read;
    model->output = pipes.output_read;
    return 0;
}

/* One start at a time: the bench of another thread must not inherit ends that are not yet kept apart. */
static int start_alone(fusb302 *model, const char *bench)
{
    static pthread_mutex_t starting = PTHREAD_MUTEX_INITIALIZER;
    pthread_mutex_lock(&starting);
    int error = start(model, bench);
    pthread_mutex_unlock(&starting);
    return error;
}

fusb302_status fusb302_open(fusb302 **model, const char *bench, uint32_t limit_ms)
{
    /* No setup writes, and as many events as the text can promise. */
    static const char counts[] = "0\n9999999\n";
    *model = NULL;
    fusb302 *opened = malloc(sizeof *opened);
    if (opened == NULL)
        return FUSB302_NOT_STARTED;
    *opened = (fusb302){.limit_ms = limit_ms != 0 ? limit_ms : DEFAULT_LIMIT_MS, .int_n = 1, .status = FUSB302_OK};
    int error = start_alone(opened, bench);
    if (error != 0) {
        free(opened);
        errno = error;
        return FUSB302_NOT_STARTED;
    }
    opened->status = send_text(opened, counts, sizeof counts - 1, now_ms() + opened->limit_ms);
    if (opened->status != FUSB302_OK)
        return fusb302_close(opened);
    *model = opened;
    return FUSB302_OK;
}

/* Whether the bench ended before the time was up. */
static bool ended(pid_t bench, int64_t until)
{
    for (;;) {
        pid_t found = waitpid(bench, NULL, WNOHANG);
        if (found == bench || (found < 0 && errno != EINTR))
            return true;
        if (now_ms() >= until)
            return false;
        poll(NULL, 0, 1);
    }
}

fusb302_status fusb302_close(fusb302 *model)
{
    fusb302_status status = status_of(model);
    if (model == NULL)
        return status;
    bool in_step = status == FUSB302_OK || status == FUSB302_TOO_MANY_EVENTS;
    shut(&model->input);
    shut(&model->input_kept);
    shut(&model->output);
    /* The end of its input ends the bench; what is out of step is not waited for, and neither is what it started. */
    if (!in_step)
        kill(-model->bench, SIGKILL);
    if (!ended(model->bench, in_step ? now_ms() + model->limit_ms : 0)) {
        kill(-model->bench, SIGKILL);
        kill(model->bench, SIGKILL);
        while (waitpid(model->bench, NULL, 0) < 0 && errno == EINTR)
            continue;
        if (status == FUSB302_OK)
            status = FUSB302_SILENT;
    }
    free(model);
    return status;
}
