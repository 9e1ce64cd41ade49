/*
 * Plays calls from standard input through the C client, and prints what each gives.
 *
 *     play BENCH LIMIT_MS     (BENCH is - for the one in PATH)
 *
 * A line is an event of the bench's text, or `m KIND OCTETS` (a packet to which the client adds the CRC), `W AA OCTETS`,
 * `R AA N` (the I2C calls), `i` (INT_N), `o N` (goes on with model N, 0 to 3, opened at its first use), `x` (closes it),
 * `n N` (as if it had taken N events), `s MS` (sleeps), `c` (closes standard input) or `a` (a signal every millisecond from
 * here on). The client's own file is included for `n` alone.
 */
#include "fusb302.c"

#include <dirent.h>

enum { MODELS = 4, OCTETS = 20000, BUSY_MS = 6000 };

static const char *bench;
static uint32_t limit_ms;
static fusb302 *models[MODELS];
static bool opened[MODELS];
static size_t chosen;
static int before;

static void print_octets(const uint8_t *octets, size_t n)
{
    if (n == 0)
        printf(" -");
    for (size_t i = 0; i < n; i++)
        printf(" %02X", octets[i]);
}

/* The outcome as the bench prints it. */
static void print_outcome(fusb302_status status, const fusb302_outcome *outcome)
{
    if (status != FUSB302_OK) {
        printf("error: %s", fusb302_status_text(status));
        return;
    }
    if (outcome->reply == FUSB302_REFUSED)
        printf("no%d", outcome->number);
    else if (outcome->reply == FUSB302_VALUE)
        printf("=%02X", outcome->value);
    else
        printf("ok");
    printf(" %d", outcome->int_n);
    print_octets(outcome->symbols, outcome->count);
}

static void open_chosen(void)
{
    if (opened[chosen])
        return;
    opened[chosen] = true;
    fusb302_status status = fusb302_open(&models[chosen], strcmp(bench, "-") == 0 ? NULL : bench, limit_ms);
    if (status != FUSB302_OK)
        printf("open: %s: %s\n", fusb302_status_text(status), strerror(errno));
}

static void close_chosen(void)
{
    int64_t begun = now_ms();
    printf("close: %s\n", fusb302_status_text(fusb302_close(models[chosen])));
    if (now_ms() - begun > limit_ms + BUSY_MS)
        printf("close took %ld ms\n", (long)(now_ms() - begun));
    models[chosen] = NULL;
    opened[chosen] = false;
}

/* The numbers of a line, hex or decimal, behind its letter. */
static size_t numbers(const char *text, int base, unsigned long *found, size_t most)
{
    size_t n = 0;
    while (n < most) {
        char *end;
        found[n] = strtoul(text, &end, base);
        if (end == text)
            return n;
        text = end;
        n++;
    }
    return n;
}

/* The octets of a packet or of an I2C call: those behind the first number. */
static size_t octets_behind(const char *text, uint8_t *octets)
{
    static unsigned long found[OCTETS];
    char *rest;
    strtoul(text, &rest, 16);
    size_t n = numbers(rest, 16, found, OCTETS);
    for (size_t i = 0; i < n; i++)
        octets[i] = (uint8_t)found[i];
    return n;
}

static void play_i2c(char letter, const char *text)
{
    static uint8_t octets[OCTETS];
    fusb302_outcome outcome;
    fusb302_status status;
    char *rest;
    uint8_t address = (uint8_t)strtoul(text, &rest, 16);
    if (letter == 'W')
        status = fusb302_i2c_write(models[chosen], address, octets, octets_behind(text, octets), &outcome);
    else
        status = fusb302_i2c_read(models[chosen], address, octets, strtoul(rest, NULL, 10), &outcome);
    print_outcome(status, &outcome);
    printf(" taken %zu", outcome.taken);
    if (letter == 'R')
        print_octets(octets, outcome.taken);
}

static fusb302_status play_packet(char letter, const char *text, fusb302_outcome *outcome)
{
    static uint8_t octets[OCTETS];
    uint32_t kind = (uint32_t)strtoul(text, NULL, 10);
    size_t n = octets_behind(text, octets);
    if (letter == 'm')
        return fusb302_hear_packet(models[chosen], kind, octets, n, outcome);
    return fusb302_hear_packet_with_crc(models[chosen], kind, octets, n, outcome);
}

static fusb302_status play_voltages(const char *text, fusb302_outcome *outcome)
{
    unsigned long mv[3] = {0, 0, 0};
    numbers(text, 10, mv, 3);
    return fusb302_set_pins(models[chosen], (uint16_t)mv[0], (uint16_t)mv[1], (uint16_t)mv[2], outcome);
}

static void play_event(char letter, const char *text)
{
    unsigned long hex[2] = {0, 0};
    fusb302_outcome outcome;
    fusb302_status status;
    numbers(text, 16, hex, 2);
    if (letter == 'w')
        status = fusb302_write(models[chosen], (uint8_t)hex[0], (uint8_t)hex[1], &outcome);
    else if (letter == 'r')
        status = fusb302_read(models[chosen], (uint8_t)hex[0], &outcome);
    else if (letter == 't')
        status = fusb302_pass_time(models[chosen], (uint32_t)strtoul(text, NULL, 10), &outcome);
    else if (letter == 'h')
        status = fusb302_hear_hard_reset(models[chosen], &outcome);
    else if (letter == 'v')
        status = play_voltages(text, &outcome);
    else
        status = play_packet(letter, text, &outcome);
    print_outcome(status, &outcome);
    size_t taken = (letter == 'w' || letter == 'r') && status == FUSB302_OK && outcome.reply != FUSB302_REFUSED;
    if (outcome.taken != taken || fusb302_int_n(models[chosen]) != outcome.int_n)
        printf(" taken %zu, INT_N %d", outcome.taken, fusb302_int_n(models[chosen]));
}

static void interrupted(int number)
{
    (void)number;
}

/* A signal every millisecond, after which no system call goes on by itself. */
static void interrupt(void)
{
    struct sigaction action = {.sa_handler = interrupted};
    struct sigevent by_signal = {.sigev_notify = SIGEV_SIGNAL, .sigev_signo = SIGALRM};
    struct itimerspec every = {.it_value = {0, 1000000}, .it_interval = {0, 1000000}};
    timer_t timer;
    sigaction(SIGALRM, &action, NULL);
    timer_create(CLOCK_MONOTONIC, &by_signal, &timer);
    timer_settime(timer, 0, &every, NULL);
}

static void play(const char *text)
{
    char letter = text[0];
    unsigned long number = letter == '\0' ? 0 : strtoul(text + 1, NULL, 10);
    if (letter == 'o')
        chosen = number % MODELS;
    if (letter == 'c') {
        before -= close(STDIN_FILENO) == 0;
        return;
    }
    if (letter == 'a') {
        interrupt();
        return;
    }
    open_chosen();
    if (letter == 'o')
        return;
    if (letter == 'x') {
        close_chosen();
        return;
    }
    if (letter == 's') {
        poll(NULL, 0, (int)number);
        return;
    }
    if (letter == 'n') {
        models[chosen]->events = (uint32_t)number;
        return;
    }
    if (letter == 'i')
        printf("%d", fusb302_int_n(models[chosen]));
    else if (letter == 'W' || letter == 'R')
        play_i2c(letter, text + 1);
    else
        play_event(letter, text + 1);
    printf("\n");
}

/* How many descriptors this process has open. */
static int descriptors(void)
{
    int found = 0;
    DIR *folder = opendir("/proc/self/fd");
    if (folder == NULL)
        return -1;
    while (readdir(folder) != NULL)
        found++;
    closedir(folder);
    return found;
}

int main(int argc, char **argv)
{
    static char text[4 * OCTETS];
    if (argc != 3)
        return 2;
    bench = argv[1];
    limit_ms = (uint32_t)strtoul(argv[2], NULL, 10);
    before = descriptors();
    struct timespec from;
    struct timespec to;
    clock_gettime(CLOCK_MONOTONIC, &from);
    while (fgets(text, sizeof text, stdin) != NULL)
        play(text);
    clock_gettime(CLOCK_MONOTONIC, &to);
    for (chosen = 0; chosen < MODELS; chosen++)
        if (opened[chosen])
            close_chosen();
    printf("left: %d descriptors, %s\n", descriptors() - before, waitpid(-1, NULL, WNOHANG) < 0 ? "no child" : "a child");
    fprintf(stderr, "%.6f\n", (double)(to.tv_sec - from.tv_sec) + (double)(to.tv_nsec - from.tv_nsec) / 1e9);
    return 0;
}
