/* Devices that are programs: each is started once, as the bus begins, and asked over a socket that is its standard input and output, a line
 * a question. It has TIRNOUCH_PATIENCE seconds for an answer, 5 where that isn't said. One that ends, is too slow, or answers what wasn't
 * asked is lost: its device is pulled out. */
#include "bus.h"

#include <errno.h>
#include <poll.h>
#include <signal.h>
#include <spawn.h>
#include <stdio.h>
#include <stdlib.h>
#include <string.h>
#include <sys/auxv.h>
#include <sys/socket.h>
#include <sys/syscall.h>
#include <sys/wait.h>
#include <time.h>
#include <unistd.h>

/* The longest line, with what ends it: a request's data take two digits a byte. */
#define MOST_LINE 16384
#define PATIENCE 5.0
#define MOST_PATIENCE 1000000.0
/* How long a program that is told to end may take, in milliseconds; and how often that is looked at where a kernel can't tell it. */
#define FAREWELL 1000
#define GLANCE 5

struct program {
    int socket;                       /* -1 where it is lost */
    pid_t process;                    /* the first of its group; 0 where it isn't ours to end */
    uint64_t patience;                /* in nanoseconds; */
    uint64_t until;                   /* and how long that is for what it is answering */
    bool is_met;                      /* it said that it is ready */
    size_t count;                     /* bytes behind the line that was read last */
    size_t taken;                     /* of that line, with its end */
    char text[MOST_LINE];
};

bool is_running(const struct program *program)
{
    return program->socket >= 0;
}

static uint64_t clock_now(void)
{
    struct timespec it = moment_in(0);
    return (uint64_t)it.tv_sec * 1000000000u + (uint64_t)it.tv_nsec;
}

/* The driver's variables, without those that would give a device a bus of its own. */
static char **variables(void)
{
    size_t count = 0, kept = 0;
    while (environ[count])
        count++;
    char **all = calloc(count + 1, sizeof *all);
    for (size_t i = 0; all && i < count; i++)
        if (strncmp(environ[i], "TIRNOUCH_", 9) && strncmp(environ[i], "LD_PRELOAD=", 11))
            all[kept++] = environ[i];
    return all;
}

/* With signals as at a program's start, in a group of its own: a terminal's interrupt is for the driver, whose end ends its devices. */
static int spawn(struct program *it, int socket, char *words[], char **environment)
{
    posix_spawn_file_actions_t files;
    posix_spawnattr_t attributes;
    sigset_t none, all;
    sigemptyset(&none);
    sigfillset(&all);
    posix_spawn_file_actions_init(&files);
    posix_spawnattr_init(&attributes);
    posix_spawn_file_actions_adddup2(&files, socket, 0);
    posix_spawn_file_actions_adddup2(&files, socket, 1);
    posix_spawnattr_setflags(&attributes, POSIX_SPAWN_SETPGROUP | POSIX_SPAWN_SETSIGMASK | POSIX_SPAWN_SETSIGDEF);
    posix_spawnattr_setpgroup(&attributes, 0);
    posix_spawnattr_setsigmask(&attributes, &none);
    posix_spawnattr_setsigdefault(&attributes, &all);
    int r = posix_spawn(&it->process, "/bin/sh", &files, &attributes, words, environment);
    if (r)
        it->process = 0;
    posix_spawn_file_actions_destroy(&files);
    posix_spawnattr_destroy(&attributes);
    return r;
}

/* By posix_spawn, which calls nothing that is registered for forks: ours would wait for the lock. */
static int start(struct program *it, const char *command, const char *folder)
{
    int pair[2];
    char *words[] = { "sh", "-c", (char *)command, (char *)folder, NULL }, **environment = variables();
    if (!environment)
        return ENOMEM;
    int r = socketpair(AF_UNIX, SOCK_STREAM | SOCK_CLOEXEC, 0, pair) ? errno : 0;
    if (!r) {
        r = spawn(it, pair[1], words, environment);
        close(pair[1]);
        it->socket = pair[0];
    }
    free(environment);
    return r;
}

/* Whether a device's program is lost is told at once, and to the driver where it is asked next. */
static void lose(struct device *device, const char *why)
{
    struct program *it = device->program;
    const char *then = it->is_met ? ": it is pulled out" : " before it said ok";
    tell_failure("device %d: its program %s%s", device->number, why, then);
    trace_comment(device->core, "device %d: its program %s", device->number, why);
    close(it->socket);
    it->socket = -1;
    it->count = it->taken = 0;
}

/* Waits until the socket can be read or written; false where the moment is over before. */
static bool await(const struct program *it, short events, uint64_t until)
{
    struct pollfd poller = { .fd = it->socket, .events = events };
    for (;;) {
        uint64_t moment = clock_now();
        struct timespec left = moment_of(until > moment ? until - moment : 0);
        int r = ppoll(&poller, 1, &left, NULL);
        if (r > 0 || (r < 0 && errno != EINTR))
            return true;
        if (!r && clock_now() >= until)
            return false;
    }
}

/* What is wrong, or NULL. */
static const char *write_line(struct program *it, const char *line, size_t length, uint64_t until)
{
    while (length) {
        ssize_t count = send(it->socket, line, length, MSG_NOSIGNAL | MSG_DONTWAIT);
        if (count > 0) {
            line += count;
            length -= (size_t)count;
        } else if (errno == EAGAIN || errno == EWOULDBLOCK) {
            if (!await(it, POLLOUT, until))
                return "doesn't read what it is asked";
        } else if (errno != EINTR) {
            return "ended";
        }
    }
    return NULL;
}

/* More bytes, where there are some. */
static const char *read_more(struct program *it)
{
    ssize_t count = recv(it->socket, it->text + it->count, sizeof it->text - it->count, MSG_DONTWAIT);
    if (count > 0)
        it->count += (size_t)count;
    else if (!count)
        return it->count ? "ended amid an answer" : "ended";
    else if (errno != EAGAIN && errno != EWOULDBLOCK && errno != EINTR)
        return "ended";
    return NULL;
}

static void forget_line(struct program *it)
{
    it->count -= it->taken;
    memmove(it->text, it->text + it->taken, it->count);
    it->taken = 0;
}

/* The next line, whose end becomes a zero. NULL where there is none, and why. */
static char *read_line(struct program *it, size_t *length, uint64_t until, const char **why)
{
    for (;;) {
        char *end = memchr(it->text, '\n', it->count);
        if (end) {
            *end = 0;
            *length = (size_t)(end - it->text);
            it->taken = *length + 1;
            return it->text;
        }
        if (it->count == sizeof it->text)
            *why = "answered a line that is too long";
        else if (!await(it, POLLIN, until))
            *why = it->count ? "didn't end its answer in time" : "didn't answer in time";
        else
            *why = read_more(it);
        if (*why)
            return NULL;
    }
}

/* Whether it said something before it was asked: then nobody knows what its next line answers. */
static const char *look_unasked(struct program *it)
{
    forget_line(it);
    const char *why = it->count ? NULL : read_more(it);
    return why ? why : it->count ? "answered before it was asked" : NULL;
}

/* The answer to a question, whose end is put behind it here. It stands until the next question. NULL where the program is lost. */
char *ask_line(struct device *device, char *question, size_t length, size_t *answer_length)
{
    struct program *it = device->program;
    if (it->socket < 0)
        return NULL;
    it->until = clock_now() + it->patience;
    const char *why = look_unasked(it);
    char *line = NULL;
    question[length] = '\n';
    if (!why)
        why = write_line(it, question, length + 1, it->until);
    question[length] = 0;
    if (!why)
        line = read_line(it, answer_length, it->until, &why);
    if (!line)
        lose(device, why);
    return line;
}

/* One more line of an answer that has several, all of which come within its time; NULL where the program is lost. */
char *hear_line(struct device *device, size_t *length)
{
    struct program *it = device->program;
    const char *why = NULL;
    forget_line(it);
    char *line = clock_now() < it->until ? read_line(it, length, it->until, &why) : NULL;
    if (!line)
        lose(device, clock_now() < it->until ? why : "didn't come to the end of its lines in time");
    return line;
}

/* What isn't answered. */
void tell_line(struct device *device, const char *line, size_t length)
{
    struct program *it = device->program;
    if (it->socket < 0)
        return;
    const char *why = write_line(it, line, length, clock_now() + it->patience);
    if (!why)
        return;
    lose(device, why);
    if (!device->is_gone)
        pull_out(device);
}

/* TIRNOUCH_PATIENCE in nanoseconds; 0 where it says no time. */
static uint64_t patience(void)
{
    const char *text = getenv("TIRNOUCH_PATIENCE");
    char *end;
    double seconds = text && *text ? strtod(text, &end) : PATIENCE;
    if (text && *text && (*end || !(seconds > 0) || seconds > MOST_PATIENCE))
        return 0;
    return (uint64_t)(seconds * 1e9);
}

/* Why no program is started at all; NULL where they are. */
static const char *why_none(void)
{
    const char *wish = getenv("TIRNOUCH_PROGRAMS");
    if (wish && !strcmp(wish, "no"))
        return "no program is started, by TIRNOUCH_PROGRAMS=no or --no-programs: leave the line out, or allow programs";
    if (wish && *wish && strcmp(wish, "yes"))
        return "TIRNOUCH_PROGRAMS is yes or no, and no program is started by another word";
    if (getauxval(AT_SECURE))
        return "no program is started by one that runs with another's rights (setuid)";
    if (!patience())
        return "TIRNOUCH_PATIENCE is a number of seconds, as 5 or 0.5";
    return NULL;
}

/* What the shell does, in the folder that is its $0: the command may be anything that a shell takes. */
static char *command_of(const struct line *line)
{
    static const char before[] = "cd \"$0\" || exit\n";
    int length;
    const char *words = word_of(line->at, (int)line->length, 2, &length);
    size_t count = (size_t)(line->at + line->length - words);
    char *command = malloc(sizeof before + count);
    if (!command)
        return NULL;
    memcpy(command, before, sizeof before - 1);
    memcpy(command + sizeof before - 1, words, count);
    command[sizeof before - 1 + count] = 0;
    return command;
}

/* The folder of the file of the devices; the driver's own where they are no file's. */
static char *folder_of(const char *name)
{
    const char *end = process.text.at ? NULL : strrchr(name, '/');
    return end ? strndup(name, end == name ? 1 : (size_t)(end - name)) : strdup(".");
}

static int start_by(struct program *it, const struct desk *desk, const struct line *line)
{
    char *command = command_of(line), *folder = folder_of(desk->name);
    int r = command && folder ? start(it, command, folder) : ENOMEM;
    free(command);
    free(folder);
    return r;
}

/* It is started, and says its own lines of the device. */
int begin_program(struct device *device, const struct desk *desk, struct growing *text)
{
    const struct line *line = &desk->commands[device->number];
    const char *why = why_none();
    if (why) {
        complain_of(desk->name, line, -1, why);
        return LIBUSB_ERROR_OTHER;
    }
    struct program *it = calloc(1, sizeof *it);
    if (!it)
        return LIBUSB_ERROR_NO_MEM;
    it->socket = -1;
    it->patience = patience();
    device->program = it;
    int r = start_by(it, desk, line);
    if (r) {
        complain_of(desk->name, line, -1, strerror(r));
        return r == ENOMEM ? LIBUSB_ERROR_NO_MEM : LIBUSB_ERROR_OTHER;
    }
    it->is_met = greet(device, text);
    return it->is_met ? 0 : LIBUSB_ERROR_OTHER;
}

static void hang_up(struct program *it)
{
    if (it->socket >= 0)
        close(it->socket);
    it->socket = -1;
}

/* Whether it ended. It isn't reaped yet, so its number is still its own. */
static bool is_over(const struct program *it)
{
    siginfo_t told = { 0 };
    return waitid(P_PID, (id_t)it->process, &told, WEXITED | WNOHANG | WNOWAIT) || told.si_pid;
}

/* A descriptor that can be read once it ended; -1 where the kernel has none (Linux before 5.3, or a filter of system calls). */
static int watch_end(const struct program *it)
{
#ifdef SYS_pidfd_open
    return (int)syscall(SYS_pidfd_open, it->process, 0);
#else
    (void)it;
    return -1;
#endif
}

/* Until it ended, or that moment. */
static void await_end(const struct program *it, uint64_t until)
{
    struct pollfd poller = { .fd = watch_end(it), .events = POLLIN };
    uint64_t moment;
    while (!is_over(it) && (moment = clock_now()) < until) {
        uint64_t left = until - moment, glance = GLANCE * (uint64_t)MILLISECOND;
        struct timespec wait = moment_of(poller.fd < 0 && glance < left ? glance : left);
        ppoll(&poller, 1, &wait, NULL);
    }
    if (poller.fd >= 0)
        close(poller.fd);
}

/* What of it is left is ended with it: its children too. Where the driver reaps all its children by itself, there is nothing to be reaped. */
static void end_group(struct program *it)
{
    siginfo_t told;
    if (!waitid(P_PID, (id_t)it->process, &told, WEXITED | WNOHANG | WNOWAIT)) {
        kill(-it->process, SIGKILL);
        waitpid(it->process, NULL, 0);
    }
    it->process = 0;
}

/* All are told, and then waited for. */
void stop_programs(void)
{
    uint64_t until = clock_now() + FAREWELL * (uint64_t)MILLISECOND;
    for (int i = 0; i < DEVICES; i++)
        if (process.bus.devices[i]->program)
            hang_up(process.bus.devices[i]->program);
    for (int i = 0; i < DEVICES; i++) {
        struct program *it = process.bus.devices[i]->program;
        if (!it || !it->process)
            continue;
        await_end(it, until);
        end_group(it);
    }
}

/* In a child of fork: the programs answer the parent alone. */
void leave_programs(void)
{
    for (int i = 0; process.bus.is_there && i < DEVICES; i++) {
        struct program *it = process.bus.devices[i]->program;
        if (!it)
            continue;
        hang_up(it);
        it->process = 0;
    }
}

void free_program(struct program *program)
{
    free(program);
}
