/* The capture: a file that tirnouch-record has begun, to which each process of the run appends its records, each by one write. Nothing is
 * kept back, so whatever ends a process, what it moved before stands there. */
#include "record.h"

#include <errno.h>
#include <fcntl.h>
#include <pthread.h>
#include <stdio.h>
#include <stdlib.h>
#include <string.h>
#include <sys/stat.h>
#include <sys/uio.h>
#include <unistd.h>

static pthread_mutex_t one = PTHREAD_MUTEX_INITIALIZER;
static struct {
    const char *name;   /* NULL where nothing is recorded */
    const char *faults; /* the pipe by which tirnouch-record hears what went wrong */
    bool keeps_strings, is_over;
    int file;
    dev_t file_device;
    ino_t file_number;
    uint32_t count;
    bool is_one_device;
    unsigned vendor, product;
} capture = { .file = -1 };

void lock(void)
{
    pthread_mutex_lock(&one);
}

void unlock(void)
{
    pthread_mutex_unlock(&one);
}

__attribute__((constructor)) static void begin(void)
{
    const char *device = getenv("TIRNOUCH_RECORD_DEVICE");
    capture.name = getenv("TIRNOUCH_RECORD");
    capture.faults = getenv("TIRNOUCH_RECORD_FAULTS");
    capture.keeps_strings = !getenv("TIRNOUCH_RECORD_NO_STRINGS");
    capture.is_one_device = device && sscanf(device, "%4x:%4x", &capture.vendor, &capture.product) == 2;
    pthread_atfork(lock, unlock, unlock);
}

bool is_recording(void)
{
    return capture.name != NULL;
}

bool is_wanted(uint16_t vendor, uint16_t product)
{
    return is_recording() && (!capture.is_one_device || (vendor == capture.vendor && product == capture.product));
}

bool wants_strings(void)
{
    return capture.keeps_strings;
}

/* Tells it to whoever looks at the run, and to tirnouch-record, which gives the run another status. */
void tell_fault(const char *what, const char *why)
{
    char line[512];
    int length = snprintf(line, sizeof line, "tirnouch-record: %s: %s\n", what, why);
    size_t whole = (size_t)length < sizeof line ? (size_t)length : sizeof line - 1;
    int file = capture.faults ? open(capture.faults, O_WRONLY | O_NONBLOCK | O_CLOEXEC) : -1;
    ssize_t told = write(STDERR_FILENO, line, whole);
    if (file >= 0) {
        told = write(file, line, whole);
        close(file);
    }
    (void)told;
}

/* Ids differ from process to process, also in a child of fork. */
uint64_t new_ids(uint32_t count)
{
    lock();
    uint64_t id = ((uint64_t)getpid() << 32) + capture.count + 1;
    capture.count += count;
    unlock();
    return id;
}

/* A program may close all files that it doesn't know, and open others in their place. */
static bool is_open(void)
{
    struct stat seen;
    return capture.file >= 0 && !fstat(capture.file, &seen) && seen.st_dev == capture.file_device && seen.st_ino == capture.file_number;
}

static bool open_capture(void)
{
    struct stat seen;
    capture.file = open(capture.name, O_WRONLY | O_APPEND | O_CLOEXEC);
    if (capture.file < 0 || fstat(capture.file, &seen))
        return false;
    capture.file_device = seen.st_dev;
    capture.file_number = seen.st_ino;
    return true;
}

/* One write, and another where a signal or a full disk cut it. */
static bool append(const uint8_t *head, size_t head_length, const uint8_t *data, size_t length)
{
    struct iovec parts[2] = { { (void *)head, head_length }, { (void *)data, length } };
    ssize_t count;
    do
        count = writev(capture.file, parts, length ? 2 : 1);
    while (count < 0 && errno == EINTR);
    for (size_t done = count < 0 ? 0 : (size_t)count; count >= 0 && done < head_length + length; done += count < 0 ? 0 : (size_t)count) {
        const uint8_t *rest = done < head_length ? head + done : data + (done - head_length);
        count = write(capture.file, rest, done < head_length ? head_length - done : length - (done - head_length));
    }
    return count >= 0;
}

void write_record(const uint8_t *head, size_t head_length, const uint8_t *data, size_t length)
{
    lock();
    bool was_over = capture.is_over;
    if (!was_over)
        capture.is_over = !(is_open() || open_capture()) || !append(head, head_length, data, length);
    bool is_over = capture.is_over;
    int error = errno;
    unlock();
    if (is_over && !was_over) {
        tell_fault(capture.name, strerror(error));
        tell_fault(capture.name, "the recording ends here; the program goes on");
    }
}
