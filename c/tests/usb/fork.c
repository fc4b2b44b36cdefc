/* A child of fork, of a process with one thread, uses the library by itself, with what was open and in flight before; the parent goes on
 * as if there were no child. */
#include "scene.h"

#include <pthread.h>
#include <stdatomic.h>
#include <stdio.h>
#include <stdlib.h>
#include <string.h>
#include <sys/wait.h>
#include <unistd.h>

static void read_one(const char *call)
{
    unsigned char data[8] = { 0 };
    int moved = 0, result = libusb_bulk_transfer(handle, 0x81, data, 8, &moved, 1000);
    if (result)
        answer(call, result);
    else
        bytes(call, data, moved);
}

/* The child's own context, and devices of its own. */
static void begin_in_child(void)
{
    libusb_context *own = NULL;
    answer("the child's init", libusb_init(&own));
    libusb_device_handle *other = open_standard(own);
    answer("the child's claim", libusb_claim_interface(other, 0));
    libusb_close(other);
    libusb_exit(own);
}

static void in_child(struct libusb_transfer *transfer)
{
    struct libusb_transfer *more;
    read_one("the child's second read");
    answer("the child's cancel", libusb_cancel_transfer(transfer));
    work();
    more = submit(2, 0x02, 8);
    work();
    took(0x02);
    libusb_release_interface(handle, 0);
    begin_in_child();
    discard(more);
    discard(transfer);
    end();
    exit(0);
}

static void wait_for_child(pid_t child)
{
    int status = 0;
    if (waitpid(child, &status, 0) != child || !WIFEXITED(status))
        say("the child didn't end by itself");
    else
        number("the child's status", WEXITSTATUS(status));
}

static void both(void)
{
    struct libusb_transfer *transfer;
    pid_t child;
    begin("a child, and its parent behind it", "script 0 81 d:01 d:02 d:03\nscript 0 02 a a\n");
    read_one("first read");
    transfer = submit(1, 0x83, 8);
    work();
    fflush(stdout);
    child = fork();
    if (child == 0)
        in_child(transfer);
    wait_for_child(child);
    read_one("the parent's second read");
    number("calls", calls);
    answer("the parent's cancel", libusb_cancel_transfer(transfer));
    work();
    took(0x02);
    read_one("the parent's third read");
    discard(transfer);
    end();
}

static void *handle_until_interrupted(void *is_over)
{
    while (!*(atomic_int *)is_over)
        libusb_handle_events(context);
    return NULL;
}

/* The parent's thread isn't the child's: there nobody handles events, and the child does it itself. */
static void beside_a_thread(void)
{
    static atomic_int is_over;
    pthread_t thread;
    begin("a child of a process with a thread that handles events", "script 0 81 d:05\n");
    pthread_create(&thread, NULL, handle_until_interrupted, &is_over);
    usleep(30000);
    fflush(stdout);
    pid_t child = fork();
    if (child == 0) {
        read_one("the child's read");
        libusb_close(handle);
        libusb_exit(context);
        fflush(stdout);
        _exit(0);
    }
    wait_for_child(child);
    is_over = 1;
    libusb_interrupt_event_handler(context);
    pthread_join(thread, NULL);
    end();
}

static void before_the_library(void)
{
    pid_t child;
    begin_text("a child that begins the library itself", STANDARD);
    end();
    fflush(stdout);
    child = fork();
    if (child == 0) {
        begin("in the child", "script 0 81 d:07\n");
        read_one("read");
        end();
        exit(0);
    }
    wait_for_child(child);
    begin("in the parent", "script 0 81 d:08\n");
    read_one("read");
    end();
}

static int begin_limited(void)
{
    static const char text[] = STANDARD;
    struct tirnouch_options options = { .size = sizeof options, .devices = text, .devices_length = sizeof text - 1, .limit = 600000 };
    return tirnouch_begin(&options);
}

/* So that a thread waits. */
#define MOMENT 100000

/* The thread of a bus's limit is the parent's. The child ends that bus and has others, whose limits end too. */
static void beside_a_limit(void)
{
    puts("a child of a process whose bus has a limit");
    answer("begin", begin_limited());
    usleep(MOMENT);
    fflush(stdout);
    pid_t child = fork();
    if (child == 0) {
        alarm(20);
        for (int i = 0; i < 5; i++) {
            answer("the child's end", tirnouch_end());
            answer("the child's begin", begin_limited());
            usleep(MOMENT);
        }
        fflush(stdout);
        _exit(0);
    }
    wait_for_child(child);
    answer("end", tirnouch_end());
}

int main(void)
{
    both();
    beside_a_limit();
    before_the_library();
    beside_a_thread();
    return 0;
}
