/* What tools/tirnouch_run_test.py runs: programs that hang, crash, or fail with some seeds alone. The first word says which. */
#include <libusb.h>
#include <tirnouch.h>

#include <pthread.h>
#include <signal.h>
#include <stdio.h>
#include <stdlib.h>
#include <string.h>
#include <sys/resource.h>
#include <sys/wait.h>
#include <unistd.h>

#define FROM_DEVICE 0x81
#define TO_DEVICE 0x02
#define PACKET 8

static libusb_device_handle *handle;
static pthread_mutex_t first = PTHREAD_MUTEX_INITIALIZER, second = PTHREAD_MUTEX_INITIALIZER;
static unsigned char buffers[2][PACKET];
static int statuses[2] = { -1, -1 };

static void begin(void)
{
    if (libusb_init(NULL))
        exit(10);
    handle = libusb_open_device_with_vid_pid(NULL, 0x1209, 0x0001);
    if (!handle || libusb_claim_interface(handle, 0))
        exit(11);
}

static int end(int status)
{
    libusb_close(handle);
    libusb_exit(NULL);
    return status;
}

static void on_end(struct libusb_transfer *transfer)
{
    *(int *)transfer->user_data = (int)transfer->status;
}

static struct libusb_transfer *read_to(int place)
{
    struct libusb_transfer *transfer = libusb_alloc_transfer(0);
    if (!transfer)
        exit(12);
    libusb_fill_bulk_transfer(transfer, handle, FROM_DEVICE, buffers[place], PACKET, on_end, &statuses[place], 0);
    if (libusb_submit_transfer(transfer))
        exit(13);
    return transfer;
}

static void sleep_for_ever(void)
{
    for (;;)
        pause();
}

static int ends(void)
{
    begin();
    return end(0);
}

/* The device has one packet, and the second read waits for ever. */
static int hangs_in_events(void)
{
    begin();
    read_to(0);
    read_to(1);
    while (!libusb_handle_events(NULL))
        continue;
    return end(18);
}

static int hangs_in_a_loop(void)
{
    begin();
    sleep_for_ever();
    return 0;
}

static int hangs_before(void)
{
    sleep_for_ever();
    return 0;
}

static void *take_both(void *unused)
{
    pthread_mutex_lock(&second);
    usleep(50000);
    pthread_mutex_lock(&first);
    return unused;
}

static int deadlocks(void)
{
    pthread_t thread;
    begin();
    pthread_mutex_lock(&first);
    if (pthread_create(&thread, NULL, take_both, NULL))
        return 14;
    usleep(50000);
    pthread_mutex_lock(&second);
    return 0;
}

static int is_deaf(void)
{
    signal(SIGTERM, SIG_IGN);
    return hangs_in_a_loop();
}

static void no_core(void)
{
    setrlimit(RLIMIT_CORE, &(struct rlimit){ 0, 0 });
}

static int aborts(void)
{
    begin();
    no_core();
    abort();
}

static int crashes(void)
{
    begin();
    no_core();
    return raise(SIGSEGV);
}

/* A child that never calls the library hangs, and its parent waits for it; its number is printed. */
static int forks(void)
{
    pid_t child = fork();
    if (child < 0)
        return 15;
    if (!child) {
        signal(SIGTERM, SIG_IGN);
        sleep_for_ever();
    }
    printf("%ld\n", (long)child);
    fflush(stdout);
    return waitpid(child, NULL, 0) == child ? 0 : 16;
}

static int prints_much(void)
{
    for (int i = 0; i < 200000; i++)
        printf("line %d of much\n", i);
    return 3;
}

/* The planted fault: it takes for granted that a read that is cancelled at once was cancelled. With some seeds the device is quicker. */
static int has_a_race(void)
{
    begin();
    struct libusb_transfer *transfer = read_to(0);
    int refused = libusb_cancel_transfer(transfer);
    while (statuses[0] < 0)
        libusb_handle_events(NULL);
    libusb_free_transfer(transfer);
    if (!refused && statuses[0] != LIBUSB_TRANSFER_CANCELLED)
        printf("the read ended with status %d\n", statuses[0]);
    return end(!refused && statuses[0] != LIBUSB_TRANSFER_CANCELLED ? 3 : 0);
}

/* As before, but it hangs instead. */
static int hangs_by_a_race(void)
{
    return has_a_race() ? hangs_before() : 0;
}

/* Prints the line that it is given, and is interrupted. */
static int reads_a_line(void)
{
    char line[64];
    begin();
    if (!fgets(line, sizeof line, stdin))
        return 17;
    printf("read %s", line);
    fflush(stdout);
    sleep_for_ever();
    return 0;
}

/* Writes two packets, and ends as the word says: by libusb_exit, by exit alone, by _exit, or with a status of its own. */
static int writes(const char *how)
{
    unsigned char first_packet[2] = { 1, 2 }, second_packet[2] = { 3, 4 };
    int moved;
    begin();
    libusb_bulk_transfer(handle, TO_DEVICE, first_packet, 2, &moved, 100);
    libusb_bulk_transfer(handle, TO_DEVICE, second_packet, 2, &moved, 100);
    if (!strcmp(how, "leaves"))
        _exit(0);
    if (!strcmp(how, "exits"))
        exit(0);
    return end(!strcmp(how, "fails") ? 7 : 0);
}

/* Reads once at an endpoint, into so much room, and ends with a status. */
static int gets_one(const char *ep, int room, int status)
{
    unsigned char data[64];
    int moved;
    begin();
    libusb_bulk_transfer(handle, (unsigned char)strtoul(ep, NULL, 16), data, room, &moved, 100);
    return end(status);
}

static void hang_within(struct libusb_transfer *transfer)
{
    (void)transfer;
    sleep_for_ever();
}

static int hangs_in_a_callback(void)
{
    begin();
    struct libusb_transfer *transfer = libusb_alloc_transfer(0);
    libusb_fill_bulk_transfer(transfer, handle, FROM_DEVICE, buffers[0], PACKET, hang_within, NULL, 0);
    libusb_submit_transfer(transfer);
    return libusb_handle_events(NULL);
}

static int never_answer(void *user, uint8_t ep, uint8_t *data, int length)
{
    (void)user, (void)ep, (void)data, (void)length;
    sleep_for_ever();
    return 0;
}

/* Where the library is linked that has such functions. */
static int hangs_in_a_function(void)
{
    unsigned char data[8];
    int moved, answer = 0;
    tirnouch_on_packet(0, 0x81, never_answer, NULL);
    begin();
    while (!answer)
        answer = libusb_bulk_transfer(handle, FROM_DEVICE, data, sizeof data, &moved, 0);
    return answer;
}

/* Frees a read behind its callback, or behind its cancel alone, which libusb's manual forbids; and ends, or fails. */
static int frees(const char *when, int status)
{
    begin();
    struct libusb_transfer *transfer = read_to(0);
    libusb_cancel_transfer(transfer);
    while (!strcmp(when, "behind") && statuses[0] < 0)
        libusb_handle_events(NULL);
    libusb_free_transfer(transfer);
    return end(status);
}

int main(int count, char **words)
{
    static const struct {
        const char *name;
        int (*run)(void);
    } all[] = {
        { "ends", ends }, { "events", hangs_in_events }, { "loop", hangs_in_a_loop }, { "before", hangs_before },
        { "deadlock", deadlocks }, { "deaf", is_deaf }, { "aborts", aborts }, { "crashes", crashes }, { "forks", forks },
        { "much", prints_much }, { "race", has_a_race }, { "hanging-race", hangs_by_a_race }, { "reads", reads_a_line },
        { "callback", hangs_in_a_callback }, { "function", hangs_in_a_function },
    };
    for (size_t i = 0; count > 1 && i < sizeof all / sizeof all[0]; i++)
        if (!strcmp(words[1], all[i].name))
            return all[i].run();
    if (count > 2 && !strcmp(words[1], "writes"))
        return writes(words[2]);
    if (count > 4 && !strcmp(words[1], "gets"))
        return gets_one(words[2], atoi(words[3]), atoi(words[4]));
    if (count > 2 && !strcmp(words[1], "frees"))
        return frees(words[2], count > 3 ? atoi(words[3]) : 0);
    return count > 2 ? atoi(words[2]) : 2;
}
