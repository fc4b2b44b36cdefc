/* A CH341A with a serial flash behind it, a Winbond W25Q80, for a program that is started with this as LD_PRELOAD. The variable CHIP names
 * the file of the flash's bytes, which is made where it isn't there: zeros.
 *
 * The flash's commands are those of its data sheet (W25Q80BV, 7.2): a byte goes in and a byte comes out, while it is selected. What the
 * CH341A makes of its packets is as flashrom's ch341a_spi.c has it: behind a8 bytes for SPI, each with its bits in reverse; behind ab the
 * pins, of which the lowest one, while it is high, selects nothing. */
#include "tirnouch.h"

#include <fcntl.h>
#include <stdbool.h>
#include <stdio.h>
#include <stdlib.h>
#include <string.h>
#include <sys/mman.h>
#include <unistd.h>

#define SIZE (1u << 20)
#define PAGE 256
#define SPI_STREAM 0xa8
#define PINS_STREAM 0xab
#define OUT_ENDPOINT 0x02
#define IN_ENDPOINT 0x82
/* Of a packet that is read. */
#define MOST_READ 31
/* How often the status says that the flash is busy, behind an erasure or a page. */
#define BUSY_READS 2

enum command {
    PAGE_PROGRAM = 0x02, READ_DATA = 0x03, WRITE_DISABLE = 0x04, READ_STATUS_1 = 0x05, WRITE_ENABLE = 0x06, READ_STATUS_2 = 0x35,
    ERASE_SECTOR = 0x20, ERASE_HALF_BLOCK = 0x52, ERASE_CHIP = 0x60, JEDEC_ID = 0x9f, ERASE_CHIP_TOO = 0xc7, ERASE_BLOCK = 0xd8,
};

/* The flash: its bytes, what came since it was selected, whether it may be written, and how often it says yet that it is busy. */
static struct {
    uint8_t *data;
    uint8_t head[4];
    unsigned count;
    bool is_enabled;
    unsigned busy;
} flash;

/* What came out, and wasn't read yet. */
static struct {
    uint8_t bytes[1 << 16];
    unsigned first, count;
} queue;

static unsigned address(void)
{
    return ((unsigned)flash.head[1] << 16 | (unsigned)flash.head[2] << 8 | flash.head[3]) % SIZE;
}

static void erase(unsigned size)
{
    memset(flash.data + address() / size * size, 0xff, size);
}

/* Carries out what was sent, as far as it needs the flash to be enabled: behind that it isn't. */
static void write_or_erase(void)
{
    switch (flash.head[0]) {
    case ERASE_SECTOR: erase(4096); break;
    case ERASE_HALF_BLOCK: erase(32768); break;
    case ERASE_BLOCK: erase(65536); break;
    case ERASE_CHIP:
    case ERASE_CHIP_TOO: memset(flash.data, 0xff, SIZE); break;
    case PAGE_PROGRAM: break;
    default: return;
    }
    flash.is_enabled = false;
    flash.busy = BUSY_READS;
}

static void deselect(void)
{
    if (flash.count && flash.head[0] == WRITE_ENABLE)
        flash.is_enabled = true;
    else if (flash.count && flash.head[0] == WRITE_DISABLE)
        flash.is_enabled = false;
    else if (flash.count && flash.is_enabled)
        write_or_erase();
    flash.count = 0;
}

static uint8_t status(void)
{
    uint8_t is_busy = flash.busy > 0;
    flash.busy -= is_busy;
    return (uint8_t)(is_busy | flash.is_enabled << 1);
}

/* A byte of a page clears bits; behind the page's end comes its beginning. */
static void program(unsigned n, uint8_t byte)
{
    unsigned at = address() / PAGE * PAGE + (address() + n) % PAGE;
    if (flash.is_enabled)
        flash.data[at] &= byte;
}

/* A byte goes in, and one comes out. */
static uint8_t exchange(uint8_t byte)
{
    static const uint8_t id[] = { 0xef, 0x40, 0x14 };
    unsigned n = flash.count++;
    if (n < sizeof flash.head)
        flash.head[n] = byte;
    if (!n)
        return 0xff;
    switch (flash.head[0]) {
    case JEDEC_ID: return id[(n - 1) % sizeof id];
    case READ_STATUS_1: return status();
    case READ_STATUS_2: return 0;
    case READ_DATA: return n < 4 ? 0xff : flash.data[(address() + n - 4) % SIZE];
    case PAGE_PROGRAM:
        if (n >= 4)
            program(n - 4, byte);
        return 0xff;
    default: return 0xff;
    }
}

static uint8_t reversed(uint8_t byte)
{
    uint8_t r = 0;
    for (int i = 0; i < 8; i++)
        r = (uint8_t)(r << 1 | (byte >> i & 1));
    return r;
}

static int take(void *user, uint8_t endpoint, uint8_t *data, int length)
{
    (void)user;
    (void)endpoint;
    for (int i = 1; i < length && data[0] == SPI_STREAM; i++) {
        if (queue.count == sizeof queue.bytes)
            return TIRNOUCH_BROKEN;
        queue.bytes[(queue.first + queue.count++) % sizeof queue.bytes] = reversed(exchange(reversed(data[i])));
    }
    for (int i = 1; i < length && data[0] == PINS_STREAM; i++)
        if ((data[i] & 0xc1) == 0x81)
            deselect();
    return 0;
}

static int give(void *user, uint8_t endpoint, uint8_t *data, int length)
{
    int count = 0;
    (void)user;
    (void)endpoint;
    if (!queue.count)
        return TIRNOUCH_NOT_READY;
    for (; queue.count && count < MOST_READ && count < length; queue.count--) {
        data[count++] = queue.bytes[queue.first];
        queue.first = (queue.first + 1) % sizeof queue.bytes;
    }
    return count;
}

__attribute__((constructor)) static void begin(void)
{
    const char *name = getenv("CHIP");
    int file = name ? open(name, O_RDWR | O_CREAT | O_CLOEXEC, 0666) : -1;
    void *at = file < 0 || ftruncate(file, SIZE) ? MAP_FAILED : mmap(NULL, SIZE, PROT_READ | PROT_WRITE, MAP_SHARED, file, 0);
    if (file >= 0)
        close(file);
    if (at == MAP_FAILED) {
        fprintf(stderr, "chip.so: CHIP names no file that can be written: name one, as CHIP=chip.bin\n");
        exit(1);
    }
    flash.data = at;
    tirnouch_on_packet(0, OUT_ENDPOINT, take, NULL);
    tirnouch_on_packet(0, IN_ENDPOINT, give, NULL);
}
