/* Devices that compute their answers: functions of the program's, and devices that are programs. bus.h includes this file.
 *
 * A function, or a program, is asked for the answer to a packet just before it is served. The answer goes behind the endpoint's script and
 * is served, in one hold of the lock: so the run is as if it had stood there from the beginning. */
#ifndef LIVING_H
#define LIVING_H

#include "bus.h"

/* The most bytes of a packet's answer, and of a request's. */
#define MOST_PACKET 2048
#define MOST_REQUEST 4096
#define MILLISECOND 1000000u

/* A line of a text, without what ends it. */
struct line {
    const char *at;
    size_t length;
    uint64_t number;                  /* from 1 on */
};

/* The devices of a text, as a person wrote it: which have a core of their own, are programs, come back as others. */
struct desk {
    struct text text;
    const char *name;
    int count;                        /* of the devices that it has */
    bool has_own, has_returns;
    bool has_expected;                /* some line may say what is expected of the driver */
    bool is_own[DEVICES];
    struct line commands[DEVICES];    /* the line of a program; of no length for none */
    int successors[DEVICES];          /* -1 for none */
    int there[DEVICES];               /* its number in the core that is shared; -1 for none */
};

/* A text that grows. */
struct growing {
    char *at;
    size_t length, room;
    bool failed;                      /* memory was refused */
};

/* complaints.c: which line of a text isn't taken, and why */
void complain(struct text text, struct text shown, const char *before_name, const char *name, size_t before);
void complain_of(const char *name, const struct line *line, int word, const char *why);
void append_quoted(struct sentence *it, const char *text, int length);
void tell_failure(const char *format, ...) __attribute__((format(printf, 1, 2)));

/* desk.c: whose line is whose */
bool next_line(struct text *left, struct line *line);
const char *word_of(const char *line, int length, uint32_t index, int *word_length);
int device_of_line(const struct line *line);
bool begins(const struct line *line, const char *word);
int read_desk(struct desk *desk);
void grow(struct growing *text, const char *bytes, size_t length);
struct text text_of(const struct growing *it);
void free_text(struct text *text);
void write_lines(struct growing *to, struct text text, const int there[DEVICES], const struct device *rests);

/* inserted.c: bytes of files that a text names */
int insert_files(struct text *text, const char *name, const char *file);

/* sessions.c: a device's own core */
int begin_own_core(struct device *device, const struct desk *desk);
void end_own_core(struct device *device);
void renew_where_full(struct pipe *pipe);
int come_alive(struct device *device);
int plug_in(struct device *device);
void leave_by_itself(struct device *device);

/* living.c: functions are asked */
bool ask_device(struct pipe *pipe);
bool may_be_asked(const struct pipe *pipe);
void tell_device(struct device *device, enum tirnouch_event event, int number);
int end_halts(struct device *device);
int ask_for_request(struct device *device, const uint8_t *setup, uint8_t *data, int length);
void learn_living(struct device *device);
void ask_at_once(struct device *device);

/* asking.c: a function that is asked may call nothing here, nor may a signal's handler amid a call */
void forget_own_number(void);
void begin_asking(int device, const char *of, uint8_t ep);
void end_asking(void);
void write_who_is_asked(int file);

/* program.c: devices that are programs, and the lines that go to and fro */
int begin_program(struct device *device, const struct desk *desk, struct growing *text);
void stop_programs(void);
void leave_programs(void);
void free_program(struct program *program);
bool is_running(const struct program *program);
char *ask_line(struct device *device, char *question, size_t length, size_t *answer_length);
char *hear_line(struct device *device, size_t *length);
void tell_line(struct device *device, const char *line, size_t length);

/* answers.c: what a program is asked, and answers */
bool greet(struct device *device, struct growing *text);
int ask_program(struct device *device, uint8_t ep, uint8_t *data, int length);
int ask_program_for_request(struct device *device, const uint8_t *setup, uint8_t *data, int length);
void tell_program(struct device *device, enum tirnouch_event event, int number);

#endif
