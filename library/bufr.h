/* bufr.h: functions that list, dump, encode and read FM 94 BUFR messages in memory.
 *
 * docs/library.md shows how to start, and describes each function.
 *
 * You must ensure the following, because the functions do not check any of it:
 * - No pointer is null or misaligned, even if its length is 0.
 * - Each pointer points to at least as many values as its length says.
 * - Before the first call, every member of bufr_texts or bufr_counts is 0, except that you can set `at` to the offset at
 *   which to begin. In every structure, the members called `reserved` are 0.
 * - No output buffer overlaps an input or another output buffer.
 * - During a call, no other thread changes the inputs or uses the output buffers.
 * - malloc, realloc and free belong to the same allocator.
 * - The calling thread has at least 120 KiB of stack, and is not in a signal handler.
 *
 * The functions have no state, so several threads can call them at the same time, each with its own buffers. A function
 * allocates memory with malloc and realloc, and frees all of it before it returns.
 *
 * Each call writes from the start of its output buffers. An octet is a byte. Offsets and indices count from 0.
 */
#ifndef BUFR_H
#define BUFR_H

#include <stddef.h>
#include <stdint.h>

#ifdef __cplusplus
extern "C" {
#endif

/* The version of this header: 1,000,000 * major + 1,000 * minor + patch. */
#define BUFR_VERSION 1000

/* The descriptor F XX YYY as a number. For example, BUFR_FXY(0, 12, 101) is temperature. */
#define BUFR_FXY(f, x, y) ((uint16_t)(16384 * (f) + 256 * (x) + (y)))

/* The status that a function returns. */
enum bufr_status {
    BUFR_DONE = 0,           /* The call reached the end of the input or, in bufr_encode, an invalid document. */
    BUFR_OUT_OF_MEMORY = 73,
    BUFR_NO_ROOM = 74,       /* The output for the next message does not fit. Use the output, and call again. */
    BUFR_UNKNOWN_FORM = 75,  /* bufr_encode: bufr_input.form is not a value of enum bufr_form. */
    /* Table B is invalid. */
    BUFR_TABLE_B_HEADER = 40,
    BUFR_TABLE_B_ROW = 41,
    BUFR_TABLE_B_DUPLICATE = 42,
    BUFR_TABLE_B_CSV = 45,
    /* Table D is invalid. */
    BUFR_TABLE_D_HEADER = 140,
    BUFR_TABLE_D_ROW = 141,
    BUFR_TABLE_D_DUPLICATE = 142,
    BUFR_TABLE_D_CYCLE = 143,  /* A sequence contains itself. */
    BUFR_TABLE_D_SIZE = 144,   /* The table has more than 65,536 rows. */
    BUFR_TABLE_D_CSV = 145
};

/* Why a message was rejected, or is a stray. A fault line contains the same number. */
enum bufr_fault {
    BUFR_FAULT_NONE = 0,                  /* The message was accepted. */
    BUFR_FAULT_CUT = 1,                   /* The input ends before the message does. */
    BUFR_FAULT_SHORT_LENGTH = 2,          /* The declared length is less than 12 octets. */
    BUFR_FAULT_NO_END = 3,                /* There is no 7777 at the declared end. */
    BUFR_FAULT_EDITION = 10,              /* The edition is not 3 or 4. */
    BUFR_FAULT_SECTION_SHORT = 11,        /* A section is shorter than its minimum length. */
    BUFR_FAULT_SECTION_PAST_END = 12,     /* A section extends past the end of the message. */
    BUFR_FAULT_SECTIONS_DO_NOT_MEET = 13, /* Section 4 does not end where the 7777 begins. */
    BUFR_FAULT_EDITION_3_LENGTH = 14,     /* An edition 3 message might be too long to re-encode. */
    BUFR_FAULT_UNKNOWN_ELEMENT = 20,      /* An element is not in Table B. */
    BUFR_FAULT_UNKNOWN_SEQUENCE = 21,     /* A sequence is not in Table D. */
    BUFR_FAULT_OPERATOR = 22,             /* An operator or its operand is not supported. */
    BUFR_FAULT_GROUP_SHAPE = 23,          /* A replication repeats no descriptors, or more than follow it. */
    BUFR_FAULT_NO_FACTOR = 24,            /* A delayed replication has no replication factor. */
    BUFR_FAULT_EMPTY_GROUP = 25,          /* A replication or the whole list contains no data. */
    BUFR_FAULT_DEPTH = 26,                /* Replications and sequences are nested too deeply. */
    BUFR_FAULT_TEMPLATE_SIZE = 27,        /* The expanded descriptor list is too long. */
    BUFR_FAULT_LOCAL_SHAPE = 28,          /* 2 06 Y is not followed by an element. */
    BUFR_FAULT_DATA_END = 30,             /* Section 4 ends in the middle of an item. */
    BUFR_FAULT_WIDTH = 31,                /* The width of a field is less than 1 bit or more than 63 bits. */
    BUFR_FAULT_DEFINING = 32,             /* Not allowed while 2 03 Y is redefining reference values. */
    BUFR_FAULT_UNEQUAL_FACTOR = 33,       /* A compressed replication factor differs between subsets. */
    BUFR_FAULT_INCREMENT = 34,            /* The increments of compressed data are invalid. */
    BUFR_FAULT_TOO_MANY_VALUES = 35       /* Compressed data contains too many values. */
};

/* The form of the data that bufr_encode writes. */
enum bufr_form {
    BUFR_AS_WRITTEN = 0, /* the form that each document specifies */
    BUFR_PLAIN = 1,
    BUFR_COMPRESSED = 2
};

/* The input of bufr_dump, bufr_encode and bufr_items. */
struct bufr_input {
    const uint8_t *octets; /* the stream or, for bufr_encode, the text */
    size_t octets_length;
    const uint8_t *table_b; /* the contents of B.csv in a table set */
    size_t table_b_length;
    const uint8_t *table_d; /* the contents of D.csv in the same set */
    size_t table_d_length;
    const uint16_t *wanted; /* for bufr_items: the descriptors of the items that you want */
    size_t wanted_length;   /* 0: you want all items */
    uint64_t form;          /* for bufr_encode: a value of enum bufr_form */
    uint64_t reserved[7];   /* 0 */
};

/* The progress of bufr_list, bufr_dump and bufr_encode. */
struct bufr_texts {
    size_t at;            /* where the call begins in the input; afterwards, where the next call continues */
    size_t output_length; /* octets written to the first buffer */
    size_t errors_length; /* octets written to the second buffer */
    size_t output_needed; /* after BUFR_NO_ROOM: octets that the next message needs in the first buffer */
    size_t errors_needed; /* after BUFR_NO_ROOM: octets that it needs in the second buffer */
    uint64_t accepted;    /* messages that this call accepted */
    uint64_t refused;     /* messages that this call rejected, and strays that it found */
    uint64_t reserved;    /* 0 */
};

/* Returns the version of the library, in the form of BUFR_VERSION. */
uint32_t bufr_version(void);

/* Writes the output of `bufr ls`: a line for each message to `lines`, and a line for each fault to `faults`. */
int32_t bufr_list(const uint8_t *octets, size_t octets_length, uint8_t *lines, size_t lines_room, uint8_t *faults,
                  size_t faults_room, struct bufr_texts *texts);

/* Writes the output of `bufr dump`: each accepted message to `text`, and a line for each fault to `faults`. */
int32_t bufr_dump(const struct bufr_input *input, uint8_t *text, size_t text_room, uint8_t *faults, size_t faults_room,
                  struct bufr_texts *texts);

/* Writes the output of `bufr encode`: the messages to `messages`. The first invalid document ends the encoding, and its
 * fault line goes to `faults`. If the whole output does not fit, the function writes nothing, and output_needed and
 * errors_needed say how much room the whole output needs. */
int32_t bufr_encode(const struct bufr_input *input, uint8_t *messages, size_t messages_room, uint8_t *faults,
                    size_t faults_room, struct bufr_texts *texts);

/* The kind of an item. */
enum bufr_kind {
    BUFR_MISSING = 0,
    BUFR_NUMBER = 1,    /* value / 10^scale, in the unit of the element */
    BUFR_TEXT = 2,      /* a string: the octets that begin at texts[value] */
    BUFR_REFERENCE = 3, /* a reference value that the data define (operator 2 03 Y) */
    BUFR_WIDE = 4       /* a number that does not fit in 64 bits: divide the 128-bit two's-complement integer in the 16
                           octets that begin at texts[value] (little-endian) by 10^scale */
};

/* An item: a value in the data of a message. */
struct bufr_item { /* 24 octets */
    int64_t value;
    uint32_t message; /* the index of the item's message in the rows of this call */
    uint32_t length;  /* for BUFR_TEXT and BUFR_WIDE: the number of octets */
    uint16_t subset;  /* the number of the subset, from 1 */
    uint16_t fxy;     /* the descriptor, in the form of BUFR_FXY */
    int16_t scale;
    uint8_t kind;     /* a value of enum bufr_kind */
    uint8_t reserved; /* 0 */
};

/* A message, or a stray: the word BUFR where no message begins. */
struct bufr_message { /* 64 octets */
    uint64_t offset;  /* where the message begins in the stream */
    uint64_t length;  /* the length in octets; 4 for a stray */
    size_t first;     /* the index of the first item */
    size_t items;     /* the number of items; 0 if the message was rejected */
    uint16_t centre;
    uint16_t subcentre;
    uint16_t year; /* in edition 3, the year of the century, 0 to 100 */
    uint16_t subsets;
    uint8_t fault;   /* a value of enum bufr_fault */
    uint8_t edition; /* 3 or 4. If the header cannot be read, it is 0, like `centre` to `subsets` and all members below. */
    uint8_t master;
    uint8_t update;
    uint8_t category;
    uint8_t subcategory;
    uint8_t local_subcategory;
    uint8_t master_version;
    uint8_t local_version;
    uint8_t month;
    uint8_t day;
    uint8_t hour;
    uint8_t minute;
    uint8_t second;
    uint8_t observed;   /* 1 or 0 */
    uint8_t compressed; /* 1 or 0 */
    uint64_t reserved;  /* 0 */
};

/* The output buffers of bufr_items. Each `room` is the number of rows or octets that fit into the buffer before it. */
struct bufr_rows {
    struct bufr_item *items;
    size_t items_room;
    uint8_t *texts; /* for the octets of strings and wide numbers */
    size_t texts_room;
    struct bufr_message *messages;
    size_t messages_room;
    uint64_t reserved[2]; /* 0 */
};

/* The progress of bufr_items. */
struct bufr_counts {
    size_t at;              /* where the call begins in the stream; afterwards, where the next call continues */
    size_t items;           /* rows written to `items` */
    size_t octets;          /* octets written to `texts` */
    size_t messages;        /* rows written to `messages` */
    size_t items_needed;    /* after BUFR_NO_ROOM: rows that the next message needs in `items` */
    size_t octets_needed;   /* after BUFR_NO_ROOM: octets that it needs in `texts` */
    size_t messages_needed; /* after BUFR_NO_ROOM: rows that it needs in `messages`, which is 1 */
    uint64_t reserved;      /* 0 */
};

/* Reads the values of messages. Writes a row for each wanted item to rows->items, the octets of strings to rows->texts, and
 * a row for each message or stray to rows->messages. A rejected message has no items. */
int32_t bufr_items(const struct bufr_input *input, const struct bufr_rows *rows, struct bufr_counts *counts);

#ifdef __cplusplus
}
#endif
#endif
