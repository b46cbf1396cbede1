/* Reads messages from a pipe as they arrive, and prints the offset, the length and the fault of each.
 *
 *     cc read_pipe.c -lbufr -o read_pipe && ./read_pipe TABLE_B TABLE_D < PIPE
 */
#include <stdio.h>
#include <stdlib.h>
#include <string.h>
#include <unistd.h>

#include "bufr.h"

/* Returns the contents of a file, which the caller must free, or null if the file cannot be read. */
static uint8_t *contents(const char *name, size_t *length) {
    FILE *file = fopen(name, "rb");
    size_t room = 1 << 22; /* larger than any table */
    uint8_t *octets = (uint8_t *)malloc(room);
    *length = file && octets ? fread(octets, 1, room, file) : 0;
    if (!file || !octets || ferror(file)) {
        fprintf(stderr, "cannot read %s\n", name);
        free(octets);
        octets = NULL;
    }
    if (file)
        fclose(file);
    return octets;
}

/* Prints the messages in the input, whose first octet is at the offset `base` of the pipe. Sets *taken to the number of
 * octets that are not needed again. If the pipe has not ended, a message may still be incomplete, and the first octets of
 * the word BUFR may be at the end. */
static int32_t print_messages(const struct bufr_input *input, unsigned long long base, int has_ended, size_t *taken) {
    static struct bufr_message messages[1024];
    static struct bufr_item items[1];
    static uint8_t texts[1];
    struct bufr_rows rows = {items, 1, texts, 1, messages, 1024, {0, 0}};
    struct bufr_counts counts = {0, 0, 0, 0, 0, 0, 0, 0};
    int32_t status;
    size_t i;

    *taken = 0;
    do {
        status = bufr_items(input, &rows, &counts);
        for (i = 0; i < counts.messages; i++) {
            const struct bufr_message *message = &messages[i];
            if (message->fault == BUFR_FAULT_CUT && !has_ended)
                return BUFR_DONE;
            *taken = message->offset + message->length;
            printf("offset=%llu length=%llu fault=%d\n", base + message->offset, (unsigned long long)message->length,
                   message->fault);
        }
    } while (status == BUFR_NO_ROOM);
    if (has_ended)
        *taken = input->octets_length;
    else if (input->octets_length > *taken + 3)
        *taken = input->octets_length - 3;
    return status;
}

int main(int count, char **words) {
    static const uint16_t nothing[1] = {0xFFFF}; /* no element has this descriptor, so there are no items */
    struct bufr_input input = {0};
    size_t room = 1 << 20, length = 0, taken;
    unsigned long long base = 0;
    uint8_t *table_b = NULL, *table_d = NULL, *stream = (uint8_t *)malloc(room), *larger;
    int32_t status = BUFR_OUT_OF_MEMORY;
    ssize_t got = 1;

    if (count != 3) {
        fprintf(stderr, "usage: %s TABLE_B TABLE_D < PIPE\n", words[0]);
        free(stream);
        return 2;
    }
    input.wanted = nothing;
    input.wanted_length = 1;
    if (stream && (input.table_b = table_b = contents(words[1], &input.table_b_length)) &&
        (input.table_d = table_d = contents(words[2], &input.table_d_length)))
        status = BUFR_DONE;
    while (status == BUFR_DONE && got > 0) {
        if (length == room) { /* a message is longer than the buffer; none is longer than 16 MB */
            larger = (uint8_t *)realloc(stream, room *= 2);
            if (!larger) {
                status = BUFR_OUT_OF_MEMORY;
                break;
            }
            stream = larger;
        }
        got = read(0, stream + length, room - length);
        if (got < 0) {
            perror("read");
            break;
        }
        length += (size_t)got;
        input.octets = stream;
        input.octets_length = length;
        status = print_messages(&input, base, got == 0, &taken);
        fflush(stdout);
        memmove(stream, stream + taken, length - taken);
        length -= taken;
        base += taken;
    }
    if (status != BUFR_DONE)
        fprintf(stderr, "status %d\n", (int)status);
    free(stream);
    free(table_b);
    free(table_d);
    return status != BUFR_DONE || got < 0;
}
