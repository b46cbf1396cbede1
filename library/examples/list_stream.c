/* Lists the messages in a file, as `bufr ls` does.
 *
 *     cc list_stream.c -lbufr -o list_stream && ./list_stream FILE
 */
#include <stdio.h>
#include <stdlib.h>

#include "bufr.h"

/* Returns the contents of a file, which the caller must free, or null if the file cannot be read. */
static uint8_t *contents(const char *name, size_t *length) {
    FILE *file = fopen(name, "rb");
    size_t room = 1 << 16;
    uint8_t *octets = (uint8_t *)malloc(room), *larger;
    *length = 0;
    while (file && octets) {
        *length += fread(octets + *length, 1, room - *length, file);
        if (*length < room)
            break;
        room *= 2;
        larger = (uint8_t *)realloc(octets, room);
        if (!larger)
            free(octets);
        octets = larger;
    }
    if (!file || !octets || ferror(file)) {
        fprintf(stderr, "cannot read %s\n", name);
        free(octets);
        octets = NULL;
    }
    if (file)
        fclose(file);
    return octets;
}

int main(int count, char **words) {
    static uint8_t lines[1 << 16], faults[1 << 16]; /* large enough for any line */
    struct bufr_texts texts = {0, 0, 0, 0, 0, 0, 0, 0};
    size_t length;
    uint8_t *stream;
    int32_t status;

    if (count != 2) {
        fprintf(stderr, "usage: %s FILE\n", words[0]);
        return 2;
    }
    stream = contents(words[1], &length);
    if (!stream)
        return 1;
    do {
        /* Each call continues at texts.at, where the previous call stopped. */
        status = bufr_list(stream, length, lines, sizeof lines, faults, sizeof faults, &texts);
        fwrite(lines, 1, texts.output_length, stdout);
        fwrite(faults, 1, texts.errors_length, stderr);
    } while (status == BUFR_NO_ROOM);
    free(stream);
    if (status != BUFR_DONE)
        fprintf(stderr, "status %d\n", (int)status);
    return status != BUFR_DONE;
}
