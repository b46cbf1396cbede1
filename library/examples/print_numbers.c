/* Prints the numbers in the messages of a file, as `bufr dump` does.
 *
 *     cc print_numbers.c -lbufr -o print_numbers && ./print_numbers TABLE_B TABLE_D FILE
 */
#include <stdio.h>
#include <stdlib.h>

#include "bufr.h"

/* Returns the contents of a file, which the caller must free, or null if the file cannot be read. */
static uint8_t *contents(const char *name, size_t *length) {
    FILE *file = fopen(name, "rb");
    size_t room = 1 << 16;
    uint8_t *octets = (uint8_t *)malloc(room), *larger;
    *length = 0;
    while (file && octets) {
        *length += fread(octets + *length, 1, room - *length, file);
        if (*length < room)
            break;
        room *= 2;
        larger = (uint8_t *)realloc(octets, room);
        if (!larger)
            free(octets);
        octets = larger;
    }
    if (!file || !octets || ferror(file)) {
        fprintf(stderr, "cannot read %s\n", name);
        free(octets);
        octets = NULL;
    }
    if (file)
        fclose(file);
    return octets;
}

/* For each descriptor, the position in Table B of the element's name and unit. */
static const uint8_t *elements[1 << 16];

/* Finds the elements. Each line of B.csv begins with a descriptor, such as 012101, and a comma. */
static void find_elements(const uint8_t *table, const uint8_t *end) {
    const uint8_t *at;
    for (at = table; end - at > 7; at++)
        if (at > table && at[-1] == '\n' && at[6] == ',') {
            long fxy = strtol((const char *)at, NULL, 10);
            elements[BUFR_FXY(fxy / 100000, fxy / 1000 % 100, fxy % 1000)] = at + 7;
        }
}

/* Prints a field of B.csv without its quotes. Returns the position of the next field. */
static const uint8_t *print_field(const uint8_t *at, const uint8_t *end) {
    int quoted = 0;
    for (; at < end && (quoted || (*at != ',' && *at != '\n')); at++)
        if (*at != '"')
            putchar(*at);
        else if ((quoted = !quoted) && at[-1] == '"')
            putchar('"'); /* inside quotes, two quotes stand for one */
    return at < end ? at + 1 : end;
}

/* Prints value / 10^scale exactly. */
static void print_number(int64_t value, int scale) {
    char digits[1024]; /* every scale is below 1,000 */
    int length, point;
    if (scale <= 0) {
        printf("%lld", (long long)value);
        for (; value && scale < 0; scale++)
            putchar('0');
        return;
    }
    length = snprintf(digits, sizeof digits, "%0*llu", scale + 1, value < 0 ? 0ULL - (unsigned long long)value : (unsigned long long)value);
    point = length - scale;
    printf("%s%.*s.%s", value < 0 ? "-" : "", point, digits, digits + point);
}

/* Prints a line for each number. */
static void print_items(const struct bufr_input *input, const struct bufr_item *item, size_t items) {
    const uint8_t *end = input->table_b + input->table_b_length;
    for (; items > 0; items--, item++)
        if (item->kind == BUFR_NUMBER) {
            const uint8_t *name = elements[item->fxy];
            printf("%d%02d%03d ", item->fxy >> 14, item->fxy >> 8 & 63, item->fxy & 255);
            print_number(item->value, item->scale);
            if (name) {
                fputs("  # ", stdout);
                name = print_field(name, end);
                fputs(" [", stdout);
                print_field(name, end);
                putchar(']');
            }
            putchar('\n');
        }
}

/* Prints a line for each rejected message and each stray. */
static void print_faults(const struct bufr_message *message, size_t messages) {
    for (; messages > 0; messages--, message++)
        if (message->fault != BUFR_FAULT_NONE)
            fprintf(stderr, "offset %llu: fault %d\n", (unsigned long long)message->offset, message->fault);
}

/* Makes room for the next message. If a buffer is too small, at least doubles its size, so that later messages are likely to
 * fit too. Returns 0 if there is not enough memory. */
static int grow(struct bufr_rows *rows, const struct bufr_counts *counts) {
    if (counts->items_needed > rows->items_room) {
        size_t room = counts->items_needed > 2 * rows->items_room ? counts->items_needed : 2 * rows->items_room;
        void *items = realloc(rows->items, room * sizeof *rows->items);
        if (!items)
            return 0;
        rows->items = (struct bufr_item *)items;
        rows->items_room = room;
    }
    if (counts->octets_needed > rows->texts_room) {
        size_t room = counts->octets_needed > 2 * rows->texts_room ? counts->octets_needed : 2 * rows->texts_room;
        void *texts = realloc(rows->texts, room);
        if (!texts)
            return 0;
        rows->texts = (uint8_t *)texts;
        rows->texts_room = room;
    }
    return 1;
}

int main(int count, char **words) {
    static struct bufr_message messages[256];
    static const uint16_t all[1] = {0}; /* pointers must not be null, even if the length is 0 */
    struct bufr_input input = {0};
    struct bufr_rows rows = {0};
    struct bufr_counts counts = {0, 0, 0, 0, 0, 0, 0, 0};
    uint8_t *table_b = NULL, *table_d = NULL, *stream = NULL;
    int32_t status = BUFR_OUT_OF_MEMORY;

    if (count != 4) {
        fprintf(stderr, "usage: %s TABLE_B TABLE_D FILE\n", words[0]);
        return 2;
    }
    rows.items_room = rows.texts_room = 1 << 16;
    rows.items = (struct bufr_item *)malloc(rows.items_room * sizeof *rows.items);
    rows.texts = (uint8_t *)malloc(rows.texts_room);
    rows.messages = messages;
    rows.messages_room = 256;
    input.wanted = all;
    if (rows.items && rows.texts && (input.table_b = table_b = contents(words[1], &input.table_b_length)) &&
        (input.table_d = table_d = contents(words[2], &input.table_d_length)) &&
        (input.octets = stream = contents(words[3], &input.octets_length))) {
        find_elements(table_b, table_b + input.table_b_length);
        do {
            /* Each call continues at counts.at, where the previous call stopped. */
            status = bufr_items(&input, &rows, &counts);
            print_items(&input, rows.items, counts.items);
            print_faults(messages, counts.messages);
        } while (status == BUFR_NO_ROOM && grow(&rows, &counts));
        if (status != BUFR_DONE)
            fprintf(stderr, "status %d\n", (int)status);
    }
    free(rows.items);
    free(rows.texts);
    free(table_b);
    free(table_d);
    free(stream);
    return status != BUFR_DONE;
}
