/* Drawn messages of all lengths, packed into units of several sizes and into units of one size, and sealed under a key. It
   writes the files messages, units, packed, sealed and key, of which the program idsm makes the messages again (c/check).

       sealed_units FOLDER NUMBER */
#include <stdio.h>
#include <stdlib.h>
#include <string.h>

#include "idsm_c.h"

enum { SIZE = 1400, START = 7, ROOM = 1 << 18 };

static int failures, checks;
static uint8_t out[ROOM];

static void expect(const char *what, uint64_t wanted, uint64_t got)
{
    checks++;
    if (wanted != got && failures++ < 20)
        printf("%s: %llu and not %llu\n", what, (unsigned long long)got, (unsigned long long)wanted);
}

/* Bytes that nothing has written to. */
static void expect_filled(const char *what, const uint8_t *from, size_t count)
{
    size_t other = 0;
    for (size_t i = 0; i < count; i++)
        other += from[i] != 0xa5;
    expect(what, 0, other);
}

static uint32_t drawn(void)
{
    static uint32_t state = 1;
    state = state * 1664525u + 1013904223u;
    return state >> 8;
}

/* Writes a message of either version: one of two has a timestamp, three of four have a context, few of them a long one. */
static size_t draw_message(uint8_t *at)
{
    uint32_t parts = drawn(), version = 1 + (parts >> 4) % 2, has_context = parts % 4 > 0, has_stamp = (parts >> 2) % 2;
    size_t length = has_stamp ? 16 : 8, most = drawn() % 128 == 0 ? 1024 : 47, context = drawn() % (most + 1);
    for (size_t i = 1; i < length; i++)
        at[i] = (uint8_t)drawn();
    at[0] = (uint8_t)(version << 4 | has_stamp << 1 | has_context);
    if (!has_context)
        return length;
    if (context > 127) {
        at[length++] = 0x80;
        at[length++] = 0;
        at[length++] = (uint8_t)(context >> 8);
    }
    at[length++] = (uint8_t)context;
    for (size_t i = 0; i < context; i++)
        at[length++] = (uint8_t)drawn();
    return length;
}

static FILE *opened(const char *folder, const char *name)
{
    char path[4096];
    snprintf(path, sizeof path, "%s/%s", folder, name);
    FILE *file = fopen(path, "wb");
    if (file == NULL)
        exit(2);
    return file;
}

static void put(FILE *file, const uint8_t *from, size_t count)
{
    expect("bytes of a file", count, fwrite(from, 1, count, file));
}

/* Packs messages into units of these sizes, one after the other. Where the first message is longer, one of 1,400 takes it. */
static size_t pack(FILE *file, const uint16_t *sizes, size_t number, const uint8_t *messages, size_t bytes)
{
    size_t units = 0, unit, taken, length;
    for (size_t at = 0; at < bytes; at += taken, units++) {
        uint16_t size = sizes[units % number];
        expect("a first message", IDSM_DONE, idsm_message(messages, bytes, at, &length));
        memset(out, 0xa5, size + 2 * SIZE);
        if (length > size) {
            expect("a longer one", IDSM_BAD_MESSAGE, idsm_unit(size, messages + at, bytes - at, out, ROOM, &unit, &taken));
            expect_filled("its buffer", out, size);
            size = SIZE;
        }
        expect("a unit", IDSM_DONE, idsm_unit(size, messages + at, bytes - at, out, ROOM, &unit, &taken));
        expect("its bytes", 1, taken >= length && taken <= size && unit == taken + 4);
        expect_filled("behind it", out + unit, size + SIZE - taken);
        put(file, out, unit);
        if (taken == 0)
            exit(1);
    }
    return units;
}

/* Seals messages, of which each call takes some more than the one before. */
static uint64_t seal(FILE *file, idsm_sealer *sealer, const uint8_t *messages, size_t bytes)
{
    size_t some = 0, length, written;
    for (size_t at = 0, end = 0; end < bytes; at = end) {
        for (size_t i = 0; i <= some % 100 && idsm_message(messages, bytes, end, &length) == IDSM_DONE; i++)
            end += length;
        expect("messages are sealed", IDSM_DONE, idsm_seal(sealer, messages + at, end - at, out, ROOM, &written));
        put(file, out, written);
        some++;
        if (end == at)
            exit(1);
    }
    return sealer->next;
}

int main(int count, char **words)
{
    static const uint16_t sizes[] = {64, 255, SIZE, 65535, 77}, size = SIZE;
    static const uint8_t key[] = "a key of 23 bytes, of C";
    size_t number = count == 3 ? strtoul(words[2], NULL, 10) : 0, bytes = 0;
    uint8_t *messages = (uint8_t *)malloc(number * 60 + 2048);
    idsm_sealer sealer = {0, {0}, 0};
    if (number == 0 || messages == NULL)
        return 2;
    for (size_t i = 0; i < number && bytes <= number * 60; i++)
        bytes += draw_message(messages + bytes);
    expect("room for all messages", 1, bytes <= number * 60);
    expect("a key", IDSM_DONE, idsm_sealer_init(&sealer, key, sizeof key - 1, START));
    FILE *files[] = {opened(words[1], "messages"), opened(words[1], "units"), opened(words[1], "packed"),
                     opened(words[1], "sealed"), opened(words[1], "key")};
    put(files[0], messages, bytes);
    printf("units %zu", pack(files[1], sizes, sizeof sizes / sizeof sizes[0], messages, bytes));
    printf(" and %zu", pack(files[2], &size, 1, messages, bytes));
    expect("the counter that is due", START + number, seal(files[3], &sealer, messages, bytes));
    put(files[4], key, sizeof key - 1);
    for (size_t i = 0; i < sizeof files / sizeof files[0]; i++)
        expect("a file", 0, (uint64_t)fclose(files[i]));
    free(messages);
    printf(" messages %zu\n%d checks, %d failed\n", number, checks, failures);
    return failures == 0 ? 0 : 1;
}
