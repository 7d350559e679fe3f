/* A bench program over ladlewillow.h: opens an image file, prints its in-use blocks, writes a note into the save, commits,
 * stores the file and opens it again.
 *
 *     bench FILE            work on an image
 *     bench FILE format     format it first (its length has to be a chip's)
 *
 * The image is lent for each call and stays ours; the mapping goes in by value and comes back in the outcome. */
#include "ladlewillow.h"

#include <stdio.h>
#include <stdlib.h>
#include <string.h>

static const char note[] = "read on bench two";

/* The whole file in memory, or NULL. */
static uint8_t *load(const char *name, size_t *length) {
    FILE *file = fopen(name, "rb");
    if (file == NULL) return NULL;
    uint8_t *image = NULL;
    if (fseek(file, 0, SEEK_END) == 0) {
        long end = ftell(file);
        rewind(file);
        if (end > 0 && (image = malloc((size_t)end)) != NULL) {
            *length = fread(image, 1, (size_t)end, file);
        }
    }
    fclose(file);
    return image;
}

static int store(const char *name, const uint8_t *image, size_t length) {
    FILE *file = fopen(name, "wb");
    if (file == NULL) return 0;
    int whole = fwrite(image, 1, length, file) == length;
    return fclose(file) == 0 && whole;
}

/* Says what a call answered; 0 is the only answer that lets us go on. */
static int accepted(const char *call, lw_answer answer) {
    printf("%s: answer %u place %zu\n", call, answer.number, answer.place);
    return answer.number == 0;
}

static void list(const lw_mapping *mapping) {
    for (int v = 0; v < 256; v++) {
        const lw_block *block = &mapping->blocks[v];
        if (block->condition != 0) printf("block %d physical %u count %u\n", v, block->physical, block->count);
    }
}

/* Open, note, commit, open again: the note has to be there. */
static int work(uint8_t *image, size_t length) {
    lw_outcome now = lw_open(image, length);
    if (!accepted("open", now.answer)) return 0;
    list(&now.mapping);
    printf("save of %zu bytes\n", lw_len(now.mapping));

    now = lw_write(image, length, now.mapping, 0, (const uint8_t *)note, sizeof note);
    if (!accepted("write", now.answer)) return 0;
    now = lw_commit(image, length, now.mapping);
    if (!accepted("commit", now.answer)) return 0;

    now = lw_open(image, length);
    if (!accepted("open again", now.answer)) return 0;
    list(&now.mapping);
    uint8_t back[sizeof note];
    now = lw_read(image, length, now.mapping, 0, back, sizeof back);
    if (!accepted("read", now.answer)) return 0;
    printf("note: %s\n", memcmp(back, note, sizeof note) == 0 ? "as written" : "LOST");
    return memcmp(back, note, sizeof note) == 0;
}

int main(int count, char **words) {
    if (count < 2 || count > 3 || (count == 3 && strcmp(words[2], "format") != 0)) {
        fprintf(stderr, "usage: bench FILE [format]\n");
        return 2;
    }
    size_t length = 0;
    uint8_t *image = load(words[1], &length);
    if (image == NULL) {
        fprintf(stderr, "bench: %s cannot be read\n", words[1]);
        return 2;
    }
    int good = count == 2 || accepted("format", lw_format(image, length));
    good = good && work(image, length);
    if (good && !store(words[1], image, length)) {
        fprintf(stderr, "bench: %s cannot be stored\n", words[1]);
        good = 0;
    }
    free(image);
    return good ? 0 : 1;
}
