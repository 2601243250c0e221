/* A driver for libFuzzer over the calls of stunp.h. An input is a sequence of steps. A step is a byte
 * that chooses the call, one that sets it, two of a length, and so many bytes. Most of these are a
 * message. What one call says is compared with what others say; a message lies between pages that
 * may not be touched; what is written ends where it must; and a refusal writes nothing.
 *
 * With PLAIN it has a main of its own, for where there is no libFuzzer: it plays the files that are
 * named, and mutations of them in a fixed order. run.sh builds and runs it. */
#include "messages.h"

/* ---- Inputs. */

static void play_step(enum step step, uint8_t setting, struct bytes m) {
    switch (step) {
    case READ: read_all(m, setting); break;
    case VERIFY: verify(m, setting); break;
    case WRITE: write_more(m, setting); break;
    case BEGIN: begin(m, setting); break;
    default: write_texts(m, setting);
    }
    require(m.length == 0 || memcmp(m.at, m.origin, m.length) == 0, "what was read is changed");
}

int LLVMFuzzerTestOneInput(const uint8_t *input, size_t size);

int LLVMFuzzerTestOneInput(const uint8_t *input, size_t size) {
    if (pages == NULL) {
        make_pages();
        memset(blank, PATTERN, sizeof blank);
    }
    for (size_t at = 0; size - at >= 4;) {
        size_t length = (size_t)(input[at + 2] << 8 | input[at + 3]);
        struct bytes m = {NULL, input + at + 4, length < size - at - 4 ? length : size - at - 4};
        if (m.length > STUNP_LONGEST_MESSAGE) m.length = STUNP_LONGEST_MESSAGE;
        uint8_t *place = pages + pages_length - m.length;
        if (m.length > 0) memcpy(place, m.origin, m.length);
        m.at = place;
        play_step(input[at] % STEPS, input[at + 1], m);
        at += 4 + m.length;
    }
    return 0;
}

#ifdef PLAIN

#ifndef MUTATIONS
#define MUTATIONS 20000
#endif
enum { MOST_SEEDS = 512, MOST_BYTES = 1 << 14 };
static struct {
    uint8_t *bytes;
    size_t length;
} seeds[MOST_SEEDS];

/* A seed with some bytes changed, and now and then the steps of another one behind it. */
static size_t mutate_seed(uint8_t *bytes, uint32_t number) {
    uint32_t from = draw(number), more = draw(number);
    size_t length = seeds[from].length;
    memcpy(bytes, seeds[from].bytes, length);
    if (draw(4) == 0) {
        memcpy(bytes + length, seeds[more].bytes, seeds[more].length);
        length += seeds[more].length;
    }
    for (uint32_t changes = 1 + draw(6); changes > 0 && length > 0; changes--) {
        uint8_t *byte = bytes + draw((uint32_t)length);
        *byte = draw(2) == 0 ? (uint8_t)draw(256) : *byte ^ (uint8_t)(1 << draw(8));
    }
    return draw(8) == 0 ? draw((uint32_t)length + 1) : length;
}

int main(int words_count, char **names) {
    static uint8_t bytes[2 * MOST_BYTES];
    uint32_t number = 0;
    for (int i = 1; i < words_count && number < MOST_SEEDS; i++, number++) {
        FILE *file = fopen(names[i], "rb");
        require(file != NULL, names[i]);
        size_t length = fread(bytes, 1, MOST_BYTES, file);
        fclose(file);
        uint8_t *copy = malloc(length + 1);
        require(copy != NULL, "no memory");
        memcpy(copy, bytes, length);
        seeds[number].bytes = copy, seeds[number].length = length;
        LLVMFuzzerTestOneInput(copy, length);
    }
    require(number > 0, "no seeds");
    for (int i = 0; i < MUTATIONS; i++) LLVMFuzzerTestOneInput(bytes, mutate_seed(bytes, number));
    for (uint32_t i = 0; i < number; i++) free(seeds[i].bytes);
    printf("fuzz: %u inputs\n", number + MUTATIONS);
    return 0;
}

#endif
