/* What the calls of vex.h answer, from C: worked rows, each error, rooms, ends of pages, null with 0, two threads. */
#define _GNU_SOURCE
#include <pthread.h>
#include <stdio.h>
#include <stdlib.h>
#include <string.h>
#include <sys/mman.h>
#include <unistd.h>

#include <vex.h>

static int failed;
static int passed;

#define CHECK(holds)                                                      \
    do {                                                                  \
        if (holds) {                                                      \
            passed++;                                                     \
        } else {                                                          \
            failed++;                                                     \
            fprintf(stderr, "test_vex: line %d: %s\n", __LINE__, #holds); \
        }                                                                 \
    } while (0)

static const vex_settings all = {UINT64_MAX, UINT64_MAX};

/* Bytes of hex digits, with blanks between them. */
static size_t bytes_of(const char *hex, uint8_t *bytes) {
    size_t count = 0;
    unsigned byte;
    int read;
    for (; sscanf(hex, "%2x%n", &byte, &read) == 1; hex += read) bytes[count++] = (uint8_t)byte;
    return count;
}

/* A copy of bytes that ends where a page ends, behind which nothing may be read. */
static uint8_t *page_end(const void *bytes, size_t count) {
    size_t page = (size_t)sysconf(_SC_PAGESIZE);
    uint8_t *pages = mmap(NULL, 2 * page, PROT_READ | PROT_WRITE, MAP_PRIVATE | MAP_ANONYMOUS, -1, 0);
    if (pages == MAP_FAILED || mprotect(pages + page, page, PROT_NONE)) exit(2);
    uint8_t *place = pages + page - count;
    if (count) memcpy(place, bytes, count);
    return place;
}

static void free_page(uint8_t *place, size_t count) {
    size_t page = (size_t)sysconf(_SC_PAGESIZE);
    munmap(place + count - page, 2 * page);
}

/* Each byte string with the line that it decodes to: its length, its text and its shortest bytes, or its error. */
static const struct {
    const char *settings, *bytes, *line;
} rows[] = {
    {"default", "c4 e1 70 58 c2", "5 VADDPS x0 x1 x2 0 c5f058c2"},
    {"default", "c4 c1 78 28 c0", "5 VMOVAPS x0 x8 0 c57829c0"},
    {"default", "c5 f8 77 ff ff", "3 VZEROUPPER 0 c5f877"},
    {"default", "c5 f8 28 00", "4 VMOVAPS x0 mq0/-/0 16 c5f82800"},
    {"default", "c4 e3 7b f0 c1 05", "6 RORX d0 d1 i5 0 c4e37bf0c105"},
    {"haswell", "c5 fa 10 07", "4 VMOVSS x0 mq7/-/0 4 c5fa1007"},
    {"default", "c5 e8 77", "error InvalidOperand"},
    {"default", "33 c0", "error Outside"},
    {"default", "", "error ExhaustedInput"},
    {"default", "c5 f8", "error ExhaustedInput"},
    {"minimal", "c5 f0 58 c2", "error InvalidOpcode"},
    {"default", "c4 e4 78 58 c2", "error InvalidOpcode"},
};

static void line_of(const vex_settings *settings, const uint8_t *bytes, size_t count, char *line) {
    vex_instruction instruction;
    vex_encoding encoding;
    char text[VEX_TEXT_ROOM];
    uint32_t error = vex_recode(settings, bytes, count, &instruction, &encoding);
    if (error) {
        CHECK(vex_error_name(error, text, sizeof text) == VEX_OK);
        sprintf(line, "error %s", text);
        return;
    }
    CHECK(vex_format(&instruction, VEX_PLAIN, text, sizeof text) == VEX_OK);
    line += sprintf(line, "%d %s ", instruction.length, text);
    for (int i = 0; i < encoding.length; i++) line += sprintf(line, "%02x", encoding.bytes[i]);
}

static void test_rows(void) {
    for (size_t i = 0; i < sizeof rows / sizeof rows[0]; i++) {
        uint8_t bytes[32];
        char line[512];
        vex_settings settings;
        size_t count = bytes_of(rows[i].bytes, bytes);
        CHECK(vex_settings_named(rows[i].settings, strlen(rows[i].settings), &settings) == VEX_OK);
        uint8_t *end = page_end(bytes, count);
        line_of(&settings, end, count, line);
        CHECK(strcmp(line, rows[i].line) == 0);
        free_page(end, count);
    }
}

/* Each byte of a struct is written: what isn't used holds 0. */
static void test_each_place(void) {
    uint8_t bytes[] = {0xC4, 0xE1, 0x70, 0x58, 0x44, 0x88, 0xF0};
    vex_instruction got, want;
    vex_encoding encoding, want_encoding;
    memset(&got, 0xAA, sizeof got);
    memset(&encoding, 0xAA, sizeof encoding);
    memset(&want, 0, sizeof want);
    memset(&want_encoding, 0, sizeof want_encoding);
    want.opcode = VEX_OPCODE_VADDPS;
    want.operand_count = 3;
    want.size = 16;
    want.length = 7;
    want.operands[0].kind = VEX_KIND_REGISTER;
    want.operands[0].reg.bank = VEX_BANK_X;
    want.operands[1].kind = VEX_KIND_REGISTER;
    want.operands[1].reg.bank = VEX_BANK_X;
    want.operands[1].reg.number = 1;
    want.operands[2].kind = VEX_KIND_MEMORY;
    want.operands[2].base.bank = VEX_BANK_Q;
    want.operands[2].index.bank = VEX_BANK_Q;
    want.operands[2].index.number = 1;
    want.operands[2].scale = 4;
    want.operands[2].displacement = -16;
    want_encoding.length = 6;
    memcpy(want_encoding.bytes, "\xC5\xF0\x58\x44\x88\xF0", 6);
    CHECK(vex_recode(&all, bytes, sizeof bytes, &got, &encoding) == VEX_OK);
    CHECK(memcmp(&got, &want, sizeof got) == 0);
    CHECK(memcmp(&encoding, &want_encoding, sizeof encoding) == 0);
    memset(&got, 0xAA, sizeof got);
    CHECK(vex_decode(&all, bytes, sizeof bytes, &got) == VEX_OK);
    CHECK(memcmp(&got, &want, sizeof got) == 0);
    memset(&encoding, 0xAA, sizeof encoding);
    CHECK(vex_encode(&got, &encoding) == VEX_OK);
    CHECK(memcmp(&encoding, &want_encoding, sizeof encoding) == 0);
}

/* After an error each place is as it was. */
static void test_kept(void) {
    uint8_t bytes[] = {0x33, 0xC0};
    vex_instruction instruction, old;
    vex_encoding encoding, old_encoding;
    vex_settings settings = {1, 2};
    uint16_t opcode = 7;
    size_t place = 9;
    memset(&instruction, 0xAA, sizeof instruction);
    memset(&encoding, 0xAA, sizeof encoding);
    old = instruction;
    old_encoding = encoding;
    CHECK(vex_decode(&all, bytes, sizeof bytes, &instruction) == VEX_OUTSIDE);
    CHECK(vex_recode(&all, bytes, sizeof bytes, &instruction, &encoding) == VEX_OUTSIDE);
    CHECK(vex_encode(&instruction, &encoding) == VEX_BAD_INSTRUCTION);
    CHECK(vex_next_spelling(&instruction, &old_encoding, &encoding) == VEX_BAD_INSTRUCTION);
    CHECK(vex_parse(VEX_PLAIN + 1, "VADDPS", 6, &instruction, &place) == VEX_BAD_SYNTAX);
    CHECK(place == 9);
    CHECK(vex_parse(VEX_PLAIN, "VADDPS x0 x1 x99 0", 18, &instruction, &place) == VEX_BAD_TEXT);
    CHECK(place == 0);
    CHECK(vex_settings_named("Haswell", 7, &settings) == VEX_NO_SUCH_NAME);
    CHECK(vex_settings_named("\xFF", 1, &settings) == VEX_NO_SUCH_NAME);
    CHECK(vex_settings_named(NULL, 0, &settings) == VEX_NO_SUCH_NAME);
    CHECK(vex_settings_needed(bytes, sizeof bytes, &settings) == VEX_OUTSIDE);
    CHECK(vex_opcode_named("vaddps", 6, &opcode) == VEX_NO_SUCH_NAME);
    CHECK(vex_opcode_named(NULL, 0, &opcode) == VEX_NO_SUCH_NAME);
    CHECK(memcmp(&instruction, &old, sizeof old) == 0 && memcmp(&encoding, &old_encoding, sizeof encoding) == 0);
    CHECK(settings.low == 1 && settings.high == 2 && opcode == 7);
}

/* Structs of which no instruction can be made, and some of which one can that no bytes spell. */
static void test_structs(void) {
    const uint8_t bytes[] = {0xC5, 0xF0, 0x58, 0x44, 0x88, 0xF0};
    vex_instruction good, bad;
    vex_encoding encoding;
    CHECK(vex_decode(&all, bytes, sizeof bytes, &good) == VEX_OK);
#define WRONG(change, wanted)                      \
    do {                                           \
        bad = good;                                \
        change;                                    \
        CHECK(vex_encode(&bad, &encoding) == wanted); \
    } while (0)
    WRONG(bad.opcode = VEX_OPCODE_COUNT, VEX_BAD_INSTRUCTION);
    WRONG(bad.operand_count = 5, VEX_BAD_INSTRUCTION);
    WRONG(bad.size = 65, VEX_BAD_INSTRUCTION);
    WRONG(bad.operands[0].kind = 5, VEX_BAD_INSTRUCTION);
    WRONG(bad.operands[0].reg.bank = 7, VEX_BAD_INSTRUCTION);
    WRONG(bad.operands[0].reg.bank = 0, VEX_BAD_INSTRUCTION);
    WRONG(bad.operands[0].reg.number = 32, VEX_BAD_INSTRUCTION);
    WRONG(bad.operands[2].base.number = 16, VEX_BAD_INSTRUCTION);
    WRONG(bad.operands[2].index.bank = 9, VEX_BAD_INSTRUCTION);
    WRONG((bad.operands[0].kind = VEX_KIND_SIGNED, bad.operands[0].immediate = 128), VEX_BAD_INSTRUCTION);
    WRONG((bad.operands[0].kind = VEX_KIND_UNSIGNED, bad.operands[0].immediate = -1), VEX_BAD_INSTRUCTION);
    WRONG(bad.operands[2].scale = 3, VEX_NO_SPELLING);
    WRONG(bad.operands[0].reg.number = 31, VEX_NO_SPELLING);
    WRONG(bad.operand_count = 2, VEX_NO_SPELLING);
    WRONG(bad.mark = 1, VEX_NO_SPELLING);
    WRONG(bad.size = 0, VEX_NO_SPELLING);
    /* These play no part. */
    WRONG((bad.length = 200, bad.reserved = 7), VEX_OK);
    WRONG(bad.operands[3].kind = 77, VEX_OK);
    WRONG((bad.operands[0].base.bank = 77, bad.operands[0].immediate = 1000), VEX_OK);
}

/* All spellings of VADDPS x0, x1, x2, as the C4 prefix leaves X and W open. */
static void test_spellings(void) {
    static const char *const wanted[] = {"c4a17058c2", "c4a1f058c2", "c4e17058c2", "c4e1f058c2", "c5f058c2"};
    const uint8_t bytes[] = {0xC5, 0xF0, 0x58, 0xC2};
    vex_instruction instruction;
    vex_encoding after = {0, {0}}, encoding = {0, {0}};
    CHECK(vex_decode(&all, bytes, sizeof bytes, &instruction) == VEX_OK);
    for (int i = 0; i < 5; i++) {
        uint8_t want[16];
        size_t count = bytes_of(wanted[i], want);
        CHECK(vex_next_spelling(&instruction, &after, &encoding) == VEX_OK);
        CHECK(encoding.length == count && memcmp(encoding.bytes, want, count) == 0);
        after = encoding;
    }
    CHECK(vex_next_spelling(&instruction, &after, &encoding) == VEX_NO_SPELLING);
    after.length = 16;
    CHECK(vex_next_spelling(&instruction, &after, &encoding) == VEX_BAD_ENCODING);
    after.length = 15;
    CHECK(vex_next_spelling(&instruction, &after, &encoding) == VEX_NO_SPELLING);
}

/* A run of three instructions and a byte that begins none, into each room. */
static void test_runs(void) {
    const uint8_t bytes[] = {0xC5, 0xF8, 0x77, 0xC5, 0xF0, 0x58, 0xC2, 0xC5, 0xFA, 0x10, 0x07, 0x33};
    const size_t ends[] = {0, 3, 7, 11};
    uint8_t *end = page_end(bytes, sizeof bytes);
    for (size_t room = 0; room <= 5; room++) {
        vex_instruction old[6];
        memset(old, 0xAA, sizeof old);
        uint8_t *places = page_end(old, room * sizeof old[0]);
        vex_instruction *instructions = (vex_instruction *)places;
        vex_taken taken = {77, 77};
        uint32_t error = vex_decode_all(&all, end, sizeof bytes, instructions, room, &taken);
        size_t found = room < 3 ? room : 3;
        CHECK(error == (room > 3 ? VEX_OUTSIDE : VEX_OK));
        CHECK(taken.instructions == found && taken.bytes == ends[found]);
        for (size_t i = 0; i < room; i++) {
            vex_instruction one;
            if (i < found) {
                CHECK(vex_decode(&all, end + ends[i], sizeof bytes - ends[i], &one) == VEX_OK);
                CHECK(memcmp(&one, &instructions[i], sizeof one) == 0);
            } else {
                CHECK(memcmp(&old[i], &instructions[i], sizeof one) == 0);
            }
        }
        free_page(places, room * sizeof old[0]);
    }
    free_page(end, sizeof bytes);
    vex_taken taken = {77, 77};
    vex_instruction one;
    CHECK(vex_decode_all(&all, NULL, 0, NULL, 0, &taken) == VEX_OK && taken.instructions == 0 && taken.bytes == 0);
    CHECK(vex_decode_all(&all, NULL, 0, &one, 1, &taken) == VEX_OK && taken.instructions == 0 && taken.bytes == 0);
    CHECK(vex_decode_all(&all, bytes, sizeof bytes, NULL, 0, &taken) == VEX_OK && taken.instructions == 0);
    CHECK(vex_decode(&all, NULL, 0, &one) == VEX_EXHAUSTED_INPUT);
}

/* Texts into each room up to the one that fits: nothing is written behind it. */
static void test_texts(void) {
    const char *text = "VADDPS y0 y1 mq0/q1*4/-16 32";
    size_t long_enough = strlen(text) + 1;
    vex_instruction instruction, again;
    size_t place;
    CHECK(vex_parse(VEX_PLAIN, text, strlen(text), &instruction, &place) == VEX_OK);
    CHECK(instruction.opcode == VEX_OPCODE_VADDPS && instruction.length == 0 && instruction.size == 32);
    for (size_t room = 0; room <= long_enough + 1; room++) {
        char old[64];
        memset(old, 0x55, sizeof old);
        char *place_of_text = (char *)page_end(old, room);
        uint32_t error = vex_format(&instruction, VEX_PLAIN, place_of_text, room);
        if (room < long_enough) {
            CHECK(error == VEX_NO_ROOM && memcmp(place_of_text, old, room) == 0);
        } else {
            CHECK(error == VEX_OK && strcmp(place_of_text, text) == 0);
        }
        free_page((uint8_t *)place_of_text, room);
    }
    CHECK(vex_format(&instruction, VEX_PLAIN, NULL, 0) == VEX_NO_ROOM);
    CHECK(vex_format(&instruction, VEX_PLAIN + 1, NULL, 0) == VEX_BAD_SYNTAX);
    CHECK(vex_parse(VEX_PLAIN, NULL, 0, &again, &place) == VEX_BAD_TEXT && place == 0);
    CHECK(vex_parse(VEX_PLAIN, "VADDPS x0 0", 11, &again, &place) == VEX_OK);
}

/* Names both ways. */
static void test_names(void) {
    char name[VEX_TEXT_ROOM];
    for (unsigned opcode = 0; opcode < VEX_OPCODE_COUNT; opcode++) {
        uint16_t again = 9999;
        CHECK(vex_opcode_name((uint16_t)opcode, name, sizeof name) == VEX_OK);
        CHECK(vex_opcode_named(name, strlen(name), &again) == VEX_OK && again == opcode);
    }
    CHECK(vex_opcode_name(VEX_OPCODE_COUNT, name, sizeof name) == VEX_NO_SUCH_NUMBER);
    CHECK(vex_opcode_name(UINT16_MAX, name, sizeof name) == VEX_NO_SUCH_NUMBER);
    CHECK(vex_opcode_name(VEX_OPCODE_VADDPS, name, 6) == VEX_NO_ROOM);
    CHECK(vex_opcode_name(VEX_OPCODE_VADDPS, name, 7) == VEX_OK && strcmp(name, "VADDPS") == 0);
    for (uint32_t error = 0; error < VEX_ERROR_COUNT; error++)
        CHECK(vex_error_name(error, name, sizeof name) == VEX_OK && name[0] != 0);
    CHECK(vex_error_name(VEX_OK, name, sizeof name) == VEX_OK && strcmp(name, "Ok") == 0);
    CHECK(vex_error_name(VEX_MARKED, name, sizeof name) == VEX_OK && strcmp(name, "Marked") == 0);
    CHECK(vex_error_name(VEX_ERROR_COUNT, name, sizeof name) == VEX_NO_SUCH_NUMBER);
    CHECK(vex_error_name(UINT32_MAX, name, sizeof name) == VEX_NO_SUCH_NUMBER);
    CHECK(vex_version(name, sizeof name) == VEX_OK && strncmp(name, "vex ", 4) == 0);
    CHECK(vex_version(NULL, 0) == VEX_NO_ROOM);
}

/* What code needs: VMOVSS needs avx, RORX bmi2, and the settings that are answered permit both. */
static void test_needed(void) {
    const uint8_t bytes[] = {0xC5, 0xFA, 0x10, 0x07, 0xC4, 0xE3, 0x7B, 0xF0, 0xC1, 0x05};
    vex_settings needed, none;
    vex_instruction instructions[2];
    vex_taken taken;
    CHECK(vex_settings_needed(bytes, sizeof bytes, &needed) == VEX_OK);
    CHECK(vex_decode_all(&needed, bytes, sizeof bytes, instructions, 2, &taken) == VEX_OK && taken.bytes == 10);
    CHECK(vex_settings_named("minimal", 7, &none) == VEX_OK && none.low == 0 && none.high == 0);
    for (int bit = 0; bit < 128; bit++) {
        vex_settings less = needed;
        if (bit < 64) less.low &= ~(1ull << bit);
        else less.high &= ~(1ull << (bit - 64));
        if (less.low == needed.low && less.high == needed.high) continue;
        CHECK(vex_decode_all(&less, bytes, sizeof bytes, instructions, 2, &taken) == VEX_INVALID_OPCODE);
    }
    CHECK(vex_settings_needed(NULL, 0, &needed) == VEX_OK && needed.low == 0 && needed.high == 0);
}

/* The same work in two threads at once, each with places of its own, has the same answers. */
static void *work(void *sum) {
    uint64_t *total = sum;
    for (unsigned i = 0; i < 200000; i++) {
        uint8_t bytes[] = {0xC4, (uint8_t)(i >> 16 | 0xE0), (uint8_t)(i >> 8), (uint8_t)i, 0xC2, 0x44, 0x24, 8, 9};
        vex_instruction instruction;
        vex_encoding encoding;
        uint32_t error = vex_recode(&all, bytes, sizeof bytes, &instruction, &encoding);
        *total = *total * 31 + error;
        for (int k = 0; !error && k < encoding.length; k++) *total = *total * 31 + encoding.bytes[k];
    }
    return NULL;
}

static void test_threads(void) {
    uint64_t alone = 0, first = 0, second = 0;
    pthread_t one, two;
    work(&alone);
    if (pthread_create(&one, NULL, work, &first) || pthread_create(&two, NULL, work, &second)) exit(2);
    pthread_join(one, NULL);
    pthread_join(two, NULL);
    CHECK(first == alone && second == alone);
}

int main(void) {
    test_rows();
    test_each_place();
    test_kept();
    test_structs();
    test_spellings();
    test_runs();
    test_texts();
    test_names();
    test_needed();
    test_threads();
    printf("test_vex: %d as they should be, %d not\n", passed, failed);
    return failed != 0;
}
