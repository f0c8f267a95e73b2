/*
 * Holds the library's names to a table of its own, from C: writes and reads all
 * 70 names, and tries every refusal. Ends with status 1 at the first mismatch.
 */
#include <stdio.h>
#include <stdlib.h>
#include <string.h>

#include "zoepurd_names.h"

enum { NAMINGS = 2, STEPS = 7, ALTERATIONS = 5, ROOM = 8, UNTOUCHED = 0xA5 };

/* From double flat to double sharp, for the steps C D E F G A B. */
static const char *const table[NAMINGS][STEPS][ALTERATIONS] = {
    {
        {"Cbb", "Cb", "C", "C#", "C##"},
        {"Dbb", "Db", "D", "D#", "D##"},
        {"Ebb", "Eb", "E", "E#", "E##"},
        {"Fbb", "Fb", "F", "F#", "F##"},
        {"Gbb", "Gb", "G", "G#", "G##"},
        {"Abb", "Ab", "A", "A#", "A##"},
        {"Bbb", "Bb", "B", "B#", "B##"},
    },
    {
        {"Ceses", "Ces", "C", "Cis", "Cisis"},
        {"Deses", "Des", "D", "Dis", "Disis"},
        {"Eses", "Es", "E", "Eis", "Eisis"},
        {"Feses", "Fes", "F", "Fis", "Fisis"},
        {"Geses", "Ges", "G", "Gis", "Gisis"},
        {"Ases", "As", "A", "Ais", "Aisis"},
        {"Heses", "B", "H", "His", "Hisis"},
    },
};

static int names = 0;
static int refusals = 0;

static void hold(int right, const char *what, int naming, const char *name) {
    if (!right) {
        fprintf(stderr, "names_test: %s: naming %d, name \"%s\"\n", what, naming, name);
        exit(1);
    }
}

/* The bytes stand alone in memory of just their length, so that a reading past them can be seen by a memory checker. */
static uint8_t read_bytes(uint8_t naming, const char *name, uint8_t *step, int8_t *alteration) {
    size_t length = strlen(name);
    uint8_t *bytes = malloc(length);
    if (length > 0) {
        if (bytes == NULL) {
            fprintf(stderr, "names_test: no memory\n");
            exit(1);
        }
        memcpy(bytes, name, length);
    }
    uint8_t answer = zoepurd_read_name(naming, bytes, length, step, alteration);
    free(bytes);
    return answer;
}

static void reads(uint8_t naming, const char *name, int step, int alteration) {
    uint8_t got_step = 99;
    int8_t got_alteration = 99;
    hold(read_bytes(naming, name, &got_step, &got_alteration) == 0, "not read", naming, name);
    hold(got_step == step && got_alteration == alteration, "read as another", naming, name);
}

static void refuses_to_read(uint8_t naming, const char *name, int number) {
    uint8_t step = 99;
    int8_t alteration = 99;
    hold(read_bytes(naming, name, &step, &alteration) == number, "not refused as it should be", naming, name);
    hold(step == 99 && alteration == 99, "a refusal changed a variable", naming, name);
    refusals++;
}

static void writes(uint8_t naming, uint8_t step, int8_t alteration, size_t room, const char *name) {
    uint8_t out[ROOM];
    size_t count = 99;
    size_t length = strlen(name);
    memset(out, UNTOUCHED, ROOM);
    hold(zoepurd_write_name(naming, step, alteration, out, room, &count) == 0, "not written", naming, name);
    hold(count == length && memcmp(out, name, length) == 0, "written as another", naming, name);
    for (size_t at = length; at < ROOM; at++)
        hold(out[at] == UNTOUCHED, "the buffer beyond the name changed", naming, name);
}

static void refuses_to_write(uint8_t naming, uint8_t step, int8_t alteration, size_t room, int number, const char *name) {
    uint8_t out[ROOM];
    size_t count = 99;
    memset(out, UNTOUCHED, ROOM);
    hold(zoepurd_write_name(naming, step, alteration, out, room, &count) == number, "not refused as it should be", naming, name);
    hold(count == 99, "a refusal changed the count", naming, name);
    for (size_t at = 0; at < ROOM; at++)
        hold(out[at] == UNTOUCHED, "a refusal changed the buffer", naming, name);
    refusals++;
}

/* What a name of either list is in a naming: its place in that naming's table, or a refusal. */
static void reads_as_listed(uint8_t naming, const char *name) {
    for (int step = 0; step < STEPS; step++)
        for (int k = 0; k < ALTERATIONS; k++)
            if (strcmp(table[naming][step][k], name) == 0) {
                reads(naming, name, step, k - 2);
                return;
            }
    refuses_to_read(naming, name, 22);
}

static void all_names(void) {
    for (int naming = 0; naming < NAMINGS; naming++)
        for (int step = 0; step < STEPS; step++)
            for (int k = 0; k < ALTERATIONS; k++) {
                const char *name = table[naming][step][k];
                size_t length = strlen(name);
                writes(naming, step, k - 2, ROOM, name);
                writes(naming, step, k - 2, length, name);
                refuses_to_write(naming, step, k - 2, length - 1, 54, name);
                refuses_to_write(naming, step, k - 2, 0, 54, name);
                reads(naming, name, step, k - 2);
                reads_as_listed(1 - naming, name);
                names++;
            }
}

static void all_refusals(void) {
    static const char *const in_neither[] = {"", "c", "h", "I", "Z", "Ch", "C ", " C", "C4", "Cbbb", "C###", "C#b", "Cisisis", "Ceseses", "Bis", "Bes", "Beses", "Hes", "Hb", "Ees", "Aes", "Hs", "CIS", "es"};
    for (size_t at = 0; at < sizeof in_neither / sizeof in_neither[0]; at++) {
        refuses_to_read(0, in_neither[at], 22);
        refuses_to_read(1, in_neither[at], 22);
    }
    refuses_to_read(0, "H", 22);
    refuses_to_read(0, "Cis", 22);
    refuses_to_read(1, "Cb", 22);
    refuses_to_read(1, "C#", 22);
    refuses_to_read(2, "C", 21);
    refuses_to_read(255, "C", 21);
    refuses_to_read(2, "no name", 21);
    refuses_to_write(2, 0, 0, ROOM, 21, "naming 2");
    refuses_to_write(255, 0, 0, ROOM, 21, "naming 255");
    for (int naming = 0; naming < NAMINGS; naming++) {
        refuses_to_write(naming, 7, 0, ROOM, 21, "step 7");
        refuses_to_write(naming, 255, 0, ROOM, 21, "step 255");
        refuses_to_write(naming, 0, 3, ROOM, 21, "alteration 3");
        refuses_to_write(naming, 0, -3, ROOM, 21, "alteration -3");
        refuses_to_write(naming, 6, 127, ROOM, 21, "alteration 127");
        refuses_to_write(naming, 6, -128, ROOM, 21, "alteration -128");
        refuses_to_write(naming, 7, 3, 0, 21, "step 7, alteration 3 and no room");
    }
}

/* No bytes at all may be a null pointer. */
static void no_bytes(void) {
    uint8_t step = 99;
    int8_t alteration = 99;
    size_t count = 99;
    hold(zoepurd_read_name(0, NULL, 0, &step, &alteration) == 22 && step == 99 && alteration == 99, "no bytes read", 0, "");
    hold(zoepurd_write_name(0, 0, 0, NULL, 0, &count) == 54 && count == 99, "written to no buffer", 0, "C");
    refusals += 2;
}

int main(void) {
    all_names();
    all_refusals();
    no_bytes();
    printf("%d names written and read back, %d refusals\n", names, refusals);
    return 0;
}
