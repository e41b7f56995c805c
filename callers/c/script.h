/* What the programs that play scripts of crates/test_ends have in common: lines from standard input, each of which goes to standard output
 * with what comes of it, where it is a step. */
#ifndef SCRIPT_H
#define SCRIPT_H
#include "hosted.h"

static uint8_t bytes[1 << 16];
static char script[1 << 20];

/* The place of a word among those of a list, which ends in NULL; -1 where it is none of them. */
static inline int place_of(const char *word, const char *const *list) {
    for (int i = 0; list[i]; i++)
        if (!strcmp(word, list[i])) return i;
    return -1;
}

/* The first word of a line, which begins after it then. */
static inline char *word_of(char **line) {
    char *word = *line, *end = strchr(word, ' ');
    *line = end ? end + 1 : word + strlen(word);
    if (end) *end = 0;
    return word;
}

static inline void print_hex(const uint8_t *at, size_t length) {
    for (size_t i = 0; i < length; i++) printf("%02x", at[i]);
    if (!length) printf("-");
}

/* The bytes of digits, or none of `-`. */
static inline size_t read_hex(const char *digits) {
    static const char all[] = "0123456789abcdef";
    size_t length = 0;
    for (; digits[0] && digits[0] != '-'; digits += 2) bytes[length++] = (uint8_t)((strchr(all, digits[0]) - all) * 16 + (strchr(all, digits[1]) - all));
    return length;
}

/* A line with what comes of it, where it is a step. */
static inline void play_line(char *line, void (*play)(char *)) {
    static const char arrow[] = " -> ";
    char *end = strchr(line, '>');
    if (!end || end < line + 3 || memcmp(end - 3, arrow, sizeof arrow - 1)) {
        printf("%s\n", line);
        return;
    }
    end[-3] = 0;
    printf("%s%s", line, arrow);
    play(line);
    printf("\n");
}

static inline void play_script(void (*play)(char *)) {
    size_t length = fread(script, 1, sizeof script - 1, stdin);
    for (char *line = script, *end; line < script + length; line = end + 1) {
        end = strchr(line, '\n');
        *end = 0;
        play_line(line, play);
    }
}
#endif
