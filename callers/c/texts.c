/* texts COMMAND FILE [LENGTH]: what a call makes of the first LENGTH bytes of FILE. The commands are show and check, with a
 * dash behind them with `any`; build, so with `comments`; explain as plain, brief, noplaces, high, utf8, formats, fragment or hex;
 * and text, the bytes of hexadecimal text. Writes what it makes, and behind it, on a line of its own, the status, the number, of such
 * a text the column, and the place. Ends in 9 where a buffer that is too short is written to. */
#include <nozzlegorse.h>
#include "hosted.h"

static uint8_t bytes[1 << 22];
static uint8_t text[1 << 23];

static struct nzg_answer call(const char *command, size_t length, size_t room) {
    bool wide = command[strlen(command) - 1] == '-';
    switch (command[0] + command[1]) {
    case 's' + 'h': return nzg_show(bytes, length, wide, text, room);
    case 'c' + 'h': return nzg_check(bytes, length, wide, text, room);
    case 'b' + 'r': return nzg_explain(bytes, length, NZG_BRIEF | NZG_PLACES, 0, text, room);
    case 'p' + 'l': return nzg_explain(bytes, length, NZG_PLACES, 0, text, room);
    case 'n' + 'o': return nzg_explain(bytes, length, 0, 0, text, room);
    case 'h' + 'i': return nzg_explain(bytes, length, NZG_PLACES, NZG_HIGH, text, room);
    case 'f' + 'o': return nzg_explain(bytes, length, NZG_PLACES | NZG_FORMATS, 0, text, room);
    case 'u' + 't': return nzg_explain(bytes, length, NZG_PLACES | NZG_UTF8, 0, text, room);
    case 'f' + 'r': return nzg_explain(bytes, length, NZG_PLACES | NZG_LOOSE, 0, text, room);
    case 'h' + 'e': return nzg_explain(bytes, length, NZG_PLACES | NZG_HEX, 0, text, room);
    case 't' + 'e': return nzg_from_text(bytes, length, text, room);
    default: return nzg_build(bytes, length, wide, text, room);
    }
}

/* A buffer of no bytes and one that is short by a byte stay as they are, and the length is told. */
static size_t wanted(const char *command, size_t length) {
    struct nzg_answer none = call(command, length, 0);
    if (none.status != NZG_NO_ROOM) return none.length;
    memset(text, 0xa5, none.length);
    struct nzg_answer less = call(command, length, none.length - 1);
    if (less.status != NZG_NO_ROOM || less.length != none.length) return (size_t)-1;
    for (size_t i = 0; i < none.length; i++)
        if (text[i] != 0xa5) return (size_t)-1;
    return none.length;
}

int main(int argc, char **argv) {
    if (argc < 3) return 2;
    long read = read_all(argv[2], bytes, sizeof bytes);
    if (read < 0) return 2;
    size_t length = argc > 3 ? (size_t)atoi(argv[3]) : (size_t)read;
    size_t room = wanted(argv[1], length);
    if (room == (size_t)-1) return 9;
    struct nzg_answer a = call(argv[1], length, room);
    if (a.length != room) return 9;
    bool is_no_text = a.status == NZG_TEXT_FAULT;
    for (size_t i = 0; i < (is_no_text ? 0 : room); i++) printf("%c", text[i]);
    printf("\n%u %zu %zu\n", a.status, is_no_text ? a.length : a.number, a.place);
    return 0;
}
