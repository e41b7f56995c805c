/* ci < FILE: ends in 1 where a rule is broken, and in 2 where the bytes are no descriptors. */
#include <nozzlegorse.h>
#include <stdio.h>

int main(void) {
    static uint8_t bytes[65536], words[256];
    static struct nzg_finding found[1000];
    size_t len = fread(bytes, 1, sizeof bytes, stdin);
    struct nzg_answer a = nzg_findings(bytes, len, found, 1000);
    if (a.status != NZG_DONE) {
        struct nzg_answer text = nzg_fault_text(bytes, len, words, sizeof words);
        return printf("at %lu: %.*s\n", (unsigned long)a.place, (int)text.length, (char *)words), 2;
    }
    for (size_t i = 0; i < a.length; i++) {
        struct nzg_answer text = nzg_finding_text(bytes, len, &found[i], words, sizeof words);
        printf("at %lu: V%u: %.*s\n", (unsigned long)found[i].place, found[i].rule, (int)text.length, (char *)words);
    }
    return a.length > 0;
}
