/* Writes the report on the session that is the input, of less than a MiB: audit < SESSION. */
#include <postcopy.h>
#include <stdio.h>
#include <stdlib.h>

int main(void) {
    static uint8_t session[1 << 20];
    size_t session_len = fread(session, 1, sizeof session, stdin), room_len = 0;
    if (ferror(stdin)) return perror("standard input"), 3;
    if (session_len == sizeof session) return fputs("the session is too long for this example\n", stderr), 3;
    uint8_t *room = session + session_len; /* a room of no bytes, to learn how many are wanted */
    postcopy_answer answer = postcopy_audit(session, session_len, room, room_len);
    if (answer.text_len) {
        room_len = answer.text_len;
        room = malloc(room_len);
        if (!room) return perror("audit"), 4;
        answer = postcopy_audit(session, session_len, room, room_len);
    }
    if (answer.kind == POSTCOPY_NO_MEMORY) return fputs("audit: out of memory\n", stderr), 4;
    if (fwrite(room, 1, answer.text_len, stdout) != answer.text_len || fflush(stdout))
        return perror("standard output"), 3;
    return answer.kind != POSTCOPY_CLEAN;
}
