/* Checks the certificate of a session, both in mapped files: check SESSION CERT. */
#include <fcntl.h>
#include <postcopy.h>
#include <stdio.h>
#include <sys/mman.h>
#include <sys/stat.h>

static const uint8_t *text(const char *name, size_t *len) {
    struct stat file;
    int fd = open(name, O_RDONLY);
    if (fd < 0 || fstat(fd, &file)) return perror(name), NULL;
    if (!S_ISREG(file.st_mode)) return fprintf(stderr, "%s: only a file can be mapped\n", name), NULL;
    *len = (size_t)file.st_size;
    void *at = *len ? mmap(NULL, *len, PROT_READ, MAP_PRIVATE, fd, 0) : "";
    return at == MAP_FAILED ? perror(name), NULL : at;
}

int main(int count, char **words) {
    if (count != 3) return fputs("usage: check SESSION CERT\n", stderr), 2;
    size_t session_len, cert_len;
    const uint8_t *session = text(words[1], &session_len), *cert = text(words[2], &cert_len);
    if (!session || !cert) return 3;
    postcopy_answer answer = postcopy_check(session, session_len, cert, cert_len);
    if (printf("kind %u line %u reason %u\n", answer.kind, answer.line, answer.reason) < 0 || fflush(stdout))
        return perror("standard output"), 3;
    return answer.kind != POSTCOPY_YES;
}
