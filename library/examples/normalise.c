/* Writes the canonical log of a file: normalise FILE
 *
 *     cc normalise.c $(pkg-config --cflags --libs udsnorm) -o normalise
 */
#include <stdio.h>
#include <stdlib.h>
#include <udsnorm.h>

/* The bytes of a file, for the caller to free, or a null pointer. */
static uint8_t *contents(const char *name, size_t *length)
{
    FILE *file = fopen(name, "rb");
    uint8_t *bytes = NULL;
    long end = -1;
    if (file && fseek(file, 0, SEEK_END) == 0 && (end = ftell(file)) >= 0 && fseek(file, 0, SEEK_SET) == 0)
        bytes = malloc((size_t)end + 1);
    if (bytes && fread(bytes, 1, (size_t)end, file) != (size_t)end) {
        free(bytes);
        bytes = NULL;
    }
    if (file)
        fclose(file);
    *length = bytes ? (size_t)end : 0;
    return bytes;
}

/* Writes the canonical log of a log, or says why there is none. Whether it is written. */
static int write_canonical(const uint8_t *log, size_t length, uint8_t *text, size_t room)
{
    struct udsnorm_answer a;
    udsnorm_normalise(UDSNORM_TESTER, UDSNORM_UNIT, UDSNORM_LIMIT, NULL, 0, NULL, 0, log, length, text, room, &a);
    if (a.status == UDSNORM_DONE)
        return fwrite(text, 1, (size_t)a.length, stdout) == a.length && fflush(stdout) == 0;
    if (a.status == UDSNORM_BAD_LINE)
        fprintf(stderr, "line %llu column %u: not a log line\n", (unsigned long long)a.line, (unsigned)a.column);
    else
        fprintf(stderr, "refused: status %u\n", (unsigned)a.status);
    return 0;
}

int main(int count, char **words)
{
    size_t length = 0, room;
    uint8_t *log = count == 2 ? contents(words[1], &length) : NULL, *text;
    int written;

    room = 4 * length + 512; /* enough for every log */
    text = malloc(room);
    if (!log || !text)
        fprintf(stderr, "normalise FILE: no such file, or no memory for it\n");
    written = log && text && write_canonical(log, length, text, room);
    free(text);
    free(log);
    return written ? EXIT_SUCCESS : EXIT_FAILURE;
}
