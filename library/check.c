/* Checks shows: ./check SHOW ..  Built by: cc check.c $(pkg-config --cflags --libs hemtoghai) -o check
 * Prints a line for each show, and ends with the status of the last one that was refused. */
#include <hemtoghai.h>
#include <stdio.h>
#include <stdlib.h>

/* All bytes of a file, or NULL. */
static char *contents_of(const char *path, size_t *length) {
    FILE *file = fopen(path, "rb");
    char *bytes = NULL;
    size_t room = 0;
    *length = 0;
    if (!file) return NULL;
    for (;;) {
        if (*length == room) {
            char *more = realloc(bytes, room = room ? 2 * room : 4096);
            if (!more) break;
            bytes = more;
        }
        size_t came = fread(bytes + *length, 1, room - *length, file);
        if (came == 0) break;
        *length += came;
    }
    if (ferror(file) || !feof(file)) {
        free(bytes);
        bytes = NULL;
    }
    fclose(file);
    return bytes;
}

int main(int count, char **paths) {
    int last = 0;
    if (hemtoghai_version() != HEMTOGHAI_VERSION) {
        fputs("check: header and library differ\n", stderr);
        return 70;
    }
    for (int k = 1; k < count; k++) {
        size_t length, size;
        char line[256];
        char *text = contents_of(paths[k], &length);
        if (!text) {
            perror(paths[k]);
            return 70;
        }
        uint8_t status = hemtoghai_run("check", 5, text, length, line, sizeof line, &size);
        free(text);
        printf("%s: %d: %.*s", paths[k], status, (int)(size < sizeof line ? size : sizeof line), line);
        if (size == 0) putchar('\n');
        if (status != HEMTOGHAI_DONE) last = status;
    }
    return last;
}
