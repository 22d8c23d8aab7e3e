/* What tests/test_library.py tries of the library, by the first word:
 *   threads T N SHOW ..    T threads, each with N calls of `check` and `compile` on the shows in turn: each answer
 *                          has to be the first one
 *   calls N WORDS SHOW ..  N calls of each of these words over the show after them: each answer the first one again
 *   beside N WORDS SHOW PROGRAM
 *                          N calls and, with the same words and the same show, N/20 starts of the program; prints the
 *                          microseconds of one of each
 *   failing WORDS SHOW     a call with the first malloc failing, then the second, and so on: 1 with nothing written, or
 *                          the whole answer where that malloc could be done without; and nothing lost
 *   stack WORDS SHOW       how many bytes of stack the call used
 * SHOW is a file with all of the input. malloc, realloc and free count what is out, by the linker's --wrap. */
#include <fcntl.h>
#include <hemtoghai.h>
#include <pthread.h>
#include <spawn.h>
#include <stdatomic.h>
#include <stdio.h>
#include <stdlib.h>
#include <string.h>
#include <sys/wait.h>
#include <time.h>

extern char **environ;

#define ROOM (1 << 22)

void *__real_malloc(size_t count);
void *__real_realloc(void *block, size_t count);
void __real_free(void *block);
static atomic_long asked, out, failing = -1; /* asks so far, blocks out, and which ask fails */

void *__wrap_malloc(size_t count) {
    if (asked++ == failing) return NULL;
    void *block = __real_malloc(count);
    if (block) out++;
    return block;
}
void *__wrap_realloc(void *block, size_t count) {
    if (asked++ == failing) return NULL;
    void *moved = __real_realloc(block, count);
    if (!block && moved) out++;
    return moved;
}
void __wrap_free(void *block) {
    if (block) out--;
    __real_free(block);
}

static char *text_of(const char *path, size_t *length) {
    FILE *file = fopen(path, "rb");
    char *text = __real_malloc(1 << 20);
    if (!file || !text) exit(70);
    *length = fread(text, 1, 1 << 20, file);
    fclose(file);
    return text;
}

struct answer { uint8_t status; size_t size; char *bytes; };

static struct answer ask(const char *words, const char *text, size_t length) {
    struct answer it = {0, 0, __real_malloc(ROOM)};
    if (!it.bytes) exit(70);
    it.status = hemtoghai_run(words, strlen(words), text, length, it.bytes, ROOM, &it.size);
    return it;
}

static const char *const COMMANDS[] = {"check", "compile"};
static struct { char *text; size_t length; struct answer first[2]; } shows[16];
static int show_count, call_count;
static atomic_int wrong;

static void *caller(void *unused) {
    (void)unused;
    char *bytes = __real_malloc(ROOM);
    if (!bytes) exit(70);
    for (int n = 0; n < call_count; n++) {
        int k = n % show_count, c = n / show_count % 2;
        size_t size;
        uint8_t status =
            hemtoghai_run(COMMANDS[c], strlen(COMMANDS[c]), shows[k].text, shows[k].length, bytes, ROOM, &size);
        struct answer *first = &shows[k].first[c];
        if (status != first->status || size != first->size || memcmp(bytes, first->bytes, size) != 0) wrong++;
    }
    __real_free(bytes);
    return NULL;
}

static int threads(int count, char **words) {
    int many = atoi(words[0]);
    pthread_t started[64];
    call_count = atoi(words[1]);
    for (int k = 2; k < count && show_count < 16; k++, show_count++) {
        shows[show_count].text = text_of(words[k], &shows[show_count].length);
        for (int c = 0; c < 2; c++)
            shows[show_count].first[c] = ask(COMMANDS[c], shows[show_count].text, shows[show_count].length);
    }
    for (int k = 0; k < many; k++)
        if (pthread_create(&started[k], NULL, caller, NULL)) return 70;
    for (int k = 0; k < many; k++) pthread_join(started[k], NULL);
    for (int k = 0; k < show_count; k++) {
        for (int c = 0; c < 2; c++) __real_free(shows[k].first[c].bytes);
        __real_free(shows[k].text);
    }
    printf("wrong %d out %ld\n", wrong, out);
    return wrong != 0 || out != 0;
}

static double now(void) {
    struct timespec it;
    clock_gettime(CLOCK_MONOTONIC, &it);
    return it.tv_sec * 1e6 + it.tv_nsec / 1e3;
}

static int calls(int count, char **words) {
    long number = atol(words[0]), done = 0;
    char *bytes = __real_malloc(ROOM);
    if (!bytes) return 70;
    for (int k = 1; k + 1 < count; k += 2) {
        size_t length, size;
        char *text = text_of(words[k + 1], &length);
        struct answer first = ask(words[k], text, length);
        for (long n = 1; n < number; n++) {
            uint8_t status = hemtoghai_run(words[k], strlen(words[k]), text, length, bytes, ROOM, &size);
            if (status != first.status || size != first.size || memcmp(bytes, first.bytes, size) != 0) wrong++;
        }
        done += number;
        __real_free(first.bytes);
        __real_free(text);
    }
    __real_free(bytes);
    printf("calls %ld asks %ld wrong %d out %ld\n", done, asked, wrong, out);
    return wrong != 0 || out != 0;
}

/* The status of the program, started on a show with its output thrown away; -1 where it can't be. */
static int started(char *const *words, const char *path) {
    posix_spawn_file_actions_t files;
    pid_t child;
    int status;
    posix_spawn_file_actions_init(&files);
    posix_spawn_file_actions_addopen(&files, 0, path, O_RDONLY, 0);
    posix_spawn_file_actions_addopen(&files, 1, "/dev/null", O_WRONLY, 0);
    int failed = posix_spawn(&child, words[0], &files, NULL, words, environ);
    posix_spawn_file_actions_destroy(&files);
    return failed || waitpid(child, &status, 0) != child || !WIFEXITED(status) ? -1 : WEXITSTATUS(status);
}

static int beside(long count, char *words, const char *path, char *program) {
    size_t length, size;
    char *text = text_of(path, &length), *bytes = __real_malloc(ROOM);
    struct answer first = ask(words, text, length);
    double from = now();
    for (long n = 0; n < count; n++)
        if (hemtoghai_run(words, strlen(words), text, length, bytes, ROOM, &size) != first.status) wrong++;
    double in_process = (now() - from) / count;
    from = now();
    for (long n = 0; n < count / 20; n++)
        if (started((char *const[]){program, words, NULL}, path) != first.status) wrong++;
    printf("status %d wrong %d call %.1f start %.1f\n", first.status, wrong, in_process, (now() - from) / (count / 20));
    __real_free(first.bytes);
    __real_free(text);
    __real_free(bytes);
    return wrong != 0 || out != 0;
}

/* Whether a room has nothing but question marks. */
static int is_untouched(const char *room, size_t count) {
    return room[0] == '?' && memcmp(room, room + 1, count - 1) == 0;
}

static int failing_each(const char *words, const char *path) {
    size_t length;
    char *text = text_of(path, &length);
    struct answer whole = ask(words, text, length);
    size_t room = whole.size + 64;
    char *bytes = __real_malloc(room);
    long survived = 0;
    for (long n = 0;; n++) {
        size_t size = 99;
        memset(bytes, '?', room);
        asked = 0;
        failing = n;
        uint8_t status = hemtoghai_run(words, strlen(words), text, length, bytes, room, &size);
        failing = -1;
        int failed = asked > n;
        int is_whole = status == whole.status && size == whole.size && memcmp(bytes, whole.bytes, size) == 0;
        if (out != 0) return printf("lost %ld blocks at %ld\n", out, n), 1;
        if (!is_whole && (status != 1 || size != 0)) return printf("status %d size %zu at %ld\n", status, size, n), 1;
        memset(bytes, '?', size);
        if (!is_untouched(bytes, room)) return printf("written at %ld\n", n), 1;
        if (!failed) {
            printf("status %d after %ld failures, of which %ld changed nothing\n", status, n, survived);
            __real_free(whole.bytes);
            __real_free(text);
            __real_free(bytes);
            return !is_whole;
        }
        survived += is_whole;
    }
}

static const char *stack_words;
static char *stack_text;
static size_t stack_length;
static void *on_stack(void *unused) {
    (void)unused;
    __real_free(ask(stack_words, stack_text, stack_length).bytes);
    return NULL;
}
static int stack(const char *words, const char *path) {
    enum { SIZE = 8 << 20 };
    static _Alignas(4096) unsigned char room[SIZE];
    pthread_attr_t attributes;
    pthread_t thread;
    size_t untouched = 0;
    stack_words = words;
    stack_text = text_of(path, &stack_length);
    memset(room, 0xA5, SIZE);
    pthread_attr_init(&attributes);
    if (pthread_attr_setstack(&attributes, room, SIZE)) return 70;
    if (pthread_create(&thread, &attributes, on_stack, NULL)) return 70;
    pthread_join(thread, NULL);
    while (untouched < SIZE && room[untouched] == 0xA5) untouched++;
    printf("stack %zu\n", SIZE - untouched);
    return 0;
}

int main(int count, char **words) {
    if (count > 4 && !strcmp(words[1], "threads")) return threads(count - 2, words + 2);
    if (count > 4 && !strcmp(words[1], "calls")) return calls(count - 2, words + 2);
    if (count == 6 && !strcmp(words[1], "beside")) return beside(atol(words[2]), words[3], words[4], words[5]);
    if (count == 4 && !strcmp(words[1], "failing")) return failing_each(words[2], words[3]);
    if (count == 4 && !strcmp(words[1], "stack")) return stack(words[2], words[3]);
    return 2;
}
