/*
 * Tries the library for C.
 *
 *     face run [--hex] <SCRIPT    the reports of the lines, up to the first bad one: status 1 then
 *     face check SCRIPT           each call with what it may be given: status 1 where it is wrong
 *
 * The linker has growths of memory come here first (--wrap), so that each may be refused in turn.
 */
#include "../../include/gbus.h"

#include <pthread.h>
#include <stdio.h>
#include <stdlib.h>
#include <string.h>

#define BUSES 50
#define THREADS 4

/* ---- memory */

static long growths, refused, blocks;

void *__real_malloc(size_t size);
void *__real_realloc(void *old, size_t size);
void __real_free(void *block);

static bool refuses(void)
{
    return __atomic_add_fetch(&growths, 1, __ATOMIC_SEQ_CST) == refused;
}

void *__wrap_malloc(size_t size)
{
    void *block = refuses() ? NULL : __real_malloc(size);
    if (block != NULL)
        __atomic_add_fetch(&blocks, 1, __ATOMIC_SEQ_CST);
    return block;
}

void *__wrap_realloc(void *old, size_t size)
{
    return refuses() ? NULL : __real_realloc(old, size);
}

void __wrap_free(void *block)
{
    if (block != NULL)
        __atomic_sub_fetch(&blocks, 1, __ATOMIC_SEQ_CST);
    __real_free(block);
}

/* ---- what is said */

static bool failed;

static void expect(bool holds, const char *what, int line)
{
    if (!holds) {
        printf("face.c, line %d: it isn't so that %s\n", line, what);
        failed = true;
    }
}

#define EXPECT(holds) expect(holds, #holds, __LINE__)

/* ---- a bus and the report of its last line */

typedef struct {
    gbus bus;
    char text[1 << 16];
    size_t size;
} rig;

static gbus_status run(rig *r, const char *line, size_t length)
{
    r->size = 77;
    gbus_status status = gbus_line(&r->bus, line, length, &r->size);
    EXPECT(r->size < sizeof r->text);
    EXPECT(gbus_text(&r->bus, 0, r->text, sizeof r->text) == r->size);
    r->text[r->size] = 0;
    return status;
}

/* Whether a line ends so, with this report. */
static bool tells(rig *r, const char *line, gbus_status status, const char *report)
{
    bool same = run(r, line, strlen(line)) == status && strcmp(r->text, report) == 0;
    if (!same)
        printf("'%s': '%s' and not '%s'\n", line, r->text, report);
    return same;
}

/* ---- a script */

static int report(bool hex)
{
    static char line[1 << 21];
    gbus bus = GBUS_INIT;
    size_t size, length, room = 0;
    char *text = NULL;
    gbus_status status = gbus_open(&bus, hex);

    while (status == GBUS_DONE && fgets(line, sizeof line, stdin) != NULL) {
        length = strlen(line);
        /* the last line may lack its LF, and then a CR is no part of its end */
        if (line[length - 1] == '\r') {
            fprintf(stderr, "the script ends with CR\n");
            return 2;
        }
        status = gbus_line(&bus, line, length, &size);
        if (size > room) {
            room = size;
            text = realloc(text, room);
        }
        size = gbus_text(&bus, 0, text, room);
        if (size > 0)
            fwrite(text, 1, size, stdout);
    }
    free(text);
    gbus_close(&bus);
    return (int)status;
}

/* ---- single calls */

static void try_closed(void)
{
    rig r = { .bus = GBUS_INIT };
    char out[3] = "ab";

    EXPECT(tells(&r, "boot", GBUS_CLOSED, ""));
    EXPECT(gbus_text(&r.bus, 0, out, 2) == 0 && memcmp(out, "ab", 3) == 0);
    gbus_close(&r.bus);
    EXPECT(r.bus.at == NULL);

    EXPECT(gbus_open(&r.bus, false) == GBUS_DONE && r.bus.at != NULL);
    EXPECT(gbus_text(&r.bus, 0, out, 2) == 0);
    EXPECT(tells(&r, "insert 2 gpio", GBUS_DONE, "line 1 ok\n"));
    EXPECT(gbus_open(&r.bus, true) == GBUS_OPEN);
    EXPECT(tells(&r, "insert 2 gpio", GBUS_DONE, "line 2 refused Occupied\n"));
    gbus_close(&r.bus);
    gbus_close(&r.bus);
    EXPECT(r.bus.at == NULL);
    EXPECT(tells(&r, "boot", GBUS_CLOSED, ""));

    /* what was before the close is gone: the lines, the module and the text */
    EXPECT(gbus_open(&r.bus, false) == GBUS_DONE);
    EXPECT(gbus_text(&r.bus, 0, out, 2) == 0);
    EXPECT(tells(&r, "pull 2", GBUS_DONE, "line 1 refused NoInterface\n"));
    gbus_close(&r.bus);
}

static void try_lines(void)
{
    rig r = { .bus = GBUS_INIT };
    char line[GBUS_LONGEST_LINE + 3];

    EXPECT(gbus_open(&r.bus, false) == GBUS_DONE);
    EXPECT(run(&r, NULL, 0) == GBUS_DONE && r.size == 0);
    EXPECT(run(&r, "boot", 0) == GBUS_DONE && r.size == 0);
    EXPECT(tells(&r, "# a comment", GBUS_DONE, ""));
    EXPECT(tells(&r, "insert 2 gpio\r", GBUS_DONE, "line 4 ok\n"));
    EXPECT(tells(&r, "pull 2\n", GBUS_DONE, "line 5 ok\n"));
    EXPECT(tells(&r, "insert 2 gpio\r\n", GBUS_DONE, "line 6 ok\n"));
    EXPECT(tells(&r, "pull 2\n\r", GBUS_BAD_LINE, "line 7: bad byte 7\n"));
    EXPECT(tells(&r, "pull 2\n\n", GBUS_BAD_LINE, "line 8: bad byte 7\n"));
    EXPECT(tells(&r, "pull 2\nboot", GBUS_BAD_LINE, "line 9: bad byte 7\n"));
    EXPECT(tells(&r, "sned", GBUS_BAD_LINE, "line 10: bad word 1\n"));
    EXPECT(tells(&r, "boot now", GBUS_BAD_LINE, "line 11: extra word 2\n"));
    EXPECT(tells(&r, "pull 2", GBUS_DONE, "line 12 ok\n"));
    EXPECT(run(&r, "pull\0002", 6) == GBUS_BAD_LINE);
    EXPECT(strcmp(r.text, "line 13: bad byte 5\n") == 0);
    EXPECT(tells(&r, "pull \xc3\xa4", GBUS_BAD_LINE, "line 14: bad byte 6\n"));

    memset(line, ' ', sizeof line);
    memcpy(line, "insert 3 gpio", 13);
    EXPECT(run(&r, line, GBUS_LONGEST_LINE) == GBUS_DONE && strcmp(r.text, "line 15 ok\n") == 0);
    EXPECT(run(&r, line, GBUS_LONGEST_LINE + 1) == GBUS_BAD_LINE);
    EXPECT(strcmp(r.text, "line 16: too long\n") == 0);
    line[GBUS_LONGEST_LINE] = '\r';
    line[GBUS_LONGEST_LINE + 1] = '\n';
    memcpy(line, "pull 3       ", 13);
    EXPECT(run(&r, line, GBUS_LONGEST_LINE + 2) == GBUS_DONE);
    EXPECT(strcmp(r.text, "line 17 ok\n") == 0);
    EXPECT(run(&r, line, GBUS_LONGEST_LINE + 1) == GBUS_DONE);
    EXPECT(strcmp(r.text, "line 18 refused NoInterface\n") == 0);
    EXPECT(tells(&r, "insert 2 gpio", GBUS_DONE, "line 19 ok\n"));
    gbus_close(&r.bus);
}

static void try_texts(void)
{
    rig r = { .bus = GBUS_INIT };
    const char *whole = "line 1 ok\nask #1 ap 0 > svc type 13 size 8\n";
    size_t size = strlen(whole);
    char out[64];

    EXPECT(gbus_open(&r.bus, false) == GBUS_DONE);
    EXPECT(tells(&r, "send @x svc ping", GBUS_DONE, whole));
    for (size_t room = 0; room <= size + 2; room++)
        for (size_t from = 0; from <= size + 2; from++) {
            size_t rest = from < size ? size - from : 0;
            size_t count = rest < room ? rest : room;
            memset(out, '#', sizeof out);
            EXPECT(gbus_text(&r.bus, from, out, room) == count);
            EXPECT(memcmp(out, whole + (from < size ? from : size), count) == 0);
            for (size_t i = count; i < sizeof out; i++)
                EXPECT(out[i] == '#');
        }
    EXPECT(gbus_text(&r.bus, 0, NULL, 0) == 0);
    EXPECT(gbus_text(&r.bus, SIZE_MAX, out, sizeof out) == 0);
    /* read piece by piece it is the whole, and reading it did nothing */
    size = 0;
    for (size_t n; (n = gbus_text(&r.bus, size, out + size, 7)) > 0;)
        size += n;
    EXPECT(size == strlen(whole) && memcmp(out, whole, size) == 0);
    EXPECT(tells(&r, "deliver svc", GBUS_DONE,
        "line 2 ok\nreply #1 svc > ap 0 result 00 size 8\n"));
    gbus_close(&r.bus);

    EXPECT(gbus_open(&r.bus, true) == GBUS_DONE);
    EXPECT(tells(&r, "send @x svc ping", GBUS_DONE,
        "line 1 ok\nask #1 ap 0 > svc type 13 size 8 0800010013000000\n"));
    gbus_close(&r.bus);
}

/* ---- many buses */

/* A script, cut into its lines. */
typedef struct {
    char *lines[4096];
    size_t count;
} script;

static void read_script(script *s, const char *file)
{
    static char text[1 << 20];
    FILE *from = fopen(file, "rb");
    size_t size = from == NULL ? 0 : fread(text, 1, sizeof text - 1, from);

    EXPECT(size > 0);
    if (from != NULL)
        fclose(from);
    text[size] = 0;
    s->count = 0;
    for (char *l = strtok(text, "\n"); l != NULL && s->count < 4096; l = strtok(NULL, "\n"))
        s->lines[s->count++] = l;
}

/* The reports of a script's lines on a bus of its own. */
static void report_each(const script *s, char **reports)
{
    static rig r = { .bus = GBUS_INIT };

    EXPECT(gbus_open(&r.bus, true) == GBUS_DONE);
    for (size_t i = 0; i < s->count; i++) {
        EXPECT(run(&r, s->lines[i], strlen(s->lines[i])) == GBUS_DONE);
        reports[i] = strcpy(__real_malloc(r.size + 1), r.text);
    }
    gbus_close(&r.bus);
}

/* Buses that take the same lines in turn, each one line behind the other. */
static void try_many(const script *s, char **reports)
{
    static rig rigs[BUSES];

    for (size_t i = 0; i < BUSES; i++) {
        rigs[i].bus = (gbus)GBUS_INIT;
        EXPECT(gbus_open(&rigs[i].bus, true) == GBUS_DONE);
    }
    for (size_t turn = 0; turn < s->count + BUSES; turn++)
        for (size_t i = 0; i < BUSES; i++)
            if (turn >= i && turn - i < s->count)
                EXPECT(tells(&rigs[i], s->lines[turn - i], GBUS_DONE, reports[turn - i]));
    for (size_t i = 0; i < BUSES; i++)
        gbus_close(&rigs[i].bus);
}

/* What a thread has: a bus, and the lines that it runs. */
typedef struct {
    rig r;
    const script *s;
    char **reports;
    size_t from, to;
} job;

static void *work(void *data)
{
    job *j = data;

    for (size_t i = j->from; i < j->to; i++)
        EXPECT(tells(&j->r, j->s->lines[i], GBUS_DONE, j->reports[i]));
    return NULL;
}

/* Buses that run at once, each handed to another thread in the midst of its lines. */
static void try_threads(const script *s, char **reports)
{
    static job jobs[THREADS];
    pthread_t threads[THREADS];

    for (size_t i = 0; i < THREADS; i++) {
        jobs[i] = (job){ .r = { .bus = GBUS_INIT }, .s = s, .reports = reports };
        EXPECT(gbus_open(&jobs[i].r.bus, true) == GBUS_DONE);
    }
    for (size_t half = 1; half <= 2; half++) {
        for (size_t i = 0; i < THREADS; i++) {
            jobs[i].to = half * s->count / 2;
            EXPECT(pthread_create(&threads[i], NULL, work, &jobs[i]) == 0);
        }
        for (size_t i = 0; i < THREADS; i++) {
            pthread_join(threads[i], NULL);
            jobs[i].from = jobs[i].to;
        }
    }
    for (size_t i = 0; i < THREADS; i++)
        gbus_close(&jobs[i].r.bus);
}

/* ---- want of memory */

/* Runs a script of which one growth is refused; whether it was. Then a line says so, and all behind
   it, or all is reported as with all memory. */
static bool refuse(const script *s, char **reports, long number)
{
    static rig r;
    long before = blocks;
    bool wanting = false;

    r.bus = (gbus)GBUS_INIT;
    growths = 0;
    refused = number;
    gbus_status status = gbus_open(&r.bus, true);
    if (status != GBUS_DONE) {
        EXPECT(status == GBUS_NO_MEMORY && r.bus.at == NULL && blocks == before);
        refused = 0;
        EXPECT(tells(&r, "boot", GBUS_CLOSED, ""));
        return true;
    }
    for (size_t i = 0; i < s->count; i++)
        if (wanting) {
            EXPECT(tells(&r, s->lines[i], GBUS_NO_MEMORY, ""));
        } else if (run(&r, s->lines[i], strlen(s->lines[i])) == GBUS_NO_MEMORY) {
            /* nothing but the place of the session is kept */
            EXPECT(r.size == 0 && growths >= number && blocks == before + 1);
            wanting = true;
        } else {
            EXPECT(strcmp(r.text, reports[i]) == 0);
        }
    bool came = growths >= number;
    EXPECT(came || !wanting);
    refused = 0;
    gbus_close(&r.bus);
    EXPECT(blocks == before);
    return came;
}

int main(int count, char **words)
{
    static script s;
    static char *reports[4096];

    if (count >= 2 && strcmp(words[1], "run") == 0)
        return report(count == 3 && strcmp(words[2], "--hex") == 0);
    if (count != 3 || strcmp(words[1], "check") != 0)
        return 2;
    try_closed();
    try_lines();
    try_texts();
    read_script(&s, words[2]);
    report_each(&s, reports);
    try_many(&s, reports);
    try_threads(&s, reports);
    for (long number = 1; refuse(&s, reports, number);)
        number++;
    for (size_t i = 0; i < s.count; i++)
        __real_free(reports[i]);
    EXPECT(blocks == 0);
    return failed;
}
