/* How much stack a call of lumintayag_read_v3 takes, and one of lumintayag_views, with its caller's frame: the deepest byte that is written on a painted stack,
 * and the smallest stack on which every call comes back, over the samples of a folder and over documents of 1 MiB that are made in memory. Nothing is written to
 * a file. */
#define _GNU_SOURCE
#include <dirent.h>
#include <stdio.h>
#include <stdlib.h>
#include <string.h>
#include <sys/mman.h>
#include <sys/resource.h>
#include <sys/wait.h>
#include <ucontext.h>
#include <unistd.h>

#include "../../library/lumintayag.h"

enum { MOST = 1048576, ROOM = 1 << 20, GUARD = 1 << 20, PAINT = 0xA5, DOCUMENTS = 1024 };

struct document {
    const char *name;
    uint8_t *bytes;
    size_t length;
};

static struct document documents[DOCUMENTS];
static size_t count;

static uint32_t series[LUMINTAYAG_SERIES_ROW * LUMINTAYAG_SERIES_ROOM], positions[LUMINTAYAG_INTERVALS_ROOM], answer[7];
static int64_t amounts[LUMINTAYAG_INTERVALS_ROOM];
static uint8_t note[16];
static uint32_t table[LUMINTAYAG_VIEWS_ROOM];
static const struct document *read_now;
static ucontext_t here, there;

static void view(void) {
    lumintayag_views(read_now->bytes, read_now->length, table, LUMINTAYAG_VIEWS_ROOM, answer, 6);
}

static void read_it(void) {
    lumintayag_read_v3(read_now->bytes, read_now->length, series, sizeof series / sizeof *series, positions, LUMINTAYAG_INTERVALS_ROOM,
                       amounts, LUMINTAYAG_INTERVALS_ROOM, LUMINTAYAG_NOTE_NEW, note, 16, answer, 7);
}

static void (*call)(void);

/* The lowest address of a stack below which nothing can be touched. */
static uint8_t *stack_bottom(void) {
    uint8_t *p = mmap(NULL, GUARD + ROOM, PROT_NONE, MAP_PRIVATE | MAP_ANONYMOUS, -1, 0);
    if (p == MAP_FAILED || mprotect(p + GUARD, ROOM, PROT_READ | PROT_WRITE) != 0) exit(2);
    return p + GUARD;
}

/* Reads a document on the stack of `size` bytes from `bottom` on. */
static void on_stack(const struct document *d, uint8_t *bottom, size_t size) {
    read_now = d;
    getcontext(&there);
    there.uc_stack.ss_sp = bottom;
    there.uc_stack.ss_size = size;
    there.uc_link = &here;
    makecontext(&there, call, 0);
    if (swapcontext(&here, &there) != 0) exit(2);
}

static size_t painted(const struct document *d, uint8_t *bottom) {
    size_t clean = 0;
    memset(bottom, PAINT, ROOM);
    on_stack(d, bottom, ROOM);
    while (clean < ROOM && bottom[clean] == PAINT) clean++;
    return ROOM - clean;
}

static int suffices(uint8_t *bottom, size_t size) {
    pid_t child = fork();
    int status;
    if (child < 0) exit(2);
    if (child == 0) {
        setrlimit(RLIMIT_CORE, &(struct rlimit){0, 0}); /* a child that runs out of stack leaves no image on disk */
        for (size_t i = 0; i < count; i++) on_stack(&documents[i], bottom, size);
        _exit(0);
    }
    if (waitpid(child, &status, 0) < 0) exit(2);
    return WIFEXITED(status) && WEXITSTATUS(status) == 0;
}

static struct document *add(const char *name) {
    struct document *d = &documents[count++];
    if (count > DOCUMENTS || (d->bytes = malloc(MOST)) == NULL) exit(2);
    d->name = name;
    return d;
}

static void put(struct document *d, const char *s) {
    size_t n = strlen(s);
    if (d->length + n > MOST) exit(2);
    memcpy(d->bytes + d->length, s, n);
    d->length += n;
}

#define ROOT "<Kostenblatt DtdBDEWNachrichtenVersion=\"1.0\""
#define HEAD \
    "<DocumentIdentification v=\"\"/><DocumentVersion v=\"1\"/><DocumentType v=\"Z05\"/><ProcessType v=\"A14\"/>" \
    "<SenderIdentification v=\"9900000000017\" codingScheme=\"NDE\"/><SenderRole v=\"A27\"/>" \
    "<ReceiverIdentification v=\"9900000000024\" codingScheme=\"NDE\"/><ReceiverRole v=\"A18\"/>" \
    "<DocumentDateTime v=\"2031-02-02T10:15:00Z\"/><TimePeriodCovered v=\"2031-02-02T23:00Z/2031-02-03T23:00Z\"/>"
#define SERIES \
    "<CostTimeSeries><TimeSeriesIdentification v=\"%u\"/><BusinessType v=\" Z03 \"/><Direction v=\"A02\"/><Product v=\"8716867000016\"/>" \
    "<ConnectingArea v=\"10YFLENSBURG---3\" codingScheme=\"A01\"/><ResourceObject v=\"C0000000017\" codingScheme=\"NDE\"/>" \
    "<ResourceProvider v=\"9900000000017\" codingScheme=\"NDE\"/><CurveType v=\"A03\"/><MeasurementUnit v=\"Z02\"/><Status v=\"Z05\"/><Period>" \
    "<TimeInterval v=\"2031-02-02T23:00Z/2031-02-03T23:00Z\"/><Resolution v=\"PT15M\"/><Interval><Pos v=\" 1 \"/><Qty v=\" -999999999999.999 \"/></Interval>" \
    "</Period></CostTimeSeries>"

/* The same with references. */
#define REFERRING \
    "<CostTimeSeries><TimeSeriesIdentification v=\"&amp;%u&#x20;\"/><BusinessType v=\"&#32;Z0&#51; \"/><Direction v=\"&#65;02\"/><Product v=\"871686700001&#54;\"/>" \
    "<ConnectingArea v=\"10YFLENSBURG&#45;--3\" codingScheme=\"A0&#x31;\"/><ResourceObject v=\"&#67;0000000017\" codingScheme=\"NDE&#x20;\"/>" \
    "<ResourceProvider v=\"&#57;900000000017\" codingScheme=\"NDE\"/><CurveType v=\"A03\"/><MeasurementUnit v=\"Z02\"/><Status v=\"Z05\"/><Period>" \
    "<TimeInterval v=\"2031-02-02T23:00Z&#47;2031-02-03T23:00Z\"/><Resolution v=\"PT15M\"/><Interval><Pos v=\" &#49; \"/><Qty v=\"&#45;99999999999&#57;.999&#32;\"/></Interval>" \
    "</Period></CostTimeSeries>"

/* `form` is printed with numbers in mixed order, again and again. */
static void make(const char *name, const char *front, const char *form, const char *back) {
    struct document *d = add(name);
    char one[2048];
    put(d, front);
    for (unsigned k = 0; d->length + sizeof one + strlen(back) < MOST; k++) {
        snprintf(one, sizeof one, form, k * 7919u % 150001u);
        put(d, one);
    }
    put(d, back);
}

static void take(const char *folder) {
    struct dirent **names;
    int found = scandir(folder, &names, NULL, alphasort);
    if (found < 0) exit(2);
    for (int i = 0; i < found; i++) {
        char path[4096];
        if (names[i]->d_name[0] == '.') continue;
        snprintf(path, sizeof path, "%s/%s", folder, names[i]->d_name);
        FILE *file = fopen(path, "rb");
        if (file == NULL) exit(2);
        struct document *d = add(names[i]->d_name);
        d->length = fread(d->bytes, 1, MOST, file);
        fclose(file);
    }
}

/* 0 where every call comes back on some stack. */
static int measure(const char *name, void (*function)(void)) {
    uint8_t *bottom = stack_bottom();
    call = function;
    size_t most = 0, accepted = 0;
    const char *deepest = "";
    for (size_t i = 0; i < count; i++) {
        size_t used = painted(&documents[i], bottom);
        accepted += answer[0] == 0;
        if (used > most) most = used, deepest = documents[i].name;
    }
    printf("%s: %zu documents, %zu accepted\n", name, count, accepted);
    printf("painted stack: %zu bytes at most (first by: %s)\n", most, deepest);

    size_t little = 0, enough = ROOM;
    if (!suffices(bottom, enough)) return 1;
    while (enough - little > 16) {
        size_t middle = (little + enough) / 2 / 16 * 16;
        if (suffices(bottom, middle)) enough = middle;
        else little = middle;
    }
    printf("smallest stack on which every call comes back: %zu bytes\n", enough);
    return 0;
}

int main(int argc, char **argv) {
    if (argc != 2) return 2;
    take(argv[1]);
    make("a root of xmlns: attributes", ROOT, " xmlns:a%u=''", ">" HEAD "</Kostenblatt>");
    make("a root of unknown attributes", ROOT, " a%u=''", "/>");
    make("many series", ROOT ">" HEAD, SERIES, "</Kostenblatt>");
    make("comments", ROOT ">", "<!--%u-->\n", "</Kostenblatt>");
    make("one long text", "", "%u", "");
    make("one long value", ROOT ">\n<DocumentIdentification v=\"", "%u", "\"/>");
    make("one long value of references", ROOT ">\n<DocumentIdentification v=\"", "&amp;%u&#33;", "\"/>");
    make("identifications by references", ROOT ">" HEAD, REFERRING, "</Kostenblatt>");
    make("start tags one in the other", "", "<a%u>", "");
    return measure("lumintayag_read_v3", read_it) || measure("lumintayag_views", view);
}
