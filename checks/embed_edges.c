/* Calls of the library at the edges of its buffers. The library is no code that a sanitizer sees, so the pages decide: each buffer ends,
   or begins, at a page that cannot be touched, and what is lent is in pages that cannot be written. checks/embed.sh runs it.
   Compiled with -DPLANTED it stores one byte after the room of the output itself, which has to be seen. */
#define _DEFAULT_SOURCE
#include <signal.h>
#include <stdio.h>
#include <stdlib.h>
#include <sys/mman.h>
#include <unistd.h>
#include <zanderanvil.h>

enum { PAGE = 4096, WHOLE = 65536, MOST_ROOM = 600, SMALL = 16, FILL = 0xAA };

static const char hello[] = "addi r0,#72,r1\nst 255[r0],r1\nhalt\n";
static int failures, compared;
static const char *now = "nothing";

static void expect(int holds, const char *what)
{
    compared++;
    if (!holds) {
        printf("FAILED: %s\n", what);
        failures++;
    }
}

/* A store or a load outside: nothing after it is known. */
static void touched(int number)
{
    static const char text[] = "FAILED: a byte outside its buffers was touched by: ";
    (void)number;
    if (write(1, text, sizeof text - 1) < 0 || write(1, now, strlen(now)) < 0 || write(1, "\n", 1) < 0)
        _exit(2);
    _exit(1);
}

/* Pages with one before and one after them that cannot be touched. */
typedef struct {
    uint8_t *pages;
    size_t size;
} fenced;

static fenced fence(size_t room)
{
    fenced it;
    it.size = (room + PAGE - 1) / PAGE * PAGE;
    if (it.size == 0)
        it.size = PAGE;
    uint8_t *all = mmap(NULL, it.size + 2 * PAGE, PROT_NONE, MAP_PRIVATE | MAP_ANONYMOUS, -1, 0);
    if (all == MAP_FAILED || mprotect(all + PAGE, it.size, PROT_READ | PROT_WRITE))
        exit(2);
    it.pages = all + PAGE;
    memset(it.pages, FILL, it.size);
    return it;
}

static void unfence(fenced it)
{
    munmap(it.pages - PAGE, it.size + 2 * PAGE);
}

/* Where so many bytes begin so that they end at the page after, or begin after the page before. */
static uint8_t *placed(fenced it, size_t room, int at_end)
{
    return at_end ? it.pages + it.size - room : it.pages;
}

/* Whether all other bytes are as they were. */
static int untouched(fenced it, const uint8_t *bytes, size_t written)
{
    for (size_t i = 0; i < it.size; i++)
        if ((it.pages + i < bytes || it.pages + i >= bytes + written) && it.pages[i] != FILL)
            return 0;
    return 1;
}

/* Bytes that are lent at the end of pages which cannot be written. */
static zanderanvil_bytes lent(const char *text)
{
    size_t length = strlen(text);
    fenced it = fence(length);
    zanderanvil_bytes bytes;
    memcpy(placed(it, length, 1), text, length);
    mprotect(it.pages, it.size, PROT_READ);
    bytes.bytes = placed(it, length, 1);
    bytes.length = length;
    return bytes;
}

static zanderanvil_outcome command(const zanderanvil_call *call, uint8_t *output, size_t room, uint8_t *file, size_t file_room)
{
    zanderanvil_outcome outcome = zanderanvil_command(call, output, room, file, file_room);
#ifdef PLANTED
    output[room] = 1;
#endif
    return outcome;
}

/* Answers words over hello.s in rooms of these lengths, and compares with the whole answer. */
static void answered(const char *words, uint32_t status, size_t room, size_t file_room, int at_end)
{
    fenced all_output = fence(WHOLE), all_file = fence(WHOLE), some_output = fence(room), some_file = fence(file_room);
    uint8_t *whole = placed(all_output, WHOLE, at_end), *whole_file = placed(all_file, WHOLE, at_end);
    uint8_t *output = placed(some_output, room, at_end), *file = placed(some_file, file_room, at_end);
    zanderanvil_call call = zanderanvil_ask("");
    now = words;
    call.words = lent(words);
    call.source = lent(hello);
    zanderanvil_outcome all = command(&call, whole, WHOLE, whole_file, WHOLE);
    zanderanvil_outcome some = command(&call, output, room, file, file_room);
    int fits = all.output_needed <= room && all.file_needed <= file_room;
    expect(all.status == status && all.output == all.output_needed && all.file == all.file_needed, words);
    expect(some.status == (fits ? status : (uint32_t)ZANDERANVIL_TOO_SHORT), words);
    expect(some.output_needed == all.output && some.file_needed == all.file, words);
    expect(some.output == (room < all.output ? room : all.output), words);
    expect(some.file == (file_room < all.file ? file_room : all.file), words);
    expect(!memcmp(output, whole, some.output) && !memcmp(file, whole_file, some.file), words);
    expect(untouched(some_output, output, some.output) && untouched(some_file, file, some.file), words);
    expect(untouched(all_output, whole, all.output) && untouched(all_file, whole_file, all.file), words);
    unfence(all_output), unfence(all_file), unfence(some_output), unfence(some_file);
    munmap((void *)((uintptr_t)call.words.bytes / PAGE * PAGE - PAGE), 3 * PAGE);
    munmap((void *)((uintptr_t)call.source.bytes / PAGE * PAGE - PAGE), 3 * PAGE);
}

int main(void)
{
    signal(SIGSEGV, touched);
    signal(SIGBUS, touched);
    for (int at_end = 0; at_end < 2; at_end++) {
        for (size_t room = 0; room < MOST_ROOM; room++) {
            answered("run\nsource", ZANDERANVIL_DONE, room, 0, at_end);
            answered("build\nsource\nbuilt", ZANDERANVIL_DONE, 0, room, at_end);
            answered("run\nabsent", ZANDERANVIL_READ_FAULT, room, 0, at_end);
        }
        answered("", ZANDERANVIL_USAGE, 0, 0, at_end);
        answered("run\r\nsource\r\n", ZANDERANVIL_DONE, PAGE, 0, at_end);
        answered("run\nimage", ZANDERANVIL_OUT_OF_BUDGET, PAGE, 0, at_end);
    }

    fenced output = fence(SMALL), file = fence(SMALL);
    zanderanvil_call call = zanderanvil_ask("run\n\xff");
    now = "words that are no text";
    zanderanvil_outcome outcome = command(&call, placed(output, SMALL, 1), SMALL, placed(file, SMALL, 1), SMALL);
    expect(outcome.status == ZANDERANVIL_NOT_TEXT && !outcome.output && !outcome.output_needed, now);
    expect(untouched(output, output.pages, 0) && untouched(file, file.pages, 0), now);
    printf("%d results at the edges of buffers, %d wrong\n", compared, failures);
    return failures != 0 || compared == 0;
}
