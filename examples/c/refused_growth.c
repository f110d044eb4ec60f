/* Refuses each growth of a run in turn, gives the same line again, and compares all that is printed with a run that had all memory:
 * want of memory loses nothing and takes nothing twice. It is linked with --wrap=malloc,--wrap=realloc. */
#include "yeqofin.h"

#include <stdio.h>
#include <stdlib.h>
#include <string.h>

static const char *const lines[] = {
    "key\thome/kitchen", "sub\tany\thome/**", "queryable\tany\tcomplete\thome/lamp", "pub\tany\thome/lamp/set",
    "pput\t4\tx6f6e\tenc=text/plain\tatt=x01", "put\tany\t#1:/temp\tx3231\tts=5:a", "get\tany\thome/**?unit=c\tpayload=x01",
    "reply\t0\thome/lamp\tx6f6e", "finish\t0", "net\tkeyexpr\t7\ts0:home", "net\tpush\ts7:/hall\tput\tx01",
    "net\trequest\t9\ts0:home/lamp", "reply\t1\thome/lamp\tx6f6e", "finish\t1", "token\thome/lamp", "lsub\thistory\thome/*",
    "net\ttoken\t4\ts0:home/fan", "querier\tany\thome/lamp", "listen\tpub\t4", "net\tsub\t5\ts0:home/**", "no event",
    "undeclare\tsub\t2", "tick\t100000", "close",
};
enum { LINES = sizeof lines / sizeof *lines, MOST = 1 << 16 };

/* Which growth is refused, how many there were, and how often a call answered for want of memory. */
static long refused, growths, failures;
static bool counting;

void *__real_malloc(size_t size);
void *__real_realloc(void *old, size_t size);

static bool refuses(void)
{
    return counting && ++growths == refused;
}

void *__wrap_malloc(size_t size)
{
    return refuses() ? NULL : __real_malloc(size);
}

void *__wrap_realloc(void *old, size_t size)
{
    return refuses() ? NULL : __real_realloc(old, size);
}

static void want(uint32_t status, uint32_t wanted, const char *call)
{
    if (status != wanted) {
        printf("%s answers %u where growth %ld is refused\n", call, (unsigned)status, refused);
        exit(1);
    }
}

static void open_again(yq_session *session)
{
    yq_settings settings;
    uint32_t status;

    yq_defaults(&settings);
    status = yq_open(session, &settings);
    if (status == YQ_NO_MEMORY) {
        failures++;
        status = yq_open(session, &settings);
    }
    want(status, YQ_OK, "yq_open");
    want(yq_open(session, &settings), YQ_ALREADY_OPEN, "the second yq_open");
}

static void give_again(yq_session *session, unsigned place)
{
    const char *line = lines[place];
    uint32_t status = yq_line(session, place + 1, (const uint8_t *)line, strlen(line));

    if (status == YQ_NO_MEMORY) {
        failures++;
        status = yq_line(session, place + 1, (const uint8_t *)line, strlen(line));
    }
    want(status, strcmp(line, "no event") ? YQ_OK : YQ_NO_EVENT, line);
}

/* Moves the text that waits behind what is there, in pieces of seven bytes. */
static size_t read_text(yq_session *session, uint8_t *text, size_t length)
{
    size_t count;

    do {
        want(yq_text(session, text + length, length + 7 <= MOST ? 7 : 0, &count), YQ_OK, "yq_text");
        length += count;
    } while (count);
    return length;
}

/* All that the lines print where that growth is refused, and how many bytes it has. */
static size_t run(long growth, uint8_t *text)
{
    yq_session session = {0};
    yq_answer answer;
    size_t length = 0;
    unsigned place;

    refused = growth;
    growths = failures = 0;
    counting = true;
    open_again(&session);
    for (place = 0; place < LINES; place++) {
        give_again(&session, place);
        if (place % 3 == 2)
            length = read_text(&session, text, length);
    }
    length = read_text(&session, text, length);
    counting = false;
    want(yq_undeclare(&session, 255, 1, &answer), YQ_NO_EVENT, "yq_undeclare of no sort");
    yq_free(&session);
    yq_free(&session);
    want(yq_undeclare(&session, 255, 1, &answer), YQ_NOT_OPEN, "yq_undeclare of no sort and an empty slot");
    want(yq_close(&session, 1), YQ_NOT_OPEN, "yq_close of an empty slot");
    return length;
}

int main(void)
{
    static uint8_t whole[MOST], text[MOST];
    size_t length = run(0, whole);
    long all = growths, growth;

    for (growth = 1; growth <= all; growth++) {
        if (run(growth, text) != length || memcmp(text, whole, length) || failures > 1) {
            printf("the output differs where growth %ld is refused\n", growth);
            return 1;
        }
    }
    printf("%zu bytes of text, the same whichever of %ld growths is refused\n", length, all);
    return 0;
}
