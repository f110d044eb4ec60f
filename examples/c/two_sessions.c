/* Two sessions in one process, each of which carries the other's messages. The lamp's session answers for its state and hears
 * commands; the panel's session publishes a command and asks for the state. What is printed is the text of their turns. */
#include "yeqofin.h"

#include <stdio.h>
#include <stdlib.h>
#include <string.h>

/* How much text is read at once. It is small so that a turn takes several reads. */
enum { PIECE = 64 };

struct side {
    const char *name;
    uint64_t events;
    yq_session session;
};

static void fail(const struct side *side, const char *call, uint32_t status)
{
    fprintf(stderr, "%s: %s answers %u\n", side->name, call, (unsigned)status);
    exit(1);
}

static void open_side(struct side *side, uint64_t zid)
{
    yq_settings settings;
    uint32_t status;

    yq_defaults(&settings);
    settings.zid_low = zid;
    settings.tag = zid;
    status = yq_open(&side->session, &settings);
    if (status != YQ_OK)
        fail(side, "yq_open", status);
}

/* The side takes a line. What the language has no line for, such as an interest that comes in, is left out. */
static void give(struct side *side, const char *line, size_t length)
{
    uint32_t status = yq_line(&side->session, side->events + 1, (const uint8_t *)line, length);

    if (status == YQ_NO_EVENT)
        printf("%s\t-\tleft out\t%.*s\n", side->name, (int)length, line);
    else if (status != YQ_OK)
        fail(side, "yq_line", status);
    else
        side->events++;
}

/* All text that waits, ended by a byte 0. */
static char *read_text(struct side *side)
{
    size_t waiting, count, total = 0;
    uint32_t status = yq_waiting(&side->session, &waiting);
    char *text;

    if (status != YQ_OK)
        fail(side, "yq_waiting", status);
    text = malloc(waiting + 1);
    if (!text)
        fail(side, "malloc", YQ_NO_MEMORY);
    while (total < waiting) {
        size_t room = waiting - total < PIECE ? waiting - total : PIECE;

        status = yq_text(&side->session, (uint8_t *)text + total, room, &count);
        if (status != YQ_OK)
            fail(side, "yq_text", status);
        total += count;
    }
    text[total] = 0;
    return text;
}

/* Answers the query that a line hands out, if it hands one: "I hand queryable N V KEY ..". */
static void answer(struct side *side, const char *line)
{
    char key[128], reply[256];
    unsigned long query;

    if (sscanf(line, "%*u\thand\tqueryable\t%*u\t%lu\t%127[^\t]", &query, key) != 2)
        return;
    give(side, reply, (size_t)snprintf(reply, sizeof reply, "reply\t%lu\t%s\tx6f6e", query, key));
    give(side, reply, (size_t)snprintf(reply, sizeof reply, "finish\t%lu", query));
}

/* Gives the message that a line sends to the other side, if it sends one: "I send MESSAGE" there is "net MESSAGE" here. */
static void deliver(struct side *to, const char *line)
{
    char message[1024];
    const char *sent = strchr(line, '\t');

    if (sent && strncmp(sent, "\tsend\t", 6) == 0)
        give(to, message, (size_t)snprintf(message, sizeof message, "net\t%s", sent + 6));
}

/* Prints what a side tells, and acts on it. Returns whether it told anything. */
static bool carry(struct side *from, struct side *to)
{
    char *text = read_text(from);
    bool told = text[0] != 0;
    char *line, *end;

    for (line = text; (end = strchr(line, '\n')); line = end + 1) {
        *end = 0;
        printf("%s\t%s\n", from->name, line);
        answer(from, line);
        deliver(to, line);
    }
    free(text);
    return told;
}

/* A side takes a line, and all that follows from it on both sides is carried. */
static void say(struct side *side, struct side *other, const char *line)
{
    bool told = true;

    give(side, line, strlen(line));
    while (told) {
        told = carry(side, other);
        told = carry(other, side) || told;
    }
}

int main(void)
{
    struct side lamp = {.name = "lamp"}, panel = {.name = "panel"};

    open_side(&lamp, 1);
    open_side(&panel, 2);
    say(&lamp, &panel, "sub\tany\thome/lamp/set");
    say(&lamp, &panel, "queryable\tany\tcomplete\thome/lamp");
    say(&panel, &lamp, "pub\tany\thome/lamp/set");
    say(&panel, &lamp, "pput\t2\tx6f6e");
    say(&panel, &lamp, "get\tany\thome/lamp");
    say(&panel, &lamp, "close");
    say(&lamp, &panel, "close");
    yq_free(&panel.session);
    yq_free(&lamp.session);
    return 0;
}
