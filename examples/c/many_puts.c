/* How much processor time puts to subscribers of one session take:  many_puts calls|lines PUTS SUBSCRIBERS
 * `calls` makes each put by yq_put and reads each effect; `lines` gives each as a line and reads the text. */
#include "yeqofin.h"

#include <stdio.h>
#include <stdlib.h>
#include <string.h>
#include <time.h>

static yq_session session;
static unsigned long handed, bytes;

static void want(uint32_t status)
{
    if (status != YQ_OK) {
        fprintf(stderr, "status %u\n", (unsigned)status);
        exit(1);
    }
}

/* Reads all effects, with the payloads of samples. */
static void read_effects(void)
{
    yq_effect_numbers effect;
    uint8_t payload[64];
    size_t count;

    while (yq_effect(&session, &effect) == YQ_OK) {
        if (effect.kind == YQ_HAND_SAMPLE) {
            want(yq_effect_bytes(&session, YQ_PAYLOAD, payload, sizeof payload, &count));
            handed++;
            bytes += count;
        }
        want(yq_next_effect(&session));
    }
}

static void read_text(void)
{
    uint8_t text[4096];
    size_t count;

    do {
        want(yq_text(&session, text, sizeof text, &count));
        bytes += count;
    } while (count);
}

static void subscribe(unsigned long subscribers)
{
    yq_key key = {0, {(const uint8_t *)"home/lamp", 9}};
    yq_answer answer;

    while (subscribers--)
        want(yq_declare_subscriber(&session, &key, YQ_ANY, &answer));
    read_effects();
}

static void put_by_calls(unsigned long puts)
{
    yq_key key = {0, {(const uint8_t *)"home/lamp", 9}};
    yq_publication how = {0};
    yq_extras extras;
    yq_answer answer;

    yq_extras_defaults(&extras);
    while (puts--) {
        want(yq_put(&session, &key, (const uint8_t *)"0123456789abcdef", 16, &how, &extras, &answer));
        read_effects();
    }
}

static void put_by_lines(unsigned long puts)
{
    static const char line[] = "put\tany\thome/lamp\tx30313233343536373839616263646566";
    uint64_t number = 0;

    while (puts--) {
        want(yq_line(&session, ++number, (const uint8_t *)line, sizeof line - 1));
        read_text();
    }
}

int main(int count, char **words)
{
    yq_settings settings;
    unsigned long puts = count > 2 ? strtoul(words[2], NULL, 10) : 1000000;
    unsigned long subscribers = count > 3 ? strtoul(words[3], NULL, 10) : 8;
    bool by_lines = count > 1 && strcmp(words[1], "lines") == 0;
    clock_t begun;

    yq_defaults(&settings);
    want(yq_open(&session, &settings));
    subscribe(subscribers);
    begun = clock();
    if (by_lines)
        put_by_lines(puts);
    else
        put_by_calls(puts);
    printf("%lu puts to %lu subscribers by %s: %.0f ns a put, %lu handed over, %lu bytes read\n", puts, subscribers,
           by_lines ? "lines" : "calls", (double)(clock() - begun) * 1e9 / CLOCKS_PER_SEC / (puts ? puts : 1), handed, bytes);
    yq_free(&session);
    return 0;
}
