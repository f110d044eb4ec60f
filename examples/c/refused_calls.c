/* Refuses each growth of a run of calls in turn, makes the same call again, and compares all that comes out with a run that had all
 * memory: want of memory loses nothing and takes nothing twice. It is linked with --wrap=malloc,--wrap=realloc. */
#include "yeqofin.h"

#include <stdio.h>
#include <stdlib.h>
#include <string.h>

enum { MOST = 1 << 16 };

/* Which growth is refused, how many there were, and how often a call answered for want of memory. */
static long refused, growths, failures;
static bool counting;

void *__real_malloc(size_t size);
void *__real_realloc(void *old, size_t size);

static bool refuses(void)
{
    return counting && ++growths == refused;
}

void *__wrap_malloc(size_t size)
{
    return refuses() ? NULL : __real_malloc(size);
}

void *__wrap_realloc(void *old, size_t size)
{
    return refuses() ? NULL : __real_realloc(old, size);
}

static void want(uint32_t status, uint32_t wanted, const char *call)
{
    if (status != wanted) {
        printf("%s answers %u where growth %ld is refused\n", call, (unsigned)status, refused);
        exit(1);
    }
}

static yq_bytes text(const char *bytes)
{
    yq_bytes lent = {(const uint8_t *)bytes, strlen(bytes)};

    return lent;
}

/* A message of that kind on a key. */
static uint32_t receive(yq_session *session, uint8_t kind, uint32_t id, const char *key, yq_answer *answer)
{
    yq_message message = {0};
    yq_parts parts;

    yq_parts_defaults(&parts);
    message.kind = kind;
    message.id = id;
    message.key_number = (uint16_t)id;
    message.has_value = message.has_attachment = true;
    message.timeout = 1000;
    parts.key = text(key);
    parts.payload = text("asked");
    parts.encoding = text("text/plain");
    parts.attachment = text("beside");
    return yq_receive(session, &message, &parts, answer);
}

/* The event of that place, or YQ_NOTHING behind the last. */
static uint32_t happen(yq_session *session, unsigned place, yq_answer *answer)
{
    yq_key home = {0, text("home/**")}, lamp = {0, text("home/lamp")}, own = {1, text("/temp")};
    yq_publication how = {0};
    yq_ask ask = {0};
    yq_liveliness alive = {0};
    yq_reply_quality quality = {0};
    yq_extras extras;
    yq_inquiry what;

    yq_extras_defaults(&extras);
    yq_inquiry_defaults(&what);
    extras.encoding = text("text/plain");
    extras.has_attachment = what.has_attachment = what.has_value = true;
    extras.attachment = what.attachment = what.payload = text("beside");
    extras.timestamp.is_known = true;
    what.parameters = text("unit=c");
    switch (place) {
    case 0: lamp.text = text("home"); return yq_declare_key(session, &lamp, answer);
    case 1: return yq_declare_subscriber(session, &home, YQ_ANY, answer);
    case 2: return yq_declare_queryable(session, &lamp, YQ_ANY, true, answer);
    case 3: return yq_declare_publisher(session, &lamp, &how, (const uint8_t *)"text/plain", 10, answer);
    case 4: return yq_publisher_put(session, 4, (const uint8_t *)"on", 2, &extras, answer);
    case 5: return yq_put(session, &own, (const uint8_t *)"21", 2, &how, &extras, answer);
    case 6: return yq_get(session, &home, &ask, &what, answer);
    case 7: return yq_reply(session, 0, &lamp, (const uint8_t *)"on", 2, &quality, &extras, answer);
    case 8: return yq_finish(session, 0, answer);
    case 9: return receive(session, YQ_DECLARE_KEY_EXPR, 7, "home", answer);
    case 10: return receive(session, YQ_PUSH, 0, "home/hall", answer);
    case 11: return receive(session, YQ_REQUEST, 9, "home/lamp", answer);
    case 12: return yq_reply_error(session, 1, (const uint8_t *)"no", 2, (const uint8_t *)"", 0, answer);
    case 13: return yq_finish(session, 1, answer);
    case 14: return yq_declare_token(session, &lamp, answer);
    case 15: return yq_declare_liveliness_subscriber(session, &home, true, answer);
    case 16: return receive(session, YQ_DECLARE_TOKEN, 4, "home/fan", answer);
    case 17: return yq_declare_querier(session, &lamp, &ask, answer);
    case 18: return yq_declare_listener(session, YQ_PUBLISHER, 4, answer);
    case 19: return receive(session, YQ_DECLARE_SUBSCRIBER, 5, "home/**", answer);
    case 20: return yq_liveliness_get(session, &home, &alive, answer);
    case 21: return yq_cancellation_token(session, answer);
    case 22: return yq_undeclare(session, YQ_SUBSCRIBER, 2, answer);
    case 23: return yq_delete(session, &lamp, &how, &extras, answer);
    case 24: return yq_tick(session, 100000, answer);
    case 25: return yq_end(session, answer);
    default: return YQ_NOTHING;
    }
}

static size_t put_number(uint8_t *out, size_t length, uint64_t number)
{
    memcpy(out + length, &number, sizeof number);
    return length + sizeof number;
}

/* Puts all that waits behind what is there. */
static size_t read_effects(yq_session *session, uint8_t *out, size_t length)
{
    yq_effect_numbers effect;
    uint8_t part;
    size_t count;

    while (yq_effect(session, &effect) == YQ_OK) {
        length = put_number(out, length, effect.kind);
        length = put_number(out, length, effect.id);
        length = put_number(out, length, effect.message.kind);
        for (part = YQ_KEY; part <= YQ_ATTACHMENT; part++) {
            want(yq_effect_bytes(session, part, out + length, 64, &count), YQ_OK, "yq_effect_bytes");
            length += count;
        }
        want(yq_effect_bytes(session, YQ_ATTACHMENT + 1, out + length, 64, &count), YQ_NO_PART, "yq_effect_bytes of no part");
        want(yq_next_effect(session), YQ_OK, "yq_next_effect");
    }
    return length;
}

/* All that comes out where that growth is refused, and how many bytes it has. */
static size_t run(long growth, uint8_t *out)
{
    yq_session session = {0};
    yq_settings settings;
    yq_answer answer;
    size_t length = 0;
    unsigned place;
    uint32_t status;

    refused = growth;
    growths = failures = 0;
    counting = true;
    yq_defaults(&settings);
    if (yq_open(&session, &settings) == YQ_NO_MEMORY) {
        failures++;
        want(yq_open(&session, &settings), YQ_OK, "yq_open");
    }
    for (place = 0; (status = happen(&session, place, &answer)) != YQ_NOTHING; place++) {
        if (status == YQ_NO_MEMORY) {
            failures++;
            status = happen(&session, place, &answer);
        }
        want(status, YQ_OK, "a call");
        length = put_number(out, length, answer.refusal);
        length = put_number(out, length, answer.has_number ? answer.number : 0);
        if (place % 3 == 2)
            length = read_effects(&session, out, length);
    }
    length = read_effects(&session, out, length);
    counting = false;
    yq_free(&session);
    return length;
}

int main(void)
{
    static uint8_t whole[MOST], out[MOST];
    size_t length = run(0, whole);
    long all = growths, growth;

    for (growth = 1; growth <= all; growth++) {
        if (run(growth, out) != length || memcmp(out, whole, length) || failures > 1) {
            printf("what comes out differs where growth %ld is refused\n", growth);
            return 1;
        }
    }
    printf("%zu bytes of what events brought about, the same whichever of %ld growths is refused\n", length, all);
    return 0;
}
