/* Two sessions in one process, each of which carries the other's messages, with a call for each event. The lamp's session answers
 * for its state and hears commands; the panel's session publishes a command and asks for the state. What is printed is what the
 * events brought about. */
#include "yeqofin.h"

#include <stdio.h>
#include <stdlib.h>
#include <string.h>

struct side {
    const char *name;
    yq_session session;
};

/* The texts and bytes of an effect, in memory of our own. */
struct bytes {
    uint8_t *at[YQ_ATTACHMENT + 1];
    size_t length[YQ_ATTACHMENT + 1];
};

static void want(const struct side *side, const char *call, uint32_t status)
{
    if (status != YQ_OK) {
        fprintf(stderr, "%s: %s answers %u\n", side->name, call, (unsigned)status);
        exit(1);
    }
}

/* The number that an accepted event drew. */
static uint32_t accepted(const struct side *side, const char *call, uint32_t status, const yq_answer *answer)
{
    want(side, call, status);
    if (answer->refusal != YQ_ACCEPTED) {
        fprintf(stderr, "%s: %s is refused for %u\n", side->name, call, (unsigned)answer->refusal);
        exit(1);
    }
    return answer->has_number ? answer->number : 0;
}

static yq_key key_of(const char *text)
{
    yq_key key = {0, {(const uint8_t *)text, strlen(text)}};

    return key;
}

static void open_side(struct side *side, uint64_t zid)
{
    yq_settings settings;

    yq_defaults(&settings);
    settings.zid_low = zid;
    settings.tag = zid;
    want(side, "yq_open", yq_open(&side->session, &settings));
}

/* Copies the texts and bytes of the first effect, each by as many calls as a small buffer takes. */
static void copy_bytes(struct side *side, const yq_effect_numbers *effect, struct bytes *bytes)
{
    const size_t lengths[] = {0, effect->lengths.key, effect->lengths.payload, effect->lengths.encoding,
                              effect->lengths.parameters, effect->lengths.attachment};
    uint8_t part;

    for (part = YQ_KEY; part <= YQ_ATTACHMENT; part++) {
        bytes->at[part] = malloc(lengths[part] + 1);
        if (!bytes->at[part])
            exit(1);
        want(side, "yq_effect_bytes", yq_effect_bytes(&side->session, part, bytes->at[part], lengths[part], &bytes->length[part]));
        if (bytes->length[part] != lengths[part])
            exit(1);
        bytes->at[part][lengths[part]] = 0;
    }
}

static yq_bytes part_of(const struct bytes *bytes, int part)
{
    yq_bytes lent = {bytes->at[part], bytes->length[part]};

    return lent;
}

/* The other side takes a message, as it stands. */
static void deliver(struct side *to, const yq_effect_numbers *effect, const struct bytes *bytes)
{
    yq_parts parts = {part_of(bytes, YQ_KEY), part_of(bytes, YQ_PAYLOAD), part_of(bytes, YQ_ENCODING),
                      part_of(bytes, YQ_PARAMETERS), part_of(bytes, YQ_ATTACHMENT)};
    yq_answer answer;

    want(to, "yq_receive", yq_receive(&to->session, &effect->message, &parts, &answer));
    printf("%s\ttakes message %u\t%s\n", to->name, (unsigned)effect->message.kind,
           answer.refusal == YQ_ACCEPTED ? "ok" : "refused");
}

/* Answers a query with the lamp's state, and gives it back. */
static void answer_query(struct side *side, uint32_t query, const struct bytes *bytes)
{
    yq_key key = {0, part_of(bytes, YQ_KEY)};
    yq_reply_quality how = {0};
    yq_extras extras;
    yq_answer answer;

    yq_extras_defaults(&extras);
    extras.encoding.at = (const uint8_t *)"text/plain";
    extras.encoding.length = 10;
    accepted(side, "yq_reply", yq_reply(&side->session, query, &key, (const uint8_t *)"o\0n", 3, &how, &extras, &answer), &answer);
    accepted(side, "yq_finish", yq_finish(&side->session, query, &answer), &answer);
}

/* Does what an effect says. */
static void carry_out(struct side *from, struct side *to, const yq_effect_numbers *effect, const struct bytes *bytes)
{
    switch (effect->kind) {
    case YQ_SEND:
        deliver(to, effect, bytes);
        break;
    case YQ_HAND_SAMPLE:
        printf("%s\tsubscriber %u\t%s\t%zu bytes of %s\n", from->name, (unsigned)effect->id, bytes->at[YQ_KEY],
               bytes->length[YQ_PAYLOAD], bytes->at[YQ_ENCODING]);
        break;
    case YQ_HAND_REPLY:
        printf("%s\tget %u\t%s\t%zu bytes of %s\tby %llu:%u\n", from->name, (unsigned)effect->id, bytes->at[YQ_KEY],
               bytes->length[YQ_PAYLOAD], bytes->at[YQ_ENCODING],
               (unsigned long long)effect->message.responder.zid_low, (unsigned)effect->message.responder.eid);
        break;
    case YQ_HAND_QUERY:
        printf("%s\tqueryable %u\t%s?%s\n", from->name, (unsigned)effect->id, bytes->at[YQ_KEY], bytes->at[YQ_PARAMETERS]);
        answer_query(from, effect->query, bytes);
        break;
    case YQ_HANDLER_ENDS:
        printf("%s\t%u ends, of sort %u\n", from->name, (unsigned)effect->id, (unsigned)effect->entity);
        break;
    case YQ_MATCHING:
        printf("%s\tlistener %u\t%s\n", from->name, (unsigned)effect->id, effect->matching ? "matched" : "not matched");
        break;
    }
}

/* Carries out all that waits on a side. Returns whether anything did. */
static bool carry(struct side *from, struct side *to)
{
    yq_effect_numbers effect;
    bool any = false;

    while (yq_effect(&from->session, &effect) == YQ_OK) {
        struct bytes bytes;
        uint8_t part;

        any = true;
        copy_bytes(from, &effect, &bytes);
        want(from, "yq_next_effect", yq_next_effect(&from->session));
        carry_out(from, to, &effect, &bytes);
        for (part = YQ_KEY; part <= YQ_ATTACHMENT; part++)
            free(bytes.at[part]);
    }
    return any;
}

static void settle(struct side *one, struct side *other)
{
    bool any = true;

    while (any) {
        any = carry(one, other);
        any = carry(other, one) || any;
    }
}

static void declare_lamp(struct side *lamp)
{
    yq_key commands = key_of("home/lamp/set"), state = key_of("home/lamp");
    yq_answer answer;

    accepted(lamp, "yq_declare_subscriber", yq_declare_subscriber(&lamp->session, &commands, YQ_ANY, &answer), &answer);
    accepted(lamp, "yq_declare_queryable", yq_declare_queryable(&lamp->session, &state, YQ_ANY, true, &answer), &answer);
}

static void command(struct side *panel, struct side *lamp)
{
    yq_key commands = key_of("home/lamp/set");
    yq_publication how = {0};
    yq_extras extras;
    yq_answer answer;
    uint32_t publisher, listener;

    publisher = accepted(panel, "yq_declare_publisher",
                         yq_declare_publisher(&panel->session, &commands, &how, (const uint8_t *)"", 0, &answer), &answer);
    listener = accepted(panel, "yq_declare_listener", yq_declare_listener(&panel->session, YQ_PUBLISHER, publisher, &answer), &answer);
    settle(panel, lamp);
    yq_extras_defaults(&extras);
    accepted(panel, "yq_publisher_put",
             yq_publisher_put(&panel->session, publisher, (const uint8_t *)"on", 2, &extras, &answer), &answer);
    settle(panel, lamp);
    accepted(panel, "yq_undeclare", yq_undeclare(&panel->session, YQ_LISTENER, listener, &answer), &answer);
    settle(panel, lamp);
}

static void ask(struct side *panel, struct side *lamp)
{
    yq_key state = key_of("home/lamp");
    yq_ask how = {0};
    yq_inquiry what;
    yq_answer answer;

    yq_inquiry_defaults(&what);
    what.parameters.at = (const uint8_t *)"now";
    what.parameters.length = 3;
    accepted(panel, "yq_get", yq_get(&panel->session, &state, &how, &what, &answer), &answer);
    settle(panel, lamp);
}

/* What is no event is a status, and what the session refuses is an answer. */
static void spoil(struct side *panel)
{
    yq_key broken = key_of("home/\xff"), twice = key_of("home//lamp");
    yq_publication how = {0}, odd = {9, {0, false, false}, false};
    yq_message message = {0};
    yq_extras extras;
    yq_parts parts;
    yq_answer answer;

    yq_extras_defaults(&extras);
    yq_parts_defaults(&parts);
    printf("%s\tno text: %u\n", panel->name, (unsigned)yq_delete(&panel->session, &broken, &how, &extras, &answer));
    printf("%s\tno place: %u\n", panel->name, (unsigned)yq_delete(&panel->session, &twice, &odd, &extras, &answer));
    message.kind = 99;
    printf("%s\tno message: %u\n", panel->name, (unsigned)yq_receive(&panel->session, &message, &parts, &answer));
    want(panel, "yq_delete", yq_delete(&panel->session, &twice, &how, &extras, &answer));
    printf("%s\tno key expression: %u\n", panel->name, (unsigned)answer.refusal);
    want(panel, "yq_finish", yq_finish(&panel->session, 77, &answer));
    printf("%s\tno such query: %u\n", panel->name, (unsigned)answer.refusal);
}

int main(void)
{
    struct side lamp = {"lamp", {0}}, panel = {"panel", {0}};
    yq_answer answer;

    open_side(&lamp, 1);
    open_side(&panel, 2);
    declare_lamp(&lamp);
    settle(&lamp, &panel);
    command(&panel, &lamp);
    ask(&panel, &lamp);
    spoil(&panel);
    accepted(&panel, "yq_end", yq_end(&panel.session, &answer), &answer);
    settle(&panel, &lamp);
    accepted(&lamp, "yq_end", yq_end(&lamp.session, &answer), &answer);
    settle(&lamp, &panel);
    printf("nothing waits: %u\n", (unsigned)yq_next_effect(&lamp.session));
    yq_free(&panel.session);
    yq_free(&lamp.session);
    printf("no session: %u\n", (unsigned)yq_end(&lamp.session, &answer));
    return 0;
}
