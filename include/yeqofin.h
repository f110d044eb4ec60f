/* Yeqofin for C: a client session of Eclipse Zenoh that opens no socket and starts no thread.
 *
 * Things happen to a session: the application declares, puts and asks, time passes, messages come in. What each brings about is
 * kept until it is read: messages that are to be sent, and what is handed to the application's subscribers, queryables and gets.
 * Whoever holds the session carries the messages and does what is to be done.
 *
 * There are two ways, and they can be mixed:
 * - A call for each event (yq_put, yq_get, yq_receive ..). What it brings about is read by yq_effect.
 * - A line of the script language (docs/SCRIPT.md) by yq_line. The printed text of its turn is read by yq_text.
 *
 * What each call answers and leaves is proved; the contracts stand in crates/zs_c. Nothing checks what is asked of C here:
 *
 * - A slot begins all zero (`yq_session session = {0};`), is changed by these calls alone, and is not copied while it has a
 *   session. A session that is not ended by yq_free stays in memory.
 * - One call at a time for one slot, all from one thread. Two slots have nothing in common.
 * - Pointers are valid and not NULL, also where a length is 0 (that of an empty string will do), and none that a call writes to
 *   points into another's memory. Lengths are true. Nothing that a call is lent is used after it returns.
 * - No call is made from a signal handler, nor in a forked child of a process with threads. malloc, realloc and free are of
 *   one allocator, and align each block to every power of two up to 16 that divides its size.
 *
 * Link with libzs_c.a and the toolchain's liblibc_c.a (docs/C.md).
 */
#ifndef YEQOFIN_H
#define YEQOFIN_H

#include <stdbool.h>
#include <stddef.h>
#include <stdint.h>

#ifdef __cplusplus
extern "C" {
#endif

/* What a call answers. After every other answer than YQ_OK the session and all that waits to be read are as they were. */
enum {
    YQ_OK = 0,           /* the call did what it is for */
    YQ_NOT_OPEN = 1,     /* there is no session in the slot */
    YQ_ALREADY_OPEN = 2, /* there is a session in the slot */
    YQ_BAD_SETTINGS = 3, /* no session can be opened with these settings */
    YQ_TOO_LONG = 4,     /* the line has more bytes than the settings allow */
    YQ_NO_EVENT = 5,     /* what was given says no event: a text that is not UTF-8, a number that means nothing, a line of no
                            form of the language, or one that reads a channel (recv), as this session has none */
    YQ_NO_MEMORY = 6,    /* want of memory */
    YQ_NOTHING = 7,      /* no effect waits */
    YQ_NO_PART = 8       /* there is no part of that number */
};

/* A slot. */
typedef struct {
    bool live;
    struct {
        void *at;
    } handle;
} yq_session;

/* What a session is opened with. yq_defaults gives the values in brackets. */
typedef struct {
    uint64_t zid_high;        /* the session's own identifier in the network, its ZenohId: the upper half [0] */
    uint64_t zid_low;         /* and the lower; the whole is not 0 [1] */
    uint64_t tag;             /* what the keys that it declares are marked with, to tell them from other sessions' [1] */
    uint64_t default_timeout; /* after how many milliseconds a get ends that doesn't say it itself [10000] */
    uint32_t entity_start;    /* the number of the session itself; the first entity has the next. Below 4294967295 [1] */
    uint32_t query_start;     /* the number of its first get [0] */
    uint32_t line_max;        /* how many bytes a line may have, from 1 to 1048576 [65536] */
    uint16_t key_start;       /* the number of the first key that it declares, not 0 [1] */
} yq_settings;

/* Writes the settings that a session has if nothing is said. */
void yq_defaults(yq_settings *settings);

/* Opens a session in a slot that has none: nothing is declared in it, and nothing waits to be read.
 * YQ_OK, YQ_ALREADY_OPEN, YQ_BAD_SETTINGS, YQ_NO_MEMORY. */
uint32_t yq_open(yq_session *session, const yq_settings *settings);

/* Ends the session in a slot, if it has one, and frees its memory, with all that was not read. Nothing is sent: yq_end
 * or yq_close comes before it. The slot can be opened again. */
void yq_free(yq_session *session);

/* ---- Events, a call each ----
 *
 * Each answers YQ_OK, YQ_NOT_OPEN, YQ_NO_EVENT or YQ_NO_MEMORY. At YQ_OK the session took the event, and its answer is written;
 * what it brought about stands behind what waits for yq_effect. At all others nothing is changed and nothing is written. */

/* Bytes that a call is lent, or a text in UTF-8. */
typedef struct {
    const uint8_t *at; /* not NULL */
    size_t length;
} yq_bytes;

/* What an event is answered. */
typedef struct {
    uint8_t refusal; /* 0: it was accepted. Else why not, and nothing follows from it: */
    bool has_number; /* whether the next is meant: a declared key or entity, a get, a cancellation token or a query drew it */
    uint32_t number; /* that number; of yq_matching 1 where anyone matches, else 0 */
} yq_answer;

enum {
    YQ_ACCEPTED = 0,
    YQ_SESSION_CLOSED = 1,  /* the session is closed */
    YQ_NOT_FOUND = 2,       /* something that is named isn't there */
    YQ_UNKNOWN_SCOPE = 3,   /* a message has a number that the other side never declared */
    YQ_BAD_KEY_EXPR = 4,    /* a key is no canonical key expression */
    YQ_QUERY_CANCELLED = 5, /* the get's cancellation token is spent */
    YQ_REPLY_DISJOINT = 6,  /* the reply's key doesn't meet that of its query */
    YQ_NOT_DECLARED = 7,    /* the key that is given back was never declared */
    YQ_IDS_EXHAUSTED = 8,   /* the numbers of that sort are all drawn */
    YQ_IGNORED = 9          /* a message means nothing here */
};

/* A key. */
typedef struct {
    uint16_t number; /* a number that the session declared for a key, or 0 */
    yq_bytes text;   /* what stands behind that key; where the number is 0 the whole key */
} yq_key;

/* The sorts of what has a number. */
enum {
    YQ_SUBSCRIBER = 1,
    YQ_LIVELINESS_SUBSCRIBER = 2,
    YQ_PUBLISHER = 3,
    YQ_QUERYABLE = 4,
    YQ_QUERIER = 5,
    YQ_TOKEN = 6,
    YQ_LISTENER = 7,
    YQ_GET = 8,
    YQ_LIVELINESS_GET = 9
};

/* Whose subscribers or queryables are meant, or whose publications and queries. */
enum { YQ_ANY = 0, YQ_SESSION_LOCAL = 1, YQ_REMOTE = 2 };

/* When something was made, and by whose clock. */
typedef struct {
    bool is_known; /* false: the rest is not read */
    uint64_t time;
    uint64_t id_high; /* the upper half of the clock's id */
    uint64_t id_low;
} yq_timestamp;

/* An entity of any session. */
typedef struct {
    bool is_known; /* false: the rest is not read */
    uint64_t zid_high; /* the upper half of the session's ZenohId */
    uint64_t zid_low;
    uint32_t eid; /* the entity's number there */
} yq_entity;

/* Who made a sample, and its number among the samples of that source. */
typedef struct {
    yq_entity id;
    uint32_t sn;
} yq_source;

/* How urgent a message is; the less, the more urgent. */
enum {
    YQ_PRIORITY_REAL_TIME = 1,
    YQ_PRIORITY_INTERACTIVE_HIGH = 2,
    YQ_PRIORITY_INTERACTIVE_LOW = 3,
    YQ_PRIORITY_DATA_HIGH = 4,
    YQ_PRIORITY_DATA = 5, /* the usual one */
    YQ_PRIORITY_DATA_LOW = 6,
    YQ_PRIORITY_BACKGROUND = 7
};

/* How a publication is made. All of it zero is the usual way. */
typedef struct {
    uint8_t destination; /* whose subscribers are handed it: YQ_ANY, YQ_SESSION_LOCAL or YQ_REMOTE */
    struct {
        uint8_t priority; /* YQ_PRIORITY_..; 0 is YQ_PRIORITY_DATA */
        bool blocks;      /* where a queue is full the sender waits; else it is lost */
        bool express;     /* it goes out at once, and isn't batched with others */
    } qos;
    bool best_effort; /* it isn't sent again where it was lost on the way */
} yq_publication;

/* What a put, a deletion or a reply says beside its payload. yq_extras_defaults writes that it says nothing. */
typedef struct {
    yq_bytes encoding; /* what the payload is; without a byte the publisher's, or zenoh/bytes. Deletions have none */
    yq_timestamp timestamp;
    yq_source source;
    bool has_attachment;
    yq_bytes attachment; /* bytes of the application's own */
} yq_extras;

void yq_extras_defaults(yq_extras *extras);

/* Puts bytes on a key. */
uint32_t yq_put(yq_session *session, const yq_key *key, const uint8_t *payload, size_t length, const yq_publication *how,
                const yq_extras *extras, yq_answer *answer);

/* Deletes a key's value. */
uint32_t yq_delete(yq_session *session, const yq_key *key, const yq_publication *how, const yq_extras *extras, yq_answer *answer);

/* The same by a publisher, on its key. */
uint32_t yq_publisher_put(yq_session *session, uint32_t publisher, const uint8_t *payload, size_t length, const yq_extras *extras,
                          yq_answer *answer);
uint32_t yq_publisher_delete(yq_session *session, uint32_t publisher, const yq_extras *extras, yq_answer *answer);

/* Declares a key, which is held under the number that is drawn until it was given back as often as it was declared. */
uint32_t yq_declare_key(yq_session *session, const yq_key *key, yq_answer *answer);

/* Gives a declared key back. */
uint32_t yq_undeclare_key(yq_session *session, const yq_key *key, yq_answer *answer);

/* Declares a subscriber, which is handed publications of that origin. */
uint32_t yq_declare_subscriber(yq_session *session, const yq_key *key, uint8_t origin, yq_answer *answer);

/* Declares a publisher. The encoding is that of its puts that name none; without a byte it is zenoh/bytes. */
uint32_t yq_declare_publisher(yq_session *session, const yq_key *key, const yq_publication *how, const uint8_t *encoding,
                              size_t length, yq_answer *answer);

/* Declares a queryable, which is handed queries of that origin. A complete one knows all values of its key. */
uint32_t yq_declare_queryable(yq_session *session, const yq_key *key, uint8_t origin, bool complete, yq_answer *answer);

/* Which queryables a get asks. */
enum {
    YQ_QUERY_TARGET_BEST_MATCHING = 0,
    YQ_QUERY_TARGET_ALL = 1,
    YQ_QUERY_TARGET_ALL_COMPLETE = 2 /* all that are complete */
};

/* Which replies on one key are handed out. */
enum {
    YQ_CONSOLIDATION_MODE_AUTO = 0,      /* as suits the query: none where its parameters name a time, else the latest */
    YQ_CONSOLIDATION_MODE_NONE = 1,      /* all, as they come */
    YQ_CONSOLIDATION_MODE_MONOTONIC = 2, /* as they come, but none older than one before */
    YQ_CONSOLIDATION_MODE_LATEST = 3     /* the newest, at the end */
};

/* How a get asks, or a querier with all its gets. All of it zero is the usual way. */
typedef struct {
    uint8_t destination;   /* whose queryables are asked: YQ_ANY, YQ_SESSION_LOCAL or YQ_REMOTE */
    uint8_t target;        /* YQ_QUERY_TARGET_.. */
    uint8_t consolidation; /* YQ_CONSOLIDATION_MODE_.. */
    uint8_t priority;      /* YQ_PRIORITY_..; 0 is YQ_PRIORITY_DATA */
    bool drops;            /* where a queue is full the query is lost; else the sender waits */
    bool express;          /* it goes out at once, and isn't batched with others */
    bool any_key;          /* replies are taken on any key */
    bool has_timeout;      /* whether the next is meant; else what the settings say */
    uint64_t timeout;      /* after how many milliseconds it ends, whatever is missing */
} yq_ask;

/* What a get asks beside its key. yq_inquiry_defaults writes that it asks nothing. */
typedef struct {
    yq_bytes parameters; /* what stands behind the `?` of the selector */
    bool has_value;      /* whether queryables are told a payload */
    yq_bytes payload;
    yq_bytes encoding; /* what the payload is; without a byte zenoh/bytes */
    yq_source source;
    bool has_attachment;
    yq_bytes attachment;
    bool has_token; /* whether the next is the cancellation token by which it can be cancelled */
    uint32_t token;
} yq_inquiry;

void yq_inquiry_defaults(yq_inquiry *what);

/* Declares a querier, whose gets ask so. */
uint32_t yq_declare_querier(yq_session *session, const yq_key *key, const yq_ask *how, yq_answer *answer);

/* Declares a liveliness token: others see that it is alive while it is not undeclared. */
uint32_t yq_declare_token(yq_session *session, const yq_key *key, yq_answer *answer);

/* Declares a subscriber to liveliness. With `history` it is handed the tokens that are there already. */
uint32_t yq_declare_liveliness_subscriber(yq_session *session, const yq_key *key, bool history, yq_answer *answer);

/* Declares a listener, which is told whether anyone matches a publisher or querier (YQ_PUBLISHER, YQ_QUERIER), or asks it once. */
uint32_t yq_declare_listener(yq_session *session, uint8_t kind, uint32_t id, yq_answer *answer);
uint32_t yq_matching(yq_session *session, uint8_t kind, uint32_t id, yq_answer *answer);

/* Ends what was declared under a number: all sorts but gets. */
uint32_t yq_undeclare(yq_session *session, uint8_t kind, uint32_t id, yq_answer *answer);

/* Leaves a subscriber, liveliness subscriber, queryable or listener to itself: it lives on, and can no longer be named. */
uint32_t yq_background(yq_session *session, uint8_t kind, uint32_t id, yq_answer *answer);

/* Asks for values of a key, or by a querier of its key. */
uint32_t yq_get(yq_session *session, const yq_key *key, const yq_ask *how, const yq_inquiry *what, yq_answer *answer);
uint32_t yq_querier_get(yq_session *session, uint32_t querier, const yq_inquiry *what, yq_answer *answer);

/* How a liveliness get asks. All of it zero is the usual way. */
typedef struct {
    bool has_timeout;
    uint64_t timeout;
    bool has_token;
    uint32_t token;
} yq_liveliness;

/* Asks for the liveliness tokens that are alive. */
uint32_t yq_liveliness_get(yq_session *session, const yq_key *key, const yq_liveliness *how, yq_answer *answer);

/* Makes a cancellation token, which gets can be given; cancels those that were given it. */
uint32_t yq_cancellation_token(yq_session *session, yq_answer *answer);
uint32_t yq_cancel(yq_session *session, uint32_t token, yq_answer *answer);

/* What a reply says of its quality of service where it isn't as its query has it, which is 0. */
enum {
    YQ_REPLY_DROPS = 1,   /* of congestion: where a queue is full it is lost */
    YQ_REPLY_BLOCKS = 2,  /* and the sender waits */
    YQ_REPLY_BATCHED = 1, /* of express: it can be batched with others */
    YQ_REPLY_EXPRESS = 2  /* and it goes out at once */
};

/* The quality of service of a reply. What is 0 is as its query has it. */
typedef struct {
    uint8_t priority;   /* YQ_PRIORITY_.. */
    uint8_t congestion; /* YQ_REPLY_DROPS or YQ_REPLY_BLOCKS */
    uint8_t express;    /* YQ_REPLY_BATCHED or YQ_REPLY_EXPRESS */
} yq_reply_quality;

/* Answers a query that was handed out under that number: with bytes on a key, its deletion, or an error. */
uint32_t yq_reply(yq_session *session, uint32_t query, const yq_key *key, const uint8_t *payload, size_t length,
                  const yq_reply_quality *how, const yq_extras *extras, yq_answer *answer);
uint32_t yq_reply_delete(yq_session *session, uint32_t query, const yq_key *key, const yq_reply_quality *how,
                         const yq_extras *extras, yq_answer *answer);
uint32_t yq_reply_error(yq_session *session, uint32_t query, const uint8_t *payload, size_t length, const uint8_t *encoding,
                        size_t encoding_length, yq_answer *answer);

/* Asks for one more number of a query; gives a number back. The asker is told that all have answered when all were given back. */
uint32_t yq_share(yq_session *session, uint32_t query, yq_answer *answer);
uint32_t yq_finish(yq_session *session, uint32_t query, yq_answer *answer);

/* A moment has come, in milliseconds from a beginning of the caller's choice: gets whose time is over end. */
uint32_t yq_tick(yq_session *session, uint64_t now, yq_answer *answer);

/* Closes the session: all that it declared and asked ends. It stays in its slot, so that what this brings about can be read. */
uint32_t yq_end(yq_session *session, yq_answer *answer);

/* The numbers of a message, or of what is handed over. What a kind doesn't have is 0 where the library writes, and is not read. */
typedef struct {
    uint8_t kind;           /* below; 0 what is handed over */
    uint16_t key_number;    /* the number that stands for a declared key */
    uint32_t id;            /* the number of what is declared, of an interest, or of a query */
    bool has_key;           /* whether the end of a token, or an interest, names a key */
    uint16_t scope;         /* the declared number that the key begins with, or 0 */
    bool by_receiver;       /* whether the receiver declared that number; else the sender */
    bool complete;          /* whether a queryable is complete */
    bool has_interest;      /* whether the next is the number of an interest */
    uint32_t interest;
    uint8_t mode;           /* of an interest: YQ_INTEREST_CURRENT .. */
    uint8_t what;           /* of an interest: YQ_INTEREST_SUBSCRIBERS .. */
    bool deletes;           /* whether a publication or reply deletes; else it puts */
    bool is_error;          /* whether a reply is an error */
    bool has_value;         /* whether a query has a payload */
    bool has_attachment;
    uint8_t priority;       /* from 0, the most urgent, to 7 */
    bool blocks;            /* where a queue is full the sender waits; else it is lost */
    bool express;
    bool reliable;          /* whether it may not be lost on the way */
    uint8_t target;         /* of a query, as in yq_ask */
    uint8_t consolidation;  /* of a query, as in yq_ask */
    uint64_t timeout;       /* of a query, in milliseconds */
    yq_timestamp timestamp;
    yq_source source;
    yq_entity responder;    /* the queryable that replies */
} yq_message;

/* What an interest asks for, and of what. */
enum {
    YQ_INTEREST_CURRENT = 0,        /* mode: what stands */
    YQ_INTEREST_FUTURE = 1,         /* what is to come */
    YQ_INTEREST_CURRENT_FUTURE = 2, /* both */
    YQ_INTEREST_FINAL = 3,          /* nothing any more */
    YQ_INTEREST_SUBSCRIBERS = 0,    /* what */
    YQ_INTEREST_QUERYABLES = 1,
    YQ_INTEREST_TOKENS = 2,
    YQ_INTEREST_OF_NOTHING = 3 /* an end names none */
};

enum {
    YQ_DECLARE_KEY_EXPR = 1,      /* key_number stands for the key */
    YQ_UNDECLARE_KEY_EXPR = 2,    /* key_number */
    YQ_DECLARE_SUBSCRIBER = 3,    /* id, key */
    YQ_UNDECLARE_SUBSCRIBER = 4,  /* id */
    YQ_DECLARE_QUERYABLE = 5,     /* id, complete, key */
    YQ_UNDECLARE_QUERYABLE = 6,   /* id */
    YQ_DECLARE_TOKEN = 7,         /* id, key, interest */
    YQ_UNDECLARE_TOKEN = 8,       /* id, a key, interest */
    YQ_DECLARE_FINAL = 9,         /* interest */
    YQ_INTEREST = 10,             /* id, mode, what, a key */
    YQ_PUSH = 11,                 /* key, payload, encoding, attachment, .. */
    YQ_REQUEST = 12,              /* id, key, parameters, payload, encoding, attachment, .. */
    YQ_RESPONSE = 13,             /* id, key, payload, encoding, attachment, .. */
    YQ_RESPONSE_FINAL = 14,       /* id */
    YQ_CLOSE = 15
};

/* The texts and bytes of a message. yq_parts_defaults writes that each is empty. */
typedef struct {
    yq_bytes key; /* the key, or what stands behind its declared number */
    yq_bytes payload;
    yq_bytes encoding;
    yq_bytes parameters;
    yq_bytes attachment;
} yq_parts;

void yq_parts_defaults(yq_parts *parts);

/* A message comes in from the network. What one session's yq_effect tells of a message, the other takes here. */
uint32_t yq_receive(yq_session *session, const yq_message *message, const yq_parts *parts, yq_answer *answer);

/* ---- What events brought about ---- */

/* One thing that an event brought about. */
typedef struct {
    uint8_t kind;       /* below */
    uint8_t entity;     /* of what sort it is whose number is told: YQ_SUBSCRIBER .. YQ_LIVELINESS_GET; 0 of a message to send */
    uint32_t id;        /* its number */
    uint32_t query;     /* the number under which a query is answered and given back */
    bool matching;      /* whether anyone matches now */
    yq_message message; /* the message, or what is handed over */
    struct {
        size_t key;
        size_t payload;
        size_t encoding;
        size_t parameters;
        size_t attachment;
    } lengths; /* how many bytes its texts and bytes have */
} yq_effect_numbers;

enum {
    YQ_SEND = 1,         /* a message goes to the network */
    YQ_HAND_SAMPLE = 2,  /* a sample for a subscriber */
    YQ_HAND_REPLY = 3,   /* a reply for a get */
    YQ_HAND_QUERY = 4,   /* a query for a queryable */
    YQ_HANDLER_ENDS = 5, /* nothing more is handed to that one */
    YQ_MATCHING = 6      /* a listener is told */
};

/* The texts and bytes of an effect, by number. */
enum { YQ_KEY = 1, YQ_PAYLOAD = 2, YQ_ENCODING = 3, YQ_PARAMETERS = 4, YQ_ATTACHMENT = 5 };

/* Writes the first effect that waits, which goes on to wait.
 * YQ_OK, YQ_NOT_OPEN, YQ_NOTHING (nothing is written but for YQ_OK). */
uint32_t yq_effect(yq_session *session, yq_effect_numbers *effect);

/* Copies as much of one of its texts and bytes as fits into `room` bytes to the front of `out`, and writes how many bytes.
 * YQ_OK, YQ_NOT_OPEN, YQ_NO_PART (`part` is none of the numbers above; said also where no effect waits), YQ_NOTHING (at all but
 * YQ_OK *count is 0). */
uint32_t yq_effect_bytes(yq_session *session, uint8_t part, uint8_t *out, size_t room, size_t *count);

/* Lets go of the first effect that waits; the next is the first then.
 * YQ_OK, YQ_NOT_OPEN, YQ_NOTHING. */
uint32_t yq_next_effect(yq_session *session);

/* ---- Lines ---- */

/* The session takes a line, without its line feed. The text of its turn stands behind what was not read yet, each line of which
 * begins with `number`; the session makes no other use of it. An event that the session refuses is YQ_OK: the text says why. A
 * message that came in is a line too, one that begins with "net".
 * YQ_OK, YQ_NOT_OPEN, YQ_TOO_LONG, YQ_NO_EVENT, YQ_NO_MEMORY. */
uint32_t yq_line(yq_session *session, uint64_t number, const uint8_t *line, size_t length);

/* Closes the session, as the line "close" does. It stays in its slot, so that its last text can be read.
 * YQ_OK, YQ_NOT_OPEN, YQ_NO_MEMORY. */
uint32_t yq_close(yq_session *session, uint64_t number);

/* Writes how many bytes of text wait to be read.
 * YQ_OK, YQ_NOT_OPEN (then *count is 0). */
uint32_t yq_waiting(yq_session *session, size_t *count);

/* Moves as much of the text as there is and fits into `room` bytes to the front of `out`, and writes how many bytes. The rest waits
 * for the next call, so a small buffer loses nothing; the text is not ended by a byte 0.
 * YQ_OK, YQ_NOT_OPEN (then *count is 0). */
uint32_t yq_text(yq_session *session, uint8_t *out, size_t room, size_t *count);

#ifdef __cplusplus
}
#endif

#endif
