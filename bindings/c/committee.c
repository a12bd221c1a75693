/* A committee of seven in one process, set up by settings of its own, until all have finalized so many views: `committee [VIEWS]`. Records
 * are kept in memory. Answers 0 where all came so far, and nobody blocked anybody. */
#include "voumlis.h"
#include <stdio.h>
#include <stdlib.h>

#define MEMBERS 7

/* Bytes that grow. */
struct bytes {
    uint8_t *at;
    size_t length, room;
};

/* An event on its way. */
struct letter {
    struct letter *next;
    size_t to, length;
    uint8_t bytes[];
};

struct member {
    struct voumlis_node node;
    struct bytes record;
    uint64_t wake; /* when its clock rings, or 0 */
};

static struct member members[MEMBERS];
static struct letter *first, **last = &first;
static uint64_t now;

static void fail(const char *what, uint64_t number) {
    printf("committee.c: %s: %llu\n", what, (unsigned long long)number);
    exit(1);
}

static void want(const char *what, uint32_t status) {
    if (status != VOUMLIS_DONE)
        fail(what, status);
}

static void grow(struct bytes *it, size_t length) {
    if (length > it->room) {
        it->room = 2 * length;
        it->at = realloc(it->at, it->room);
        if (it->at == NULL)
            fail("no memory", length);
    }
    if (length > it->length)
        memset(it->at + it->length, 0, length - it->length);
    it->length = length;
}

static void put(struct bytes *it, const void *from, size_t length) {
    size_t end = it->length;
    grow(it, end + length);
    memcpy(it->at + end, from, length);
}

static void put_byte(struct bytes *it, uint8_t byte) { put(it, &byte, 1); }

static void put_number(struct bytes *it, uint64_t number) {
    for (; number > 127; number >>= 7)
        put_byte(it, (uint8_t)(number | 128));
    put_byte(it, (uint8_t)number);
}

/* What is left to read of a reply, which the library wrote. */
struct reader {
    const uint8_t *at;
    size_t length;
};

static const uint8_t *take(struct reader *it, size_t length) {
    const uint8_t *front = it->at;
    if (length > it->length)
        fail("a reply is cut", length);
    it->at += length;
    it->length -= length;
    return front;
}

static uint64_t number(struct reader *it) {
    uint64_t found = 0;
    unsigned shift;
    for (shift = 0; shift < 64; shift += 7) {
        uint8_t byte = *take(it, 1);
        found |= (uint64_t)(byte & 127) << shift;
        if (byte < 128)
            break;
    }
    return found;
}

static void send(size_t to, const struct bytes *event) {
    struct letter *letter = malloc(sizeof *letter + event->length);
    if (letter == NULL)
        fail("no memory", event->length);
    letter->next = NULL;
    letter->to = to;
    letter->length = event->length;
    memcpy(letter->bytes, event->at, event->length);
    *last = letter;
    last = &letter->next;
}

/* The payload that is proposed in a view. */
static void payload_of(uint64_t view, uint8_t payload[32]) {
    int i;
    memset(payload, 7, 32);
    for (i = 0; i < 8; i++)
        payload[i] = (uint8_t)(view >> 8 * i);
}

/* A round, a parent and a payload: answers the view. */
static uint64_t proposal(struct reader *it, const uint8_t **payload) {
    uint64_t view;
    number(it);
    view = number(it);
    number(it);
    *payload = take(it, 32);
    return view;
}

/* A context is a round, the leader's key, and a parent with its payload: answers the view. */
static uint64_t context(struct reader *it) {
    uint64_t view;
    number(it);
    view = number(it);
    take(it, 4);
    number(it);
    take(it, 32);
    return view;
}

static void send_packet(size_t me, struct reader *it, struct bytes *event) {
    size_t to = *take(it, 1) ? (size_t)number(it) : MEMBERS, other, length;
    put_byte(event, 0);
    put_number(event, me);
    put_byte(event, *take(it, 1));
    length = (size_t)number(it);
    put_number(event, length);
    put(event, take(it, length), length);
    for (other = 0; other < MEMBERS; other++)
        if (other != me && (to == MEMBERS || to == other))
            send(other, event);
}

static void skip_plan(struct reader *it) {
    uint8_t kind = *take(it, 1);
    uint64_t count;
    number(it);
    number(it);
    if (kind == 2)
        for (count = number(it); count > 0; count--)
            number(it);
}

/* Carries out an action, and answers what it brings its own member by `event`. */
static void carry_out(size_t me, struct reader *it, struct bytes *event) {
    struct voumlis_found found;
    uint8_t payload[32];
    const uint8_t *proposed;
    uint64_t view;
    switch (*take(it, 1)) {
    case 0:
        send_packet(me, it, event);
        event->length = 0;
        break;
    case 1:
        fail("blocked", number(it));
        break;
    case 2:
        put_byte(event, 1);
        put_number(event, number(it));
        take(it, 1);
        payload_of(context(it), payload);
        put_byte(event, 1);
        put(event, payload, 32);
        break;
    case 3:
        put_byte(event, 2);
        put_number(event, number(it));
        context(it);
        payload_of(proposal(it, &proposed), payload);
        put_byte(event, memcmp(payload, proposed, 32) == 0);
        break;
    case 4:
        view = proposal(it, &proposed);
        put_byte(event, 3);
        put_number(event, view);
        put_byte(event, 1);
        break;
    case 5:
        take(it, 32);
        skip_plan(it);
        break;
    case 6:
        proposal(it, &proposed);
        break;
    case 7:
        want("a report", voumlis_decode(VOUMLIS_REPORT, 65535, it->at, it->length, &found));
        take(it, found.length);
        break;
    case 8:
        members[me].wake = number(it);
        break;
    default:
        fail("no action", it->length);
    }
}

static uint64_t eight(struct reader *it) {
    const uint8_t *at = take(it, 8);
    uint64_t found = 0;
    int i;
    for (i = 0; i < 8; i++)
        found = found << 8 | at[i];
    return found;
}

/* Does with a record what a node asks. */
static void keep(struct member *member, struct reader requests) {
    while (requests.length > 0) {
        uint8_t kind = *take(&requests, 1);
        if (kind == VOUMLIS_WRITE) {
            size_t place = (size_t)eight(&requests), length = (size_t)eight(&requests);
            if (place + length > member->record.length)
                grow(&member->record, place + length);
            memcpy(member->record.at + place, take(&requests, length), length);
        } else if (kind == VOUMLIS_CUT) {
            grow(&member->record, (size_t)eight(&requests));
        }
    }
}

/* What a node answers, by one of the two calls that take it. */
typedef uint32_t taking(struct voumlis_node *node, uint8_t *room, size_t length, struct voumlis_found *found);

static struct reader taken(struct member *member, taking *call, struct bytes *room) {
    struct voumlis_found found;
    struct reader reader;
    uint32_t status = call(&member->node, room->at, room->room, &found);
    if (status == VOUMLIS_ROOM) {
        grow(room, found.length);
        status = call(&member->node, room->at, room->room, &found);
    }
    want("taking", status);
    reader.at = room->at;
    reader.length = found.length;
    return reader;
}

/* First the record, then what the replies say. */
static void carry_out_all(size_t me) {
    static struct bytes requests, replies, event;
    struct reader reader;
    keep(&members[me], taken(&members[me], voumlis_node_requests, &requests));
    reader = taken(&members[me], voumlis_node_replies, &replies);
    while (reader.length > 0) {
        uint64_t count;
        take(&reader, 1);
        for (count = number(&reader); count > 0; count--) {
            event.length = 0;
            carry_out(me, &reader, &event);
            if (event.length > 0)
                send(me, &event);
        }
    }
}

/* In terms of one view, with other timeouts, a shuffled order and another base than the program has. */
static struct voumlis_settings settings_of(uint32_t member) {
    struct voumlis_settings settings = voumlis_settings_of(MEMBERS, member);
    settings.epoch = 9;
    memset(settings.genesis, 0x5a, sizeof settings.genesis);
    settings.base = (const uint8_t *)"a committee of seven";
    settings.base_length = 20;
    settings.term_length = 1;
    settings.stall_timeout = 3000;
    settings.optimistic_views = 1;
    settings.shuffled = 1;
    settings.seed = (const uint8_t *)"a seed";
    settings.seed_length = 6;
    settings.leader_timeout = 300;
    settings.certification_timeout = 700;
    settings.retry_timeout = 900;
    settings.retention = 20;
    settings.skips = VOUMLIS_SKIPS_FIXED;
    settings.skip_timeout = 2000;
    settings.skip_budget = 3;
    settings.forwarding = VOUMLIS_FORWARDING_SILENT_VOTERS;
    settings.historical_votes = 0;
    return settings;
}

/* Nothing is on its way: the time passes until the first clock rings. */
static void ring(void) {
    struct bytes event = {NULL, 0, 0};
    uint64_t next = UINT64_MAX;
    size_t me;
    for (me = 0; me < MEMBERS; me++)
        if (members[me].wake > 0 && members[me].wake < next)
            next = members[me].wake;
    if (next == UINT64_MAX)
        fail("nobody waits for anything", now);
    if (next > now)
        now = next;
    put_byte(&event, 4);
    put_number(&event, now);
    for (me = 0; me < MEMBERS; me++)
        if (members[me].wake > 0 && members[me].wake <= now) {
            members[me].wake = 0;
            send(me, &event);
        }
    free(event.at);
}

static void deliver(void) {
    struct letter *letter = first;
    struct voumlis_found found;
    first = letter->next;
    if (first == NULL)
        last = &first;
    want("an event", voumlis_node_step(&members[letter->to].node, letter->bytes, letter->length, &found));
    carry_out_all(letter->to);
    free(letter);
}

/* How far the last of all is. */
static uint64_t finalized(void) {
    struct voumlis_views views;
    uint64_t least = UINT64_MAX;
    size_t me;
    for (me = 0; me < MEMBERS; me++) {
        want("views", voumlis_node_views(&members[me].node, &views));
        if (views.finalized < least)
            least = views.finalized;
    }
    return least;
}

int main(int count, char **words) {
    uint64_t views = count > 1 ? strtoull(words[1], NULL, 10) : 1000, steps;
    struct voumlis_found found;
    uint32_t me;
    for (me = 0; me < MEMBERS; me++) {
        struct voumlis_settings settings = settings_of(me);
        want("opening", voumlis_node_open_with(&settings, 0, NULL, 0, &members[me].node, &found));
        carry_out_all(me);
    }
    for (steps = 0; steps % 64 != 0 || finalized() < views; steps++) {
        if (first == NULL)
            ring();
        deliver();
    }
    for (me = 0; me < MEMBERS; me++) {
        struct voumlis_settings settings = settings_of(me);
        want("closing", voumlis_node_close(&members[me].node));
        want("opening again", voumlis_node_open_with(&settings, 0, members[me].record.at, members[me].record.length,
                                                     &members[me].node, &found));
        want("closing", voumlis_node_close(&members[me].node));
        free(members[me].record.at);
    }
    return 0;
}
