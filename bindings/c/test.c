/* What the header tests before it calls, and a call of each function: answers 0 where all is as it has to be. */
#include "voumlis.h"
#include <stdio.h>
#include <string.h>

static int failed = 0;

static void want(int line, uint32_t got, uint32_t wanted) {
    if (got != wanted) {
        printf("test.c:%d: %u in place of %u\n", line, (unsigned)got, (unsigned)wanted);
        failed = 1;
    }
}

#define WANT(call, wanted) want(__LINE__, (call), (wanted))

/* The certification of epoch 0, view 3: true; and a record of it. */
static const uint8_t verdict[] = {2, 0, 3, 1};
static const uint8_t record[] = {1, 0, 0, 0, 4, 2, 0, 3, 1, 0};

/* What is no record as a crash leaves one isn't opened: text; an open gate with no whole entry; behind a closed gate an entry whose
 * own gate is open, and two entries. A part of an entry is. */
static void test_looks(void) {
    struct voumlis_node node = VOUMLIS_NO_NODE;
    struct voumlis_found found;
    static const uint8_t text[] = {'#', ' ', 'V', 'o', 'u', 'm', 'l', 'i', 's'};
    static const uint8_t lost[] = {1, 0, 0, 0, 9, 2};
    static const uint8_t opened[] = {0, 0, 0, 0, 1, 7, 1};
    static const uint8_t more[] = {0, 0, 0, 0, 1, 7, 0, 0};
    static const uint8_t part[] = {0, 0, 0, 0, 4, 2, 0};
    const struct {
        const uint8_t *bytes;
        size_t length;
    } torn[] = {{lost, sizeof lost}, {opened, sizeof opened}, {more, sizeof more}};
    size_t i;

    for (i = 0; i < 2; i++) {
        found.named = 7;
        WANT(voumlis_node_open_cutting(4, 0, (uint32_t)i, text, sizeof text, &node, &found), VOUMLIS_NO_RECORD);
        want(__LINE__, found.named, 0);
    }
    for (i = 0; i < sizeof torn / sizeof *torn; i++) {
        WANT(voumlis_node_open(4, 0, torn[i].bytes, torn[i].length, &node, &found), VOUMLIS_TORN);
        want(__LINE__, found.named, 1);
        want(__LINE__, (uint32_t)found.place, 0);
        want(__LINE__, node.live, 0);
        WANT(voumlis_node_open_cutting(4, 0, 1, torn[i].bytes, torn[i].length, &node, &found), VOUMLIS_DONE);
        WANT(voumlis_node_close(&node), VOUMLIS_DONE);
    }
    WANT(voumlis_node_open(4, 0, part, sizeof part, &node, &found), VOUMLIS_DONE);
    WANT(voumlis_node_close(&node), VOUMLIS_DONE);
}

/* A node over an empty record: what it asks and answers, worked out by docs/FORMATS.md and the formats of the header. */
static void test_node(void) {
    struct voumlis_node node = VOUMLIS_NO_NODE, none = VOUMLIS_NO_NODE;
    struct voumlis_found found;
    uint8_t room[64];
    /* Fix what stands there, write the closed gate of an empty record, fix that. */
    static const uint8_t begun[] = {2, 0, 0, 0, 0, 0, 0, 0, 0, 0, 0, 0, 0, 0, 0, 0, 0, 1, 0, 2};
    /* Not refused, one action: wake at moment 1000. */
    static const uint8_t woken[] = {0, 1, 8, 232, 7};
    /* Moment 300, and behind it what is no event; it is answered as above. */
    static const uint8_t events[] = {4, 172, 2, 5};

    WANT(voumlis_node_open(4, 4, NULL, 0, &node, &found), VOUMLIS_ARGUMENT);
    WANT(voumlis_node_open(4, 0, (const uint8_t *)"\1\0\0\0\1\7", 7, &node, &found), VOUMLIS_FOREIGN);
    want(__LINE__, (uint32_t)found.place, 0);
    WANT(voumlis_node_open(4, 0, record, sizeof record, &node, &found), VOUMLIS_REFUSED);
    want(__LINE__, (uint32_t)found.place, 0);
    test_looks();
    WANT(voumlis_node_open(4, 0, NULL, 0, &node, &found), VOUMLIS_DONE);
    WANT(voumlis_node_open(4, 0, NULL, 0, &node, &found), VOUMLIS_ARGUMENT);
    WANT(voumlis_node_requests(&node, room, sizeof begun - 1, &found), VOUMLIS_ROOM);
    want(__LINE__, (uint32_t)found.length, sizeof begun);
    WANT(voumlis_node_requests(&node, room, sizeof room, &found), VOUMLIS_DONE);
    want(__LINE__, (uint32_t)found.length, sizeof begun);
    want(__LINE__, memcmp(room, begun, sizeof begun) != 0, 0);
    WANT(voumlis_node_requests(&node, NULL, 0, &found), VOUMLIS_DONE);
    want(__LINE__, (uint32_t)found.length, 0);
    WANT(voumlis_node_step(&node, events, sizeof events, &found), VOUMLIS_INVALID);
    want(__LINE__, (uint32_t)found.place, 3);
    WANT(voumlis_node_replies(&node, room, sizeof room, &found), VOUMLIS_DONE);
    want(__LINE__, (uint32_t)found.length, 2 * sizeof woken);
    want(__LINE__, memcmp(room, woken, sizeof woken) != 0, 0);
    want(__LINE__, memcmp(room + sizeof woken, woken, sizeof woken) != 0, 0);
    WANT(voumlis_node_requests(&node, (uint8_t *)&node, 8, &found), VOUMLIS_ARGUMENT);
    WANT(voumlis_node_replies(&node, NULL, 1, &found), VOUMLIS_ARGUMENT);
    WANT(voumlis_node_step(&node, (const uint8_t *)&node, 1, &found), VOUMLIS_ARGUMENT);
    WANT(voumlis_node_step(&node, events, sizeof events, (struct voumlis_found *)&node), VOUMLIS_ARGUMENT);
    WANT(voumlis_node_step(&none, events, sizeof events, &found), VOUMLIS_ARGUMENT);
    WANT(voumlis_node_step(NULL, events, sizeof events, &found), VOUMLIS_ARGUMENT);
    WANT(voumlis_node_close(&none), VOUMLIS_ARGUMENT);
    WANT(voumlis_node_close(&node), VOUMLIS_DONE);
    WANT(voumlis_node_close(&node), VOUMLIS_ARGUMENT);
}

/* Each fault of settings is told by its number, and those of another form aren't read. */
static void test_settings(void) {
    struct voumlis_settings settings = voumlis_settings_of(4, 0);
    struct voumlis_found found;
    static uint8_t long_bytes[256];

    WANT(voumlis_settings_check(&settings, &found), VOUMLIS_DONE);
    want(__LINE__, found.named, 0);
#define WANT_FAULT(change, fault) \
    do { \
        settings = voumlis_settings_of(4, 0); \
        change; \
        WANT(voumlis_settings_check(&settings, &found), VOUMLIS_SETTINGS); \
        want(__LINE__, (uint32_t)found.place, fault); \
        want(__LINE__, found.named, 1); \
    } while (0)
    WANT_FAULT(settings.members = 0, VOUMLIS_NO_PARTICIPANTS);
    WANT_FAULT(settings.leader_timeout = 0, VOUMLIS_LEADER_TIMEOUT_ZERO);
    WANT_FAULT(settings.certification_timeout = 1000, VOUMLIS_CERTIFICATION_NOT_ABOVE_LEADER);
    WANT_FAULT(settings.skip_timeout = 2000, VOUMLIS_SKIP_NOT_ABOVE_CERTIFICATION);
    WANT_FAULT(settings.skip_timeout = 5000, VOUMLIS_SKIP_NOT_ABOVE_RETRY);
    WANT_FAULT(settings.retry_timeout = 0, VOUMLIS_RETRY_ZERO);
    WANT_FAULT(settings.retention = 0, VOUMLIS_RETENTION_ZERO);
    WANT_FAULT(settings.members = 65536, VOUMLIS_TOO_MANY_PARTICIPANTS);
    WANT_FAULT(settings.term_length = 0, VOUMLIS_TERM_LENGTH_ZERO);
    WANT_FAULT(settings.stall_timeout = 0, VOUMLIS_STALL_TIMEOUT_ZERO);
    WANT_FAULT((settings.base = long_bytes, settings.base_length = 256), VOUMLIS_BASE_TOO_LONG);
    WANT_FAULT((settings.seed = long_bytes, settings.seed_length = 256, settings.shuffled = 1), VOUMLIS_SEED_TOO_LONG);
    WANT_FAULT(settings.member = 4, VOUMLIS_NO_SUCH_MEMBER);
    WANT_FAULT(settings.optimistic_views = 1001, VOUMLIS_TOO_MANY_OPTIMISTIC);
    /* Of two the one with the less number. */
    WANT_FAULT((settings.member = 4, settings.term_length = 0), VOUMLIS_TERM_LENGTH_ZERO);
#undef WANT_FAULT
    /* A seed that shuffles nothing isn't looked at; terms of one view may never be given up as a whole. */
    settings = voumlis_settings_of(4, 3);
    settings.seed = long_bytes;
    settings.seed_length = 256;
    settings.term_length = 1;
    settings.stall_timeout = settings.optimistic_views = 0;
    settings.base_length = 0;
    WANT(voumlis_settings_check(&settings, &found), VOUMLIS_DONE);
#define WANT_NONE(change, status) \
    do { \
        settings = voumlis_settings_of(4, 0); \
        change; \
        WANT(voumlis_settings_check(&settings, &found), status); \
    } while (0)
    WANT_NONE(settings.version = 1, VOUMLIS_VERSION);
    WANT_NONE(settings.version = 3, VOUMLIS_VERSION);
    WANT_NONE(settings.version = 0, VOUMLIS_VERSION);
    WANT_NONE(settings.size = sizeof settings - 1, VOUMLIS_VERSION);
    WANT_NONE(settings.size = 176, VOUMLIS_VERSION);
    WANT_NONE(settings.size = sizeof settings + 8, VOUMLIS_VERSION);
    WANT_NONE(settings.skips = 3, VOUMLIS_ARGUMENT);
    WANT_NONE(settings.forwarding = 3, VOUMLIS_ARGUMENT);
    WANT_NONE(settings.repair = 2, VOUMLIS_ARGUMENT);
    WANT_NONE(settings.repair_window = 0, VOUMLIS_DONE);
    WANT_NONE(settings.repair_window = UINT64_MAX, VOUMLIS_DONE);
    WANT_NONE(settings.unused = 7, VOUMLIS_DONE);
    WANT_NONE(settings.historical_votes = 2, VOUMLIS_ARGUMENT);
    WANT_NONE(settings.shuffled = 2, VOUMLIS_ARGUMENT);
    WANT_NONE(settings.base = NULL, VOUMLIS_ARGUMENT);
    WANT_NONE((settings.seed = NULL, settings.seed_length = 1), VOUMLIS_ARGUMENT);
    /* The proved function tests size and version too. */
    settings = voumlis_settings_of(4, 0);
    settings.size++;
    WANT(voumlis_proved_settings_check(&settings, settings.base, 7, settings.base, 0, &found), VOUMLIS_VERSION);
    settings.size--;
    settings.version++;
    WANT(voumlis_proved_settings_check(&settings, settings.base, 7, settings.base, 0, &found), VOUMLIS_VERSION);
#undef WANT_NONE
    /* A committee below four bears no fault, and passes. */
    for (uint16_t members = 1; members <= 8; members++) {
        settings = voumlis_settings_of(members, 0);
        WANT(voumlis_settings_check(&settings, &found), VOUMLIS_DONE);
        want(__LINE__, voumlis_faults(members), members < 4 ? 0 : members < 7 ? 1 : 2);
    }
    want(__LINE__, voumlis_faults(0), 0);
    WANT(voumlis_settings_check(NULL, &found), VOUMLIS_ARGUMENT);
    WANT(voumlis_settings_check(&settings, NULL), VOUMLIS_ARGUMENT);
}

/* A node that is set up otherwise answers otherwise. */
static void test_set_node(void) {
    struct voumlis_settings settings = voumlis_settings_of(4, 0);
    struct voumlis_node node = VOUMLIS_NO_NODE;
    struct voumlis_found found;
    struct voumlis_views views = {7, 7};
    uint8_t room[256];
    /* Not refused, one action: wake at moment 900. */
    static const uint8_t woken[] = {0, 1, 8, 132, 7};
    /* Not refused, two actions: build 0, no handoff, epoch 3, view 1, leader 0, parent 0; its payload and a wake follow. */
    static const uint8_t built[] = {0, 2, 2, 0, 0, 3, 1, 0, 0, 0, 0, 0};
    static const uint8_t torn[] = {0, 0, 0, 0, 1, 7, 1};

    settings.leader_timeout = 900;
    WANT(voumlis_node_open_with(&settings, 0, NULL, 0, &node, &found), VOUMLIS_DONE);
    WANT(voumlis_node_open_with(&settings, 0, NULL, 0, &node, &found), VOUMLIS_ARGUMENT);
    WANT(voumlis_node_replies(&node, room, sizeof room, &found), VOUMLIS_DONE);
    want(__LINE__, (uint32_t)found.length, sizeof woken);
    want(__LINE__, memcmp(room, woken, sizeof woken) != 0, 0);
    WANT(voumlis_node_views(&node, &views), VOUMLIS_DONE);
    want(__LINE__, (uint32_t)views.current, 1);
    want(__LINE__, (uint32_t)views.finalized, 0);
    WANT(voumlis_node_views(&node, (struct voumlis_views *)&node), VOUMLIS_ARGUMENT);
    WANT(voumlis_node_close(&node), VOUMLIS_DONE);
    WANT(voumlis_node_views(&node, &views), VOUMLIS_ARGUMENT);

    settings.epoch = 3;
    memset(settings.genesis, 0xab, sizeof settings.genesis);
    WANT(voumlis_node_open_with(&settings, 0, NULL, 0, &node, &found), VOUMLIS_DONE);
    WANT(voumlis_node_replies(&node, room, sizeof room, &found), VOUMLIS_DONE);
    want(__LINE__, (uint32_t)found.length, sizeof built + sizeof settings.genesis + 3);
    want(__LINE__, memcmp(room, built, sizeof built) != 0, 0);
    want(__LINE__, memcmp(room + sizeof built, settings.genesis, sizeof settings.genesis) != 0, 0);
    WANT(voumlis_node_close(&node), VOUMLIS_DONE);

    WANT(voumlis_node_open_with(&settings, 0, torn, sizeof torn, &node, &found), VOUMLIS_TORN);
    WANT(voumlis_node_open_with(&settings, 1, torn, sizeof torn, &node, &found), VOUMLIS_DONE);
    WANT(voumlis_node_close(&node), VOUMLIS_DONE);
    WANT(voumlis_node_open_with(&settings, 0, record, sizeof record, &node, &found), VOUMLIS_REFUSED);
    WANT(voumlis_node_open_with(&settings, 0, (const uint8_t *)"#", 1, &node, &found), VOUMLIS_NO_RECORD);

    settings.retention = 0;
    WANT(voumlis_node_open_with(&settings, 0, NULL, 0, &node, &found), VOUMLIS_SETTINGS);
    want(__LINE__, (uint32_t)found.place, VOUMLIS_RETENTION_ZERO);
    want(__LINE__, node.live, 0);
    settings.retention = 10;
    settings.version = VOUMLIS_SETTINGS_VERSION + 1;
    WANT(voumlis_node_open_with(&settings, 0, NULL, 0, &node, &found), VOUMLIS_VERSION);
    want(__LINE__, node.live, 0);
    WANT(voumlis_node_close(&node), VOUMLIS_ARGUMENT);
}

/* A file that a host keeps. */
struct file {
    uint8_t bytes[1024];
    size_t length;
};

/* The number at the front of these bytes. */
static size_t number(const uint8_t *at) {
    size_t value = 0, i;
    for (i = 0; i < 8; i++)
        value = value << 8 | at[i];
    return value;
}

/* Carries a node's requests out on the two files of its record, and drops its replies. Tells the tags that there were, a bit each. */
static uint32_t carried_out(struct voumlis_node *node, struct file *files) {
    static const uint8_t heads[] = {17, 9, 1};
    struct voumlis_found found;
    struct file *file;
    uint8_t asked[2048], replies[4096];
    uint32_t tags = 0;
    size_t at, place, length;

    WANT(voumlis_node_requests(node, asked, sizeof asked, &found), VOUMLIS_DONE);
    length = found.length;
    for (at = 0; at < length;) {
        const uint8_t *request = asked + at;
        if (*request > VOUMLIS_SYNC_SECOND || length - at < heads[*request % 3])
            return 1u << 31;
        tags |= 1u << *request;
        file = &files[*request / 3];
        at += heads[*request % 3];
        if (*request % 3 == VOUMLIS_SYNC)
            continue;
        place = number(request + 1);
        if (*request % 3 == VOUMLIS_CUT) {
            if (file->length < place)
                return 1u << 31;
            file->length = place;
            continue;
        }
        if (length - at < number(request + 9) || file->length < place || sizeof file->bytes - place < number(request + 9))
            return 1u << 31;
        memcpy(file->bytes + place, request + 17, number(request + 9));
        if (file->length < place + number(request + 9))
            file->length = place + number(request + 9);
        at += number(request + 9);
    }
    WANT(voumlis_node_replies(node, replies, sizeof replies, &found), VOUMLIS_DONE);
    return tags;
}

#define FIRST(request) (1u << (request))
#define SECOND(request) (8u << (request))

/* Has a committee of one make this view final: it builds, and its verdict is good. */
static void finalize(int line, struct voumlis_node *node, uint8_t view) {
    struct voumlis_found found;
    struct voumlis_views views;
    uint8_t built[35] = {1, 0, 1}, judged[3] = {3, 0, 1};

    memset(built + 3, view, 32);
    judged[1] = view;
    want(line, voumlis_node_step(node, built, sizeof built, &found), VOUMLIS_DONE);
    want(line, voumlis_node_step(node, judged, sizeof judged, &found), VOUMLIS_DONE);
    want(line, voumlis_node_views(node, &views), VOUMLIS_DONE);
    want(line, (uint32_t)views.finalized, view);
}

/* Opens the one member's node over both files. */
static uint32_t open_files(struct file *files, struct voumlis_node *node, struct voumlis_found *found) {
    return voumlis_node_open_pair(1, 0, 0, files[0].bytes, files[0].length, files[1].bytes, files[1].length, node, found);
}

/* A record in two files: what is asked of each, by docs/FORMATS.md, what a rewrite makes of them, and what is opened behind it. */
static void test_pair(void) {
    static struct file files[2], before;
    struct voumlis_node node = VOUMLIS_NO_NODE;
    struct voumlis_found found;
    struct voumlis_views views;
    uint8_t room[64];
    /* Fix what stands in the first and in the second, write the closed gate of an empty record into the first, fix that. */
    static const uint8_t begun[] = {2, 5, 0, 0, 0, 0, 0, 0, 0, 0, 0, 0, 0, 0, 0, 0, 0, 0, 1, 0, 2};
    /* The head of generation 1, and the open gate of an artifact of 70 bytes: the finalization of epoch 0, view 1, parent 0. */
    static const uint8_t head[] = {2, 255, 255, 255, 255, 0, 0, 0, 1, 1, 0, 0, 0, 70, 6, 0, 1, 0};

    WANT(open_files(files, &node, &found), VOUMLIS_DONE);
    WANT(open_files(files, &node, &found), VOUMLIS_ARGUMENT);
    WANT(voumlis_node_requests(&node, room, sizeof room, &found), VOUMLIS_DONE);
    want(__LINE__, (uint32_t)found.length, sizeof begun);
    want(__LINE__, memcmp(room, begun, sizeof begun) != 0, 0);
    files[0].bytes[0] = 0;
    files[0].length = 1;
    found.named = 7;
    WANT(voumlis_node_rewrite(&node, &found), VOUMLIS_DONE);
    want(__LINE__, found.named, 0);
    WANT(carried_out(&node, files), 0);

    /* What is final is rewritten once, into the second file. */
    finalize(__LINE__, &node, 1);
    WANT(carried_out(&node, files), FIRST(VOUMLIS_WRITE) | FIRST(VOUMLIS_SYNC));
    before = files[0];
    WANT(voumlis_node_rewrite(&node, &found), VOUMLIS_DONE);
    want(__LINE__, found.named, 1);
    want(__LINE__, (uint32_t)found.place, 1);
    WANT(carried_out(&node, files), SECOND(VOUMLIS_WRITE) | SECOND(VOUMLIS_CUT) | SECOND(VOUMLIS_SYNC));
    want(__LINE__, memcmp(&before, &files[0], sizeof before) != 0, 0);
    want(__LINE__, (uint32_t)files[1].length, 85);
    want(__LINE__, memcmp(files[1].bytes, head, sizeof head) != 0, 0);
    WANT(voumlis_node_rewrite(&node, &found), VOUMLIS_DONE);
    want(__LINE__, found.named, 0);
    WANT(carried_out(&node, files), 0);
    WANT(voumlis_node_close(&node), VOUMLIS_DONE);

    /* It is opened again where it stood, goes on in the second file, and is rewritten into the first. */
    WANT(open_files(files, &node, &found), VOUMLIS_DONE);
    WANT(voumlis_node_views(&node, &views), VOUMLIS_DONE);
    want(__LINE__, (uint32_t)views.current, 2);
    want(__LINE__, (uint32_t)views.finalized, 1);
    WANT(carried_out(&node, files), FIRST(VOUMLIS_SYNC) | SECOND(VOUMLIS_WRITE) | SECOND(VOUMLIS_CUT) | SECOND(VOUMLIS_SYNC));
    finalize(__LINE__, &node, 2);
    WANT(carried_out(&node, files), SECOND(VOUMLIS_WRITE) | SECOND(VOUMLIS_SYNC));
    WANT(voumlis_node_rewrite(&node, &found), VOUMLIS_DONE);
    want(__LINE__, (uint32_t)found.place, 2);
    WANT(carried_out(&node, files), FIRST(VOUMLIS_WRITE) | FIRST(VOUMLIS_CUT) | FIRST(VOUMLIS_SYNC));
    want(__LINE__, files[0].bytes[8], 2);
    WANT(voumlis_node_close(&node), VOUMLIS_DONE);
    /* From then on neither is a record alone. */
    WANT(voumlis_node_open(1, 0, files[0].bytes, files[0].length, &node, &found), VOUMLIS_NO_RECORD);
    WANT(voumlis_node_open(1, 0, files[1].bytes, files[1].length, &node, &found), VOUMLIS_NO_RECORD);
    WANT(open_files(files, &node, &found), VOUMLIS_DONE);
    WANT(voumlis_node_views(&node, &views), VOUMLIS_DONE);
    want(__LINE__, (uint32_t)views.finalized, 2);
    WANT(voumlis_node_close(&node), VOUMLIS_DONE);
}

/* Both files are looked at, the first before the second, and nothing is rewritten over one. */
static void test_halves(void) {
    struct voumlis_settings settings = voumlis_settings_of(4, 0);
    struct voumlis_node node = VOUMLIS_NO_NODE, none = VOUMLIS_NO_NODE;
    struct voumlis_found found;
    static struct file files[2];
    static const uint8_t lost[] = {1, 0, 0, 0, 9, 2};
    /* Of generation 3, and behind its head an open gate without a whole entry. */
    static const uint8_t torn[] = {2, 255, 255, 255, 255, 0, 0, 0, 3, 1, 0, 0, 0, 9, 2};

    WANT(voumlis_node_open_pair(4, 4, 0, NULL, 0, NULL, 0, &node, &found), VOUMLIS_ARGUMENT);
    WANT(voumlis_node_open_pair(4, 0, 0, record, sizeof record, NULL, 0, &node, &found), VOUMLIS_REFUSED);
    WANT(voumlis_node_open_pair(4, 0, 0, NULL, 0, record, sizeof record, &node, &found), VOUMLIS_REFUSED);
    want(__LINE__, (uint32_t)found.place, 0);
    WANT(voumlis_node_open_pair(4, 0, 1, (const uint8_t *)"#", 1, torn, sizeof torn, &node, &found), VOUMLIS_NO_RECORD);
    want(__LINE__, found.named, 0);
    WANT(voumlis_node_open_pair(4, 0, 1, NULL, 0, (const uint8_t *)"#", 1, &node, &found), VOUMLIS_NO_RECORD);
    WANT(voumlis_node_open_pair(4, 0, 0, lost, sizeof lost, torn, sizeof torn, &node, &found), VOUMLIS_TORN);
    want(__LINE__, (uint32_t)found.place, 0);
    WANT(voumlis_node_open_pair(4, 0, 0, NULL, 0, torn, sizeof torn, &node, &found), VOUMLIS_TORN);
    want(__LINE__, (uint32_t)found.place, 9);
    want(__LINE__, node.live, 0);
    WANT(voumlis_node_open_pair(4, 0, 1, lost, sizeof lost, torn, sizeof torn, &node, &found), VOUMLIS_DONE);
    WANT(voumlis_node_close(&node), VOUMLIS_DONE);
    WANT(voumlis_node_open_pair(4, 0, 0, NULL, 1, NULL, 0, &node, &found), VOUMLIS_ARGUMENT);
    WANT(voumlis_node_open_pair(4, 0, 0, NULL, 0, NULL, 1, &node, &found), VOUMLIS_ARGUMENT);
    WANT(voumlis_node_open_pair(4, 0, 0, NULL, 0, (const uint8_t *)&node, 1, &node, &found), VOUMLIS_ARGUMENT);

    WANT(voumlis_node_open_pair_with(&settings, 0, NULL, 0, torn, sizeof torn, &node, &found), VOUMLIS_TORN);
    want(__LINE__, (uint32_t)found.place, 9);
    WANT(voumlis_node_open_pair_with(&settings, 0, record, sizeof record, NULL, 0, &node, &found), VOUMLIS_REFUSED);
    WANT(voumlis_node_open_pair_with(&settings, 1, NULL, 0, torn, sizeof torn, &node, &found), VOUMLIS_DONE);
    WANT(voumlis_node_open_pair_with(&settings, 1, NULL, 0, torn, sizeof torn, &node, &found), VOUMLIS_ARGUMENT);
    WANT(voumlis_node_close(&node), VOUMLIS_DONE);
    WANT(voumlis_node_open_pair_with(&settings, 0, NULL, 0, NULL, 1, &node, &found), VOUMLIS_ARGUMENT);
    settings.retention = 0;
    WANT(voumlis_node_open_pair_with(&settings, 0, NULL, 0, NULL, 0, &node, &found), VOUMLIS_SETTINGS);
    want(__LINE__, (uint32_t)found.place, VOUMLIS_RETENTION_ZERO);
    settings.version = VOUMLIS_SETTINGS_VERSION + 1;
    WANT(voumlis_node_open_pair_with(&settings, 0, NULL, 0, NULL, 0, &node, &found), VOUMLIS_VERSION);
    want(__LINE__, node.live, 0);

    WANT(voumlis_node_open(1, 0, NULL, 0, &node, &found), VOUMLIS_DONE);
    finalize(__LINE__, &node, 1);
    WANT(carried_out(&node, files), FIRST(VOUMLIS_WRITE) | FIRST(VOUMLIS_SYNC));
    found.named = 7;
    WANT(voumlis_node_rewrite(&node, &found), VOUMLIS_DONE);
    want(__LINE__, found.named, 0);
    WANT(carried_out(&node, files), 0);
    WANT(voumlis_node_rewrite(&node, NULL), VOUMLIS_ARGUMENT);
    WANT(voumlis_node_rewrite(&node, (struct voumlis_found *)&node), VOUMLIS_ARGUMENT);
    WANT(voumlis_node_rewrite(&none, &found), VOUMLIS_ARGUMENT);
    WANT(voumlis_node_rewrite(NULL, &found), VOUMLIS_ARGUMENT);
    WANT(voumlis_node_close(&node), VOUMLIS_DONE);
    WANT(voumlis_node_rewrite(&node, &found), VOUMLIS_ARGUMENT);
}

/* The notarization of view 2 of epoch 0 by members 0, 1 and 2 of four, of docs/FORMATS.md. */
static const uint8_t front[] = {0, 0, 2, 1};
static const uint8_t signers[3][33] = {
    {0, 0xb6, 0x19, 0x4c, 0x39, 0xaa, 0x29, 0xf8, 0x59, 0xc0, 0x78, 0xd1, 0x64, 0x6c, 0x45, 0xf4, 0x81,
     0x6d, 0xea, 0xee, 0x70, 0x4f, 0xda, 0x83, 0x58, 0x28, 0xa1, 0xe8, 0xd4, 0xe1, 0x94, 0x7d, 0x7c},
    {1, 0xab, 0xe9, 0x15, 0x8c, 0x3b, 0xdc, 0x71, 0xf0, 0x93, 0x9c, 0x80, 0xb8, 0x1d, 0x8e, 0x0e, 0x60,
     0x2c, 0x44, 0x6b, 0xdd, 0x5c, 0x95, 0xe5, 0xd4, 0x4f, 0x33, 0x10, 0xce, 0xc6, 0xa9, 0x14, 0xa2},
    {2, 0xd2, 0xd7, 0x1f, 0xa, 0x33, 0x89, 0xfb, 0xad, 0x2c, 0x17, 0x94, 0x30, 0x9a, 0xcc, 0xb, 0x13,
     0xbe, 0x19, 0x76, 0x11, 0x82, 0x65, 0xc9, 0xaa, 0x3b, 0xe0, 0x32, 0xb4, 0xe7, 0xe5, 0xc5, 0xc3},
};

static size_t notarization(uint8_t *at) {
    memcpy(at, front, sizeof front);
    memset(at + 4, 0xaa, 32);
    at[36] = 3;
    memcpy(at + 37, signers, sizeof signers);
    return 37 + sizeof signers;
}

/* Light clients, and hosts with keys. */
static void test_light(void) {
    struct voumlis_settings settings = voumlis_settings_of(4, 0);
    struct voumlis_certified certified = {7, 7, 7, 7, {7}}, room[2];
    struct voumlis_attestation attestations[3];
    struct voumlis_found found;
    uint8_t bytes[256];
    size_t length = notarization(bytes), i;

    WANT(voumlis_certifies(&settings, bytes, length - 1, &certified, &found), VOUMLIS_END);
    WANT(voumlis_certifies(&settings, bytes, length + 1, &certified, &found), VOUMLIS_INVALID);
    want(__LINE__, certified.kind, 7);
    WANT(voumlis_certifies(&settings, bytes, length, &certified, &found), VOUMLIS_DONE);
    want(__LINE__, certified.kind, VOUMLIS_NOTARIZATION);
    want(__LINE__, (uint32_t)certified.epoch, 0);
    want(__LINE__, (uint32_t)certified.view, 2);
    want(__LINE__, (uint32_t)certified.parent, 1);
    want(__LINE__, memcmp(certified.payload, bytes + 4, 32) != 0, 0);
    WANT(voumlis_finalized_in(&settings, bytes, length, room, 2, &found), VOUMLIS_NOT_FINAL);
    want(__LINE__, found.named, 1);
    want(__LINE__, (uint32_t)found.place, 0);
    WANT(voumlis_finalized_in(&settings, NULL, 0, NULL, 0, &found), VOUMLIS_DONE);
    want(__LINE__, (uint32_t)found.length, 0);
    settings.epoch = 1;
    WANT(voumlis_certifies(&settings, bytes, length, &certified, &found), VOUMLIS_OTHER_EPOCH);
    settings.epoch = 0;
    settings.base_length = 6;
    WANT(voumlis_certifies(&settings, bytes, length, &certified, &found), VOUMLIS_NOT_CERTIFYING);
    settings.member = 4;
    WANT(voumlis_certifies(&settings, bytes, length, &certified, &found), VOUMLIS_SETTINGS);
    settings.version = 3;
    WANT(voumlis_certifies(&settings, bytes, length, &certified, &found), VOUMLIS_VERSION);
    WANT(voumlis_certifies(&settings, bytes, length, NULL, &found), VOUMLIS_ARGUMENT);
    WANT(voumlis_certifies(&settings, bytes, length, (struct voumlis_certified *)bytes, &found), VOUMLIS_ARGUMENT);

    WANT(voumlis_attestations(VOUMLIS_CERTIFICATE, 4, bytes, length, attestations, 2, &found), VOUMLIS_ROOM);
    want(__LINE__, (uint32_t)found.length, 3);
    WANT(voumlis_attestations(VOUMLIS_CERTIFICATE, 4, bytes, length, attestations, 3, &found), VOUMLIS_DONE);
    for (i = 0; i < 3; i++) {
        want(__LINE__, attestations[i].signer, (uint32_t)i);
        want(__LINE__, (uint32_t)attestations[i].place, (uint32_t)(38 + 33 * i));
        want(__LINE__, memcmp(attestations[i].hash, signers[i] + 1, 32) != 0, 0);
    }
    WANT(voumlis_attestations(VOUMLIS_CERTIFICATE, 2, bytes, length, attestations, 3, &found), VOUMLIS_TOO_LONG);
    WANT(voumlis_attestations(VOUMLIS_ARTIFACT, 4, verdict, 4, NULL, 0, &found), VOUMLIS_DONE);
    WANT(voumlis_attestations(4, 4, verdict, 4, NULL, 0, &found), VOUMLIS_ARGUMENT);
}

int main(void) {
    struct voumlis_found found;
    union {
        uint8_t bytes[64];
        struct voumlis_found found;
    } both = {{0}};
    uint8_t room[8];

    found.named = 7;
    WANT(voumlis_decode(VOUMLIS_ARTIFACT, 4, verdict, 4, &found), VOUMLIS_DONE);
    want(__LINE__, (uint32_t)found.length, 4);
    want(__LINE__, found.named, 0);
    found.named = 7;
    WANT(voumlis_decode(VOUMLIS_ARTIFACT, 4, verdict, 3, &found), VOUMLIS_END);
    want(__LINE__, found.named, 0);
    WANT(voumlis_decode(4, 4, verdict, 4, &found), VOUMLIS_ARGUMENT);
    found.named = 7;
    WANT(voumlis_first_refused(4, 0, 4, 0, NULL, 0, &found), VOUMLIS_DONE);
    want(__LINE__, (uint32_t)found.length, 0);
    want(__LINE__, found.named, 0);
    WANT(voumlis_first_refused(4, 0, 4, 0, record, sizeof record, &found), VOUMLIS_REFUSED);
    want(__LINE__, (uint32_t)found.length, 1);
    want(__LINE__, (uint32_t)found.place, 0);
    want(__LINE__, found.named, 1);
    WANT(voumlis_first_refused(4, 0, 4, 0, (const uint8_t *)"\1\0\0\0\1\7", 7, &found), VOUMLIS_FOREIGN);
    want(__LINE__, (uint32_t)found.place, 0);
    want(__LINE__, found.named, 1);
    WANT(voumlis_first_refused(4, 0, 0, 0, record, sizeof record, &found), VOUMLIS_ARGUMENT);
    WANT(voumlis_audit(4, NULL, 0, NULL, 0, &found), VOUMLIS_DONE);
    want(__LINE__, found.named, 0);
    WANT(voumlis_audit(4, verdict, 1, room, sizeof room, &found), VOUMLIS_DONE);
    want(__LINE__, found.named, 1);
    WANT(voumlis_audit(0, NULL, 0, NULL, 0, &found), VOUMLIS_ARGUMENT);

    WANT(voumlis_decode(VOUMLIS_ARTIFACT, 4, NULL, 4, &found), VOUMLIS_ARGUMENT);
    WANT(voumlis_decode(VOUMLIS_ARTIFACT, 4, verdict, 4, NULL), VOUMLIS_ARGUMENT);
    WANT(voumlis_decode(VOUMLIS_ARTIFACT, 4, verdict, SIZE_MAX, &found), VOUMLIS_ARGUMENT);
    WANT(voumlis_decode(VOUMLIS_ARTIFACT, 4, verdict, 4, (struct voumlis_found *)(both.bytes + 1)), VOUMLIS_ARGUMENT);
    WANT(voumlis_decode(VOUMLIS_ARTIFACT, 4, both.bytes, 4, &both.found), VOUMLIS_ARGUMENT);
    WANT(voumlis_first_refused(4, 0, 4, 0, NULL, 1, &found), VOUMLIS_ARGUMENT);
    WANT(voumlis_audit(4, verdict, 4, NULL, 8, &found), VOUMLIS_ARGUMENT);
    WANT(voumlis_audit(4, verdict, 4, room, SIZE_MAX / 2 + 1, &found), VOUMLIS_ARGUMENT);
    WANT(voumlis_audit(4, both.bytes, 8, both.bytes + 7, 8, &found), VOUMLIS_ARGUMENT);
    WANT(voumlis_audit(4, verdict, 4, both.bytes + 4, 8, &both.found), VOUMLIS_ARGUMENT);
    test_node();
    test_settings();
    test_set_node();
    test_pair();
    test_halves();
    test_light();
    return failed;
}
