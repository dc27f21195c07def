/* Tests of mqtt_acl.h, which is C99 and C++17. What is read from an answer's number, on every number that an answer can be and up to the
   largest; each call with NULL and length 0 for each address, each flag at every value, each text at its longest and one past it, each
   number that can be refused up to the largest; each inline call, with texts that tell its parameters apart, and the structs that are made; what
   is said of a client's life, of ids that widen rules and of two hosts; every byte in a name, the templates of a rule text, the used rows of a
   store up to the most. Built and run by include/check. */
#include <stdio.h>
#include <stdlib.h>

#include "mqtt_acl.h"

#define CHECK(x) \
    do { \
        checks++; \
        if (!(x)) { \
            printf("check.c:%d: %s\n", __LINE__, #x); \
            exit(1); \
        } \
    } while (0)

static unsigned long checks;

#define FIRST_CONNECT MQTT_ACL_EARLIER_CONNECT_NONE
#define FIRST MQTT_ACL_EARLIER_NONE

/* A client by its id and its name, which may be NULL: absent. */
static mqtt_acl_client who(const char *id, const char *name) { return mqtt_acl_client_of(mqtt_acl_string(id), mqtt_acl_string(name)); }

/* The parts of a number that is what is answered, and what it carries. */
static void parts(unsigned what, uint64_t carried) {
    uint64_t answer = 16 * carried + what;
    CHECK(mqtt_acl_answer_what(answer) == what);
    CHECK(mqtt_acl_answer_allows(answer) == (what >= 2 && what <= 7));
    CHECK(mqtt_acl_answer_rule(answer) == (what >= 2 && what <= 11 ? carried : 0));
    CHECK(mqtt_acl_answer_code(answer) == (what == MQTT_ACL_KEPT ? carried : 0));
    CHECK(mqtt_acl_answer_qos(answer) == (what == 5 ? 1 : what == 6 ? 2 : 0));
    CHECK(mqtt_acl_answer_superuser(answer) == (what == 3));
    CHECK(mqtt_acl_answer_disconnect(answer) == (what == 10));
    CHECK(mqtt_acl_answer_refusal(answer) == (what == MQTT_ACL_ERROR ? carried % 256 : 0));
    CHECK(mqtt_acl_answer_line(answer) == (what == MQTT_ACL_ERROR ? carried / 256 : 0));
}

static void unpacks(void) {
    for (unsigned what = 0; what < 16; what++) {
        for (unsigned carried = 0; carried <= 256; carried++) parts(what, carried);
        for (unsigned bit = 8; bit <= 60; bit++) parts(what, (UINT64_C(1) << bit) - 1);
    }
    for (unsigned number = 1; number <= 10; number++)
        for (unsigned line = 0; line <= 257; line++) {
            parts(MQTT_ACL_ERROR, number + 256 * (uint64_t)line);
            CHECK(mqtt_acl_open_refusal(number + 256 * line) == number && mqtt_acl_open_line(number + 256 * line) == line);
        }
    CHECK(mqtt_acl_open_refusal(0) == 0 && mqtt_acl_open_line(0) == 0);
    CHECK(mqtt_acl_open_refusal(UINT32_MAX) == 255 && mqtt_acl_open_line(UINT32_MAX) == UINT32_MAX / 256);
    static const char *const words[] = {"error", "kept", "allow", "super", "allow", "allow", "allow", "allow",
                                        "refuse", "refuse", "drop", "refuse", "none", "valid", "expired"};
    CHECK(strcmp(mqtt_acl_refusal_words(0), "done") == 0 && strcmp(mqtt_acl_refusal_words(10), "no room for the note rows") == 0);
    CHECK(strcmp(mqtt_acl_refusal_words(11), mqtt_acl_refusal_words(255)) == 0);
    for (unsigned what = 0; what < 15; what++) CHECK(strcmp(mqtt_acl_answer_word(16 * 256 + what), words[what]) == 0);
}

static void counts(void) {
    const mqtt_acl_counts good[] = {{2048, 64, 32, 64}, {1, 1, 1, 1}, {32768, 4096, 4096, 4096}};
    CHECK(mqtt_acl_store_length(good[0]) == 47888);
    for (int i = 0; i < 3; i++) {
        size_t length = mqtt_acl_store_length(good[i]);
        uint8_t *store = (uint8_t *)malloc(length);
        CHECK(store != NULL && mqtt_acl_tell_open(mqtt_acl_store_in(store, length), good[i], mqtt_acl_absent()) == 0);
        CHECK(mqtt_acl_tell_open(mqtt_acl_store_in(store, length - 1), good[i], mqtt_acl_absent()) == MQTT_ACL_COUNTS);
        free(store);
    }
    const uint64_t over[] = {0, 32769, UINT64_MAX};
    const mqtt_acl_store null = {NULL, SIZE_MAX};
    for (int i = 0; i < 12; i++) {
        uint64_t n[4] = {1, 1, 1, 1};
        n[i % 4] = over[i / 4];
        mqtt_acl_counts c = {n[0], n[1], n[2], n[3]};
        CHECK(mqtt_acl_store_length(c) == 0);
        CHECK(mqtt_acl_tell_open(null, c, mqtt_acl_absent()) == MQTT_ACL_COUNTS);
    }
    for (int i = 1; i < 4; i++) {
        uint64_t n[4] = {1, 1, 1, 1};
        n[i] = 4097;
        mqtt_acl_counts c = {n[0], n[1], n[2], n[3]};
        CHECK(mqtt_acl_store_length(c) == 0);
    }
}

/* Of an inline call: NULL is an absent text, a text of no bytes where it isn't optional, and a store of no bytes. */
static void nulls(void) {
    const mqtt_acl_text none = mqtt_acl_absent();
    const mqtt_acl_store null = {NULL, 9};
    const mqtt_acl_text gone = {NULL, 9};
    const mqtt_acl_authinfo none_own = mqtt_acl_authinfo_of(gone, gone, gone);
    mqtt_acl_authinfo root = none_own;
    root.superuser = 1;
    mqtt_acl_client nobody = mqtt_acl_client_of(gone, gone), empty = who(NULL, "");
    nobody.password = nobody.address = gone;
    empty.password = empty.address = mqtt_acl_string("");
    empty.protocol = mqtt_acl_protocol_of(0);
    CHECK(!mqtt_acl_given(none) && mqtt_acl_given(mqtt_acl_string("")) && !mqtt_acl_given(mqtt_acl_string(NULL)));
    CHECK(mqtt_acl_length(nobody.id) == 0 && mqtt_acl_bytes(NULL, 9).length == 0);
    CHECK(mqtt_acl_ask_valid_filter(none) && mqtt_acl_ask_tree_match(none, none) && mqtt_acl_ask_plain_match(none, none));
    CHECK(!mqtt_acl_ask_document(none) && !mqtt_acl_ask_document_within(none, SIZE_MAX) && mqtt_acl_ask_rule_refusal(none) == MQTT_ACL_NOT_JSON);
    CHECK(mqtt_acl_ask_identity(none, &nobody) == MQTT_ACL_NO_RULE);
    CHECK(mqtt_acl_ask_identity(mqtt_acl_string("[\"allow\",{\"user\":\"\"}]"), &nobody) == MQTT_ACL_DIFFERS);
    CHECK(mqtt_acl_ask_identity(mqtt_acl_string("[\"allow\",{\"user\":\"\",\"superuser\":true}]"), &empty) == MQTT_ACL_AGREES_SUPERUSER);
    CHECK(mqtt_acl_tell_connected(null, 0, &nobody) == MQTT_ACL_MALFORMED && mqtt_acl_tell_disconnected(null, 0, &nobody) == MQTT_ACL_MALFORMED);
    CHECK(mqtt_acl_tell_ended(null, 0) == MQTT_ACL_MALFORMED && mqtt_acl_tell_ended(null, 256) == MQTT_ACL_OUT_OF_RANGE);
    CHECK(mqtt_acl_lent(null) == 0 && mqtt_acl_store_in(NULL, 9).length == 0);
    CHECK(mqtt_acl_answer_refusal(mqtt_acl_ask_connect(null, FIRST_CONNECT, &nobody, 0).number) == MQTT_ACL_MALFORMED);
    CHECK(mqtt_acl_answer_refusal(mqtt_acl_ask_subscribe(null, FIRST, &nobody, none, 0).number) == MQTT_ACL_MALFORMED);
    CHECK(mqtt_acl_answer_refusal(mqtt_acl_ask_publish(null, FIRST, &nobody, none, 1).number) == MQTT_ACL_MALFORMED);
    mqtt_acl_rows rows = {7, 8, 9};
    CHECK(mqtt_acl_ask_rows(null, &rows) == MQTT_ACL_MALFORMED && rows.filters == 7 && rows.eqs == 8 && rows.notes == 9);
    CHECK(mqtt_acl_ask_plain_name(nobody.id) && !mqtt_acl_ask_filter_templates(nobody.id) && !mqtt_acl_ask_eq_templates(nobody.id));
    CHECK(mqtt_acl_answer_what(mqtt_acl_ask_client_subscribe(&none_own, none, 0).number) == MQTT_ACL_NO_DECISION);
    CHECK(mqtt_acl_answer_what(mqtt_acl_ask_client_publish(&root, none, 0, 0, 0).number) == MQTT_ACL_PUBLISH_ALLOWED);
}

/* Each of the four that can agree with a rule, to its own place in each of the four calls that take a client. */
static void places(void) {
    static uint8_t store[16 + 256 + 326 + 260 + 260];
    const mqtt_acl_counts counts = {256, 1, 1, 1};
    const mqtt_acl_store lent = mqtt_acl_store_in(store, sizeof store);
    const mqtt_acl_text topic = mqtt_acl_string("t");
    const char *const rules[] = {"[\"allow\",{\"clientid\":\"x\"}]", "[\"allow\",{\"user\":\"x\",\"password\":\"y\"}]",
                                 "[\"allow\",{\"ipaddr\":\"x\"}]", "[\"allow\",{\"protocol\":4}]"};
    mqtt_acl_client clients[] = {who("x", NULL), who("-", "x"), who("-", NULL), who("-", NULL)};
    clients[1].password = mqtt_acl_string("y");
    clients[2].address = mqtt_acl_string("x");
    for (int c = 0; c < 4; c++) clients[c].protocol = mqtt_acl_protocol_of(c == 3 ? 4 : 3);
    for (int r = 0; r < 4; r++) {
        CHECK(mqtt_acl_tell_open(mqtt_acl_store_in(store, sizeof store), counts, mqtt_acl_string(rules[r])) == 0);
        for (int c = 0; c < 4; c++) {
            unsigned yes = r == c;
            CHECK(mqtt_acl_ask_identity(mqtt_acl_string(rules[r]), &clients[c]) == yes);
            mqtt_acl_answer by = mqtt_acl_ask_connect(lent, FIRST_CONNECT, &clients[c], clients[c].protocol.number);
            CHECK(by.number == (yes ? 16 + MQTT_ACL_CONNECT_ALLOWED : MQTT_ACL_NOT_AUTHORIZED));
            by = mqtt_acl_ask_subscribe(lent, FIRST, &clients[c], topic, 2);
            CHECK(by.number == (yes ? 16 + MQTT_ACL_SUBSCRIBE_QOS2 : MQTT_ACL_SUBSCRIBE_REFUSED));
            by = mqtt_acl_ask_publish(lent, FIRST, &clients[c], topic, 1);
            CHECK(by.number == (yes ? 16 + MQTT_ACL_PUBLISH_ALLOWED : MQTT_ACL_PUBLISH_DROPPED));
        }
    }
    CHECK(mqtt_acl_ask_tree_match(mqtt_acl_string("+"), mqtt_acl_string("a")) && !mqtt_acl_ask_tree_match(mqtt_acl_string("a"), mqtt_acl_string("+")));
    CHECK(mqtt_acl_ask_plain_match(mqtt_acl_string("+"), mqtt_acl_string("a")) && !mqtt_acl_ask_plain_match(mqtt_acl_string("a"), mqtt_acl_string("+")));
    CHECK(mqtt_acl_ask_plain_match(mqtt_acl_string("bench/g7/#"), mqtt_acl_string("bench/g7/$step")));
    CHECK(!mqtt_acl_ask_plain_match(mqtt_acl_string("+"), mqtt_acl_string("$SYS/a/b")));
    CHECK(mqtt_acl_ask_plain_match(mqtt_acl_string("+"), mqtt_acl_string("a+")) && !mqtt_acl_ask_tree_match(mqtt_acl_string("+"), mqtt_acl_string("a+")));
    CHECK(mqtt_acl_ask_document_within(mqtt_acl_string("\"ab\""), 2) && !mqtt_acl_ask_document_within(mqtt_acl_string("\"ab\""), 1));
    CHECK(mqtt_acl_ask_document(mqtt_acl_string("[]")) && mqtt_acl_ask_rule_refusal(mqtt_acl_string("[]")) == MQTT_ACL_NOT_A_RULE);
}

/* An absent text is not an empty one, an absent protocol not 0, whatever else is given. Connect always has a protocol, here 0. */
static void absent(void) {
    static uint8_t store[16 + 256 + 326 + 260 + 260];
    const mqtt_acl_counts counts = {256, 1, 1, 1};
    const mqtt_acl_store lent = mqtt_acl_store_in(store, sizeof store);
    const mqtt_acl_text topic = mqtt_acl_string("t");
    const char *const rules[] = {"[\"allow\",{\"user\":\"\"}]", "[\"allow\",{\"user\":\"x\",\"password\":\"\"}]",
                                 "[\"allow\",{\"ipaddr\":\"\"}]", "[\"allow\",{\"protocol\":0}]"};
    for (int r = 0; r < 4; r++)
        for (unsigned given = 0; given < 2; given++) {
            mqtt_acl_client c = who("-", "x");
            c.password = mqtt_acl_string("y");
            c.address = mqtt_acl_string("z");
            c.protocol = mqtt_acl_protocol_of(3);
            if (r == 0) c.name = given ? mqtt_acl_string("") : mqtt_acl_absent();
            if (r == 1) c.password = given ? mqtt_acl_string("") : mqtt_acl_absent();
            if (r == 2) c.address = given ? mqtt_acl_string("") : mqtt_acl_absent();
            if (r == 3) c.protocol = given ? mqtt_acl_protocol_of(0) : who("-", "x").protocol;
            CHECK(mqtt_acl_tell_open(mqtt_acl_store_in(store, sizeof store), counts, mqtt_acl_string(rules[r])) == 0);
            CHECK(mqtt_acl_ask_identity(mqtt_acl_string(rules[r]), &c) == given);
            CHECK(mqtt_acl_answer_allows(mqtt_acl_ask_connect(lent, FIRST_CONNECT, &c, 0).number) == (given || r == 3));
            CHECK(mqtt_acl_answer_allows(mqtt_acl_ask_subscribe(lent, FIRST, &c, topic, 0).number) == given);
            CHECK(mqtt_acl_answer_allows(mqtt_acl_ask_publish(lent, FIRST, &c, topic, 0).number) == given);
        }
}

/* What the makers leave out is absent, and every byte of a struct is set. */
static void makers(void) {
    const mqtt_acl_text x = mqtt_acl_string("x"), y = mqtt_acl_string("y"), z = mqtt_acl_string("z");
    const mqtt_acl_client c = mqtt_acl_client_of(x, y);
    CHECK(c.id.bytes == x.bytes && c.name.bytes == y.bytes && !mqtt_acl_given(c.password) && !mqtt_acl_given(c.address) && !c.protocol.given);
    const mqtt_acl_client nameless = mqtt_acl_client_of(x, mqtt_acl_absent());
    CHECK(nameless.id.bytes == x.bytes && !mqtt_acl_given(nameless.name));
    const mqtt_acl_authinfo a = mqtt_acl_authinfo_of(x, y, z);
    CHECK(a.id.bytes == x.bytes && a.name.bytes == y.bytes && a.rules.bytes == z.bytes && !a.superuser);
    CHECK(mqtt_acl_answered(0).number == 0 && mqtt_acl_answered(UINT64_MAX).number == UINT64_MAX);
}

/* Every protocol, to connect as its argument, whatever the client has; to the others by the client, with every byte as its flag. */
static void protocols(void) {
    static uint8_t store[16 + 256 + 326 + 260 + 260];
    const mqtt_acl_counts counts = {256, 1, 1, 1};
    const mqtt_acl_store lent = mqtt_acl_store_in(store, sizeof store);
    const mqtt_acl_text rule = mqtt_acl_string("[\"allow\",{\"protocol\":4}]"), topic = mqtt_acl_string("t");
    CHECK(mqtt_acl_tell_open(lent, counts, rule) == 0);
    for (unsigned n = 0; n < 256; n++)
        for (unsigned given = 0; given < 256; given++) {
            mqtt_acl_client c = who("i", NULL);
            c.protocol = mqtt_acl_protocol_of((uint8_t)n);
            CHECK(c.protocol.given == 1 && c.protocol.number == n);
            c.protocol.given = (uint8_t)given;
            CHECK(mqtt_acl_answer_allows(mqtt_acl_ask_connect(lent, FIRST_CONNECT, &c, 4).number));
            CHECK(mqtt_acl_answer_allows(mqtt_acl_ask_connect(lent, FIRST_CONNECT, &c, (uint8_t)given).number) == (given == 4));
            CHECK(mqtt_acl_answer_allows(mqtt_acl_ask_subscribe(lent, FIRST, &c, topic, 0).number) == (given && n == 4));
            CHECK(mqtt_acl_answer_allows(mqtt_acl_ask_publish(lent, FIRST, &c, topic, 0).number) == (given && n == 4));
            CHECK(mqtt_acl_ask_identity(rule, &c) == (given && n == 4));
        }
}

/* Who, what and how, of the per-client calls; id and name of an event. */
static void clients(void) {
    const mqtt_acl_text id = mqtt_acl_string("i"), name = mqtt_acl_string("n");
    const mqtt_acl_text rule = mqtt_acl_string("{\"permission\":\"deny\",\"action\":\"all\",\"qos\":1,\"retain\":true,\"topic\":\"eq ${clientid}${username}\"}");
    const mqtt_acl_text topic = mqtt_acl_string("in");
    const mqtt_acl_authinfo own = mqtt_acl_authinfo_of(id, name, rule), nameless = mqtt_acl_authinfo_of(id, mqtt_acl_absent(), rule);
    mqtt_acl_authinfo root = own;
    root.superuser = 1;
    CHECK(mqtt_acl_ask_client_subscribe(&own, topic, 1).number == 16 + MQTT_ACL_NOT_AUTHORIZED);
    CHECK(mqtt_acl_ask_client_subscribe(&own, topic, 0).number == MQTT_ACL_NO_DECISION);
    CHECK(mqtt_acl_ask_client_subscribe(&root, topic, 1).number == MQTT_ACL_SUBSCRIBE_QOS1);
    CHECK(mqtt_acl_ask_client_publish(&own, topic, 1, 1, 0).number == 16 + MQTT_ACL_PUBLISH_REFUSED);
    CHECK(mqtt_acl_ask_client_publish(&own, topic, 1, 1, 1).number == 16 + MQTT_ACL_PUBLISH_DROPPED);
    CHECK(mqtt_acl_ask_client_publish(&own, topic, 1, 0, 1).number == MQTT_ACL_NO_DECISION);
    CHECK(mqtt_acl_ask_client_publish(&nameless, topic, 1, 1, 1).number == 16 * (MQTT_ACL_NOT_A_RULE + 256));
    /* A client's own rules are widened too. */
    const mqtt_acl_text open_to = mqtt_acl_string("{\"permission\":\"allow\",\"action\":\"all\",\"topic\":\"a/${clientid}/${username}\"}");
    const mqtt_acl_authinfo wide = mqtt_acl_authinfo_of(mqtt_acl_string("+"), mqtt_acl_string("#"), open_to);
    CHECK(mqtt_acl_ask_client_publish(&wide, mqtt_acl_string("a/g7/x/y"), 0, 0, 0).number == 16 + MQTT_ACL_PUBLISH_ALLOWED);

    static uint8_t store[16 + 256 + 326 + 260 + 260];
    const mqtt_acl_counts counts = {256, 1, 1, 1};
    const mqtt_acl_client client = mqtt_acl_client_of(id, name), other = mqtt_acl_client_of(name, id);
    const mqtt_acl_store lent = mqtt_acl_store_in(store, sizeof store);
    CHECK(mqtt_acl_tell_open(mqtt_acl_store_in(store, sizeof store), counts, mqtt_acl_string("[\"allow\",\"all\",\"all\",[\"%c%u\"]]")) == 0);
    CHECK(mqtt_acl_ask_publish(lent, FIRST, &client, topic, 0).number == MQTT_ACL_PUBLISH_REFUSED);
    CHECK(mqtt_acl_tell_connected(lent, 7, &client) == 0);
    CHECK(mqtt_acl_ask_publish(lent, FIRST, &client, topic, 0).number == 16 + MQTT_ACL_PUBLISH_ALLOWED);
    CHECK(mqtt_acl_ask_publish(lent, MQTT_ACL_EARLIER_REJECTED, &client, topic, 0).number == 16 * 2 + MQTT_ACL_KEPT);
    CHECK(mqtt_acl_tell_disconnected(lent, 8, &client) == 0 && mqtt_acl_tell_disconnected(lent, 7, &other) == 0);
    CHECK(mqtt_acl_ask_publish(lent, FIRST, &client, topic, 0).number == 16 + MQTT_ACL_PUBLISH_ALLOWED);
    CHECK(mqtt_acl_tell_disconnected(lent, 7, &client) == 0 && store[14] == 1);
    CHECK(mqtt_acl_ask_publish(lent, FIRST, &client, topic, 0).number == MQTT_ACL_PUBLISH_REFUSED);
    CHECK(mqtt_acl_tell_ended(lent, 8) == 0 && store[14] == 1);
    CHECK(mqtt_acl_tell_ended(lent, 7) == 0 && store[14] == 0);
}

/* The question by times is the call by five numbers, each of which tells. */
static void expiry(void) {
    const uint64_t seconds[] = {0, 1, 9, UINT64_MAX}, nanoseconds[] = {0, 5, 999999999, 1000000000, UINT64_MAX};
    for (int e = 0; e < 20; e++)
        for (int n = 0; n < 20; n++) {
            const mqtt_acl_time until = {seconds[e % 4], nanoseconds[e / 4]}, now = {seconds[n % 4], nanoseconds[n / 4]};
            const uint64_t by = mqtt_acl_ask_expired(&until, now).number, never = mqtt_acl_ask_expired(NULL, now).number;
            CHECK(by == mqtt_acl_expired(1, until.seconds, until.nanoseconds, now.seconds, now.nanoseconds));
            CHECK(never == mqtt_acl_expired(0, 0, 0, now.seconds, now.nanoseconds));
            const unsigned bad = now.nanoseconds > 999999999, before = e % 4 < n % 4 || (e % 4 == n % 4 && e / 4 < n / 4);
            CHECK(never == (bad ? 16 * 2u : 13u));
            CHECK(by == (bad || until.nanoseconds > 999999999 ? 16 * 2u : before ? 14u : 13u));
            CHECK(!mqtt_acl_answer_allows(by) && !mqtt_acl_answer_allows(never));
        }
}

/* Each address NULL with length 0, alone and with all others, of calls that would read or write it if it had bytes. Page 0 isn't
   mapped: one read through NULL would end this program. Bit n of `null` has the call's address n be NULL. */
#define AT(n, text) (null >> (n) & 1 ? NULL : (const uint8_t *)(text)), (null >> (n) & 1 ? 0 : sizeof(text) - 1)
#define STORE(n) (null >> (n) & 1 ? NULL : store), (null >> (n) & 1 ? 0 : sizeof store)

static void null_addresses(void) {
    static uint8_t store[16 + 256 + 326 + 260 + 260];
    const mqtt_acl_counts counts = {256, 1, 1, 1};
    CHECK(mqtt_acl_tell_open(mqtt_acl_store_in(store, sizeof store), counts, mqtt_acl_string("[\"allow\",\"all\",\"all\",[\"%c\"]]")) == 0);
    for (unsigned null = 0; null < 64; null++) {
        unsigned whole = !(null & 1), three = 16 * MQTT_ACL_MALFORMED;
        uint32_t by = mqtt_acl_connect(STORE(0), 0, AT(1, "i"), 1, AT(2, "n"), 1, AT(3, "p"), 1, AT(4, "a"), 4);
        CHECK(by == (whole ? 16 + MQTT_ACL_CONNECT_ALLOWED : three));
        by = mqtt_acl_subscribe(STORE(0), 0, AT(1, "i"), 1, AT(2, "n"), 1, AT(3, "p"), 1, AT(4, "a"), 1, 4, AT(5, "t"), 0);
        CHECK(by == (whole ? (unsigned)MQTT_ACL_SUBSCRIBE_REFUSED : three));
        by = mqtt_acl_publish(STORE(0), 0, AT(1, "i"), 1, AT(2, "n"), 1, AT(3, "p"), 1, AT(4, "a"), 1, 4, AT(5, "t"), 0);
        CHECK(by == (whole ? (unsigned)MQTT_ACL_PUBLISH_REFUSED : three));
        by = mqtt_acl_identity(AT(0, "[\"allow\",{\"user\":\"n\"}]"), AT(1, "i"), 1, AT(2, "n"), 1, AT(3, "p"), 1, AT(4, "a"), 1, 4);
        CHECK(by == (null & 1 ? MQTT_ACL_NO_RULE : null & 4 ? MQTT_ACL_DIFFERS : MQTT_ACL_AGREES));
        CHECK(mqtt_acl_connected(STORE(0), 1, AT(1, "i"), 1, AT(2, "n")) == (whole ? 0 : MQTT_ACL_MALFORMED));
        CHECK(mqtt_acl_disconnected(STORE(0), 1, AT(1, "i")) == (whole ? 0 : MQTT_ACL_MALFORMED));
        CHECK(mqtt_acl_ended(STORE(0), 1) == (whole ? 0 : MQTT_ACL_MALFORMED));
        CHECK(mqtt_acl_used_rows(STORE(0)) == (whole ? 0 : UINT64_MAX));
    }
}

static void null_texts(void) {
    static uint8_t store[16 + 1 + 326 + 260 + 260];
    for (unsigned null = 0; null < 16; null++) {
        const char rule[] = "{\"permission\":\"deny\",\"action\":\"all\",\"topic\":\"eq ${clientid}${username}\"}";
        unsigned hits = (null & 11) == 0 || (null & 11) == 11;
        uint64_t by = mqtt_acl_client_subscribe(0, AT(0, "i"), 1, AT(1, "n"), AT(2, rule), AT(3, "in"), 0);
        CHECK(by == (null & 4 || !hits ? MQTT_ACL_NO_DECISION : 16 + MQTT_ACL_NOT_AUTHORIZED));
        by = mqtt_acl_client_publish(0, AT(0, "i"), 1, AT(1, "n"), AT(2, rule), AT(3, "in"), 0, 0, 0);
        CHECK(by == (null & 4 || !hits ? MQTT_ACL_NO_DECISION : 16 + MQTT_ACL_PUBLISH_REFUSED));
        CHECK(mqtt_acl_tree_match(AT(0, "+"), AT(1, "a")) == (!(null & 1) || null & 2));
        CHECK(mqtt_acl_plain_match(AT(0, "+"), AT(1, "a")) == (!(null & 1) || null & 2));
        CHECK(mqtt_acl_valid_filter(AT(0, "a+")) == (null & 1));
        CHECK(mqtt_acl_is_document(AT(0, "1")) == !(null & 1) && mqtt_acl_is_document_within(AT(0, "1"), 0) == !(null & 1));
        CHECK(mqtt_acl_rule_refusal(AT(0, "[]")) == (null & 1 ? MQTT_ACL_NOT_JSON : MQTT_ACL_NOT_A_RULE));
        CHECK(mqtt_acl_plain_name(AT(0, "+")) == (null & 1));
        CHECK(mqtt_acl_filter_templates(AT(0, "[\"allow\",\"all\",\"all\",[\"%c\"]]")) == !(null & 1));
        CHECK(mqtt_acl_eq_templates(AT(0, "[\"allow\",\"all\",\"all\",[{\"eq\":\"%u\"}]]")) == !(null & 1));
        CHECK(mqtt_acl_open(STORE(0), 1, 1, 1, 1, AT(1, "1")) == (null & 1 ? MQTT_ACL_COUNTS : null & 2 ? 0 : MQTT_ACL_NOT_A_RULE + 256));
    }
}

/* A flag is false at 0 and true at any other value, in each call that takes one. */
static void flags(void) {
    static uint8_t store[16 + 256 + 326 + 260 + 260];
    const mqtt_acl_counts counts = {256, 1, 1, 1};
    const char *const rules[] = {"[\"allow\",{\"user\":\"x\"}]", "[\"allow\",{\"user\":\"x\",\"password\":\"x\"}]",
                                 "[\"allow\",{\"ipaddr\":\"x\"}]", "[\"allow\",{\"protocol\":4}]"};
    const uint8_t *const x = (const uint8_t *)"x";
    for (int r = 0; r < 4; r++) {
        CHECK(mqtt_acl_tell_open(mqtt_acl_store_in(store, sizeof store), counts, mqtt_acl_string(rules[r])) == 0);
        for (unsigned flag = 0; flag < 256; flag++) {
            uint8_t n = (uint8_t)(r == 0 ? flag : r == 1), p = (uint8_t)(r == 1 ? flag : 0), a = (uint8_t)(r == 2 ? flag : 0),
                    q = (uint8_t)(r == 3 ? flag : 0), d = (uint8_t)flag;
            unsigned is = flag != 0;
            CHECK(mqtt_acl_identity((const uint8_t *)rules[r], strlen(rules[r]), x, 1, n, x, 1, p, x, 1, a, x, 1, q, 4) == is);
            CHECK(mqtt_acl_answer_allows(mqtt_acl_connect(store, sizeof store, 0, x, 1, n, x, 1, p, x, 1, a, x, 1, 4)) == (is || r == 3));
            CHECK(mqtt_acl_answer_allows(mqtt_acl_subscribe(store, sizeof store, 0, x, 1, n, x, 1, p, x, 1, a, x, 1, q, 4, x, 1, 0)) == is);
            CHECK(mqtt_acl_answer_allows(mqtt_acl_publish(store, sizeof store, 0, x, 1, n, x, 1, p, x, 1, a, x, 1, q, 4, x, 1, d)) == is);
            CHECK(mqtt_acl_publish(store, sizeof store, 0, x, 1, 0, x, 1, 0, x, 1, 0, x, 1, 0, 4, x, 1, d) == MQTT_ACL_PUBLISH_REFUSED + is);
        }
    }
}

static void client_flags(void) {
    static uint8_t store[16 + 256 + 326 + 260 + 260];
    const mqtt_acl_counts counts = {256, 1, 1, 1};
    const uint8_t *const x = (const uint8_t *)"x";
    const char rule[] = "{\"permission\":\"deny\",\"action\":\"publish\",\"retain\":true,\"topic\":\"eq x\"}";
    const char named[] = "{\"permission\":\"deny\",\"action\":\"all\",\"topic\":\"eq ${username}\"}";
    const uint8_t *const r = (const uint8_t *)rule, *const t = (const uint8_t *)named;
    const size_t l = sizeof rule - 1, m = sizeof named - 1;
    for (unsigned flag = 0; flag < 256; flag++) {
        uint8_t f = (uint8_t)flag;
        unsigned is = flag != 0;
        CHECK(mqtt_acl_client_subscribe(f, x, 1, 0, x, 1, r, l, x, 1, 2) == (is ? MQTT_ACL_SUBSCRIBE_QOS2 : MQTT_ACL_NO_DECISION));
        CHECK(mqtt_acl_client_publish(f, x, 1, 0, x, 1, r, l, x, 1, 0, 0, 0) == (is ? MQTT_ACL_PUBLISH_ALLOWED : MQTT_ACL_NO_DECISION));
        CHECK(mqtt_acl_client_publish(0, x, 1, 0, x, 1, r, l, x, 1, 0, f, 0) == (is ? 16 + MQTT_ACL_PUBLISH_REFUSED : MQTT_ACL_NO_DECISION));
        CHECK(mqtt_acl_client_publish(0, x, 1, 0, x, 1, r, l, x, 1, 0, 1, f) == 16 + MQTT_ACL_PUBLISH_REFUSED + is);
        CHECK(mqtt_acl_client_publish(0, x, 1, f, x, 1, t, m, x, 1, 0, 1, 0) == (is ? 16 + MQTT_ACL_PUBLISH_REFUSED : 16 * (MQTT_ACL_NOT_A_RULE + 256)));
        CHECK(mqtt_acl_client_subscribe(0, x, 1, f, x, 1, t, m, x, 1, 0) == (is ? 16 + MQTT_ACL_NOT_AUTHORIZED : 16 * (MQTT_ACL_NOT_A_RULE + 256)));
        CHECK(mqtt_acl_expired(f, 0, 0, 1, 0) == (is ? MQTT_ACL_EXPIRED : MQTT_ACL_VALID));
        CHECK(mqtt_acl_tell_open(mqtt_acl_store_in(store, sizeof store), counts, mqtt_acl_string("[\"allow\",\"all\",\"all\",[\"%u\"]]")) == 0);
        CHECK(mqtt_acl_connected(store, sizeof store, 0, x, 1, f, x, 1) == 0 && store[10] == 1);
        CHECK(store[16 + 256 + 2] == is);
    }
}

/* Each text at its longest and one past it, in each call that takes it; 0 is the client id, then name, password, address, topic. */
static void text_lengths(void) {
    static uint8_t store[16 + 1 + 326 + 260 + 260];
    static const char long_text[258] = {0};
    const size_t most[] = {64, 64, 128, 45, 256};
    const mqtt_acl_counts counts = {1, 1, 1, 1};
    const mqtt_acl_store lent = mqtt_acl_store_in(store, sizeof store);
    CHECK(mqtt_acl_tell_open(mqtt_acl_store_in(store, sizeof store), counts, mqtt_acl_absent()) == 0);
    for (int place = 0; place < 5; place++)
        for (size_t past = 0; past < 2; past++) {
            mqtt_acl_text texts[5] = {{"i", 1}, {NULL, 0}, {NULL, 0}, {NULL, 0}, {"t", 1}};
            texts[place] = mqtt_acl_bytes(long_text, most[place] + past);
            mqtt_acl_client c = mqtt_acl_client_of(texts[0], texts[1]);
            c.password = texts[2];
            c.address = texts[3];
            const mqtt_acl_authinfo a = mqtt_acl_authinfo_of(texts[0], texts[1], mqtt_acl_absent());
            unsigned by = past ? MQTT_ACL_TOO_LONG : 0;
            CHECK(mqtt_acl_answer_refusal(mqtt_acl_ask_connect(lent, FIRST_CONNECT, &c, 0).number) == (place < 4 ? by : 0));
            CHECK(mqtt_acl_answer_refusal(mqtt_acl_ask_subscribe(lent, FIRST, &c, texts[4], 0).number) == by);
            CHECK(mqtt_acl_answer_refusal(mqtt_acl_ask_publish(lent, FIRST, &c, texts[4], 0).number) == by);
            unsigned own = place == 2 || place == 3 ? 0 : by;
            CHECK(mqtt_acl_answer_refusal(mqtt_acl_ask_client_subscribe(&a, texts[4], 0).number) == own);
            CHECK(mqtt_acl_answer_refusal(mqtt_acl_ask_client_publish(&a, texts[4], 0, 0, 0).number) == own);
            CHECK(mqtt_acl_tell_connected(lent, 0, &c) == (place < 2 ? by : 0));
            CHECK(mqtt_acl_tell_disconnected(lent, 0, &c) == (place < 1 ? by : 0));
            CHECK(mqtt_acl_ask_identity(mqtt_acl_string("[\"allow\",\"all\"]"), &c) == MQTT_ACL_AGREES);
        }
}

static uint64_t over(uint64_t most, uint64_t past) { return past == UINT64_MAX ? past : most + past; }

/* Each number that can be refused: the last that isn't, those past it, and the largest. */
static void numbers(void) {
    static uint8_t store[16 + 1 + 326 + 260 + 260];
    const mqtt_acl_counts counts = {1, 1, 1, 1};
    const mqtt_acl_store lent = mqtt_acl_store_in(store, sizeof store);
    const mqtt_acl_text none = mqtt_acl_absent(), t = mqtt_acl_string("t");
    const mqtt_acl_client c = who("i", NULL);
    const mqtt_acl_authinfo own = mqtt_acl_authinfo_of(c.id, none, none);
    mqtt_acl_authinfo root = own;
    root.superuser = 1;
    const uint8_t *const i = (const uint8_t *)"i";
    const uint64_t past[] = {0, 1, UINT64_C(1) << 8, UINT64_C(1) << 16, UINT64_C(1) << 32, UINT64_C(1) << 63, UINT64_MAX};
    CHECK(mqtt_acl_tell_open(mqtt_acl_store_in(store, sizeof store), counts, none) == 0);
    for (int k = 0; k < 7; k++) {
        unsigned by = k ? MQTT_ACL_OUT_OF_RANGE : 0;
        uint64_t session = over(255, past[k]), four = over(4, past[k]), two = over(2, past[k]), nanoseconds = over(999999999, past[k]);
        CHECK(mqtt_acl_tell_connected(lent, session, &c) == by);
        CHECK(mqtt_acl_tell_disconnected(lent, session, &c) == by && mqtt_acl_tell_ended(lent, session) == by);
        CHECK(mqtt_acl_answer_refusal(mqtt_acl_connect(store, sizeof store, four, i, 1, 0, i, 0, 0, i, 0, 0, i, 0, 0)) == by);
        CHECK(mqtt_acl_answer_refusal(mqtt_acl_subscribe(store, sizeof store, two, i, 1, 0, i, 0, 0, i, 0, 0, i, 0, 0, 0, i, 1, 0)) == by);
        CHECK(mqtt_acl_answer_refusal(mqtt_acl_ask_subscribe(lent, FIRST, &c, t, two).number) == by);
        CHECK(mqtt_acl_answer_refusal(mqtt_acl_publish(store, sizeof store, two, i, 1, 0, i, 0, 0, i, 0, 0, i, 0, 0, 0, i, 1, 0)) == by);
        CHECK(mqtt_acl_answer_refusal(mqtt_acl_ask_client_subscribe(&own, t, two).number) == by);
        CHECK(mqtt_acl_answer_refusal(mqtt_acl_ask_client_publish(&root, t, two, 0, 0).number) == by);
        CHECK(mqtt_acl_answer_refusal(mqtt_acl_expired(1, UINT64_MAX, nanoseconds, UINT64_MAX, 0)) == by);
        CHECK(mqtt_acl_answer_refusal(mqtt_acl_expired(1, UINT64_MAX, 0, UINT64_MAX, nanoseconds)) == by);
        CHECK(mqtt_acl_answer_refusal(mqtt_acl_expired(0, 0, nanoseconds, UINT64_MAX, 0)) == 0);
        CHECK(mqtt_acl_answer_refusal(mqtt_acl_expired(0, 0, 0, UINT64_MAX, nanoseconds)) == by);
        const mqtt_acl_time whole = {UINT64_MAX, 0}, part = {UINT64_MAX, nanoseconds};
        CHECK(mqtt_acl_answer_refusal(mqtt_acl_ask_expired(&part, whole).number) == by);
        CHECK(mqtt_acl_answer_refusal(mqtt_acl_ask_expired(&whole, part).number) == by);
        CHECK(mqtt_acl_answer_refusal(mqtt_acl_ask_expired(NULL, part).number) == by);
    }
}

/* Each earlier code, by its name: which are kept. */
static void earlier(void) {
    static uint8_t store[16 + 256 + 326 + 260 + 260];
    const mqtt_acl_counts counts = {256, 1, 1, 1};
    const mqtt_acl_store lent = mqtt_acl_store_in(store, sizeof store);
    const mqtt_acl_client c = who("i", NULL);
    const enum mqtt_acl_earlier_connect connect[] = {MQTT_ACL_EARLIER_CONNECT_NONE, MQTT_ACL_EARLIER_CONNECT_ALLOW,
                                                     MQTT_ACL_EARLIER_CONNECT_NOT_FOUND, MQTT_ACL_EARLIER_CONNECT_BAD_LOGIN,
                                                     MQTT_ACL_EARLIER_CONNECT_NOT_AUTHORIZED};
    const enum mqtt_acl_earlier others[] = {MQTT_ACL_EARLIER_NONE, MQTT_ACL_EARLIER_ALLOW, MQTT_ACL_EARLIER_REJECTED};
    CHECK(mqtt_acl_tell_open(lent, counts, mqtt_acl_string("[\"allow\",\"all\"]")) == 0);
    for (unsigned k = 0; k < 5; k++)
        CHECK(mqtt_acl_ask_connect(lent, connect[k], &c, 0).number == (k < 3 ? 16 + MQTT_ACL_CONNECT_ALLOWED : 16 * k + MQTT_ACL_KEPT));
    for (unsigned k = 0; k < 3; k++) {
        CHECK(mqtt_acl_ask_subscribe(lent, others[k], &c, c.id, 0).number == (k < 2 ? 16 + MQTT_ACL_SUBSCRIBE_QOS0 : 16 * k + MQTT_ACL_KEPT));
        CHECK(mqtt_acl_ask_publish(lent, others[k], &c, c.id, 0).number == (k < 2 ? 16 + MQTT_ACL_PUBLISH_ALLOWED : 16 * k + MQTT_ACL_KEPT));
    }
}

static unsigned may_publish(mqtt_acl_store store, const mqtt_acl_client *c, const char *topic) {
    return mqtt_acl_answer_allows(mqtt_acl_ask_publish(store, FIRST, c, mqtt_acl_string(topic), 0).number);
}

/* Under one session number that serves all, 0. */
static unsigned enters(mqtt_acl_store store, const mqtt_acl_client *c) {
    return mqtt_acl_tell_connected(store, 0, c) == 0 && mqtt_acl_tell_ended(store, 0) == 0;
}

static unsigned leaves(mqtt_acl_store store, const mqtt_acl_client *c) {
    return mqtt_acl_tell_connected(store, 0, c) == 0 && mqtt_acl_tell_disconnected(store, 0, c) == 0 && mqtt_acl_tell_ended(store, 0) == 0;
}

/* What the header says of a client's life. */
static void life(void) {
    static uint8_t bytes[16 + 512 + 326 * 8 + 260 + 260 * 8], opened[sizeof bytes];
    const mqtt_acl_counts counts = {512, 8, 1, 8};
    const mqtt_acl_store store = mqtt_acl_store_in(bytes, sizeof bytes);
    const mqtt_acl_client g7 = who("g7", NULL), g8 = who("g8", NULL);
    CHECK(mqtt_acl_tell_open(store, counts, mqtt_acl_string("[\"allow\",\"all\",\"pubsub\",[\"bench/%c/#\"]]")) == 0);
    memcpy(opened, bytes, sizeof bytes);
    /* A disconnected that is told late takes the rows of the connection that took over. */
    CHECK(mqtt_acl_tell_connected(store, 1, &g7) == 0 && mqtt_acl_tell_connected(store, 2, &g7) == 0 && may_publish(store, &g7, "bench/g7/a"));
    CHECK(mqtt_acl_tell_disconnected(store, 1, &g7) == 0 && !may_publish(store, &g7, "bench/g7/a"));
    CHECK(mqtt_acl_tell_ended(store, 1) == 0 && mqtt_acl_tell_ended(store, 2) == 0 && memcmp(bytes, opened, sizeof bytes) == 0);
    /* One session number for all: enter by connected, ended; leave by connected, disconnected, ended. Without that connected nothing goes. */
    CHECK(enters(store, &g7) && enters(store, &g8));
    CHECK(may_publish(store, &g7, "bench/g7/a") && may_publish(store, &g8, "bench/g8/a") && !may_publish(store, &g8, "bench/g7/a"));
    CHECK(mqtt_acl_answer_allows(mqtt_acl_ask_subscribe(store, FIRST, &g7, mqtt_acl_string("bench/g7/a"), 0).number));
    CHECK(mqtt_acl_tell_disconnected(store, 0, &g7) == 0 && mqtt_acl_tell_ended(store, 0) == 0 && may_publish(store, &g7, "bench/g7/a"));
    CHECK(leaves(store, &g7) && !may_publish(store, &g7, "bench/g7/a") && may_publish(store, &g8, "bench/g8/a"));
    CHECK(leaves(store, &g8) && memcmp(bytes, opened, sizeof bytes) == 0);
    /* A take-over under it: the old one leaves, the new one enters. */
    CHECK(enters(store, &g7) && leaves(store, &g7) && enters(store, &g7) && may_publish(store, &g7, "bench/g7/a"));
    /* A superuser is judged as anyone once it is in, and a password is asked in every question. */
    mqtt_acl_client bo = who("g7", "bo");
    bo.password = mqtt_acl_string("pw");
    CHECK(mqtt_acl_tell_open(store, counts, mqtt_acl_string("[\"allow\",{\"user\":\"bo\",\"password\":\"pw\",\"superuser\":true},\"connect\"]\n"
                                                            "[\"allow\",{\"user\":\"bo\",\"password\":\"pw\"},\"publish\",[\"a\"]]\n")) == 0);
    CHECK(mqtt_acl_answer_superuser(mqtt_acl_ask_connect(store, FIRST_CONNECT, &bo, 4).number));
    CHECK(may_publish(store, &bo, "a") && !may_publish(store, &bo, "b"));
    bo.password = mqtt_acl_absent();
    CHECK(!may_publish(store, &bo, "a"));
    /* A deny rule by address, or by protocol, doesn't mean a client without. */
    CHECK(mqtt_acl_tell_open(store, counts, mqtt_acl_string("[\"deny\",{\"ipaddr\":\"x\"}]\n[\"deny\",{\"protocol\":3}]\n[\"allow\",\"all\"]\n")) == 0);
    CHECK(may_publish(store, &bo, "a"));
    bo.address = mqtt_acl_string("x");
    CHECK(!may_publish(store, &bo, "a"));
    bo.address = mqtt_acl_absent();
    bo.protocol = mqtt_acl_protocol_of(3);
    CHECK(!may_publish(store, &bo, "a"));
}

/* Ids and names that widen rules; may the client publish once it has connected, by a rule with this topic? */
static unsigned widens(const char *topic, const char *id, const char *name, const char *asked) {
    static uint8_t bytes[16 + 512 + 326 + 260 + 260];
    const mqtt_acl_counts counts = {512, 1, 1, 1};
    const mqtt_acl_store store = mqtt_acl_store_in(bytes, sizeof bytes);
    const mqtt_acl_client c = who(id, name);
    char rule[128];
    CHECK(snprintf(rule, sizeof rule, "[\"allow\",\"all\",\"pubsub\",[\"%s\"]]", topic) < 128);
    CHECK(mqtt_acl_tell_open(store, counts, mqtt_acl_string(rule)) == 0 && mqtt_acl_tell_connected(store, 0, &c) == 0);
    return may_publish(store, &c, asked);
}

static void widening(void) {
    CHECK(!mqtt_acl_ask_plain_name(mqtt_acl_string("+")) && mqtt_acl_ask_plain_name(mqtt_acl_string("g7")) && mqtt_acl_ask_plain_name(mqtt_acl_absent()));
    CHECK(widens("bench/%c/#", "+", NULL, "bench/g7/a") && !widens("bench/%c/#", "g8", NULL, "bench/g7/a"));
    CHECK(widens("bench/%u#", "g7", NULL, "bench/g8/a") && !widens("bench/%u#", "g7", "bo", "bench/g8/a"));
    /* Plain ids that take the user name in. */
    CHECK(mqtt_acl_ask_plain_name(mqtt_acl_string("%u")) && mqtt_acl_ask_plain_name(mqtt_acl_string("a%")));
    CHECK(widens("bench/%c/#", "%u", "g8", "bench/g8/a") && !widens("bench/%c/#", "%", "g8", "bench/g8/a"));
    CHECK(widens("bench/%cu/#", "%", "g8", "bench/g8/a") && widens("bench/%cu/#", "a%", "g8", "bench/ag8/a"));
    CHECK(widens("bench/%%c/#", "u", "g8", "bench/g8/a") && !widens("bench/%%c/#", "v", "g8", "bench/g8/a"));
}

/* Two hosts, one with a number for each client, one with a number for all: after every coming and going their stores have the same bytes, but
   for the notes, and the shared number has none. */
static void two_hosts(void) {
    enum { F = 12, E = 6, N = 12, NOTES = 16 + 512 + 326 * F + 260 * E, ALL = NOTES + 260 * N };
    static uint8_t one[ALL], other[ALL];
    const mqtt_acl_counts counts = {512, F, E, N};
    const mqtt_acl_store own = mqtt_acl_store_in(one, sizeof one), shared = mqtt_acl_store_in(other, sizeof other);
    const mqtt_acl_text rules = mqtt_acl_string("[\"allow\",\"all\",\"pubsub\",[\"bench/%c/#\",\"%u\",{\"eq\":\"%c/%u\"}]]");
    const mqtt_acl_client clients[] = {who("g7", "bo"), who("g8", NULL), who("+", "#"), who("", ""), who("$g", "+/"), who("%u", "a+")};
    CHECK(mqtt_acl_tell_open(own, counts, rules) == 0 && mqtt_acl_tell_open(shared, counts, rules) == 0);
    unsigned in = 0, turn = 1;
    for (int step = 0; step < 2000; step++) {
        turn = turn * 1103515245 + 12345;
        const int i = (int)(turn >> 16) % 6;
        const uint64_t number = 1 + (uint64_t)i;
        if (in >> i & 1) {
            CHECK(mqtt_acl_tell_disconnected(own, number, &clients[i]) == 0 && leaves(shared, &clients[i]));
            CHECK(memcmp(one + 16, other + 16, NOTES - 16) == 0 && mqtt_acl_tell_ended(own, number) == 0);
        } else {
            CHECK(mqtt_acl_tell_connected(own, number, &clients[i]) == 0 && enters(shared, &clients[i]));
        }
        in ^= 1u << i;
        CHECK(memcmp(one, other, 14) == 0 && memcmp(one + 16, other + 16, NOTES - 16) == 0 && other[14] == 0 && other[15] == 0);
    }
    /* Where connected is refused for want of room for the notes, disconnected clears nothing. */
    static uint8_t few[16 + 512 + 326 * 2 + 260 + 260 * 2];
    const mqtt_acl_counts small = {512, 2, 1, 2};
    const mqtt_acl_store full = mqtt_acl_store_in(few, sizeof few);
    const mqtt_acl_client g7 = who("g7", "bo"), stranger = who("", NULL);
    CHECK(mqtt_acl_tell_open(full, small, mqtt_acl_string("[\"allow\",\"all\",\"pubsub\",[\"bench/%c/#\"]]")) == 0 && enters(full, &g7));
    CHECK(mqtt_acl_tell_connected(full, 1, &stranger) == 0 && mqtt_acl_tell_disconnected(full, 1, &stranger) == 0);
    CHECK(mqtt_acl_tell_connected(full, 2, &stranger) == 0 && mqtt_acl_tell_disconnected(full, 2, &stranger) == 0);
    CHECK(mqtt_acl_tell_connected(full, 0, &g7) == MQTT_ACL_NOTES_FULL && mqtt_acl_tell_disconnected(full, 0, &g7) == 0);
    CHECK(may_publish(full, &g7, "bench/g7/a"));
}

/* Every byte, first, in the middle and last in a name, and alone. */
static void names(void) {
    for (unsigned b = 0; b < 256; b++) {
        const unsigned special = b == '+' || b == '#' || b == '/', dollar = b == '$';
        for (unsigned at = 0; at < 3; at++) {
            uint8_t name[3] = {'a', 'b', 'c'};
            name[at] = (uint8_t)b;
            CHECK(mqtt_acl_plain_name(name, 3) == !(special || (dollar && at == 0)));
            CHECK(mqtt_acl_ask_plain_name(mqtt_acl_bytes(name, 3)) == mqtt_acl_plain_name(name, 3));
            CHECK(mqtt_acl_plain_name(name + at, 1) == !(special || dollar));
        }
    }
}

#define TWO_AND_ONE \
    "[\"allow\",{\"user\":\"%u\"},\"publish\",[\"bench/%c/#\",\"lab/+\",\"%u\"]]\n" \
    "[\"deny\",\"all\",\"all\",[{\"eq\":\"%c\"},{\"eq\":\"lab\"}]]\n"

static unsigned asks(const char *rules, size_t filters, size_t eqs) {
    return mqtt_acl_ask_filter_templates(mqtt_acl_string(rules)) == filters && mqtt_acl_ask_eq_templates(mqtt_acl_string(rules)) == eqs;
}

static void templates(void) {
    CHECK(asks("", 0, 0) && asks("\n", 0, 0) && asks("[\"allow\",\"all\"]\n", 0, 0));
    CHECK(asks(TWO_AND_ONE, 2, 1) && asks(TWO_AND_ONE TWO_AND_ONE, 4, 2));
    CHECK(asks("[\"allow\",\"all\",\"all\",[\"%c%u\",\"%c%u\",{\"eq\":\"%u%u\"}]]", 2, 1));
    CHECK(asks("[\"allow\",\"all\",\"connect\",[\"\\u0025c\",\"%C\",\"%\",{\"eq\":\"c%\"}]]", 1, 0));
    /* A line that is no rule has none, and the others keep theirs. */
    CHECK(asks("[\"perhaps\",\"all\",\"all\",[\"%c\"]]\n[\n" TWO_AND_ONE, 2, 1));
}

static unsigned uses(mqtt_acl_store store, uint64_t filters, uint64_t eqs, uint64_t notes) {
    mqtt_acl_rows rows = {99, 99, 99};
    if (mqtt_acl_ask_rows(store, &rows) != 0) return 0;
    const unsigned one = mqtt_acl_used_rows(store.bytes, store.length) == filters + 65536 * eqs + UINT64_C(4294967296) * notes;
    return one && rows.filters == filters && rows.eqs == eqs && rows.notes == notes;
}

/* Rows come and go with the events; n times the templates is room for n clients and for no more. */
static void used(void) {
    static uint8_t bytes[16 + 512 + 326 * 4 + 260 * 2 + 260 * 4];
    const mqtt_acl_counts counts = {512, 4, 2, 4};
    const mqtt_acl_store store = mqtt_acl_store_in(bytes, sizeof bytes);
    const mqtt_acl_client g7 = who("g7", "bo"), g8 = who("g8", "cy"), g9 = who("g9", "di");
    CHECK(!uses(store, 0, 0, 0));
    CHECK(mqtt_acl_tell_open(store, counts, mqtt_acl_string(TWO_AND_ONE)) == 0 && uses(store, 0, 0, 0));
    CHECK(mqtt_acl_tell_connected(store, 1, &g7) == 0 && uses(store, 2, 1, 2));
    CHECK(mqtt_acl_tell_connected(store, 1, &g7) == 0 && uses(store, 2, 1, 2));
    CHECK(mqtt_acl_tell_connected(store, 2, &g8) == 0 && uses(store, 4, 2, 4));
    CHECK(mqtt_acl_tell_connected(store, 3, &g9) == MQTT_ACL_FILTERS_FULL && uses(store, 4, 2, 4));
    CHECK(mqtt_acl_tell_disconnected(store, 1, &g7) == 0 && uses(store, 2, 2, 4));
    CHECK(mqtt_acl_tell_connected(store, 3, &g9) == MQTT_ACL_EQS_FULL && uses(store, 2, 2, 4));
    CHECK(mqtt_acl_tell_ended(store, 1) == 0 && uses(store, 2, 2, 2));
    CHECK(mqtt_acl_tell_disconnected(store, 2, &g8) == 0 && mqtt_acl_tell_ended(store, 2) == 0 && uses(store, 0, 2, 0));
    /* A store of another length, and one with a byte that is not as laid out. */
    mqtt_acl_rows rows = {7, 8, 9};
    CHECK(mqtt_acl_ask_rows(mqtt_acl_store_in(bytes, sizeof bytes - 1), &rows) == MQTT_ACL_MALFORMED);
    CHECK(mqtt_acl_used_rows(bytes, 0) == UINT64_MAX && mqtt_acl_used_rows(bytes, 16) == UINT64_MAX);
    bytes[sizeof bytes - 1] = 1;
    CHECK(mqtt_acl_ask_rows(store, &rows) == MQTT_ACL_MALFORMED && rows.filters == 7 && rows.eqs == 8 && rows.notes == 9);
    bytes[sizeof bytes - 1] = 0;
    CHECK(uses(store, 0, 2, 0));
}

static void put(uint8_t *at, unsigned number) {
    at[0] = (uint8_t)(number % 256);
    at[1] = (uint8_t)(number / 256);
}

/* The most rows that a store can have, each table full while the others are empty, and all. */
static void used_most(void) {
    const mqtt_acl_counts counts = {32, 4096, 4096, 4096};
    const size_t length = mqtt_acl_store_length(counts);
    uint8_t *const bytes = (uint8_t *)malloc(length);
    CHECK(bytes != NULL);
    const mqtt_acl_store store = mqtt_acl_store_in(bytes, length);
    for (unsigned full = 0; full < 8; full++) {
        CHECK(mqtt_acl_tell_open(store, counts, mqtt_acl_string("[\"allow\",\"all\"]")) == 0);
        uint8_t *row = bytes + 16 + 32;
        for (unsigned table = 0; table < 3; table++) {
            const unsigned used_here = full >> table & 1 ? 4096 : 0;
            for (unsigned i = 0; i < 4096; i++, row += table == 0 ? 326 : 260) {
                if (i >= used_here) continue;
                uint8_t *const text = row + (table == 0 ? 6 : 4);
                put(row + 2, 2);
                text[0] = (uint8_t)('0' + i / 64);
                text[1] = (uint8_t)('0' + i % 64);
            }
            put(bytes + 10 + 2 * table, used_here);
        }
        CHECK(uses(store, full & 1 ? 4096 : 0, full & 2 ? 4096 : 0, full & 4 ? 4096 : 0));
    }
    free(bytes);
}

int main(void) {
    CHECK(mqtt_acl_version() == MQTT_ACL_VERSION);
    unpacks();
    counts();
    nulls();
    null_addresses();
    null_texts();
    flags();
    client_flags();
    text_lengths();
    numbers();
    places();
    absent();
    makers();
    protocols();
    clients();
    expiry();
    earlier();
    life();
    widening();
    two_hosts();
    names();
    templates();
    used();
    used_most();
    printf("mqtt_acl.h " MQTT_ACL_VERSION_TEXT ": %lu checks hold\n", checks);
    return 0;
}
