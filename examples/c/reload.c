/* New rules while clients are there, without losing a row: a second store is opened and told of everyone present, and takes the place of the
   first only if nothing was refused. Faulty rules, or tables that are too small, leave the first as it is.
   Build: cc -std=c99 -I include examples/c/reload.c target/staticlib/libmqtt_acl.a (examples/c/run does) */
#include <stdio.h>
#include <stdlib.h>

#include "mqtt_acl.h"

#define CLIENTS 3

static mqtt_acl_client present[CLIENTS];

static void come(int i, const char *id, const char *name, uint8_t protocol) {
    present[i] = mqtt_acl_client_of(mqtt_acl_string(id), mqtt_acl_string(name));
    present[i].protocol = mqtt_acl_protocol_of(protocol);
}

/* A store for the rules with everyone present in it, session by session; one of no bytes where anything is refused. */
static mqtt_acl_store loaded(mqtt_acl_counts counts, const char *rules) {
    const size_t length = mqtt_acl_store_length(counts);
    mqtt_acl_store store = mqtt_acl_store_in((uint8_t *)malloc(length), length);
    const uint32_t opened = mqtt_acl_tell_open(store, counts, mqtt_acl_string(rules));
    uint8_t refused = mqtt_acl_open_refusal(opened);
    if (refused) printf("  open: error %u, line %u\n", (unsigned)refused, (unsigned)mqtt_acl_open_line(opened));
    for (unsigned session = 0; session < CLIENTS && !refused; session++) {
        refused = mqtt_acl_tell_connected(store, session, &present[session]);
        if (refused) printf("  connected, session %u: error %u\n", session, (unsigned)refused);
    }
    if (!refused) return store;
    free(store.bytes);
    return mqtt_acl_store_in(NULL, 0);
}

/* Takes the new store in place of the old one, where there is a new one. */
static void reload(const char *what, mqtt_acl_store *store, mqtt_acl_counts counts, const char *rules) {
    printf("%s\n", what);
    const mqtt_acl_store with = loaded(counts, rules);
    printf("  %s\n", with.bytes ? "taken" : "the old rules stay");
    if (with.bytes == NULL) return;
    free(store->bytes);
    *store = with;
}

static void ask(mqtt_acl_store store, const char *topic) {
    for (int i = 0; i < CLIENTS; i++) {
        const mqtt_acl_answer answer = mqtt_acl_ask_publish(store, MQTT_ACL_EARLIER_NONE, &present[i], mqtt_acl_string(topic), 0);
        printf("  %.*s publishes %s: %s %u\n", (int)present[i].id.length, (const char *)present[i].id.bytes, topic,
               mqtt_acl_answer_word(answer.number), (unsigned)mqtt_acl_answer_rule(answer.number));
    }
}

int main(void) {
    const mqtt_acl_counts counts = {2048, 16, 4, 16}, small = {2048, 2, 4, 16}; /* R, F, E, N */
    mqtt_acl_store store = mqtt_acl_store_in(NULL, 0);
    come(0, "g1", "ann", 4);
    come(1, "g2", "bo", 4);
    come(2, "g3", NULL, 5);
    reload("first rules", &store, counts, "[\"allow\",\"all\",\"publish\",[\"bench/%c/set\"]]\n");
    ask(store, "bench/g2/set");
    reload("a line that is no rule", &store, counts, "[\"allow\",\"all\"]\n[\"perhaps\",\"all\"]\n");
    reload("tables that are too small", &store, small, "[\"allow\",\"all\",\"publish\",[\"bench/%c/step\"]]\n");
    ask(store, "bench/g2/set");
    reload("new rules", &store, counts, "[\"deny\",{\"user\":\"bo\"}]\n[\"allow\",\"all\",\"publish\",[\"bench/%c/step\"]]\n");
    ask(store, "bench/g2/set");
    ask(store, "bench/g3/step");
    free(store.bytes);
    return 0;
}
