/* Access rules from C: a store for two rules, questions and events on it, a client's own rules, its expiry.
   Build: cc -std=c99 -I include examples/c/bench.c target/staticlib/libmqtt_acl.a -o target/c/bench (examples/c/run does) */
#include <stdio.h>
#include <stdlib.h>

#include "mqtt_acl.h"

static void says(const char *what, mqtt_acl_answer answer) {
    const uint64_t number = answer.number;
    if (mqtt_acl_answer_what(number) == MQTT_ACL_ERROR)
        printf("%-34s error %u, line %u\n", what, (unsigned)mqtt_acl_answer_refusal(number), (unsigned)mqtt_acl_answer_line(number));
    else
        printf("%-34s %s %u\n", what, mqtt_acl_answer_word(number), (unsigned)mqtt_acl_answer_rule(number));
}

static void done(const char *what, uint8_t answer) {
    if (answer == 0)
        printf("%-34s done\n", what);
    else
        printf("%-34s error %u\n", what, (unsigned)answer);
}

int main(void) {
    const mqtt_acl_counts counts = {2048, 64, 32, 64}; /* R, F, E, N */
    const mqtt_acl_text rules = mqtt_acl_string("[\"allow\",{\"user\":\"bo\"},\"publish\",[\"bench/%c/set\"]]\n[\"deny\",\"all\",\"pubsub\"]\n");
    const mqtt_acl_text topic = mqtt_acl_string("bench/g7/set");
    const mqtt_acl_text none = mqtt_acl_absent();
    mqtt_acl_client g7 = mqtt_acl_client_of(mqtt_acl_string("g7"), mqtt_acl_string("bo"));
    g7.protocol = mqtt_acl_protocol_of(4);

    const size_t length = mqtt_acl_store_length(counts);
    const mqtt_acl_store store = mqtt_acl_store_in((uint8_t *)malloc(length), length);
    if (store.bytes == NULL) return 1;

    /* A rule text whose second line is no rule, then the right one. */
    uint32_t opened = mqtt_acl_tell_open(store, counts, mqtt_acl_string("[\"deny\",\"all\"]\n[\"perhaps\",\"all\"]\n"));
    printf("%-34s error %u, line %u\n", "open, a faulty line", (unsigned)mqtt_acl_open_refusal(opened), (unsigned)mqtt_acl_open_line(opened));
    opened = mqtt_acl_tell_open(store, counts, rules);
    printf("%-34s %s, %lu bytes\n", "open", opened == 0 ? "done" : "error", (unsigned long)length);
    if (opened != 0) return 1;

    const enum mqtt_acl_earlier first = MQTT_ACL_EARLIER_NONE;
    says("connect", mqtt_acl_ask_connect(store, MQTT_ACL_EARLIER_CONNECT_NONE, &g7, 4));
    says("connect, not authorized before", mqtt_acl_ask_connect(store, MQTT_ACL_EARLIER_CONNECT_NOT_AUTHORIZED, &g7, 4));
    says("publish before connected", mqtt_acl_ask_publish(store, first, &g7, topic, 1));
    done("connected", mqtt_acl_tell_connected(store, 1, &g7));
    says("publish", mqtt_acl_ask_publish(store, first, &g7, topic, 1));
    says("publish another's", mqtt_acl_ask_publish(store, first, &g7, mqtt_acl_string("bench/g8/set"), 0));
    says("subscribe", mqtt_acl_ask_subscribe(store, first, &g7, topic, 1));
    says("subscribe, QoS 3", mqtt_acl_ask_subscribe(store, first, &g7, topic, 3));
    done("connected, session 256", mqtt_acl_tell_connected(store, 256, &g7));
    done("disconnected", mqtt_acl_tell_disconnected(store, 1, &g7));
    done("ended", mqtt_acl_tell_ended(store, 1));
    says("publish after disconnected", mqtt_acl_ask_publish(store, first, &g7, topic, 1));

    /* The rules that came with a client's credentials. The first has no user name. */
    const mqtt_acl_text lines = mqtt_acl_string("{\"permission\":\"allow\",\"action\":\"publish\",\"topic\":\"bench/${clientid}/#\"}\n"
                                                "{\"permission\":\"deny\",\"action\":\"subscribe\",\"qos\":2,\"topic\":\"#\"}\n");
    const mqtt_acl_authinfo own = mqtt_acl_authinfo_of(g7.id, none, lines);
    const mqtt_acl_authinfo faulty = mqtt_acl_authinfo_of(g7.id, g7.name, mqtt_acl_string("{}{"));
    mqtt_acl_authinfo root = mqtt_acl_authinfo_of(g7.id, g7.name, lines);
    root.superuser = 1;
    says("client: publish", mqtt_acl_ask_client_publish(&own, topic, 0, 0, 1));
    says("client: publish, another topic", mqtt_acl_ask_client_publish(&own, mqtt_acl_string("a/b"), 0, 0, 1));
    says("client: subscribe, QoS 2", mqtt_acl_ask_client_subscribe(&own, topic, 2));
    says("client: subscribe, a superuser", mqtt_acl_ask_client_subscribe(&root, topic, 2));
    says("client: a line that is no JSON", mqtt_acl_ask_client_subscribe(&faulty, topic, 0));

    const mqtt_acl_time expiry = {99, 500000000}, later = {100, 0}, last = {UINT64_MAX, 0};
    says("expiry 99.5 s, now 99.5 s", mqtt_acl_ask_expired(&expiry, expiry));
    says("expiry 99.5 s, now 100 s", mqtt_acl_ask_expired(&expiry, later));
    says("no expiry", mqtt_acl_ask_expired(NULL, last));

    printf("%-34s T %s, P %s\n", "a/# takes a/$b", mqtt_acl_ask_tree_match(mqtt_acl_string("a/#"), mqtt_acl_string("a/$b")) ? "yes" : "no",
           mqtt_acl_ask_plain_match(mqtt_acl_string("a/#"), mqtt_acl_string("a/$b")) ? "yes" : "no");
    free(store.bytes);
    return 0;
}
