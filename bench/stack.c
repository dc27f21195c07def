/* The deepest stack of each exported call, measured: a call runs on a stack of its own that was painted before, and the lowest byte that
   changed is looked for. Each call gets inputs that lead it down every long path that we know; the largest number counts. It is counted
   from the caller's stack pointer, so arguments that cross on the stack are part of it. What a call reserves and doesn't touch is
   not seen: bench/stack prints beside it a bound from the library's machine code. Linked with libmqtt_acl.a. */
#define _GNU_SOURCE
#include <stdint.h>
#include <stdio.h>
#include <stdlib.h>
#include <string.h>
#include <ucontext.h>

#include "mqtt_acl.h"

#define STACK (1 << 16)
#define PAINT 0xA5
typedef const uint8_t *Text;

static uint8_t *stack;
static ucontext_t here, there;
static void (*call)(void);
static uint8_t *from;
static volatile uint64_t sink;

/* Nothing but the call: `from` is the stack pointer that a caller has before it hands over its arguments. */
static void inside(void) {
    __asm__ volatile("mov %%rsp, %0" : "=r"(from));
    call();
}

static size_t depth(void (*what)(void)) {
    call = what;
    memset(stack, PAINT, STACK);
    getcontext(&there);
    there.uc_stack.ss_sp = stack;
    there.uc_stack.ss_size = STACK;
    there.uc_link = &here;
    makecontext(&there, inside, 0);
    swapcontext(&here, &there);
    size_t low = 0;
    while (stack[low] == PAINT) low++;
    return (size_t)(from - (stack + low));
}

/* ---- Inputs ---- */

static uint8_t *store, *kept;
static size_t length;
static char text[40000], client_rules[40000];
static const char *line, *filter, *checked, *id, *name, *password, *address, *topic;
static uint64_t earlier, session, qos;

#define T(s) (Text)(s), strlen(s)
#define OPTIONAL(s) (s) != NULL, (Text)((s) ? (s) : ""), ((s) ? strlen(s) : 0)

static void number(uint8_t *at, unsigned n) { at[0] = n % 256; at[1] = n / 256; }

/* A store for `text` with so many rows in each table, all of the kinds that the no-repeat test and the events know: a few, many, alike. */
static void make(unsigned R, unsigned rows, int alike, unsigned rules) {
    length = 16 + R + (326ul + 260 + 260) * rows;
    free(store);
    free(kept);
    store = calloc(length, 1);
    kept = malloc(length);
    if (mqtt_acl_open(store, length, R, rows, rows, rows, T(text)) != 0) { puts("open"); exit(1); }
    unsigned used = rows - rows / 8;
    uint8_t *row = store + 16 + R;
    for (int table = 0; table < 3; table++) {
        unsigned size = table ? 260 : 326, at = table ? 4 : 6;
        for (unsigned i = 0; i < used; i++) {
            uint8_t *r = row + (size_t)size * i;
            unsigned n = i * 2477 % used, l = alike ? 256 : 8;
            number(r, table == 2 ? i % 2 : rules ? i % rules : 0);
            number(r + 2, l);
            memset(r + at, 'a', l);
            r[at + l - 2] = '0' + n / 64;
            r[at + l - 1] = '0' + n % 64;
            if (!table) { number(r + 4, 1); r[262] = 'g'; }
        }
        row += (size_t)size * rows;
    }
    for (int i = 0; i < 3; i++) number(store + 10 + 2 * i, used);
    memcpy(kept, store, length);
}

/* ---- The calls ---- */

static void c_valid_filter(void) { sink = mqtt_acl_valid_filter(T(filter)); }
static void c_tree_match(void) { sink = mqtt_acl_tree_match(T(filter), T(checked)); }
static void c_plain_match(void) { sink = mqtt_acl_plain_match(T(filter), T(checked)); }
static void c_is_document(void) { sink = mqtt_acl_is_document(T(line)); }
static void c_is_document_within(void) { sink = mqtt_acl_is_document_within(T(line), 256); }
static void c_rule_refusal(void) { sink = mqtt_acl_rule_refusal(T(line)); }
static void c_identity(void) {
    sink = mqtt_acl_identity(T(line), T(id), OPTIONAL(name), OPTIONAL(password), OPTIONAL(address), 1, 4);
}
static void c_open(void) {
    unsigned rows = (length - 16 - 32768) / 846;
    sink = mqtt_acl_open(store, length, 32768, rows, rows, rows, T(text));
}
static void c_connected(void) { sink = mqtt_acl_connected(store, length, session, T(id), OPTIONAL(name)); }
static void c_disconnected(void) { sink = mqtt_acl_disconnected(store, length, session, T(id)); }
static void c_ended(void) { sink = mqtt_acl_ended(store, length, session); }
static void c_connect(void) {
    sink = mqtt_acl_connect(store, length, earlier, T(id), OPTIONAL(name), OPTIONAL(password), OPTIONAL(address), 4);
}
static void c_subscribe(void) {
    sink = mqtt_acl_subscribe(store, length, earlier, T(id), OPTIONAL(name), OPTIONAL(password), OPTIONAL(address), 1, 4, T(topic), qos);
}
static void c_publish(void) {
    sink = mqtt_acl_publish(store, length, earlier, T(id), OPTIONAL(name), OPTIONAL(password), OPTIONAL(address), 1, 4, T(topic), 1);
}
static void c_plain_name(void) { sink = mqtt_acl_plain_name(T(id)); }
static void c_filter_templates(void) { sink = mqtt_acl_filter_templates(T(text)); }
static void c_eq_templates(void) { sink = mqtt_acl_eq_templates(T(text)); }
static void c_used_rows(void) { sink = mqtt_acl_used_rows(store, length); }
static void c_client_subscribe(void) { sink = mqtt_acl_client_subscribe(0, T(id), OPTIONAL(name), T(client_rules), T(topic), qos); }
static void c_client_publish(void) { sink = mqtt_acl_client_publish(0, T(id), OPTIONAL(name), T(client_rules), T(topic), qos, 1, 1); }
static void c_expired(void) { sink = mqtt_acl_expired(1, 5, 6, 5, 7); }
static uint64_t answer;
static void c_answer(void) {
    sink = mqtt_acl_answer_what(answer);
    sink = mqtt_acl_answer_allows(answer);
    sink = mqtt_acl_answer_rule(answer);
    sink = mqtt_acl_answer_code(answer);
    sink = mqtt_acl_answer_qos(answer);
    sink = mqtt_acl_answer_superuser(answer);
    sink = mqtt_acl_answer_disconnect(answer);
    sink = mqtt_acl_answer_refusal(answer);
    sink = mqtt_acl_answer_line(answer);
    sink = mqtt_acl_open_refusal((uint32_t)answer);
    sink = mqtt_acl_open_line((uint32_t)answer);
}

static struct {
    const char *name;
    void (*call)(void);
    size_t most;
} calls[] = {
    {"valid_filter", c_valid_filter, 0},   {"tree_match", c_tree_match, 0},
    {"plain_match", c_plain_match, 0},     {"is_document", c_is_document, 0},
    {"is_document_within", c_is_document_within, 0},
    {"rule_refusal", c_rule_refusal, 0},   {"identity", c_identity, 0},
    {"open", c_open, 0},                   {"connected", c_connected, 0},
    {"disconnected", c_disconnected, 0},   {"ended", c_ended, 0},
    {"connect", c_connect, 0},             {"subscribe", c_subscribe, 0},
    {"publish", c_publish, 0},             {"plain_name", c_plain_name, 0},
    {"filter_templates", c_filter_templates, 0}, {"eq_templates", c_eq_templates, 0},
    {"used_rows", c_used_rows, 0},         {"client_subscribe", c_client_subscribe, 0},
    {"client_publish", c_client_publish, 0}, {"expired", c_expired, 0},
    {"answer_*", c_answer, 0},
};
enum { VALID, TREE, PLAIN, DOCUMENT, WITHIN, REFUSAL, IDENTITY, OPEN, CONNECTED, DISCONNECTED, ENDED, CONNECT, SUBSCRIBE, PUBLISH,
       PLAIN_NAME, FILTER_TEMPLATES, EQ_TEMPLATES, USED_ROWS, CLIENT_SUBSCRIBE, CLIENT_PUBLISH, EXPIRED, ANSWER };

static void try(int first, int last) {
    for (int i = first; i <= last; i++) {
        if (store && i >= OPEN && i <= ENDED) memcpy(store, kept, length);
        size_t d = depth(calls[i].call);
        if (d > calls[i].most) calls[i].most = d;
    }
}

/* Rules that are read in one pass, and those that are read step by step; some are none. `\001` becomes 250 bytes `b`. */
static const char *const rules[] = {
    "[\"deny\",{}]",
    "[\"allow\",\"all\",\"pubsub\",[\"a/#\",\"+/b\",\"a/%c/%u\",{\"eq\":\"a/%c\"},{\"eq\":\"a\"}]]",
    "[\"allow\",{\"user\":\"bo\",\"password\":\"p\",\"superuser\":true,\"clientid\":\"g\",\"ipaddr\":\"1.2.3.4\",\"protocol\":260},\"all\",[\"#\"]]",
    "[\"\\u0061llow\",{\"us\\u0065r\":\"b\\u006f\",\"p\\u0061ssword\":\"\\u0070\"},\"\\u0061ll\",[\"\\u0061/%c\",{\"\\u0065q\":\"\\u0061/%u\"}]]",
    "[\"allow\",{\"user\":\"b\\u006f\",\"clientid\":\"\\u0067\",\"ipaddr\":\"1.2.3.\\u0034\",\"protocol\":4,\"\\ud83d\\ude00\":0},\"pubsub\",[\"\\u0061/#\"]]",
    "[\"allow\",\"all\",\"all\",[],[[[[[[[\"\\u0061\"]]]]]]]]",
    "[\"allow\",{\"a\":{\"b\":{\"c\":{\"d\":{\"e\":{\"f\":[\"\\u0061\\ud83d\\ude00\"]}}}}}},\"all\",[\"\\u0061\001\"]]",
    "[\"allow\",\"all\",\"all\",[\"\001/%c\",\"%c\001\",{\"eq\":\"%u\\u0061\001\"}]]",
    "[[[[[[[[1,{}]]]]]]]",
    "[\"allow\",\"all\",\"all\",[\"a#\"]]",
    "{\"a\":18446744073709551615}",
};

/* The same for per-client rules. */
static const char *const own[] = {
    "{\"permission\":\"deny\",\"action\":\"all\",\"topic\":\"a\"}",
    "{\"permission\":\"allow\",\"action\":\"publish\",\"qos\":[0,1,\"x\",258],\"retain\":true,\"topic\":\"${username}/a/#\"}",
    "{\"permission\":\"allow\",\"action\":\"all\",\"qos\":1,\"topic\":\"eq ${username}/${clientid}/${username}\"}",
    "{\"p\\u0065rmission\":\"\\u0061llow\",\"action\":\"\\u0061ll\",\"topic\":\"\\u0061/${clientid}${username}\\u0062\"}",
    "{\"permission\":\"allow\",\"action\":\"all\",\"topic\":\"${client${username}id}/${username}/${clientid}/$x\"}",
    "{\"permission\":\"allow\",\"action\":\"all\",\"x\":[[[[[[[\"\\u0061\"]]]]]]],\"topic\":\"+/\\u0061/#\"}",
    "{\"permission\":\"allow\",\"action\":\"all\",\"x\":{},\"topic\":\"\001${username}\"}",
    "[[[[[[[[]]]]]]]]",
};

static const char *written(const char *rule) {
    static char lines[4][4000];
    static int next;
    char *to = lines[next++ % 4], *at = to;
    for (; *rule; rule++)
        if (*rule == 1) { memset(at, 'b', 250); at += 250; } else *at++ = *rule;
    *at = 0;
    return to;
}

static void matching(void) {
    static char levels[300];
    const char *const texts[] = {"", "a", "#", "+/b", "a/#", "$SYS/#", "a/+/c", "a#", "$SYS/a/b", "a/b/c", levels};
    for (int i = 0; i < 128; i++) memcpy(levels + 2 * i, "a/", 2);
    for (size_t i = 0; i < sizeof texts / sizeof *texts; i++)
        for (size_t j = 0; j < sizeof texts / sizeof *texts; j++) {
            filter = texts[i];
            checked = texts[j];
            try(VALID, PLAIN);
        }
}

/* Who asks, and about what: alike to the rules' own and not. */
static void asking(int first, int last) {
    const char *const names[] = {NULL, "bo", "%u"}, *const topics[] = {"a", "a/g", "aaaaaa00", "x#", "$SYS/a"};
    static char sixty[65];
    memset(sixty, 'g', 64);
    const char *const ids[] = {"g", "%u", sixty};
    for (size_t n = 0; n < 3; n++)
        for (size_t t = 0; t < 5; t++)
            for (size_t i = 0; i < 3; i++) {
                name = names[n];
                topic = topics[t];
                id = ids[i];
                password = n ? "p" : NULL;
                address = "1.2.3.4";
                qos = t % 3;
                session = t % 2;
                earlier = t == 4 ? 2 : 0;
                try(first, last);
            }
}

int main(void) {
    stack = aligned_alloc(4096, STACK);
    matching();
    for (size_t r = 0; r < sizeof rules / sizeof *rules; r++) {
        line = written(rules[r]);
        asking(DOCUMENT, IDENTITY);
        if (mqtt_acl_rule_refusal(T(line)) != 0) continue;
        const unsigned sizes[] = {1, 8, 16, 24, 64, 80, 4096};
        for (int s = 0; s < 7; s++)
            for (int alike = 0; alike < 2; alike++) {
                if (sizes[s] == 4096 && r != 1 && r != 3) continue;
                sprintf(text, "[\"deny\",{\"user\":\"x\"}]\n%s\n", line);
                make(32768, sizes[s], alike, 2);
                if (sizes[s] == 4096) {
                    id = "g"; name = "bo"; topic = "a/g"; password = "p"; address = "1.2.3.4"; qos = session = earlier = 0;
                    try(OPEN, USED_ROWS);
                } else asking(OPEN, USED_ROWS);
            }
    }
    text[0] = 0;
    for (int i = 0; i < 256; i++) strcat(text, "[\"allow\",\"all\",\"\\u0061ll\",[\"\\u0061/b\",\"%c\",{\"eq\":\"%u\"}]]\n");
    make(32768, 64, 0, 256);
    asking(OPEN, USED_ROWS);
    strcat(text, "[]\n");
    asking(OPEN, OPEN);
    for (size_t r = 0; r < sizeof own / sizeof *own; r++) {
        sprintf(client_rules, "%s\n%s\n", written(own[0]), written(own[r]));
        asking(CLIENT_SUBSCRIBE, CLIENT_PUBLISH);
    }
    try(EXPIRED, EXPIRED);
    for (int i = 0; i < 16; i++) { answer = 4096 * 3 + 16 * 2 + i; try(ANSWER, ANSWER); }
    for (size_t i = 0; i < sizeof calls / sizeof *calls; i++) printf("%s %zu\n", calls[i].name, calls[i].most);
    return 0;
}
