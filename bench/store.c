/* Times the check behind number 3 and the questions on a store, beside a plain scan of its bytes and the reading of its rules, in one
   run. store WHAT REPEATS: one row alone, for a profiler. store EVENT ROWS REPEATS: an event on a store whose F and N are ROWS, all
   used, each time on a copy of it; alike and twice are the check where all rows are alike but for their last bytes, and where two are
   equal. store OWNED ROWS REPEATS and store owned: a disconnect of a client that owns all rows. Linked with target/staticlib/libmqtt_acl.a. */
#include <stdbool.h>
#include <stdint.h>
#include <stdio.h>
#include <stdlib.h>
#include <string.h>
#include <time.h>

typedef const uint8_t *Text;
uint32_t mqtt_acl_open(uint8_t *, size_t, uint64_t, uint64_t, uint64_t, uint64_t, Text, size_t);
uint32_t mqtt_acl_connect(Text, size_t, uint64_t, Text, size_t, uint8_t, Text, size_t, uint8_t, Text, size_t, uint8_t, Text, size_t, uint8_t);
uint32_t mqtt_acl_publish(Text, size_t, uint64_t, Text, size_t, uint8_t, Text, size_t, uint8_t, Text, size_t, uint8_t, Text, size_t, uint8_t, uint8_t,
                     Text, size_t, uint8_t);
uint8_t mqtt_acl_rule_refusal(Text, size_t);
uint8_t mqtt_acl_connected(uint8_t *, size_t, uint64_t, Text, size_t, uint8_t, Text, size_t);
uint8_t mqtt_acl_disconnected(uint8_t *, size_t, uint64_t, Text, size_t);
uint8_t mqtt_acl_ended(uint8_t *, size_t, uint64_t);

static volatile uint32_t sink;
static uint8_t *store;
static size_t length;
static char rules[32769];

static void number(uint8_t *at, unsigned n) { at[0] = n % 256; at[1] = n / 256; }

/* A rule with a template and a filter, or, in the largest text, one with eight filters. */
static void write_rules(unsigned count) {
    rules[0] = 0;
    for (unsigned i = 0; i < count; i++) {
        char line[200];
        if (count < 256)
            sprintf(line, "[\"allow\",{\"user\":\"u%u\"},\"publish\",[\"bench/%%c/set%u\",\"a/b%u/#\"]]\n", i, i, i);
        else
            sprintf(line, "[\"allow\",{\"user\":\"u%u\"},\"all\",[\"a/b%u/#\",\"b/c/+\",\"c/d\",\"d/e\",\"e/f/#\",\"f/+/g\",\"g/h\",\"h/i/j\"]]\n", i, i);
        strcat(rules, line);
    }
}

/* A store with so many rules, of whose rows this share (in percent) is used. */
static void make(unsigned R, unsigned F, unsigned E, unsigned N, unsigned count, unsigned share) {
    free(store);
    length = 16 + R + 326ul * F + 260ul * E + 260ul * N;
    store = calloc(length, 1);
    write_rules(count);
    if (mqtt_acl_open(store, length, R, F, E, N, (Text)rules, strlen(rules)) != 0) exit(1);
    unsigned used[3] = {F * share / 100, E * share / 100, N * share / 100};
    uint8_t *row = store + 16 + R;
    for (unsigned i = 0; i < used[0]; i++, row += 326) {
        number(row, i % count);
        number(row + 2, sprintf((char *)row + 6, "bench/g%u/set%u", i, i % count));
        number(row + 4, sprintf((char *)row + 262, "g%u", i));
    }
    row = store + 16 + R + 326ul * F;
    for (unsigned i = 0; i < used[1]; i++, row += 260) { number(row, i % count); number(row + 2, sprintf((char *)row + 4, "eq/%u", i)); }
    row = store + 16 + R + 326ul * F + 260ul * E;
    for (unsigned i = 0; i < used[2]; i++, row += 260) { number(row, i % 256); number(row + 2, sprintf((char *)row + 4, "bench/g%u/set", i)); }
    for (int i = 0; i < 3; i++) number(store + 10 + 2 * i, used[i]);
}

/* Gives the used rows of a table the longest texts, which differ in their last two bytes alone, and are not in order; `used` is a power of
   two, up to 4,096. With `twice` the last row is the one in the middle again. */
static void make_alike(size_t at, unsigned size, unsigned used, bool twice) {
    uint8_t *rows = store + at;
    unsigned text = size == 326 ? 6 : 4;
    for (unsigned i = 0; i < used; i++) {
        uint8_t *row = rows + (size_t)size * i;
        unsigned n = i * 2477 % used;
        number(row, 0);
        number(row + 2, 256);
        memset(row + text, 'a', 254);
        row[text + 254] = '0' + n / 64;
        row[text + 255] = '0' + n % 64;
        if (size == 326) { number(row + 4, 64); memset(row + 262, 'b', 64); }
    }
    if (twice) memcpy(rows + (size_t)size * (used - 1), rows + (size_t)size * (used / 2), size);
}

/* A question of client g1; a kept code is answered once the store is checked. */
static uint32_t asks(const char *name, unsigned earlier) {
    return mqtt_acl_publish(store, length, earlier, (Text) "g1", 2, 1, (Text)name, strlen(name), 0, (Text) "", 0, 0, (Text) "", 0, 1, 4,
                       (Text) "bench/g1/set1", 13, 1);
}

static uint32_t once(const char *what) {
    uint32_t sum = 0;
    uint8_t any = 0;
    __asm__ volatile("" ::: "memory");
    if (!strcmp(what, "scan"))
        for (size_t i = 0; i < length; i++) any |= store[i];
    if (!strcmp(what, "read"))
        for (char *line = rules, *end; (end = strchr(line, '\n')); line = end + 1) sum += mqtt_acl_rule_refusal((Text)line, end - line);
    if (!strcmp(what, "check")) sum = asks("u1", 2);
    if (!strcmp(what, "second")) sum = asks("u1", 0);
    if (!strcmp(what, "none")) sum = asks("nobody", 0);
    return sum + any;
}

/* The least of nine rounds: others may use the machine. */
static double time_of(const char *what, long repeats) {
    double least = 0;
    for (int round = 0; round < 9; round++) {
        struct timespec a, b;
        long calls = repeats / 9 + 1;
        clock_gettime(CLOCK_MONOTONIC, &a);
        for (long i = 0; i < calls; i++) sink = once(what);
        clock_gettime(CLOCK_MONOTONIC, &b);
        double t = ((b.tv_sec - a.tv_sec) * 1e9 + (b.tv_nsec - a.tv_nsec)) / calls;
        if (round == 0 || t < least) least = t;
    }
    return least;
}

/* The check of a store whose tables have so many rows, all alike but at their ends; with `twice` two notes are equal. */
static void row_alike(const char *name, unsigned rows, bool twice, long repeats) {
    make(2048, rows, rows, rows, 10, 100);
    size_t filters = 16 + 2048, eqs = filters + 326ul * rows, notes = eqs + 260ul * rows;
    make_alike(filters, 326, rows, false);
    make_alike(eqs, 260, rows, false);
    make_alike(notes, 260, rows, twice);
    if ((asks("u1", 2) == 16 * 2 + 1) == twice) exit(1);
    double floor = time_of("scan", repeats) + time_of("read", repeats), t = time_of("check", repeats);
    printf("%-34s %9.0f %11.0f %5.2f\n", name, floor, t, t / floor);
}

static void row(const char *name, unsigned R, unsigned F, unsigned E, unsigned N, unsigned count, unsigned share, long repeats) {
    make(R, F, E, N, count, share);
    double floor = time_of("scan", repeats) + time_of("read", repeats);
    printf("%-34s %9.0f", name, floor);
    const char *asked[] = {"check", "second", "none"};
    for (int i = 0; i < 3; i++) { double t = time_of(asked[i], repeats); printf(" %11.0f %5.2f", t, t / floor); }
    printf("\n");
}

/* Each client has two filter rows and two notes. The eq rows are those of 32 names. Of the last `free` clients there is nothing. */
static void make_full(unsigned rows, unsigned free_clients) {
    const char *text = "[\"allow\",\"all\",\"publish\",[\"bench/%c/set\",\"bench/%c/log\",{\"eq\":\"room/%u\"}]]\n[\"deny\",\"all\",\"pubsub\"]\n";
    const char *ends[] = {"set", "log"};
    unsigned used = rows - 2 * free_clients;
    length = 16 + 2048 + 326ul * rows + 260ul * 32 + 260ul * rows;
    store = calloc(length, 1);
    if (mqtt_acl_open(store, length, 2048, rows, 32, rows, (Text)text, strlen(text)) != 0) exit(1);
    uint8_t *row = store + 16 + 2048;
    for (unsigned i = 0; i < used; i++, row += 326) {
        number(row + 2, sprintf((char *)row + 6, "bench/g%u/%s", i / 2, ends[i % 2]));
        number(row + 4, sprintf((char *)row + 262, "g%u", i / 2));
    }
    row = store + 16 + 2048 + 326ul * rows;
    for (unsigned i = 0; i < 32; i++, row += 260) number(row + 2, sprintf((char *)row + 4, "room/n%u", i));
    for (unsigned i = 0; i < used; i++, row += 260) {
        number(row, i / 2 % 256);
        number(row + 2, sprintf((char *)row + 4, "bench/g%u/%s", i / 2, ends[i % 2]));
    }
    number(store + 10, used);
    number(store + 12, 32);
    number(store + 14, used);
}

/* An event of the client with this number, and what it has to answer. */
static void event(const char *what, unsigned rows) {
    unsigned last = rows / 2 - 1;
    char id[8], name[8];
    unsigned n = !strcmp(what, "full") ? last + 1 : !strcmp(what, "first") ? 0 : last;
    sprintf(id, "g%u", n);
    sprintf(name, "n%u", n % 32);
    if (!strcmp(what, "present") || !strcmp(what, "new"))
        if (mqtt_acl_connected(store, length, n % 256, (Text)id, strlen(id), 1, (Text)name, strlen(name)) != 0) exit(1);
    if (!strcmp(what, "full"))
        if (mqtt_acl_connected(store, length, n % 256, (Text)id, strlen(id), 1, (Text)name, strlen(name)) != 8) exit(1);
    if (!strcmp(what, "first") || !strcmp(what, "last"))
        if (mqtt_acl_disconnected(store, length, n % 256, (Text)id, strlen(id)) != 0 || store[10] + 256 * store[11] != rows - 2) exit(1);
    if (!strcmp(what, "ended"))
        if (mqtt_acl_ended(store, length, n % 256) != 0 || store[14] + 256 * store[15] == rows) exit(1);
    if (!strcmp(what, "check") || !strcmp(what, "alike"))
        if (asks("n0", 2) != 16 * 2 + 1) exit(1);
    if (!strcmp(what, "twice"))
        if (asks("n0", 2) == 16 * 2 + 1) exit(1);
}

/* A disconnect of client g0, which owns all filter rows, with as many notes of its session.
   cleared: row i is note i, so all rows go. stay: no row matches a note; short texts, which soon differ, as those of ids and names do.
   late: 256 bytes, of which a row and a note share 253. wild: 126 levels `+`, and a last level that no note has.
   invalid: each row matches each note by its levels, and no note is a valid filter, which only its last byte shows. */
static const char *const owned[] = {"cleared", "stay", "late", "wild", "invalid"};

static unsigned times(uint8_t *text, unsigned count, const char *part) {
    for (unsigned i = 0; i < count; i++) memcpy(text + i * strlen(part), part, strlen(part));
    return count * strlen(part);
}

static unsigned owned_text(uint8_t *text, const char *what, bool note, unsigned i) {
    unsigned n = 0;
    char end[3] = {'0' + i / 64, '0' + i % 64, 0};
    if (!strcmp(what, "cleared")) return sprintf((char *)text, "bench/g0/set%u", i);
    if (!strcmp(what, "stay")) return sprintf((char *)text, note ? "bench/g0/log%u" : "bench/g0/set%u", i);
    if (!strcmp(what, "late")) n = times(text, 253, "a") + times(text + 253, 1, note ? "n" : "r");
    if (!strcmp(what, "wild")) n = times(text, 126, note ? "a/" : "+/") + times(text + 252, 1, note ? "n" : "r");
    if (!strcmp(what, "invalid")) {
        n = times(text, 227, "a");
        for (int bit = 0; bit < 12; bit++) n += times(text + n, 1, !note && i >> bit & 1 ? "/+" : "/a");
        n += times(text + n, 1, note ? "/" : "/#");
        if (!note) return n;
    }
    n += times(text + n, 1, end);
    return !strcmp(what, "invalid") ? n + times(text + n, 1, "+") : n;
}

static bool is_owned(const char *what) {
    for (int i = 0; i < 5; i++)
        if (!strcmp(what, owned[i])) return true;
    return false;
}

static void make_owned(const char *what, unsigned rows) {
    const char *text = "[\"deny\",\"all\",\"pubsub\"]\n";
    free(store);
    length = 16 + 2048 + 326ul * rows + 260 + 260ul * rows;
    store = calloc(length, 1);
    if (mqtt_acl_open(store, length, 2048, rows, 1, rows, (Text)text, strlen(text)) != 0) exit(1);
    uint8_t *row = store + 16 + 2048;
    for (unsigned i = 0; i < rows; i++, row += 326) {
        number(row + 2, owned_text(row + 6, what, false, i));
        number(row + 4, sprintf((char *)row + 262, "g0"));
    }
    row += 260;
    for (unsigned i = 0; i < rows; i++, row += 260) number(row + 2, owned_text(row + 4, what, true, i));
    number(store + 10, rows);
    number(store + 14, rows);
}

static void disconnect_owner(const char *what, unsigned rows) {
    unsigned left = !strcmp(what, "cleared") ? 0 : rows;
    if (mqtt_acl_disconnected(store, length, 0, (Text) "g0", 2) != 0 || store[10] + 256u * store[11] != left) exit(1);
}

/* Milliseconds of such a disconnect, the least of three. */
static double owned_time(const char *what, unsigned rows) {
    double least = 0;
    make_owned(what, rows);
    uint8_t *kept = malloc(length);
    memcpy(kept, store, length);
    for (int round = 0; round < 3; round++) {
        struct timespec a, b;
        memcpy(store, kept, length);
        clock_gettime(CLOCK_MONOTONIC, &a);
        disconnect_owner(what, rows);
        clock_gettime(CLOCK_MONOTONIC, &b);
        double t = (b.tv_sec - a.tv_sec) * 1e3 + (b.tv_nsec - a.tv_nsec) / 1e6;
        if (round == 0 || t < least) least = t;
    }
    free(kept);
    return least;
}

static void owned_times(void) {
    for (unsigned rows = 64; rows <= 4096; rows *= 8) {
        printf("%6u", rows);
        for (int i = 0; i < 5; i++) printf(" %14.3f", owned_time(owned[i], rows));
        printf("\n");
        fflush(stdout);
    }
}

static void events(const char *what, unsigned rows, long repeats) {
    if (is_owned(what))
        make_owned(what, rows);
    else
        make_full(rows, !strcmp(what, "new"));
    if (!strcmp(what, "alike") || !strcmp(what, "twice")) {
        make_alike(16 + 2048, 326, rows, false);
        make_alike(16 + 2048 + 326ul * rows + 260ul * 32, 260, rows, !strcmp(what, "twice"));
    }
    uint8_t *kept = malloc(length);
    memcpy(kept, store, length);
    for (long i = 0; i < repeats; i++) {
        memcpy(store, kept, length);
        if (is_owned(what))
            disconnect_owner(what, rows);
        else
            event(what, rows);
    }
}

int main(int count, char **words) {
    if (count == 4) {
        events(words[1], atoi(words[2]), atol(words[3]));
        return 0;
    }
    if (count == 2 && !strcmp(words[1], "owned")) {
        owned_times();
        return 0;
    }
    if (count == 3) {
        make(2048, 64, 32, 64, 10, 50);
        for (long i = atol(words[2]); i > 0; i--) sink = once(words[1]);
        return 0;
    }
    printf("ns a call, and as a multiple of       scan +       check       publish, rule 2   publish, no rule\n");
    printf("one scan and one reading               read\n");
    row("decide's store, 2 rules, half used", 2048, 64, 32, 64, 2, 50, 3000);
    row("decide's store, 10 rules, half used", 2048, 64, 32, 64, 10, 50, 3000);
    row("R 32,768, 256 rules of 8 filters", 32768, 64, 32, 64, 256, 50, 300);
    row("64 rows a table, all used", 2048, 64, 64, 64, 10, 100, 1000);
    row("512 rows a table, all used", 2048, 512, 512, 512, 10, 100, 20);
    row("4,096 rows a table, all used", 2048, 4096, 4096, 4096, 10, 100, 3);
    row_alike("64 rows a table, alike", 64, false, 1000);
    row_alike("512 rows a table, alike", 512, false, 20);
    row_alike("4,096 rows a table, alike", 4096, false, 3);
    row_alike("4,096 rows a table, two equal", 4096, true, 3);
    return 0;
}
