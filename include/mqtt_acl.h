/* Access rules of an MQTT broker, for C99 and C++: the functions of libmqtt_acl.a, for x86-64 Linux, System V calling convention.

   What the functions answer is proved for any bytes and any numbers (crates/mqtt_acl); this header is tested, not proved. Its sentences
   are those of the specification, which docs/SPEC.md retells: T is the plugin's tree match, P the per-client rules' plain
   match. The code is position independent: it can be linked into a shared object, as a broker's plugin is one.

   Memory. All of it is the caller's, but the stack, of which 24 KB will do (bench/stack measures it and bounds it from the machine code,
   no proof does). The bounds by call, in bytes: open 3,976, connected 17,640, disconnected 17,272, ended 17,112, a question 17,512, a
   per-client question 3,352, used rows 17,048, a rule line 4,136, templates 3,928, a JSON line 1,240, matching 152, all others at most
   24. A text, and a store, crosses as its address and its length in bytes, without a zero byte at the end. Nothing is kept after a call:
   no heap, no state between calls, no threads. A text is only read; a store is written by mqtt_acl_open and by the three events, and by
   nothing else. Calls that only read a store may run at the same time; one that writes it runs alone.

   What the caller owes, since no proof reaches it:
   - an address from which as many bytes as the length says can be read (a store for mqtt_acl_open and events: written). The length is
     at most PTRDIFF_MAX. Where it is 0 nothing is read, and the address may be any, NULL too;
   - nothing else that is lent overlaps the store that mqtt_acl_open or an event writes. Texts may overlap one another, and in a
     question a text may lie in the store.
   Nothing else is owed: a text may hold any bytes, a number be any of its type.

   A flag is a uint8_t: 0 is false, every other value true. An answer that is yes or no is 1 or 0. mqtt_acl_open and events answer 0 for
   done. The answer to a question is neither of these: no answer is 0, a denial isn't either ("What an answer says", below).

   An optional text is a flag, an address and a length; an optional number a flag and the number. It counts where the flag is true;
   where it is false it is not looked at, and NULL and 0 will do.

   Two layers. The exported functions take addresses and lengths one by one. The inline functions at the end (mqtt_acl_tell_..,
   mqtt_acl_ask_..) take a store, a client and texts as structs, so that two texts are not easily swapped, and answer a question by a
   struct, which no `if` takes: use those.

   Between versions. MQTT_ACL_VERSION is that of this header, mqtt_acl_version() that of the library. While the first number is 0, a
   new second number may change names, arguments, the layout of a store and a decision (CHANGELOG.md says which). A new third number
   changes none of these: it may add functions, refusal numbers from 11 on and the value 15 of mqtt_acl_what: a broker takes what it
   doesn't know as a denial. It may add members at the end of mqtt_acl_client and mqtt_acl_authinfo: make these by mqtt_acl_client_of and
   mqtt_acl_authinfo_of, and set the rest by name. The other structs get none. A number that has a meaning keeps it.

   The life of a client, in calls on a store:
     connect       asked when its CONNECT comes: may it?
     connected     told once it is in: the rules' %c and %u are filled with its id and name, which gives it rows
     subscribe,    asked for each filter and each message. A delivery is asked as a subscribe to the message's topic
     publish
     disconnected  told when it has left: its rows go
     ended         told when its session is over: the session's notes go
   - Sessions are 0 to 255, in one of two ways. Each client has a number of its own: it enters by connected, and leaves by disconnected
     and ended. The number serves another client only after ended. Or one number serves all clients, however many: a client enters by
     connected and ended, and leaves by connected, disconnected and ended, one client at a time, with the name by which it came.
     Connected then finds its rows there, adds none and makes the notes anew, by which disconnected finds what to clear.
   - Proved of the two ways (crates/hosting/specs/Claims.antt): take two hosts, one that gives each client a number of its own and one
     with a single number for all, whose stores hold the same rules, filter rows and eq rows. When a client comes, connected and ended give
     the second host's store the rows that connected gives the first's (EntersAlike). When it leaves, connected, disconnected and ended
     leave the second's the rows that disconnected and ended leave the first's (LeavesAlike). The shared number has no notes before, and
     none afterwards, and no more has the client's own. Premises of leaving: the client's own number has the notes of its connected and no
     others, and the client's eq rows are there; connected makes both so of a number without notes (Entered). That events under other
     numbers keep both so is plain, and not among the claims. The client leaves with the name by which it came.
     A disconnected right after a connected, under the same number, leaves none of the filter rows that this connected gives, whatever
     else the store holds (TakesBack): so a client that leaves under the shared number leaves none behind.
     All this is of events that are not refused: where connected under the shared number is, as by 10 for want of room for the notes,
     disconnected clears nothing, and the rows stay.
   - Rows belong to the id, not to the connection. On a take-over (a second connection with the same id) the old one leaves, as above,
     then the new one enters. A disconnected that is told late takes away the rows of the new one. If the new one is refused and the old
     one stays, the old one enters again.
   - A will is published after the connection is lost: ask it before the client leaves, since its rows are gone afterwards.
   - A reload of the broker may ask basic authentication again, for every client, also for one that is away and whose session is kept.
     Ask connect and no more: take no new session number and tell no connected. Its rows are there already, or it is away.
   - A broker may ask in the name of a made-up client, without address, password and protocol: Mosquitto's check_retain_source does, for
     a publisher that may be gone, and its rows with it. Rules that list an address or a protocol don't mean such a client, and deny
     rules that do don't deny it. Turn such a check off.
   - The superuser flag of an allowed connect is handed back to the caller and not looked at afterwards: subscribe and publish judge a
     superuser as anyone. (Per-client questions do look at theirs.)
   - A rule that asks for a password asks in every question: keep the password as long as the client is there, or its rule agrees at
     connect and never again. The same holds for the address and the protocol, by which deny rules ask too: a client whose address isn't
     given is not denied by it.
   - An id or a name that holds `+`, `#` or `/`, or begins with `$`, widens rules: `bench/%c/#` filled with the id `+` is `bench/+/#`.
     mqtt_acl_plain_name tells those that don't: refuse others at CONNECT where rules have %c or %u. Proved (PlainFills there): where
     neither id nor name holds one of the three characters, a filled template has those that it had unfilled, in number and in order. The
     empty text is plain, and an absent name fills as an empty one: `bench/%u#`, no valid filter with a name, is then `bench/#`.
   - A plain id can still take the user name in: %c is filled first, then %u in what came of it. The id `%u` with the name `g8` makes
     `bench/g8/#` of `bench/%c/#`; so does an id that ends in `%` before a `u` of the template. Refuse ids with `%` too where rules have
     %c. In `%%c` an id that begins with `u` does the same: write no such template.
   - A client's own rules are widened in the same way, by ${clientid} and ${username}. PlainFills does not cover those.
   - How large: R is the length of the rule text or more. A template is a topic with %c or %u; say that the rules have f templates that are
     filters (mqtt_acl_filter_templates) and e under eq (mqtt_acl_eq_templates). Each is filled into one text, whoever the client is, and
     a connected adds at most f filter rows, e eq rows and f notes: both are proved (FilledOnce, Enough there). So F is f times the
     clients that are in at once. E is e times the pairs of id and name that came since the store was opened, every one: eq rows never
     leave. N is f times the sessions that have not ended, if each has one id and name, or f where one number serves all. None of them is
     below 1.
     mqtt_acl_used_rows tells how many rows are used now. Calls check the whole store, unused rows too: tables of 4,096 empty rows cost
     on every question.
   - New rules without losing rows: open a second store, let everyone present enter it, and take it in place of the first if nothing was
     refused. examples/c/reload.c does it.

   Refusals by number, each the first cause in document 01's order; all lent memory is then unchanged:
     number  what it says                             what a broker does
     1       a text, or the rules, over a length      question: deny. Connected: refuse the connection. Open: keep the old rules
     2       a number out of range                    deny; the caller handed over a wrong session, code, QoS or time
     3       the store is not as laid out             deny, raise an alarm, build the store anew
     4       counts, or the store's length, wrong     at open alone: the caller's counts
     5, 6    a line is no JSON, or no rule            open: keep the old rules, tell the line. Per-client: deny, its rules are faulty
     7       a text over 256 bytes once filled        refuse the connection. Per-client: deny
     8, 10   no room for filter rows, or notes        refuse the connection; larger tables
     9       no room for eq rows, which never leave   build the store anew with those present and try again, else refuse the connection */
#ifndef MQTT_ACL_H
#define MQTT_ACL_H

#include <stddef.h>
#include <stdint.h>
#include <string.h>

#if !defined(__x86_64__) || !defined(__linux__) || defined(__ILP32__)
#error "libmqtt_acl.a is for x86-64 Linux"
#endif

/* Of a call whose number must be looked at: GCC and Clang warn where it is dropped. */
#ifdef __GNUC__
#define MQTT_ACL_MUST_USE __attribute__((warn_unused_result))
#else
#define MQTT_ACL_MUST_USE
#endif

#ifdef __cplusplus
extern "C" {
#endif

/* 10,000 times the first number, 100 times the second, and the third. */
#define MQTT_ACL_VERSION 300
#define MQTT_ACL_VERSION_TEXT "0.3.0"

/* The version of the library, which is MQTT_ACL_VERSION where header and archive belong together. */
uint32_t mqtt_acl_version(void);

/* The numbers of document 01, "Refusals by operation". */
enum mqtt_acl_refusal {
    MQTT_ACL_TOO_LONG = 1,        /* a text over its length, a rule text over its lines, an array of topics over 64 */
    MQTT_ACL_OUT_OF_RANGE = 2,    /* session over 255; earlier code over 4 (connect) or 2; QoS over 2; nanoseconds over 999,999,999 */
    MQTT_ACL_MALFORMED = 3,       /* the store is not as laid out */
    MQTT_ACL_COUNTS = 4,          /* a count out of range, or the store's length is not the formula's */
    MQTT_ACL_NOT_JSON = 5,        /* a line that is not document 01's JSON */
    MQTT_ACL_NOT_A_RULE = 6,      /* a line that is not a rule */
    MQTT_ACL_FILLED_TOO_LONG = 7, /* a text over 256 bytes once filled */
    MQTT_ACL_FILTERS_FULL = 8,    /* new filter rows exceed those free */
    MQTT_ACL_EQS_FULL = 9,        /* new eq rows exceed those free */
    MQTT_ACL_NOTES_FULL = 10      /* new note rows exceed those free */
};

/* ---- Filters and matching ---- */

/* Is the text a valid filter? `+` and `#` only as whole levels, `#` only as the last; the empty text is valid.
   1 or 0. Reads the text. */
uint8_t mqtt_acl_valid_filter(const uint8_t *text, size_t text_length);

/* Tree match T, the plugin's: does the filter take the checked text? 1 or 0. Reads both. */
uint8_t mqtt_acl_tree_match(const uint8_t *filter, size_t filter_length, const uint8_t *text, size_t text_length);

/* Plain match P, the per-client rules': does the filter take the checked text? It is T, but for a checked text that isn't a valid
   filter: P splits it as any other. 1 or 0. Reads both. */
uint8_t mqtt_acl_plain_match(const uint8_t *filter, size_t filter_length, const uint8_t *text, size_t text_length);

/* ---- One line: a JSON document, a plugin rule ---- */

/* Is the line, without its LF, one of document 01's JSON documents? 1 or 0. Reads the line. */
uint8_t mqtt_acl_is_document(const uint8_t *line, size_t line_length);

/* And one whose decoded strings, member names included, have at most this many bytes? 1 or 0. Reads the line. */
uint8_t mqtt_acl_is_document_within(const uint8_t *line, size_t line_length, size_t most);

/* 0 for a rule, else the number by which the line is refused: 1, 5 or 6. Reads the line. */
uint8_t mqtt_acl_rule_refusal(const uint8_t *line, size_t line_length);

/* Do the users that the line's rule lists agree with the client? The values of mqtt_acl_identity_answer, which are no yes or no: 3, the
   line is no rule, is not an agreement. Reads the line and the texts. */
uint8_t mqtt_acl_identity(const uint8_t *line, size_t line_length, const uint8_t *id, size_t id_length, uint8_t has_name,
                          const uint8_t *name, size_t name_length, uint8_t has_password, const uint8_t *password, size_t password_length,
                          uint8_t has_address, const uint8_t *address, size_t address_length, uint8_t has_protocol, uint8_t protocol);

enum mqtt_acl_identity_answer {
    MQTT_ACL_DIFFERS = 0,
    MQTT_ACL_AGREES = 1,
    MQTT_ACL_AGREES_SUPERUSER = 2, /* with the superuser flag */
    MQTT_ACL_NO_RULE = 3           /* the line is no rule: not an agreement */
};

/* ---- A store ---- */

/* Opens a store for a rule text: R is `bytes` (1 to 32,768), F, E and N are `filters`, `eqs` and `notes` (1 to 4,096), and the store's
   length must be 16 + R + 326F + 260E + 260N (mqtt_acl_store_length). What the bytes were doesn't matter. Writes every byte of the
   store: the counts, the text, no used row. Answers 0, or the number plus 256 times the line (mqtt_acl_open_refusal,
   mqtt_acl_open_line): 4; 1 text over R, line 0, or over 256 lines, line 257; then the first faulty line's 1, 5 or 6, lines from 1. At
   most 66,047. Reads the text. */
MQTT_ACL_MUST_USE uint32_t mqtt_acl_open(uint8_t *store, size_t store_length, uint64_t bytes, uint64_t filters, uint64_t eqs,
                                         uint64_t notes, const uint8_t *text, size_t text_length);

/* Event: a client has connected. Fills the templates of the rules and adds filter, eq and note rows. Answers 0 done, else the number: 1
   id or name over 64 bytes; 2 session over 255; 3; 7; 8, 9, 10. Reads id and name, reads and writes the store. */
MQTT_ACL_MUST_USE uint8_t mqtt_acl_connected(uint8_t *store, size_t store_length, uint64_t session, const uint8_t *id, size_t id_length,
                                             uint8_t has_name, const uint8_t *name, size_t name_length);

/* Event: a client has disconnected. For each note of the session that is a valid filter, the client's filter rows that T-match it go;
   the notes stay. Answers 0 done, else the number: 1 id over 64 bytes; 2; 3. Its time grows with the client's rows times the session's
   notes: 512 of each take 1 ms with short texts, at worst 0.3 s; 4,096 of each 0.2 s, at worst 20 s (docs/PERFORMANCE.md). Reads the id,
   reads and writes the store. */
MQTT_ACL_MUST_USE uint8_t mqtt_acl_disconnected(uint8_t *store, size_t store_length, uint64_t session, const uint8_t *id, size_t id_length);

/* Event: a session has ended. Drops its notes. Answers 0 done, else the number: 2, 3. Reads and writes the store. */
MQTT_ACL_MUST_USE uint8_t mqtt_acl_ended(uint8_t *store, size_t store_length, uint64_t session);

/* The earlier answer to a connect, by whatever the broker asked before. The last two are kept. */
enum mqtt_acl_earlier_connect {
    MQTT_ACL_EARLIER_CONNECT_NONE = 0,
    MQTT_ACL_EARLIER_CONNECT_ALLOW = 1,
    MQTT_ACL_EARLIER_CONNECT_NOT_FOUND = 2,
    MQTT_ACL_EARLIER_CONNECT_BAD_LOGIN = 3, /* bad name or password */
    MQTT_ACL_EARLIER_CONNECT_NOT_AUTHORIZED = 4
};

/* The earlier answer to a subscribe or a publish. The last is kept. */
enum mqtt_acl_earlier {
    MQTT_ACL_EARLIER_NONE = 0,
    MQTT_ACL_EARLIER_ALLOW = 1,
    MQTT_ACL_EARLIER_REJECTED = 2
};

/* The three questions on a store only read. `earlier` is a code of the enums above. The answer is 16 times the rule, from 1, or 0 where
   no rule decides, plus the value of mqtt_acl_what; for a kept code 16 times the code, plus 1; for an error 16 times its number. Error 1:
   id or name over 64 bytes, password over 128, address over 45, topic over 256; 2: the code, or the QoS; 3. At most 4,111. */

/* May the client connect? MQTT_ACL_KEPT, MQTT_ACL_CONNECT_ALLOWED, MQTT_ACL_CONNECT_SUPERUSER, MQTT_ACL_NOT_AUTHORIZED or
   MQTT_ACL_ERROR. Reads the store and the texts, as the next two. */
uint32_t mqtt_acl_connect(const uint8_t *store, size_t store_length, uint64_t earlier, const uint8_t *id, size_t id_length,
                          uint8_t has_name, const uint8_t *name, size_t name_length, uint8_t has_password, const uint8_t *password,
                          size_t password_length, uint8_t has_address, const uint8_t *address, size_t address_length, uint8_t protocol);

/* May the client subscribe to the topic? MQTT_ACL_KEPT, MQTT_ACL_SUBSCRIBE_QOS0 to QOS2 (the asked QoS), MQTT_ACL_SUBSCRIBE_REFUSED or
   MQTT_ACL_ERROR. */
uint32_t mqtt_acl_subscribe(const uint8_t *store, size_t store_length, uint64_t earlier, const uint8_t *id, size_t id_length,
                            uint8_t has_name, const uint8_t *name, size_t name_length, uint8_t has_password, const uint8_t *password,
                            size_t password_length, uint8_t has_address, const uint8_t *address, size_t address_length,
                            uint8_t has_protocol, uint8_t protocol, const uint8_t *topic, size_t topic_length, uint64_t qos);

/* May the client publish to the topic? MQTT_ACL_KEPT, MQTT_ACL_PUBLISH_ALLOWED, MQTT_ACL_PUBLISH_REFUSED, with the caller's disconnect
   flag MQTT_ACL_PUBLISH_DROPPED, or MQTT_ACL_ERROR. */
uint32_t mqtt_acl_publish(const uint8_t *store, size_t store_length, uint64_t earlier, const uint8_t *id, size_t id_length,
                          uint8_t has_name, const uint8_t *name, size_t name_length, uint8_t has_password, const uint8_t *password,
                          size_t password_length, uint8_t has_address, const uint8_t *address, size_t address_length,
                          uint8_t has_protocol, uint8_t protocol, const uint8_t *topic, size_t topic_length, uint8_t disconnect);

/* ---- For a host: plain names, the templates of rules, used rows ---- */

/* Is the id, or the name, plain: without `+`, `#` and `/`, and not begun by `$`? The empty text is. It doesn't look for `%`. 1 or 0.
   Reads the text. */
uint8_t mqtt_acl_plain_name(const uint8_t *name, size_t name_length);

/* The filters of a rule text with %c or %u, in all its rules: a connected adds at most so many filter rows, and as many notes. A line
   that is no rule has none. Reads the text. */
size_t mqtt_acl_filter_templates(const uint8_t *rules, size_t rules_length);

/* The eq names of a rule text with %c or %u: a connected adds at most so many eq rows. Reads the text. */
size_t mqtt_acl_eq_templates(const uint8_t *rules, size_t rules_length);

/* The used rows of a store: its filter rows, plus 65,536 times its eq rows, plus 4,294,967,296 times its notes (mqtt_acl_ask_rows takes
   them apart); UINT64_MAX where it is not as laid out. Reads the store. */
uint64_t mqtt_acl_used_rows(const uint8_t *store, size_t store_length);

/* ---- The rules that came with a client's credentials ---- */

/* Per-client questions: `rules` is a text of at most 32,768 bytes and 256 lines, each an object. The answer is 16 times the rule, from
   1, or 0 for a superuser, plus the value of mqtt_acl_what; 12 alone where no rule hits; for a refusal 16 times its number and 4,096
   times its line: 1 id or name over 64 bytes, topic over 256, text too long, line 0, or over 256 lines, line 257; 2 QoS over 2, line
   0; then the first faulty line's 1, 5, 6 or 7. At most 1,052,832. */

/* May the client subscribe to the topic, by its rules? MQTT_ACL_SUBSCRIBE_QOS0 to QOS2, MQTT_ACL_NOT_AUTHORIZED, MQTT_ACL_NO_DECISION
   or MQTT_ACL_ERROR. Reads the texts. */
uint64_t mqtt_acl_client_subscribe(uint8_t superuser, const uint8_t *id, size_t id_length, uint8_t has_name, const uint8_t *name,
                                   size_t name_length, const uint8_t *rules, size_t rules_length, const uint8_t *topic,
                                   size_t topic_length, uint64_t qos);

/* May the client publish to the topic, by its rules? MQTT_ACL_PUBLISH_ALLOWED, MQTT_ACL_PUBLISH_REFUSED, MQTT_ACL_PUBLISH_DROPPED,
   MQTT_ACL_NO_DECISION or MQTT_ACL_ERROR. Reads the texts. */
uint64_t mqtt_acl_client_publish(uint8_t superuser, const uint8_t *id, size_t id_length, uint8_t has_name, const uint8_t *name,
                                 size_t name_length, const uint8_t *rules, size_t rules_length, const uint8_t *topic,
                                 size_t topic_length, uint64_t qos, uint8_t retain, uint8_t disconnect);

/* Are the credentials expired now? Expiry below now is; equal isn't; none never. MQTT_ACL_VALID, MQTT_ACL_EXPIRED, or MQTT_ACL_ERROR
   with number 2: nanoseconds of either time over 999,999,999. Nothing is lent. */
uint64_t mqtt_acl_expired(uint8_t has_expiry, uint64_t expiry_seconds, uint64_t expiry_nanoseconds, uint64_t seconds, uint64_t nanoseconds);

/* ---- What an answer says ---- */

/* No answer is 0, a denial isn't either: an answer is no yes or no. Ask mqtt_acl_answer_allows; of mqtt_acl_expired, whether
   mqtt_acl_answer_what is MQTT_ACL_VALID. */

/* What a question, or mqtt_acl_expired, is answered: mqtt_acl_answer_what. */
enum mqtt_acl_what {
    MQTT_ACL_ERROR = 0,              /* refused by number: mqtt_acl_answer_refusal, mqtt_acl_answer_line */
    MQTT_ACL_KEPT = 1,               /* the earlier answer is kept, rule 0: mqtt_acl_answer_code */
    MQTT_ACL_CONNECT_ALLOWED = 2,    /* allow */
    MQTT_ACL_CONNECT_SUPERUSER = 3,  /* allow, with the superuser flag */
    MQTT_ACL_SUBSCRIBE_QOS0 = 4,     /* allow, with the asked QoS: mqtt_acl_answer_qos */
    MQTT_ACL_SUBSCRIBE_QOS1 = 5,
    MQTT_ACL_SUBSCRIBE_QOS2 = 6,
    MQTT_ACL_PUBLISH_ALLOWED = 7,    /* allow */
    MQTT_ACL_NOT_AUTHORIZED = 8,     /* a refused connect, or a refused per-client subscribe */
    MQTT_ACL_PUBLISH_REFUSED = 9,    /* a refused publish, not authorized, without the disconnect flag */
    MQTT_ACL_PUBLISH_DROPPED = 10,   /* a refused publish, not authorized, with the disconnect flag */
    MQTT_ACL_SUBSCRIBE_REFUSED = 11, /* a refused subscribe on a store */
    MQTT_ACL_NO_DECISION = 12,       /* per-client: no rule hits */
    MQTT_ACL_VALID = 13,             /* not expired */
    MQTT_ACL_EXPIRED = 14
};

/* The parts of the number that a question, or mqtt_acl_expired, has answered, so that a caller has no arithmetic to do. Proved too: any
   number is taken, and from its parts the whole answer is read back. Nothing is lent. */

/* What is answered, an mqtt_acl_what: the number modulo 16. No answer has 15. */
uint8_t mqtt_acl_answer_what(uint64_t answer);

/* Does the answer allow? A kept code doesn't: it is a refusal. No decision doesn't either; what follows is the caller's. An answer of
   mqtt_acl_expired never does. */
uint8_t mqtt_acl_answer_allows(uint64_t answer);

/* The deciding rule, from 1, at most 256; 0 where none decided, where a code is kept and where the call is refused. */
uint64_t mqtt_acl_answer_rule(uint64_t answer);

/* The code that is kept; 0 where none is. */
uint64_t mqtt_acl_answer_code(uint64_t answer);

/* The QoS of an allowed subscribe; 0 of anything else. */
uint8_t mqtt_acl_answer_qos(uint64_t answer);

/* Does an allowed connect carry the superuser flag? */
uint8_t mqtt_acl_answer_superuser(uint64_t answer);

/* Does a refused publish carry the disconnect flag? */
uint8_t mqtt_acl_answer_disconnect(uint64_t answer);

/* The number of document 01, an mqtt_acl_refusal; 0 where the call isn't refused by number. */
uint8_t mqtt_acl_answer_refusal(uint64_t answer);

/* Its line, of per-client rules, at most 257; 0 where it has none. */
uint64_t mqtt_acl_answer_line(uint64_t answer);

/* Of mqtt_acl_open: the number, 0 for done, and the line, 0 where it has none. */
uint8_t mqtt_acl_open_refusal(uint32_t answer);
uint32_t mqtt_acl_open_line(uint32_t answer);

/* The words of a refusal number, as the Rust crate has them. */
static inline const char *mqtt_acl_refusal_words(uint8_t number) {
    static const char *const words[11] = {"done",
                                          "a text is too long",
                                          "a number is out of range",
                                          "the store is not as laid out",
                                          "a count or the store's length is out of range",
                                          "not the JSON of a rule line",
                                          "not a rule",
                                          "a filled text is too long",
                                          "no room for the filter rows",
                                          "no room for the eq rows",
                                          "no room for the note rows"};
    return number <= 10 ? words[number] : "a number that this header does not know";
}

/* The word that the programs `decide` and `client` write for a question's answer. */
static inline const char *mqtt_acl_answer_word(uint64_t answer) {
    static const char *const words[16] = {"error", "kept", "allow", "super", "allow", "allow", "allow", "allow", "refuse",
                                          "refuse", "drop", "refuse", "none", "valid", "expired", "?"};
    return words[mqtt_acl_answer_what(answer)];
}

/* ---- The same calls on a store, a client and texts ---- */

/* A lent text, still the caller's. With `bytes` NULL, whatever the length, it is absent: an optional one doesn't count, any other is
   empty. The functions below are inline, each over the call that it names, and return what that returns, a question in an
   mqtt_acl_answer. */
typedef struct mqtt_acl_text {
    const void *bytes;
    size_t length;
} mqtt_acl_text;

/* A store, still the caller's: questions only read it. With `bytes` NULL it is one of no bytes: refused by 4, by events and questions by
   3, unless an earlier cause gives another. */
typedef struct mqtt_acl_store {
    uint8_t *bytes;
    size_t length;
} mqtt_acl_store;

/* The text of these bytes; absent for NULL. */
static inline mqtt_acl_text mqtt_acl_bytes(const void *bytes, size_t length) {
    mqtt_acl_text text;
    text.bytes = bytes;
    text.length = bytes ? length : 0;
    return text;
}

static inline mqtt_acl_text mqtt_acl_absent(void) { return mqtt_acl_bytes(NULL, 0); }

/* The text before the string's zero byte; absent for NULL. */
static inline mqtt_acl_text mqtt_acl_string(const char *string) { return mqtt_acl_bytes(string, string ? strlen(string) : 0); }

/* The store in these bytes. */
static inline mqtt_acl_store mqtt_acl_store_in(uint8_t *bytes, size_t length) {
    mqtt_acl_store store;
    store.bytes = bytes;
    store.length = bytes ? length : 0;
    return store;
}

/* What crosses: the address, the length, and the flag of an optional one. */
static inline const uint8_t *mqtt_acl_address(mqtt_acl_text text) { return (const uint8_t *)text.bytes; }
static inline size_t mqtt_acl_length(mqtt_acl_text text) { return text.bytes ? text.length : 0; }
static inline uint8_t mqtt_acl_given(mqtt_acl_text text) { return text.bytes != NULL; }
static inline size_t mqtt_acl_lent(mqtt_acl_store store) { return store.bytes ? store.length : 0; }

/* What a question is answered, in a struct so that no `if` takes it: mqtt_acl_answer_allows(answer.number) says whether it allows. */
typedef struct mqtt_acl_answer {
    uint64_t number;
} mqtt_acl_answer;

/* The answer of this number. */
static inline mqtt_acl_answer mqtt_acl_answered(uint64_t number) {
    mqtt_acl_answer answer;
    answer.number = number;
    return answer;
}

/* A protocol, or none where `given`, a flag, is 0. */
typedef struct mqtt_acl_protocol {
    uint8_t given;
    uint8_t number;
} mqtt_acl_protocol;

/* This protocol, given. */
static inline mqtt_acl_protocol mqtt_acl_protocol_of(uint8_t number) {
    mqtt_acl_protocol protocol;
    protocol.given = 1;
    protocol.number = number;
    return protocol;
}

/* Who asks: made by mqtt_acl_client_of, the rest is set by name. */
typedef struct mqtt_acl_client {
    mqtt_acl_text id;
    mqtt_acl_text name; /* optional, as the next three */
    mqtt_acl_text password;
    mqtt_acl_text address;
    mqtt_acl_protocol protocol; /* of subscribe, publish and identity; connect, which always has one, takes it as an argument */
} mqtt_acl_client;

/* A client with this id and this name, and without password, address and protocol. */
static inline mqtt_acl_client mqtt_acl_client_of(mqtt_acl_text id, mqtt_acl_text name) {
    mqtt_acl_client client;
    memset(&client, 0, sizeof client);
    client.id = id;
    client.name = name;
    return client;
}

/* Who asks by the rules that came with its credentials: made by mqtt_acl_authinfo_of, the rest is set by name. */
typedef struct mqtt_acl_authinfo {
    mqtt_acl_text id;
    mqtt_acl_text name; /* optional */
    mqtt_acl_text rules;
    uint8_t superuser; /* a flag */
} mqtt_acl_authinfo;

/* One with this id, this name and these rules, who is no superuser. */
static inline mqtt_acl_authinfo mqtt_acl_authinfo_of(mqtt_acl_text id, mqtt_acl_text name, mqtt_acl_text rules) {
    mqtt_acl_authinfo authinfo;
    memset(&authinfo, 0, sizeof authinfo);
    authinfo.id = id;
    authinfo.name = name;
    authinfo.rules = rules;
    return authinfo;
}

/* A time: whole seconds, and nanoseconds, at most 999,999,999. */
typedef struct mqtt_acl_time {
    uint64_t seconds, nanoseconds;
} mqtt_acl_time;

/* R, F, E, N: the bytes for the rule text and the rows that each table has room for. */
typedef struct mqtt_acl_counts {
    uint64_t bytes, filters, eqs, notes;
} mqtt_acl_counts;

/* The rows of each table that are used: mqtt_acl_ask_rows. */
typedef struct mqtt_acl_rows {
    uint64_t filters, eqs, notes;
} mqtt_acl_rows;

/* The length of a store with these counts; 0 where one is out of range. */
static inline size_t mqtt_acl_store_length(mqtt_acl_counts c) {
    if (c.bytes < 1 || c.bytes > 32768 || c.filters < 1 || c.filters > 4096 || c.eqs < 1 || c.eqs > 4096 || c.notes < 1 || c.notes > 4096)
        return 0;
    return (size_t)(16 + c.bytes + 326 * c.filters + 260 * c.eqs + 260 * c.notes);
}

/* mqtt_acl_valid_filter. */
static inline uint8_t mqtt_acl_ask_valid_filter(mqtt_acl_text text) {
    return mqtt_acl_valid_filter(mqtt_acl_address(text), mqtt_acl_length(text));
}

/* mqtt_acl_tree_match. */
static inline uint8_t mqtt_acl_ask_tree_match(mqtt_acl_text filter, mqtt_acl_text text) {
    return mqtt_acl_tree_match(mqtt_acl_address(filter), mqtt_acl_length(filter), mqtt_acl_address(text), mqtt_acl_length(text));
}

/* mqtt_acl_plain_match. */
static inline uint8_t mqtt_acl_ask_plain_match(mqtt_acl_text filter, mqtt_acl_text text) {
    return mqtt_acl_plain_match(mqtt_acl_address(filter), mqtt_acl_length(filter), mqtt_acl_address(text), mqtt_acl_length(text));
}

/* mqtt_acl_is_document. */
static inline uint8_t mqtt_acl_ask_document(mqtt_acl_text line) {
    return mqtt_acl_is_document(mqtt_acl_address(line), mqtt_acl_length(line));
}

/* mqtt_acl_is_document_within. */
static inline uint8_t mqtt_acl_ask_document_within(mqtt_acl_text line, size_t most) {
    return mqtt_acl_is_document_within(mqtt_acl_address(line), mqtt_acl_length(line), most);
}

/* mqtt_acl_rule_refusal. */
static inline uint8_t mqtt_acl_ask_rule_refusal(mqtt_acl_text line) {
    return mqtt_acl_rule_refusal(mqtt_acl_address(line), mqtt_acl_length(line));
}

/* mqtt_acl_identity: an mqtt_acl_identity_answer, no yes or no. 3, the line is no rule, is not an agreement. */
static inline uint8_t mqtt_acl_ask_identity(mqtt_acl_text line, const mqtt_acl_client *c) {
    return mqtt_acl_identity(mqtt_acl_address(line), mqtt_acl_length(line), mqtt_acl_address(c->id), mqtt_acl_length(c->id),
                             mqtt_acl_given(c->name), mqtt_acl_address(c->name), mqtt_acl_length(c->name), mqtt_acl_given(c->password),
                             mqtt_acl_address(c->password), mqtt_acl_length(c->password), mqtt_acl_given(c->address),
                             mqtt_acl_address(c->address), mqtt_acl_length(c->address), c->protocol.given, c->protocol.number);
}

/* mqtt_acl_open. */
MQTT_ACL_MUST_USE static inline uint32_t mqtt_acl_tell_open(mqtt_acl_store store, mqtt_acl_counts c, mqtt_acl_text text) {
    return mqtt_acl_open(store.bytes, mqtt_acl_lent(store), c.bytes, c.filters, c.eqs, c.notes, mqtt_acl_address(text),
                         mqtt_acl_length(text));
}

/* mqtt_acl_connected, by the client's id and name. */
MQTT_ACL_MUST_USE static inline uint8_t mqtt_acl_tell_connected(mqtt_acl_store store, uint64_t session, const mqtt_acl_client *c) {
    return mqtt_acl_connected(store.bytes, mqtt_acl_lent(store), session, mqtt_acl_address(c->id), mqtt_acl_length(c->id),
                              mqtt_acl_given(c->name), mqtt_acl_address(c->name), mqtt_acl_length(c->name));
}

/* mqtt_acl_disconnected, by the client's id. */
MQTT_ACL_MUST_USE static inline uint8_t mqtt_acl_tell_disconnected(mqtt_acl_store store, uint64_t session, const mqtt_acl_client *c) {
    return mqtt_acl_disconnected(store.bytes, mqtt_acl_lent(store), session, mqtt_acl_address(c->id), mqtt_acl_length(c->id));
}

/* mqtt_acl_ended. */
MQTT_ACL_MUST_USE static inline uint8_t mqtt_acl_tell_ended(mqtt_acl_store store, uint64_t session) {
    return mqtt_acl_ended(store.bytes, mqtt_acl_lent(store), session);
}

/* mqtt_acl_connect, with this protocol. That of the client isn't looked at. */
static inline mqtt_acl_answer mqtt_acl_ask_connect(mqtt_acl_store store, enum mqtt_acl_earlier_connect earlier, const mqtt_acl_client *c,
                                                   uint8_t protocol) {
    return mqtt_acl_answered(mqtt_acl_connect(
        store.bytes, mqtt_acl_lent(store), (uint64_t)earlier, mqtt_acl_address(c->id), mqtt_acl_length(c->id), mqtt_acl_given(c->name),
        mqtt_acl_address(c->name), mqtt_acl_length(c->name), mqtt_acl_given(c->password), mqtt_acl_address(c->password),
        mqtt_acl_length(c->password), mqtt_acl_given(c->address), mqtt_acl_address(c->address), mqtt_acl_length(c->address), protocol));
}

/* mqtt_acl_subscribe. */
static inline mqtt_acl_answer mqtt_acl_ask_subscribe(mqtt_acl_store store, enum mqtt_acl_earlier earlier, const mqtt_acl_client *c,
                                                     mqtt_acl_text topic, uint64_t qos) {
    return mqtt_acl_answered(mqtt_acl_subscribe(
        store.bytes, mqtt_acl_lent(store), (uint64_t)earlier, mqtt_acl_address(c->id), mqtt_acl_length(c->id), mqtt_acl_given(c->name),
        mqtt_acl_address(c->name), mqtt_acl_length(c->name), mqtt_acl_given(c->password), mqtt_acl_address(c->password),
        mqtt_acl_length(c->password), mqtt_acl_given(c->address), mqtt_acl_address(c->address), mqtt_acl_length(c->address),
        c->protocol.given, c->protocol.number, mqtt_acl_address(topic), mqtt_acl_length(topic), qos));
}

/* mqtt_acl_publish. */
static inline mqtt_acl_answer mqtt_acl_ask_publish(mqtt_acl_store store, enum mqtt_acl_earlier earlier, const mqtt_acl_client *c,
                                                   mqtt_acl_text topic, uint8_t disconnect) {
    return mqtt_acl_answered(mqtt_acl_publish(
        store.bytes, mqtt_acl_lent(store), (uint64_t)earlier, mqtt_acl_address(c->id), mqtt_acl_length(c->id), mqtt_acl_given(c->name),
        mqtt_acl_address(c->name), mqtt_acl_length(c->name), mqtt_acl_given(c->password), mqtt_acl_address(c->password),
        mqtt_acl_length(c->password), mqtt_acl_given(c->address), mqtt_acl_address(c->address), mqtt_acl_length(c->address),
        c->protocol.given, c->protocol.number, mqtt_acl_address(topic), mqtt_acl_length(topic), disconnect));
}

/* mqtt_acl_plain_name. */
static inline uint8_t mqtt_acl_ask_plain_name(mqtt_acl_text name) {
    return mqtt_acl_plain_name(mqtt_acl_address(name), mqtt_acl_length(name));
}

/* mqtt_acl_filter_templates. */
static inline size_t mqtt_acl_ask_filter_templates(mqtt_acl_text rules) {
    return mqtt_acl_filter_templates(mqtt_acl_address(rules), mqtt_acl_length(rules));
}

/* mqtt_acl_eq_templates. */
static inline size_t mqtt_acl_ask_eq_templates(mqtt_acl_text rules) {
    return mqtt_acl_eq_templates(mqtt_acl_address(rules), mqtt_acl_length(rules));
}

/* mqtt_acl_used_rows, taken apart. As events do it answers 0 for done; else MQTT_ACL_MALFORMED, the store is not as laid out, and `rows`
   is as it was. */
MQTT_ACL_MUST_USE static inline uint8_t mqtt_acl_ask_rows(mqtt_acl_store store, mqtt_acl_rows *rows) {
    const uint64_t used = mqtt_acl_used_rows(store.bytes, mqtt_acl_lent(store));
    if (used == UINT64_MAX) return MQTT_ACL_MALFORMED;
    rows->filters = used % 65536;
    rows->eqs = used / 65536 % 65536;
    rows->notes = used / 65536 / 65536;
    return 0;
}

/* mqtt_acl_client_subscribe. */
static inline mqtt_acl_answer mqtt_acl_ask_client_subscribe(const mqtt_acl_authinfo *a, mqtt_acl_text topic, uint64_t qos) {
    return mqtt_acl_answered(mqtt_acl_client_subscribe(
        a->superuser, mqtt_acl_address(a->id), mqtt_acl_length(a->id), mqtt_acl_given(a->name), mqtt_acl_address(a->name),
        mqtt_acl_length(a->name), mqtt_acl_address(a->rules), mqtt_acl_length(a->rules), mqtt_acl_address(topic), mqtt_acl_length(topic),
        qos));
}

/* mqtt_acl_client_publish. */
static inline mqtt_acl_answer mqtt_acl_ask_client_publish(const mqtt_acl_authinfo *a, mqtt_acl_text topic, uint64_t qos, uint8_t retain,
                                                          uint8_t disconnect) {
    return mqtt_acl_answered(mqtt_acl_client_publish(
        a->superuser, mqtt_acl_address(a->id), mqtt_acl_length(a->id), mqtt_acl_given(a->name), mqtt_acl_address(a->name),
        mqtt_acl_length(a->name), mqtt_acl_address(a->rules), mqtt_acl_length(a->rules), mqtt_acl_address(topic), mqtt_acl_length(topic),
        qos, retain, disconnect));
}

/* mqtt_acl_expired: are the credentials with this expiry, NULL for none, expired now? They hold where mqtt_acl_answer_what is
   MQTT_ACL_VALID, and there alone. */
static inline mqtt_acl_answer mqtt_acl_ask_expired(const mqtt_acl_time *expiry, mqtt_acl_time now) {
    return mqtt_acl_answered(mqtt_acl_expired(expiry != NULL, expiry ? expiry->seconds : 0, expiry ? expiry->nanoseconds : 0, now.seconds,
                                              now.nanoseconds));
}

#ifdef __cplusplus
}
#endif
#endif
