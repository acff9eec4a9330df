/* Two printers play a handshake over an air that loses, repeats and reorders frames.
 *
 *     two_printers [SEED [LOSS]]
 *
 * SEED is a number, 1 unless given; LOSS is the percentage of frames that are lost, 25 unless given. Each line tells what a printer does;
 * the last one tells whether both hold the same pair. Exit status: 0 they do, 1 they do not, 2 wrong words, 3 what must not be.
 *
 * A prefers group 21 and lists 20 and 19 too. B does not list 21 and asks every peer for a token, so that a status 77, the next group and
 * a status 76 are seen. A has also been told of a third printer, C, which is switched off; it is taken back by a kill. B starts too in one
 * of two plays. B's host puts a vendor's element behind its Confirms, as some access points do: A finds it with sae_read, and its engine
 * does not mind it. While the handshake goes on, B's table is moved to the form of before group 21 and, at noon, to the other again.
 *
 * The chip is a stand-in: its scalars, elements and Confirm values are numbers that anyone can work out. It is no cryptography. */

#include <inttypes.h>
#include <stdarg.h>
#include <stdio.h>
#include <stdlib.h>
#include <string.h>

#include "sae.h"

enum {
    SLOTS = 2,
    IN_FLIGHT = 64,
    BACK_MS = 50, /* B's table is moved to SAE_NARROW */
    NOON_MS = 90, /* and to SAE_WIDE again */
    KILL_MS = 100,
    LAST_MS = 30000
};

/* A printer: its settings, what its clock shows when the play begins, its table, which lies in one of two buffers, the commits that it
 * offers, in the width of SAE_WIDE, and the number of good links that its front panel shows. */
struct printer {
    char name;
    uint8_t address[SAE_ADDRESS_LEN];
    uint32_t clock_begins;
    uint8_t settings[SAE_SETTINGS_LEN];
    uint8_t buffers[2][SAE_TABLE_LEN(SAE_WIDE, SLOTS)];
    uint8_t *table;
    size_t table_len;
    uint8_t commits[SAE_MAX_GROUPS(SAE_WIDE)][SAE_COMMIT_LEN(SAE_WIDE)];
    uint32_t commits_made;
    uint32_t shown;
};

/* A frame in the air. */
struct frame {
    int in_flight;
    uint32_t arrives;
    struct printer *from, *to;
    size_t length;
    uint8_t octets[SAE_FRAME_LEN];
};

static struct printer printers[2] = {
    {.name = 'A',
     .address = {0x02, 0, 0, 0, 0, 0x0a},
     .clock_begins = 1000,
     .settings = {[SAE_SETTINGS_COUNT] = 3,
                  [SAE_SETTINGS_GROUPS] = SAE_GROUP_21,
                  [SAE_SETTINGS_GROUPS + 2] = SAE_GROUP_20,
                  [SAE_SETTINGS_GROUPS + 4] = SAE_GROUP_19,
                  [SAE_SETTINGS_THRESHOLD] = SAE_FACTORY_THRESHOLD,
                  [SAE_SETTINGS_PERIOD] = SAE_FACTORY_PERIOD,
                  [SAE_SETTINGS_SYNC_LIMIT] = SAE_FACTORY_SYNC_LIMIT}},
    {.name = 'B',
     .address = {0x02, 0, 0, 0, 0, 0x0b},
     .clock_begins = UINT32_MAX - 60, /* it soon wraps */
     .settings = {[SAE_SETTINGS_COUNT] = 2,
                  [SAE_SETTINGS_GROUPS] = SAE_GROUP_20,
                  [SAE_SETTINGS_GROUPS + 2] = SAE_GROUP_19,
                  [SAE_SETTINGS_THRESHOLD] = 0}}, /* period and Sync limit are 0 too: the factory's */
};
static const uint8_t switched_off[SAE_ADDRESS_LEN] = {0x02, 0, 0, 0, 0, 0x0c};
static struct frame air[IN_FLIGHT];
static uint32_t now;
static uint32_t loss = 25;

/* Numbers at random (xorshift32). */

static uint32_t seed = 1;

static uint32_t below(uint32_t bound)
{
    seed ^= seed << 13;
    seed ^= seed >> 17;
    seed ^= seed << 5;
    return seed % bound;
}

/* Octets. */

static uint16_t get16(const uint8_t *octets)
{
    return (uint16_t)(octets[0] | octets[1] << 8);
}

/* The timeline. */

static void tell(const struct printer *printer, const char *what, ...)
{
    va_list words;
    printf("%6" PRIu32 " ms  %c ", now, printer->name);
    va_start(words, what);
    vprintf(what, words);
    va_end(words);
    putchar('\n');
}

/* A call that this program never expects to be refused. */
static void done(uint32_t number, const char *call)
{
    if (number != SAE_DONE) {
        printf("%s was refused: %" PRIu32 "\n", call, number);
        exit(3);
    }
}

static char name_of(const uint8_t *address)
{
    return (char)('A' + address[SAE_ADDRESS_LEN - 1] - 0x0a);
}

/* A frame in words. */
static void describe(const struct printer *reader, const uint8_t *octets, size_t length, char words[64])
{
    uint8_t parts[SAE_PARTS_LEN];
    done(sae_read(reader->table, reader->table_len, octets, length, parts), "sae_read");
    uint16_t group = get16(parts + SAE_PARTS_GROUP), tokens = get16(parts + SAE_PARTS_TOKEN_LENGTH);
    if (get16(parts + SAE_PARTS_SEQUENCE) == SAE_CONFIRM)
        snprintf(words, 64, "a Confirm, counter %u%s", get16(parts + SAE_PARTS_COUNTER),
                 get16(parts + SAE_PARTS_ELEMENTS_LENGTH) > 0 ? ", an element behind it" : "");
    else if (get16(parts + SAE_PARTS_STATUS) == SAE_TOKEN_REQUIRED)
        snprintf(words, 64, "a 76 with a token for group %u", group);
    else if (get16(parts + SAE_PARTS_STATUS) == SAE_GROUP_REFUSED)
        snprintf(words, 64, "a 77 that refuses group %u", group);
    else
        snprintf(words, 64, "a Commit in group %u%s", group, tokens > 0 ? " with the token" : "");
}

/* The table, looked into. */

static const uint8_t *record_of(const struct printer *printer, const uint8_t *address)
{
    uint32_t offset = 0;
    done(sae_find(printer->table, printer->table_len, address, &offset), "sae_find");
    return offset == 0 ? NULL : printer->table + offset;
}

/* The form of the table, told by its header. */
static unsigned form_of(const struct printer *printer)
{
    return get16(printer->table + SAE_HEADER_RECORD_SIZE);
}

static const char *standing(const struct printer *printer, const uint8_t *address)
{
    const uint8_t *record = record_of(printer, address);
    if (record == NULL)
        return "no record";
    int link = record[SAE_RECORD_LINK(form_of(printer))];
    switch (record[SAE_RECORD_STATE]) {
    case SAE_RUN_COMMITTED:
        return link ? "Committed, beside a link" : "Committed";
    case SAE_RUN_CONFIRMED:
        return link ? "Confirmed, beside a link" : "Confirmed";
    default:
        return "a finished link";
    }
}

/* A pair, as the chip is handed it. */
struct pair {
    uint16_t group;
    const uint8_t *own, *peer;
};

/* The pair that a Confirm meets or is made over: the run's in Confirmed, the link's without a run. */
static int pair_of(const struct printer *printer, const uint8_t *address, struct pair *pair)
{
    const uint8_t *record = record_of(printer, address);
    unsigned form = form_of(printer);
    if (record != NULL && record[SAE_RECORD_STATE] == SAE_RUN_CONFIRMED)
        *pair = (struct pair){get16(record + SAE_RECORD_GROUP), record + SAE_RECORD_OWN, record + SAE_RECORD_PEER(form)};
    else if (record != NULL && record[SAE_RECORD_STATE] == SAE_RUN_NOTHING)
        *pair = (struct pair){get16(record + SAE_RECORD_LINK_GROUP(form)), record + SAE_RECORD_LINK_OWN(form),
                              record + SAE_RECORD_LINK_PEER(form)};
    else
        return 0;
    return 1;
}

/* The chip's stand-in. */

static uint32_t mix(uint32_t sum, uint32_t with)
{
    sum = (sum ^ with) * 0x9e3779b1u;
    return sum ^ sum >> 15;
}

static size_t groups_of(const struct printer *printer)
{
    return printer->settings[SAE_SETTINGS_COUNT];
}

/* Octets of scalar and element. */
static size_t commit_length(uint16_t group)
{
    switch (group) {
    case SAE_GROUP_19:
        return 32 + 64;
    case SAE_GROUP_20:
        return 48 + 96;
    default:
        return 66 + 132;
    }
}

/* Makes a commit unlike all before, for the group at this place of the list. */
static void chip_make(struct printer *printer, size_t place)
{
    uint16_t group = get16(printer->settings + SAE_SETTINGS_GROUPS + 2 * place);
    uint8_t *commit = printer->commits[place];
    uint32_t serial = ++printer->commits_made;
    memset(commit, 0, SAE_COMMIT_LEN(SAE_WIDE));
    for (size_t at = 0; at < commit_length(group); at++)
        commit[at] = (uint8_t)mix(mix(printer->address[5], serial), (uint32_t)at);
}

/* The fresh commits as a call takes them: in the order of the list, each in the width of the table's form. Answers their length. */
static size_t lay_out(const struct printer *printer, uint8_t fresh[SAE_FRESH_LEN(SAE_WIDE, SAE_MAX_GROUPS(SAE_WIDE))])
{
    unsigned form = form_of(printer);
    for (size_t place = 0; place < groups_of(printer); place++)
        memcpy(fresh + SAE_FRESH_LEN(form, place), printer->commits[place], SAE_COMMIT_LEN(form));
    return SAE_FRESH_LEN(form, groups_of(printer));
}

/* The duty that the agreement of the two ends rests on: the commit of the group that an answer names has been used, and is never offered
 * again, to nobody. A real chip keeps its secret until run and link with that address are over. */
static void chip_renew(struct printer *printer, const uint8_t answer[SAE_ANSWER_LEN])
{
    uint16_t used = get16(answer + SAE_ANSWER_FRESH);
    for (size_t place = 0; place < groups_of(printer); place++)
        if (used != 0 && get16(printer->settings + SAE_SETTINGS_GROUPS + 2 * place) == used)
            chip_make(printer, place);
}

/* The value of a Confirm that `from` makes for `to`, over their commits, with this counter. */
static void chip_value(uint16_t group, const uint8_t *from, const uint8_t *to, uint16_t counter, uint8_t value[SAE_VALUE_LEN])
{
    uint32_t sum = mix(group, counter);
    for (size_t at = 0; at < commit_length(group); at++)
        sum = mix(mix(sum, from[at]), to[at]);
    for (size_t at = 0; at < SAE_VALUE_LEN; at++)
        value[at] = (uint8_t)mix(sum, (uint32_t)at);
}

/* The verdict on a frame: a Commit that was sent is valid here; a Confirm must be right for the pair that it meets. */
static uint8_t chip_verdict(const struct printer *printer, const struct frame *frame)
{
    uint8_t value[SAE_VALUE_LEN], parts[SAE_PARTS_LEN];
    struct pair pair;
    done(sae_read(printer->table, printer->table_len, frame->octets, frame->length, parts), "sae_read");
    if (get16(parts + SAE_PARTS_SEQUENCE) != SAE_CONFIRM)
        return 1;
    if (!pair_of(printer, frame->from->address, &pair))
        return 0;
    chip_value(pair.group, pair.peer, pair.own, get16(parts + SAE_PARTS_COUNTER), value);
    return memcmp(value, frame->octets + get16(parts + SAE_PARTS_REST_AT), SAE_VALUE_LEN) == 0;
}

/* The token that a printer expects from an address: any 32 octets that others cannot guess. */
static void expected_token(const struct printer *printer, const uint8_t *address, uint8_t token[SAE_EXPECTED_LEN])
{
    for (size_t at = 0; at < SAE_EXPECTED_LEN; at++)
        token[at] = (uint8_t)mix(mix(printer->address[5], address[at % SAE_ADDRESS_LEN]), (uint32_t)at);
}

/* The air. */

static struct printer *printer_at(const uint8_t *address)
{
    for (size_t who = 0; who < 2; who++)
        if (memcmp(address, printers[who].address, SAE_ADDRESS_LEN) == 0)
            return &printers[who];
    return NULL;
}

static void put_in_air(struct printer *from, struct printer *to, const uint8_t *octets, size_t length, uint32_t arrives)
{
    for (size_t at = 0; at < IN_FLIGHT; at++)
        if (!air[at].in_flight) {
            air[at] = (struct frame){.in_flight = 1, .arrives = arrives, .from = from, .to = to, .length = length};
            memcpy(air[at].octets, octets, length);
            return;
        }
    tell(from, "finds the air full: the frame is lost");
}

/* A frame goes out: it may be lost, or arrive twice, and later ones may overtake it. */
static void transmit(struct printer *from, const uint8_t *address, const uint8_t *octets, size_t length)
{
    struct printer *to = printer_at(address);
    char words[64];
    describe(from, octets, length, words);
    if (to == NULL) {
        tell(from, "sends %c %s, which nobody hears", name_of(address), words);
        return;
    }
    if (below(100) < loss) {
        tell(from, "sends %c %s, which is lost", to->name, words);
        return;
    }
    uint32_t arrives = now + 2 + below(25);
    put_in_air(from, to, octets, length, arrives);
    if (below(100) >= 15) {
        tell(from, "sends %c %s, which arrives at %" PRIu32, to->name, words, arrives);
        return;
    }
    uint32_t again = arrives + 1 + below(60);
    put_in_air(from, to, octets, length, again);
    tell(from, "sends %c %s, which arrives at %" PRIu32 " and again at %" PRIu32, to->name, words, arrives, again);
}

/* The host. */

static uint32_t reading(const struct printer *printer)
{
    return printer->clock_begins + now;
}

/* Writes a frame of an answer from the table just left: a status 0 frame is the record's own, a 76 or 77 is made from its parts. */
static uint32_t write_frame(const struct printer *printer, const uint8_t *address, const uint8_t *entry, const uint8_t *token,
                            uint8_t out[SAE_FRAME_LEN])
{
    uint16_t sequence = get16(entry + SAE_ENTRY_SEQUENCE), status = get16(entry + SAE_ENTRY_STATUS);
    uint8_t value[SAE_VALUE_LEN] = {0};
    uint32_t written = 0;
    struct pair pair;
    if (status != 0) {
        size_t token_length = status == SAE_TOKEN_REQUIRED ? SAE_EXPECTED_LEN : 0;
        done(sae_write_parts(printer->table, printer->table_len, sequence, status, get16(entry + SAE_ENTRY_GROUP), 0, token, token_length,
                             value, 0, out, SAE_FRAME_LEN, &written),
             "sae_write_parts");
        return written;
    }
    if (sequence == SAE_CONFIRM && pair_of(printer, address, &pair))
        chip_value(pair.group, pair.own, pair.peer, get16(entry + SAE_ENTRY_COUNTER), value);
    done(sae_write_record(printer->table, printer->table_len, address, sequence, value, sizeof value, out, SAE_FRAME_LEN, &written),
         "sae_write_record");
    return written;
}

/* A vendor's element behind a Confirm that was written: identifier, length, contents. The writer writes none; a host may. */
static uint32_t add_element(uint8_t out[SAE_FRAME_LEN], uint32_t written)
{
    static const uint8_t element[] = {221, 3, 'B', 'a', 'k'};
    memcpy(out + written, element, sizeof element);
    return written + (uint32_t)sizeof element;
}

/* The front panel: the number of good links, asked of the table's header alone after each call that may have changed it. A pair that is
 * formed anew marks a link, which is one good link less and no event. */
static void show(struct printer *printer)
{
    uint32_t good = 0;
    done(sae_good_links(printer->table, SAE_HEADER_LEN, &good), "sae_good_links");
    if (good != printer->shown)
        tell(printer, "shows %" PRIu32 " good link%s on its panel", good, good == 1 ? "" : "s");
    printer->shown = good;
}

/* Does what an answer says: the used commit is replaced, the event is told, the panel is looked after, the frames are written and sent in
 * their order. */
static void serve(struct printer *printer, const uint8_t answer[SAE_ANSWER_LEN], const uint8_t token[SAE_EXPECTED_LEN])
{
    static const char *const events[] = {"", "accepts: its link with %c is finished", "gives the run with %c up", "ends its link with %c"};
    const uint8_t *address = answer + SAE_ANSWER_ADDRESS;
    chip_renew(printer, answer);
    if (answer[SAE_ANSWER_EVENT] != SAE_EVENT_NONE)
        tell(printer, events[answer[SAE_ANSWER_EVENT]], name_of(address));
    show(printer);
    for (uint8_t place = 0; place < answer[SAE_ANSWER_COUNT]; place++) {
        uint8_t out[SAE_FRAME_LEN];
        const uint8_t *entry = answer + SAE_ANSWER_FRAME(place);
        uint32_t written = write_frame(printer, address, entry, token, out);
        if (printer->name == 'B' && get16(entry + SAE_ENTRY_SEQUENCE) == SAE_CONFIRM)
            written = add_element(out, written);
        transmit(printer, address, out, written);
    }
}

static void initialize(struct printer *printer)
{
    uint8_t answer[SAE_ANSWER_LEN];
    printer->table = printer->buffers[0];
    printer->table_len = SAE_TABLE_LEN(SAE_WIDE, SLOTS);
    done(sae_initialize(printer->table, printer->table_len, printer->address, printer->settings, answer), "sae_initialize");
    for (size_t place = 0; place < groups_of(printer); place++)
        chip_make(printer, place);
}

static void initiate(struct printer *printer, const uint8_t *address)
{
    uint8_t answer[SAE_ANSWER_LEN], token[SAE_EXPECTED_LEN], fresh[SAE_FRESH_LEN(SAE_WIDE, SAE_MAX_GROUPS(SAE_WIDE))];
    size_t fresh_len = lay_out(printer, fresh);
    tell(printer, "starts with %c", name_of(address));
    expected_token(printer, address, token);
    done(sae_initiate(printer->table, printer->table_len, address, reading(printer), fresh, fresh_len, answer), "sae_initiate");
    serve(printer, answer, token);
}

static void receive(struct printer *printer, const struct frame *frame)
{
    uint8_t answer[SAE_ANSWER_LEN], token[SAE_EXPECTED_LEN], fresh[SAE_FRESH_LEN(SAE_WIDE, SAE_MAX_GROUPS(SAE_WIDE))];
    size_t fresh_len = lay_out(printer, fresh);
    const uint8_t *sender = frame->from->address;
    char words[64];
    describe(printer, frame->octets, frame->length, words);
    const char *before = standing(printer, sender);
    expected_token(printer, sender, token);
    done(sae_receive(printer->table, printer->table_len, sender, reading(printer), frame->octets, frame->length, fresh, fresh_len, token,
                     sizeof token, chip_verdict(printer, frame), answer),
         "sae_receive");
    const char *after = standing(printer, sender);
    int idle = answer[SAE_ANSWER_EVENT] == SAE_EVENT_NONE && answer[SAE_ANSWER_COUNT] == 0;
    if (strcmp(before, after) != 0)
        tell(printer, "gets %s: from %s to %s", words, before, after);
    else
        tell(printer, "gets %s: still %s%s", words, after, idle ? ", nothing is sent" : "");
    serve(printer, answer, token);
}

static void expire(struct printer *printer)
{
    uint8_t answer[SAE_ANSWER_LEN], token[SAE_EXPECTED_LEN] = {0};
    for (;;) {
        done(sae_expire(printer->table, printer->table_len, reading(printer), answer), "sae_expire");
        if (answer[SAE_ANSWER_NONE_DUE])
            return;
        if (answer[SAE_ANSWER_COUNT] > 0)
            tell(printer, "hears nothing from %c and sends again", name_of(answer + SAE_ANSWER_ADDRESS));
        serve(printer, answer, token);
    }
}

static void forget(struct printer *printer, const uint8_t *address)
{
    uint8_t answer[SAE_ANSWER_LEN];
    done(sae_kill(printer->table, printer->table_len, address, answer), "sae_kill");
    tell(printer, "forgets %c: its record is freed, and %c is told nothing", name_of(address), name_of(address));
    show(printer);
}

/* The update at noon: the table is moved to the other form, into the buffer in which it does not lie, and used on there. Runs, links and
 * deadlines go along. The source holds commits: it is erased. */
static void move(struct printer *printer)
{
    unsigned to = form_of(printer) == SAE_NARROW ? SAE_WIDE : SAE_NARROW;
    uint8_t *source = printer->table, *target = printer->buffers[source == printer->buffers[0]];
    size_t target_len = SAE_TABLE_LEN(to, get16(source + SAE_HEADER_SLOTS));
    if (to == SAE_WIDE)
        done(sae_widen(source, printer->table_len, target, target_len), "sae_widen");
    else
        done(sae_narrow(source, printer->table_len, target, target_len), "sae_narrow");
    printer->table = target;
    printer->table_len = target_len;
    memset(source, 0, sizeof printer->buffers[0]);
    tell(printer, "moves its table to records of %u octets: still %s", to, standing(printer, printers[0].address));
    show(printer);
}

/* The play. */

static uint32_t sooner(uint32_t time, uint32_t other)
{
    return time < other ? time : other;
}

/* How long nothing happens: until a frame arrives, a deadline falls, or a time that the play has set. */
static uint32_t rest(uint32_t second)
{
    const uint32_t set[] = {second, BACK_MS, NOON_MS, KILL_MS};
    uint32_t wait = LAST_MS;
    for (size_t at = 0; at < sizeof set / sizeof set[0]; at++)
        if (set[at] > now)
            wait = sooner(wait, set[at] - now);
    for (size_t at = 0; at < IN_FLIGHT; at++)
        if (air[at].in_flight)
            wait = sooner(wait, air[at].arrives - now);
    for (size_t who = 0; who < 2; who++) {
        uint32_t milliseconds = SAE_NO_DEADLINE;
        done(sae_next_deadline(printers[who].table, printers[who].table_len, reading(&printers[who]), &milliseconds),
             "sae_next_deadline");
        wait = sooner(wait, milliseconds);
    }
    return wait;
}

/* Whether there is nothing left to wait for: no frame in the air, no run. */
static int quiet(void)
{
    for (size_t at = 0; at < IN_FLIGHT; at++)
        if (air[at].in_flight)
            return 0;
    return get16(printers[0].table + SAE_HEADER_OPEN) == 0 && get16(printers[1].table + SAE_HEADER_OPEN) == 0;
}

/* The frames that arrive now, then the deadlines that are due. */
static void happen(void)
{
    for (size_t at = 0; at < IN_FLIGHT; at++)
        if (air[at].in_flight && air[at].arrives <= now) {
            struct frame frame = air[at];
            air[at].in_flight = 0;
            receive(frame.to, &frame);
        }
    for (size_t who = 0; who < 2; who++)
        expire(&printers[who]);
}

/* The outcome, in words, and the exit status. Both tables are of the form SAE_WIDE by now. Two finished links without marks that differ
 * must not be. */
static int judge(void)
{
    const uint8_t *a = record_of(&printers[0], printers[1].address), *b = record_of(&printers[1], printers[0].address);
    int linked_a = a != NULL && a[SAE_RECORD_LINK(SAE_WIDE)], linked_b = b != NULL && b[SAE_RECORD_LINK(SAE_WIDE)];
    if (!linked_a || !linked_b) {
        printf("No: A holds %s, B holds %s.\n", linked_a ? "a link" : "none", linked_b ? "a link" : "none");
        return 1;
    }
    int same = memcmp(a + SAE_RECORD_LINK_GROUP(SAE_WIDE), b + SAE_RECORD_LINK_GROUP(SAE_WIDE), 2) == 0 &&
               memcmp(a + SAE_RECORD_LINK_OWN(SAE_WIDE), b + SAE_RECORD_LINK_PEER(SAE_WIDE), SAE_COMMIT_LEN(SAE_WIDE)) == 0 &&
               memcmp(a + SAE_RECORD_LINK_PEER(SAE_WIDE), b + SAE_RECORD_LINK_OWN(SAE_WIDE), SAE_COMMIT_LEN(SAE_WIDE)) == 0;
    int clear = !a[SAE_RECORD_SUPERSEDED(SAE_WIDE)] && !b[SAE_RECORD_SUPERSEDED(SAE_WIDE)];
    if (same)
        printf("Yes: both hold the same pair, group %u%s.\n", get16(a + SAE_RECORD_LINK_GROUP(SAE_WIDE)),
               clear ? "" : ", one of them marked");
    else
        printf("No: their pairs differ, %s.\n", clear ? "and neither is marked: this must not be" : "and the older one is marked");
    return same ? 0 : clear ? 3 : 1;
}

static uint32_t argument(const char *word, uint32_t most)
{
    char *end;
    unsigned long value = strtoul(word, &end, 10);
    if (*word == 0 || *end != 0 || value > most) {
        fprintf(stderr, "usage: two_printers [SEED [LOSS]], LOSS from 0 to 100\n");
        exit(2);
    }
    return (uint32_t)value;
}

int main(int count, char **words)
{
    uint32_t chosen = count > 1 ? argument(words[1], UINT32_MAX) : 1;
    if (count > 2)
        loss = argument(words[2], 100);
    if (count > 3)
        argument("", 0);
    seed = mix(chosen, 0x5b0) | 1;
    for (size_t who = 0; who < 2; who++)
        initialize(&printers[who]);
    printf("Two printers play with seed %" PRIu32 "; %" PRIu32 " of 100 frames are lost.\n", chosen, loss);
    uint32_t second = below(2) ? 1 + below(60) : 0; /* B starts too, unless it has heard from A */
    initiate(&printers[0], switched_off);
    initiate(&printers[0], printers[1].address);
    do {
        now += rest(second);
        if (now == second && record_of(&printers[1], printers[0].address) == NULL)
            initiate(&printers[1], printers[0].address);
        if (now == BACK_MS || now == NOON_MS)
            move(&printers[1]);
        if (now == KILL_MS)
            forget(&printers[0], switched_off);
        happen();
    } while (now < LAST_MS && (now < KILL_MS || !quiet()));
    return judge();
}
