/* A stand-in for the proved library, for a first link in seconds: c/build --unproved. It reads profile, callers, ring, classes
   and events of a configuration, answers as idsm_c.h says, and sends each report as a message. It has no filter but the
   modes, no limit, no internal event and no event memory. A class has any number of context data buffers, so a context is
   missing only if no class is large enough. A report that finds another call at work with its manager, and this
   one does not end soon, is lost. Units and seals are those of docs/FORMATS.md. It does not judge a configuration, and nothing
   of it is proved. It calls nothing of a C library, so c/bare runs over it too. */
#include "inner.h"

enum { MOST_EVENTS = 256, MOST_CLASSES = 4, MOST_RING = 1024, MOST_CONTEXT = 1024, MOST_LINE = 72 + 2 * MOST_CONTEXT };

struct event {
    uint32_t id;
    uint32_t sensor;
    uint32_t version;
    uint8_t mode;
    uint8_t is_internal;
};

struct config {
    uint32_t form, profile, instance, callers, ring, state;
    uint32_t events, classes;
    struct event event[MOST_EVENTS];
    uint32_t size[MOST_CLASSES];
};

/* A report that waits for a turn, or a change of a mode, or of the state: that is of no event. */
struct entry {
    uint64_t stamp, call, claim;
    uint16_t event, count, bytes;
    uint8_t caller, has_stamp, is_mode, mode, class_index, is_missing;
    uint8_t context[MOST_CONTEXT];
};

struct unit {
    struct config config;
    uint32_t lock, parts, waiting, lost_events, lost_contexts;
    uint64_t claims[MOST_CLASSES];
    idsm_status status;
    char *lines; /* of the last turn, where a journal is asked for */
    size_t length;
    struct entry entry[];
};

struct part {
    struct unit *unit;
    uint64_t calls;
    uint8_t number, turns;
};

static struct part *part_of(const idsm_word *word)
{
    return (struct part *)word->at;
}

/* What a linker names if this library is linked where the proved one is wanted, or the other way round. */
extern const char idsm_is_a_stand_in;
const char idsm_is_a_stand_in = 1;

const char *idsm_build(void)
{
    return "stand-in: nothing of it is proved";
}

/* The text of a configuration. */

struct reader {
    const uint8_t *at, *end;
    int fails;
};

static uint8_t next(struct reader *in)
{
    while (in->at < in->end && (*in->at == ' ' || *in->at == '\n' || *in->at == '\t' || *in->at == '\r'))
        in->at++;
    return in->at < in->end ? *in->at : 0;
}

static int eats(struct reader *in, uint8_t byte)
{
    if (next(in) != byte)
        return 0;
    in->at++;
    return 1;
}

static void wants(struct reader *in, uint8_t byte)
{
    if (!eats(in, byte)) {
        in->fails = 1;
        in->at = in->end;
    }
}

/* A text without escapes, cut to the room. */
static void read_text(struct reader *in, char *text, size_t room)
{
    size_t length = 0;
    wants(in, '"');
    while (in->at < in->end && *in->at != '"') {
        if (length + 1 < room)
            text[length++] = (char)*in->at;
        in->at++;
    }
    text[length] = 0;
    wants(in, '"');
}

static uint32_t read_number(struct reader *in, uint32_t most)
{
    uint64_t number = 0;
    if (next(in) < '0' || *in->at > '9')
        in->fails = 1;
    for (; in->at < in->end && *in->at >= '0' && *in->at <= '9'; in->at++)
        if (number <= UINT32_MAX)
            number = number * 10 + (uint64_t)(*in->at - '0');
    in->fails |= number > most;
    return (uint32_t)number;
}

/* Passes over a value. */
static void skip(struct reader *in)
{
    uint32_t depth = 0;
    do {
        uint8_t byte = next(in);
        char text[2];
        if (byte == '"')
            read_text(in, text, sizeof text);
        else if (byte == 0)
            in->fails = 1;
        else
            in->at++;
        depth += byte == '{' || byte == '[';
        depth -= depth > 0 && (byte == '}' || byte == ']');
    } while (!in->fails && (depth > 0 || (next(in) != ',' && next(in) != '}' && next(in) != ']')));
}

/* The name of an object's next member, or none. */
static int next_member(struct reader *in, int first, char *name, size_t room)
{
    if (in->fails || eats(in, '}'))
        return 0;
    if (!first)
        wants(in, ',');
    read_text(in, name, room);
    wants(in, ':');
    return !in->fails;
}

static int next_element(struct reader *in, int first)
{
    if (in->fails || eats(in, ']'))
        return 0;
    if (!first)
        wants(in, ',');
    return !in->fails;
}

static const char *const mode_names[] = {"OFF", "BRIEF", "DETAILED", "BRIEF_BYPASSING_FILTERS",
                                         "DETAILED_BYPASSING_FILTERS"};

static int is_same(const char *one, const char *other)
{
    while (*one != 0 && *one == *other)
        one++, other++;
    return *one == *other;
}

static uint8_t mode_of(const char *text)
{
    for (uint8_t i = 0; i < 5; i++)
        if (is_same(text, mode_names[i]))
            return i;
    return IDSM_MODE_DETAILED;
}

static void read_event(struct reader *in, struct event *event)
{
    char name[32], text[32];
    event->mode = IDSM_MODE_DETAILED;
    wants(in, '{');
    for (int first = 1; next_member(in, first, name, sizeof name); first = 0) {
        if (is_same(name, "id"))
            event->id = read_number(in, 65535);
        else if (is_same(name, "sensor"))
            event->sensor = read_number(in, 63);
        else if (is_same(name, "version"))
            event->version = read_number(in, 255);
        else if (is_same(name, "mode")) {
            read_text(in, text, sizeof text);
            event->mode = mode_of(text);
        } else
            skip(in);
    }
}

static void read_class(struct reader *in, uint32_t *size)
{
    char name[32];
    wants(in, '{');
    for (int first = 1; next_member(in, first, name, sizeof name); first = 0) {
        if (is_same(name, "size"))
            *size = read_number(in, MOST_CONTEXT);
        else
            skip(in);
    }
}

static void read_internal(struct reader *in, struct config *config)
{
    char name[32];
    wants(in, '{');
    for (int first = 1; next_member(in, first, name, sizeof name); first = 0) {
        if (next(in) >= '0' && *in->at <= '9')
            config->event[read_number(in, MOST_EVENTS - 1) % MOST_EVENTS].is_internal = 1;
        else
            skip(in);
    }
}

/* Whether a list of at most so many has room for one more, whose place this is. */
static int has_room(struct reader *in, uint32_t count, uint32_t most)
{
    in->fails |= count >= most;
    return !in->fails;
}

static int read_config(const uint8_t *bytes, size_t count, struct config *config)
{
    struct reader in = {bytes, bytes + count, 0};
    char name[32];
    config->callers = 1;
    config->ring = 64;
    wants(&in, '{');
    for (int first = 1; next_member(&in, first, name, sizeof name); first = 0) {
        if (is_same(name, "form"))
            config->form = read_number(&in, 2);
        else if (is_same(name, "profile"))
            config->profile = read_number(&in, 2);
        else if (is_same(name, "instance"))
            config->instance = read_number(&in, 1023);
        else if (is_same(name, "callers"))
            config->callers = read_number(&in, IDSM_MOST_CALLERS);
        else if (is_same(name, "ring"))
            config->ring = read_number(&in, MOST_RING);
        else if (is_same(name, "state"))
            config->state = read_number(&in, 255);
        else if (is_same(name, "internal") && next(&in) == '{')
            read_internal(&in, config);
        else if (is_same(name, "events")) {
            wants(&in, '[');
            for (int one = 1; next_element(&in, one) && has_room(&in, config->events, MOST_EVENTS); one = 0)
                read_event(&in, &config->event[config->events++]);
        } else if (is_same(name, "classes")) {
            wants(&in, '[');
            for (int one = 1; next_element(&in, one) && has_room(&in, config->classes, MOST_CLASSES); one = 0)
                read_class(&in, &config->size[config->classes++]);
        } else
            skip(&in);
    }
    if (config->profile == 0)
        config->profile = config->form == 2 ? 2 : 1;
    return !in.fails && config->events > 0 && config->callers > 0 && config->ring > 0;
}

/* The tables of a configuration. */

static void take_event(const idsm_event *from, struct event *event)
{
    event->id = from->id;
    event->sensor = from->sensor;
    event->version = from->version;
    event->mode = from->mode;
}

/* Marks the event that tells of something, if there is one. */
static void take_internal(uint32_t place, struct config *config)
{
    if (place < config->events)
        config->event[place].is_internal = 1;
}

static int take_config(const idsm_top *top, const idsm_class *classes, size_t class_count, const idsm_event *events,
                       size_t event_count, struct config *config)
{
    if (class_count > MOST_CLASSES || event_count == 0 || event_count > MOST_EVENTS)
        return 0;
    config->profile = top->profile;
    config->instance = top->instance;
    config->callers = top->callers;
    config->ring = top->ring;
    config->state = top->state;
    config->classes = (uint32_t)class_count;
    config->events = (uint32_t)event_count;
    for (size_t i = 0; i < class_count; i++)
        config->size[i] = classes[i].size > MOST_CONTEXT ? MOST_CONTEXT : classes[i].size;
    for (size_t i = 0; i < event_count; i++)
        take_event(&events[i], &config->event[i]);
    take_internal(top->lost_events, config);
    take_internal(top->lost_contexts, config);
    take_internal(top->limited, config);
    return config->callers - 1 < IDSM_MOST_CALLERS && config->ring - 1 < MOST_RING;
}

/* Calls. */

/* Takes the lock, if whoever has it gives it back soon. It may be what an interrupt interrupted, so nobody waits longer. */
static int locks(struct unit *unit)
{
    for (int tries = 0; tries < 1000; tries++) {
        uint32_t is_locked = 0;
        if (IDSM_SWAP(&unit->lock, &is_locked, (uint32_t)1))
            return 1;
    }
    return 0;
}

static void unlock(struct unit *unit)
{
    IDSM_STORE(&unit->lock, (uint32_t)0);
}

/* Counts a loss without the lock. */
static uint8_t lose_event(struct unit *unit)
{
    uint32_t lost = IDSM_LOAD(&unit->lost_events);
    while (!IDSM_SWAP(&unit->lost_events, &lost, lost + 1)) {
    }
    return IDSM_LOST;
}

/* The losses that were counted since the turn before. */
static uint32_t take_losses(struct unit *unit)
{
    uint32_t lost = IDSM_LOAD(&unit->lost_events);
    while (!IDSM_SWAP(&unit->lost_events, &lost, (uint32_t)0)) {
    }
    return lost;
}

/* Zeros, by the calls of memory that the proved library makes. */
static void *zeros(size_t size)
{
    idsm_block block = rattle_alloc(size, sizeof(uint64_t));
    for (size_t i = 0; block.ok && i < size; i++)
        ((uint8_t *)block.at)[i] = 0;
    return block.ok ? block.at : NULL;
}

static struct part *new_part(struct unit *unit, uint8_t turns, uint32_t number)
{
    struct part *part = zeros(sizeof *part);
    if (part != NULL) {
        part->unit = unit;
        part->turns = turns;
        part->number = (uint8_t)number;
        unit->parts++;
    }
    return part;
}

static uint8_t fill(struct unit *unit, idsm_word *callers, idsm_word *manager)
{
    manager->at = new_part(unit, 1, 0);
    for (uint32_t i = 0; i < unit->config.callers && manager->at != NULL; i++) {
        callers[i].at = new_part(unit, 0, i);
        if (callers[i].at == NULL) {
            while (i-- > 0) {
                rattle_dealloc(callers[i].at);
                callers[i].at = NULL;
            }
            rattle_dealloc(manager->at);
            manager->at = NULL;
        }
    }
    return manager->at != NULL ? IDSM_DONE : IDSM_NO_MEMORY;
}

uint32_t idsm_raw_abi(void)
{
    return IDSM_ABI;
}

/* A configuration that is still to be read. */
static struct config *new_config(void)
{
    return zeros(sizeof(struct config));
}

/* Makes a unit of a configuration that was read, if it is one, and frees that. */
static uint8_t make(struct config *config, int is_one, uint8_t journal, idsm_word *callers, size_t count,
                    idsm_word *manager)
{
    uint8_t answer = is_one ? IDSM_DONE : IDSM_CONFIGURATION;
    if (is_one && config->callers != count)
        answer = IDSM_OUT_OF_RANGE;
    size_t entries = config->ring * sizeof(struct entry), lines = journal ? (config->ring + 1) * MOST_LINE : 0;
    struct unit *unit = answer != IDSM_DONE ? NULL : zeros(sizeof *unit + entries + lines);
    if (unit != NULL) {
        unit->config = *config;
        unit->status.state = (uint8_t)config->state;
        unit->lines = journal ? (char *)&unit->entry[config->ring] : NULL;
        answer = fill(unit, callers, manager);
        if (answer != IDSM_DONE)
            rattle_dealloc(unit);
    } else if (answer == IDSM_DONE)
        answer = IDSM_NO_MEMORY;
    rattle_dealloc(config);
    return answer;
}

uint8_t idsm_raw_init(const uint8_t *text, size_t bytes, uint8_t journal, idsm_word *callers, size_t count,
                      idsm_word *manager, idsm_fault *fault)
{
    struct config *config = new_config();
    (void)fault;
    return config == NULL ? IDSM_NO_MEMORY
                          : make(config, read_config(text, bytes, config), journal, callers, count, manager);
}

uint8_t idsm_raw_init_tables(const idsm_top *top, const idsm_class *classes, size_t class_count,
                             const idsm_event *events, size_t event_count, uint8_t journal, idsm_word *callers,
                             size_t count, idsm_word *manager, idsm_fault *fault)
{
    struct config *config = new_config();
    (void)fault;
    return config == NULL ? IDSM_NO_MEMORY
                          : make(config, take_config(top, classes, class_count, events, event_count, config), journal,
                                 callers, count, manager);
}

/* A free entry, under the lock; none where all wait. */
static struct entry *new_entry(struct unit *unit)
{
    return unit->waiting < unit->config.ring ? &unit->entry[unit->waiting++] : NULL;
}

/* Whether a caller may not make a call; else it has made one more. */
static int is_spent(struct part *caller)
{
    return caller->calls >= (uint64_t)1 << 40 || ++caller->calls == 0;
}

static void copy(uint8_t *to, const uint8_t *from, size_t bytes)
{
    for (size_t i = 0; i < bytes; i++)
        to[i] = from[i];
}

/* What a report is about, and when. */
struct told {
    uint64_t stamp;
    uint16_t event, count;
    uint8_t has_stamp;
};

/* Puts the smallest class that fits and the context into an entry, or notes that there is none. */
static void put_context(struct unit *unit, struct entry *entry, const uint8_t *context, size_t bytes)
{
    while (entry->class_index < unit->config.classes && bytes > unit->config.size[entry->class_index])
        entry->class_index++;
    entry->is_missing = bytes > 0 && entry->class_index == unit->config.classes;
    if (bytes > 0 && !entry->is_missing) {
        entry->bytes = (uint16_t)bytes;
        entry->claim = unit->claims[entry->class_index]++;
        copy(entry->context, context, bytes);
    }
}

/* Makes an entry of a report, under the lock. */
static uint8_t enter(struct part *caller, const struct told *told, const uint8_t *context, size_t bytes)
{
    struct unit *unit = caller->unit;
    struct entry *entry = new_entry(unit);
    if (entry == NULL)
        return lose_event(unit);
    struct entry made = {told->stamp, caller->calls - 1, 0, told->event, told->count, 0, caller->number,
                         told->has_stamp, 0, 0, 0, 0, {0}};
    put_context(unit, &made, context, bytes);
    *entry = made;
    unit->lost_contexts += made.is_missing;
    return made.is_missing ? IDSM_WITHOUT_CONTEXT : IDSM_DONE;
}

static uint8_t report(idsm_word *word, const struct told *told, const uint8_t *context, size_t bytes)
{
    struct part *caller = part_of(word);
    struct unit *unit = caller->unit;
    if (caller->turns)
        return IDSM_OTHER_ROLE;
    if (told->event >= unit->config.events || unit->config.event[told->event].is_internal)
        return IDSM_UNKNOWN_EVENT;
    if (told->count == 0)
        return IDSM_ZERO_COUNT;
    if (is_spent(caller))
        return IDSM_SPENT;
    if (!locks(unit))
        return lose_event(unit);
    uint8_t answer = enter(caller, told, context, bytes);
    unlock(unit);
    return answer;
}

uint8_t idsm_raw_set_event(idsm_word *caller, uint16_t event)
{
    const struct told told = {0, event, 1, 0};
    return report(caller, &told, NULL, 0);
}

uint8_t idsm_raw_set_event_count(idsm_word *caller, uint16_t event, uint16_t count)
{
    const struct told told = {0, event, count, 0};
    return report(caller, &told, NULL, 0);
}

uint8_t idsm_raw_set_event_context(idsm_word *caller, uint16_t event, const uint8_t *context, size_t bytes)
{
    const struct told told = {0, event, 1, 0};
    return report(caller, &told, context, bytes);
}

uint8_t idsm_raw_set_event_count_context(idsm_word *caller, uint16_t event, uint16_t count, const uint8_t *context,
                                         size_t bytes)
{
    const struct told told = {0, event, count, 0};
    return report(caller, &told, context, bytes);
}

uint8_t idsm_raw_set_event_at(idsm_word *caller, uint16_t event, uint16_t count, uint64_t stamp,
                              const uint8_t *context, size_t bytes)
{
    const struct told told = {stamp, event, count, 1};
    return report(caller, &told, context, bytes);
}

static uint8_t control(struct part *caller, uint16_t event, uint8_t mode)
{
    struct unit *unit = caller->unit;
    if (is_spent(caller))
        return IDSM_SPENT;
    struct entry made = {0, caller->calls - 1, 0, event, 0, 0, caller->number, 0, 1, mode, 0, 0, {0}};
    if (!locks(unit))
        return IDSM_LOST;
    struct entry *entry = new_entry(unit);
    if (entry != NULL)
        *entry = made;
    unlock(unit);
    return entry != NULL ? IDSM_DONE : IDSM_LOST;
}

uint8_t idsm_raw_set_state(idsm_word *caller, uint8_t state)
{
    return part_of(caller)->turns ? IDSM_OTHER_ROLE : control(part_of(caller), MOST_EVENTS, state);
}

uint8_t idsm_raw_set_mode(idsm_word *caller, uint16_t event, uint8_t mode)
{
    if (mode > IDSM_MODE_DETAILED_BYPASSING)
        return IDSM_OUT_OF_RANGE;
    if (part_of(caller)->turns)
        return IDSM_OTHER_ROLE;
    return event < part_of(caller)->unit->config.events ? control(part_of(caller), event, mode) : IDSM_UNKNOWN_EVENT;
}

static uint64_t most_bytes(const struct config *config)
{
    uint64_t reports = (uint64_t)config->ring + config->events, largest = 0;
    for (uint32_t i = 0; i < config->classes; i++)
        largest = config->size[i] > largest ? config->size[i] : largest;
    return 16 * (reports + 3) + (largest > 0 ? 4 + largest : 0) * reports;
}

uint8_t idsm_raw_buffer_size(idsm_word *manager, uint64_t *bytes)
{
    *bytes = part_of(manager)->turns ? most_bytes(&part_of(manager)->unit->config) : 0;
    return part_of(manager)->turns ? IDSM_DONE : IDSM_OTHER_ROLE;
}

static uint8_t *write_number(uint8_t *at, uint64_t number, int bytes)
{
    for (int i = bytes - 1; i >= 0; i--)
        *at++ = (uint8_t)(number >> (8 * i));
    return at;
}

static uint8_t *write_message(uint8_t *at, const struct config *config, const struct entry *entry)
{
    const struct event *event = &config->event[entry->event];
    uint16_t bytes = event->mode == IDSM_MODE_BRIEF || event->mode == IDSM_MODE_BRIEF_BYPASSING ? 0 : entry->bytes;
    at = write_number(at, config->profile << 4 | (bytes > 0 ? 1u : 0u) | (entry->has_stamp ? 2u : 0u), 1);
    at = write_number(at, config->instance * 64 + event->sensor, 2);
    at = write_number(at, event->id, 2);
    at = write_number(at, entry->count, 2);
    at = write_number(at, bytes > 0 && config->profile == 2 ? event->version : 0, 1);
    if (entry->has_stamp)
        at = write_number(at, entry->stamp, 8);
    if (bytes > 127)
        at = write_number(at, 0x80000000u + bytes, 4);
    else if (bytes > 0)
        at = write_number(at, bytes, 1);
    copy(at, entry->context, bytes);
    return at + bytes;
}

/* The lines of a journal (docs/FORMATS.md). Each function returns where its text ends. */

static char *put(char *at, const char *text)
{
    while (*text != 0)
        *at++ = *text++;
    return at;
}

static char *put_decimal(char *at, const char *before, uint64_t number)
{
    at = number > 9 ? put_decimal(at, before, number / 10) : put(at, before);
    *at++ = (char)('0' + number % 10);
    return at;
}

static char *put_hex(char *at, uint64_t number, int digits)
{
    for (int i = digits - 1; i >= 0; i--)
        *at++ = "0123456789abcdef"[number >> (4 * i) & 15];
    return at;
}

static char *put_context_data(char *at, const struct entry *entry)
{
    if (entry->bytes == 0)
        return put(at, entry->is_missing ? " !" : " -");
    at = put_decimal(at, " ", entry->class_index);
    at = put(put_decimal(at, ":", entry->claim), ":");
    for (uint16_t i = 0; i < entry->bytes; i++)
        at = put_hex(at, entry->context[i], 2);
    return at;
}

/* The line of an entry. */
static char *write_line(char *at, const struct entry *entry)
{
    at = put_decimal(at, entry->is_mode ? "C " : "R ", entry->caller);
    at = put_decimal(at, " ", entry->call);
    if (entry->event == MOST_EVENTS)
        at = put_decimal(at, " S ", entry->mode);
    else if (entry->is_mode)
        at = put(put(put_decimal(at, " M ", entry->event), " "), mode_names[entry->mode]);
    else {
        at = put_decimal(put_decimal(at, " ", entry->event), " ", entry->count);
        at = entry->has_stamp ? put_hex(put(at, " "), entry->stamp, 16) : put(at, " -");
        at = put_context_data(at, entry);
    }
    return put(at, "\n");
}

/* The line of a turn. */
static char *write_turn(char *at, uint64_t tick, const idsm_sent *sent)
{
    at = put_decimal(put_decimal(at, "T ", tick), " ", sent->lost_events);
    return put(put_decimal(at, " ", sent->lost_contexts), " 0\n");
}

/* The lines of a turn that takes so many entries, if a journal is asked for. */
static void write_lines(struct unit *unit, uint32_t entries, const idsm_sent *sent)
{
    if (unit->lines == NULL)
        return;
    char *at = write_turn(unit->lines, unit->status.tick, sent);
    for (uint32_t i = 0; i < entries; i++)
        at = write_line(at, &unit->entry[i]);
    unit->length = (size_t)(at - unit->lines);
}

static void take_entries(struct unit *unit, uint8_t *buffer, idsm_sent *sent)
{
    uint8_t *at = buffer;
    for (uint32_t i = 0; i < unit->waiting; i++) {
        const struct entry *entry = &unit->entry[i];
        if (entry->is_mode && entry->event < MOST_EVENTS)
            unit->config.event[entry->event].mode = entry->mode;
        else if (entry->is_mode)
            unit->status.state = entry->mode;
        else if (unit->config.event[entry->event].mode != IDSM_MODE_OFF) {
            at = write_message(at, &unit->config, entry);
            sent->messages++;
        }
    }
    sent->bytes = (uint64_t)(at - buffer);
    sent->entries = unit->waiting;
    sent->lost_events = take_losses(unit);
    sent->lost_contexts = unit->lost_contexts;
    write_lines(unit, unit->waiting, sent);
    unit->waiting = unit->lost_contexts = 0;
}

/* A turn that finds another call at work takes nothing but the losses. */
static void take_nothing(struct unit *unit, idsm_sent *sent)
{
    sent->lost_events = take_losses(unit);
    write_lines(unit, 0, sent);
}

uint8_t idsm_raw_main(idsm_word *manager, uint64_t tick, uint8_t *buffer, size_t bytes, idsm_sent *sent)
{
    struct unit *unit = part_of(manager)->unit;
    if (!part_of(manager)->turns)
        return IDSM_OTHER_ROLE;
    if (bytes < most_bytes(&unit->config))
        return IDSM_SMALL_BUFFER;
    if (tick < unit->status.tick)
        return IDSM_TICK_BACK;
    if (tick > (uint64_t)1 << 62)
        return IDSM_TICK_TOO_LARGE;
    unit->status.tick = tick;
    if (locks(unit)) {
        take_entries(unit, buffer, sent);
        unlock(unit);
    } else
        take_nothing(unit, sent);
    sent->quiet = sent->entries + sent->lost_events + sent->lost_contexts == 0;
    sent->turn = unit->status.turns++;
    unit->status.entries += sent->entries;
    unit->status.lost_events += sent->lost_events;
    unit->status.lost_contexts += sent->lost_contexts;
    unit->status.messages += sent->messages;
    return IDSM_DONE;
}

uint8_t idsm_raw_rows(idsm_word *manager, uint64_t *rows)
{
    *rows = 0;
    return part_of(manager)->turns ? IDSM_DONE : IDSM_OTHER_ROLE;
}

uint8_t idsm_raw_row_at(idsm_word *manager, uint16_t i, uint8_t *context, size_t bytes, idsm_row *row)
{
    (void)i, (void)context, (void)bytes, (void)row;
    return part_of(manager)->turns ? IDSM_OUT_OF_RANGE : IDSM_OTHER_ROLE;
}

uint8_t idsm_raw_late(idsm_word *manager, uint8_t class_index, uint64_t *late)
{
    *late = 0;
    if (!part_of(manager)->turns)
        return IDSM_OTHER_ROLE;
    return class_index < part_of(manager)->unit->config.classes ? IDSM_DONE : IDSM_OUT_OF_RANGE;
}

uint8_t idsm_raw_status(idsm_word *manager, idsm_status *status)
{
    if (part_of(manager)->turns)
        *status = part_of(manager)->unit->status;
    return part_of(manager)->turns ? IDSM_DONE : IDSM_OTHER_ROLE;
}

uint8_t idsm_raw_totals(idsm_word *manager, idsm_totals *totals)
{
    const idsm_status *status = &part_of(manager)->unit->status;
    if (!part_of(manager)->turns)
        return IDSM_OTHER_ROLE;
    totals->entries = status->entries;
    totals->lost_events = status->lost_events;
    totals->lost_contexts = status->lost_contexts;
    totals->messages = status->messages;
    return IDSM_DONE;
}

uint8_t idsm_raw_mode(idsm_word *manager, uint16_t event, uint8_t *mode)
{
    const struct config *config = &part_of(manager)->unit->config;
    if (!part_of(manager)->turns)
        return IDSM_OTHER_ROLE;
    *mode = event < config->events ? config->event[event].mode : 0;
    return event < config->events ? IDSM_DONE : IDSM_OUT_OF_RANGE;
}

uint8_t idsm_raw_calls(idsm_word *caller, uint64_t *calls)
{
    *calls = part_of(caller)->turns ? 0 : part_of(caller)->calls;
    return part_of(caller)->turns ? IDSM_OTHER_ROLE : IDSM_DONE;
}

uint8_t idsm_raw_journal(idsm_word *manager, uint64_t at, uint8_t *buffer, size_t size, uint64_t *bytes)
{
    const struct unit *unit = part_of(manager)->unit;
    *bytes = 0;
    if (!part_of(manager)->turns || unit->lines == NULL)
        return part_of(manager)->turns ? IDSM_OUT_OF_RANGE : IDSM_OTHER_ROLE;
    for (; *bytes < size && at < unit->length; at++)
        buffer[(*bytes)++] = (uint8_t)unit->lines[at];
    return IDSM_DONE;
}

uint8_t idsm_raw_close(idsm_word *handle)
{
    struct unit *unit = part_of(handle)->unit;
    rattle_dealloc(handle->at);
    handle->at = NULL;
    if (--unit->parts == 0)
        rattle_dealloc(unit);
    return IDSM_DONE;
}

uint8_t idsm_raw_unit(uint16_t size, const uint8_t *messages, size_t bytes, uint8_t *buffer, size_t room,
                      uint64_t *unit_bytes, uint64_t *taken)
{
    size_t length, count = 0, load = 0;
    if (size < 64 || bytes == 0)
        return IDSM_OUT_OF_RANGE;
    for (; idsm_message(messages, bytes, load, &length) == IDSM_DONE && length <= size - load; count++)
        load += length;
    if (count == 0)
        return IDSM_BAD_MESSAGE;
    *unit_bytes = load + 4;
    if (room < load + 4)
        return IDSM_SMALL_BUFFER;
    *taken = load;
    copy(write_number(write_number(buffer, count, 2), load, 2), messages, load);
    return IDSM_DONE;
}

/* SHA-256 of bytes that come in pieces. */
struct digest {
    uint32_t state[8];
    uint8_t block[64];
    uint64_t bytes;
};

static uint32_t turned(uint32_t word, int bits)
{
    return word >> bits | word << (32 - bits);
}

/* What a block adds to each of 64 rounds. */
static void spread(const uint8_t *block, uint32_t *word)
{
    for (int i = 0; i < 64; i++)
        if (i < 16)
            word[i] = (uint32_t)block[4 * i] << 24 | (uint32_t)block[4 * i + 1] << 16 | (uint32_t)block[4 * i + 2] << 8 |
                      block[4 * i + 3];
        else
            word[i] = word[i - 16] + (turned(word[i - 15], 7) ^ turned(word[i - 15], 18) ^ word[i - 15] >> 3) +
                      word[i - 7] + (turned(word[i - 2], 17) ^ turned(word[i - 2], 19) ^ word[i - 2] >> 10);
}

static void take_block(struct digest *digest)
{
    static const uint32_t added[64] = {
        0x428a2f98, 0x71374491, 0xb5c0fbcf, 0xe9b5dba5, 0x3956c25b, 0x59f111f1, 0x923f82a4, 0xab1c5ed5, 0xd807aa98,
        0x12835b01, 0x243185be, 0x550c7dc3, 0x72be5d74, 0x80deb1fe, 0x9bdc06a7, 0xc19bf174, 0xe49b69c1, 0xefbe4786,
        0x0fc19dc6, 0x240ca1cc, 0x2de92c6f, 0x4a7484aa, 0x5cb0a9dc, 0x76f988da, 0x983e5152, 0xa831c66d, 0xb00327c8,
        0xbf597fc7, 0xc6e00bf3, 0xd5a79147, 0x06ca6351, 0x14292967, 0x27b70a85, 0x2e1b2138, 0x4d2c6dfc, 0x53380d13,
        0x650a7354, 0x766a0abb, 0x81c2c92e, 0x92722c85, 0xa2bfe8a1, 0xa81a664b, 0xc24b8b70, 0xc76c51a3, 0xd192e819,
        0xd6990624, 0xf40e3585, 0x106aa070, 0x19a4c116, 0x1e376c08, 0x2748774c, 0x34b0bcb5, 0x391c0cb3, 0x4ed8aa4a,
        0x5b9cca4f, 0x682e6ff3, 0x748f82ee, 0x78a5636f, 0x84c87814, 0x8cc70208, 0x90befffa, 0xa4506ceb, 0xbef9a3f7,
        0xc67178f2
    };
    uint32_t word[64], s[8];
    spread(digest->block, word);
    for (int i = 0; i < 8; i++)
        s[i] = digest->state[i];
    for (int i = 0; i < 64; i++) {
        uint32_t one = s[7] + (turned(s[4], 6) ^ turned(s[4], 11) ^ turned(s[4], 25)) +
                       ((s[4] & s[5]) ^ (~s[4] & s[6])) + added[i] + word[i];
        uint32_t other = (turned(s[0], 2) ^ turned(s[0], 13) ^ turned(s[0], 22)) +
                         ((s[0] & s[1]) ^ (s[0] & s[2]) ^ (s[1] & s[2]));
        for (int k = 7; k > 0; k--)
            s[k] = s[k - 1];
        s[4] += one;
        s[0] = one + other;
    }
    for (int i = 0; i < 8; i++)
        digest->state[i] += s[i];
}

static void take_bytes(struct digest *digest, const uint8_t *bytes, size_t count)
{
    for (size_t i = 0; i < count; i++) {
        digest->block[digest->bytes++ % 64] = bytes[i];
        if (digest->bytes % 64 == 0)
            take_block(digest);
    }
}

/* Begins the digest of a key, each byte combined with a mask, and of what follows. */
static struct digest masked(const uint8_t *key, uint8_t mask)
{
    struct digest digest = {{0x6a09e667, 0xbb67ae85, 0x3c6ef372, 0xa54ff53a, 0x510e527f, 0x9b05688c, 0x1f83d9ab, 0x5be0cd19},
                            {0},
                            0};
    for (int i = 0; i < 64; i++) {
        uint8_t byte = key[i] ^ mask;
        take_bytes(&digest, &byte, 1);
    }
    return digest;
}

static void finish(struct digest *digest, uint8_t *to)
{
    static const uint8_t end[64] = {0x80};
    uint8_t bits[8];
    write_number(bits, digest->bytes * 8, 8);
    take_bytes(digest, end, 1 + (119 - digest->bytes % 64) % 64);
    take_bytes(digest, bits, 8);
    for (int i = 0; i < 8; i++)
        write_number(to + 4 * i, digest->state[i], 4);
}

/* Writes a message, sealed. */
static uint8_t *write_sealed(uint8_t *at, idsm_sealer *sealer, const uint8_t *message, size_t length)
{
    struct digest inner = masked(sealer->key, 0x36), outer = masked(sealer->key, 0x5c);
    uint8_t tag[32];
    copy(at, message, length);
    *at |= 4;
    at = write_number(write_number(at + length, 40, 2), sealer->next++, 8);
    take_bytes(&inner, message, length);
    take_bytes(&inner, at - 8, 8);
    finish(&inner, tag);
    take_bytes(&outer, tag, sizeof tag);
    finish(&outer, at);
    return at + sizeof tag;
}

uint8_t idsm_raw_sealer(const uint8_t *key, size_t bytes, uint64_t start, idsm_sealer *sealer)
{
    if (bytes == 0 || bytes > sizeof sealer->key || start > (uint64_t)1 << 62)
        return IDSM_OUT_OF_RANGE;
    for (size_t i = 0; i < sizeof sealer->key; i++)
        sealer->key[i] = i < bytes ? key[i] : 0;
    sealer->next = start;
    sealer->is_set = 1;
    return IDSM_DONE;
}

uint8_t idsm_raw_seal(idsm_sealer *sealer, const uint8_t *messages, size_t bytes, uint8_t *buffer, size_t room,
                      uint64_t *told)
{
    size_t at, length;
    uint64_t wanted = 0;
    if (sealer->is_set == 0 || sealer->next > (uint64_t)1 << 62)
        return sealer->is_set == 0 ? IDSM_UNSET : IDSM_OUT_OF_RANGE;
    for (at = 0; idsm_message(messages, bytes, at, &length) == IDSM_DONE && (messages[at] & 4) == 0; at += length)
        wanted += length + 42;
    *told = at < bytes ? at : wanted;
    if (at < bytes || room < wanted)
        return at < bytes ? IDSM_BAD_MESSAGE : IDSM_SMALL_BUFFER;
    for (at = 0; idsm_message(messages, bytes, at, &length) == IDSM_DONE; at += length)
        buffer = write_sealed(buffer, sealer, messages + at, length);
    return IDSM_DONE;
}
