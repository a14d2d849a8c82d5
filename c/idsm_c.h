/* The intrusion detection system manager for C and C++: see c/README.md.

   Every call answers one of the numbers below, as an idsm_answer, if nothing else is said. Any answer but IDSM_DONE and
   IDSM_WITHOUT_CONTEXT leaves the handles as they were, but that a lost report and a lost control are counted.

   Threads and interrupts. A call takes its handle by one atomic step, waits for nobody and takes no lock. Calls with
   different handles may run at the same time, in any tasks and interrupts. A second call on one handle meanwhile is
   answered IDSM_BUSY and does nothing. So a context that reports and may interrupt another one has a caller of its own. An
   init and what frees (idsm_last, idsm_free, idsm_close and those that send) are for tasks: they call the allocator if the
   manager is of the heap.

   Time. A report makes at most 4 atomic steps and 2 for each class that fits its context, and copies the context. A turn
   makes at most as many as there are event buffers and callers, and 4, beside the work on what it takes. Nothing else is
   measured. An init and a close take time with each event buffer, caller, context data buffer and record.

   Stack. Not measured on the target. A report and a reading need the least, a turn more, idsm_init and idsm_init_in more
   again, and idsm_init_text by far the most, some tens of kilobytes, because it reads JSON. */
#ifndef IDSM_C_H
#define IDSM_C_H

#include <stddef.h>
#include <stdint.h>

#ifdef __cplusplus
extern "C" {
#endif

/* The number of this interface. Structs and numbers never change under one number, and a new call is a new name. */
#define IDSM_ABI 4U

/* What a call answers: one of the numbers that follow. */
typedef uint8_t idsm_answer;

/* What each call answers. */
#define IDSM_DONE 0U
#define IDSM_UNSET 1U           /* the handle or the sealer has nothing: no init filled it */
#define IDSM_OTHER_ROLE 2U      /* a manager where a caller is wanted, or a caller where a manager is */
#define IDSM_LOST 3U            /* no event buffer was free */
#define IDSM_WITHOUT_CONTEXT 4U /* reported, without its context data: no buffer that fits was free */
#define IDSM_UNKNOWN_EVENT 5U   /* there is no such event, or it is internal and no caller reports it */
#define IDSM_ZERO_COUNT 6U      /* a report tells of at least one event */
#define IDSM_SPENT 7U           /* 2^40 calls of a caller, or 2^62 turns of a manager */
#define IDSM_TICK_BACK 8U       /* the tick is below that of the last turn */
#define IDSM_TICK_TOO_LARGE 9U  /* the tick is above 2^62 */
#define IDSM_OUT_OF_RANGE 10U   /* no such event, mode, record, class, message, size or key, or another number of callers */
#define IDSM_NO_MEMORY 11U      /* the heap had none, or the arena is too small */
#define IDSM_CONFIGURATION 12U  /* the configuration has a fault */
#define IDSM_SMALL_BUFFER 13U   /* the buffer is too small; nothing was done */
#define IDSM_OCCUPIED 14U       /* a handle has something already */
#define IDSM_NULL 15U           /* a pointer is NULL that may not be */
#define IDSM_BUSY 16U           /* another call works with the handle; nothing was done */
#define IDSM_CLOSED 17U         /* the callers were stopped, or the manager was closed; nothing was done */
#define IDSM_NOT_SENT 18U       /* messages of an earlier turn were not taken yet; no turn was made */
#define IDSM_OTHER_CONFIGURATION 19U /* of IdsM_Init: not the configuration that the program was compiled for */
#define IDSM_BAD_MESSAGE 20U    /* a message cannot be read, is longer than a unit may be, or is signed already */

/* Reporting modes. */
#define IDSM_MODE_OFF 0U
#define IDSM_MODE_BRIEF 1U
#define IDSM_MODE_DETAILED 2U
#define IDSM_MODE_BRIEF_BYPASSING 3U
#define IDSM_MODE_DETAILED_BYPASSING 4U

/* Which context an aggregated event keeps: of the first report that has one, or of the last. */
#define IDSM_FIRST 0U
#define IDSM_LAST 1U

/* At most so many callers has a configuration, and so many bytes a message. */
#define IDSM_MOST_CALLERS 32U
#define IDSM_MOST_MESSAGE 1044U

/* In the place of an event: there is none. */
#define IDSM_NONE 0xFFFFFFFFU

/* A configuration as tables. docs/CONFIGURATION.md says what each number does, and its range. tools/c_config makes the
   tables of a file, as IdsM_Config. An init checks all of it and refuses it with the numbers of that page. */

/* A window of ticks and how much passes in it, as a threshold, a rate or a traffic. */
typedef struct idsm_window {
    uint64_t interval; /* its length in ticks */
    uint32_t number;   /* threshold: the sum of counts from which on events pass; rate: messages; traffic: bytes */
    uint8_t is_set;    /* 1: there is such a window; 0: there is none, and the other fields are not looked at */
} idsm_window;

/* How reports of an event are joined. */
typedef struct idsm_aggregate {
    uint64_t interval; /* the least number of ticks after which the joined report goes on */
    uint8_t context;   /* IDSM_FIRST or IDSM_LAST; else fault 8 */
    uint8_t is_set;    /* 1: reports are joined; 0: they are not, and the other fields are not looked at */
} idsm_aggregate;

/* The context data buffers of one size. */
typedef struct idsm_class {
    uint32_t size;   /* bytes of each buffer */
    uint32_t number; /* how many buffers there are */
} idsm_class;

/* An event. */
typedef struct idsm_event {
    idsm_aggregate aggregate; /* how its reports are joined */
    idsm_window threshold;    /* from which sum of counts on they pass */
    uint32_t id;              /* its number in messages */
    uint32_t nth;             /* of so many reports the last one passes; 1: all pass */
    uint16_t sensor;          /* the number of its sensor in messages */
    uint16_t version;         /* of the layout of its context data, under profile 2; else 0 */
    uint8_t mode;             /* the reporting mode at the start, IDSM_MODE_..; above 4: fault 7 */
    uint8_t send;             /* 1: what passed the filters is sent */
    uint8_t store;            /* 1: what passed the filters enters the event memory */
    uint8_t states;           /* how many of `block` count, from the first on; above 16: fault 22 */
    uint8_t block[16];        /* the states in which its reports are dropped, in rising order */
} idsm_event;

/* What a configuration says of no single event. */
typedef struct idsm_top {
    idsm_window rate;       /* the most messages in a window */
    idsm_window traffic;    /* the most bytes of messages in a window */
    uint32_t profile;       /* of the messages' layout: 1 or 2 */
    uint32_t instance;      /* the manager's number in messages */
    uint32_t callers;       /* how many contexts report: the number of handles of an init */
    uint32_t ring;          /* event buffers: the most reports that wait for a turn */
    uint32_t memory;        /* records of the event memory */
    uint32_t state;         /* the block state at the start */
    uint32_t lost_events;   /* the place of the event that tells of lost reports, or IDSM_NONE */
    uint32_t lost_contexts; /* the place of the event that tells of lost contexts, or IDSM_NONE */
    uint32_t limited;       /* the place of the event that tells of what the limits held back, or IDSM_NONE */
} idsm_top;

/* A configuration. It and its tables are read during an init alone. */
typedef struct idsm_config {
    idsm_top top;
    const idsm_class *classes; /* smallest size first; may be NULL if there are none */
    const idsm_event *events;  /* an event is its place here, from 0 on */
    uint32_t class_count;
    uint32_t event_count;
    uint32_t sum; /* of tools/c_config over the whole configuration; idsm_sum returns it */
} idsm_config;

/* What an init is asked for beside a configuration. What is 0 is not asked for. */
typedef struct idsm_options {
    size_t room;     /* bytes of the buffer for a turn's messages: IDSM_SMALL_BUFFER if they can be more; 0: not compared */
    uint8_t journal; /* 1: idsm_journal gives the lines of each turn, for which the init takes more memory */
} idsm_options;

/* The handle of a caller. Zeros before an init; never copied, moved or written by C after that. */
typedef struct idsm_caller {
    void *at;         /* what the library keeps */
    uint32_t stopped; /* whether the callers were stopped */
} idsm_caller;

/* The handle of a manager. Zeros before an init; never copied, moved or written by C after that. */
typedef struct idsm_manager {
    void *at;             /* what the library keeps */
    uint32_t stopped;     /* how far it is, and whether it is in an arena */
    uint32_t sum;         /* of its configuration */
    idsm_caller *callers; /* the handles that were filled with it */
    size_t count;         /* how many those are */
    const uint8_t *rest;  /* messages that were not taken yet, in the buffer of their turn */
    size_t rest_bytes;    /* how many bytes of them */
} idsm_manager;

/* The first fault of a configuration; all 0 if there is none. */
typedef struct idsm_fault {
    uint32_t number; /* that of docs/CONFIGURATION.md */
    uint32_t part;   /* where it is: 0 top, 1 a class, 2 an event */
    uint32_t place;  /* which class or event, from 0 */
} idsm_fault;

/* What one turn did. */
typedef struct idsm_sent {
    uint64_t turn;          /* its number, from 0 */
    uint64_t bytes;         /* of its messages */
    uint64_t entries;       /* the reports and controls that it took */
    uint64_t lost_events;   /* the reports that found no event buffer since the turn before */
    uint64_t lost_contexts; /* the reports that found no context data buffer since the turn before */
    uint64_t messages;      /* how many it made */
    uint8_t quiet;          /* 1: it took and lost nothing, has nothing to tell of the limits, closed no window; else 0 */
} idsm_sent;

/* What all turns of a manager did. */
typedef struct idsm_totals {
    uint64_t entries;       /* the reports and controls that they took */
    uint64_t lost_events;   /* the reports that found no event buffer */
    uint64_t lost_contexts; /* the reports that found no context data buffer */
    uint64_t messages;      /* how many they made */
} idsm_totals;

/* What all turns of a manager so far did, and how the last one left it. */
typedef struct idsm_status {
    uint64_t turns;         /* how many there were */
    uint64_t tick;          /* of the last one; 0 before the first */
    uint64_t entries;       /* the reports and controls that they took */
    uint64_t lost_events;   /* the reports that found no event buffer */
    uint64_t lost_contexts; /* the reports that found no context data buffer */
    uint64_t messages;      /* how many they made */
    uint64_t limited;       /* how many events the limits held back */
    uint32_t records;       /* how many records the event memory has now */
    uint8_t state;          /* the block state */
} idsm_status;

/* A record of the event memory: what was stored of one event. */
typedef struct idsm_row {
    uint64_t first;       /* the tick at which it was stored first */
    uint64_t last;        /* the tick at which it was stored last */
    uint64_t stamp;       /* the timestamp of what was stored last; it counts if has_stamp is 1 */
    uint64_t bytes;       /* of the context data of what was stored last; 0 if there were none */
    uint16_t event;       /* its place in the configuration */
    uint16_t id;          /* its number in messages */
    uint16_t occurrences; /* the sum of the counts, at most 65,535 */
    uint8_t sensor;       /* the number of its sensor */
    uint8_t has_stamp;    /* 1: `stamp` counts; else 0 */
} idsm_row;

/* A key, and the counter of the next message that is sealed. Zeros before idsm_sealer_init; C writes nothing of it. */
typedef struct idsm_sealer {
    uint64_t next;   /* the counter: who keeps it over a power cycle goes on with it */
    uint8_t key[64]; /* the key, filled with zeros */
    uint8_t is_set;  /* 1: idsm_sealer_init filled it; else 0 */
} idsm_sealer;

/* A tick of 32 bits that is widened to 64. Zeros at first. */
typedef struct idsm_clock {
    uint64_t ticks; /* the last result of idsm_widen */
} idsm_clock;

/* The number of the interface that the library was built with: compare it with IDSM_ABI. From any context. */
uint32_t idsm_abi(void);

/* Which library this is: "idsm 4, proved, logic SUM, sources SUM", or "stand-in: nothing of it is proved". Never NULL. From
   any context. */
const char *idsm_build(void);

/* The sum of the tables that the manager was made of; 0 for NULL, before an init, and if it was made of a text. From any
   context after the init has returned. */
uint32_t idsm_sum(const idsm_manager *manager);

/* Makes a manager of tables, with all memory from the heap: fills a handle for each caller of the configuration, and one
   for the manager. All of them have to be zeros. `options` may be NULL. From a task; once for these handles.
     IDSM_DONE              all handles are filled
     IDSM_NULL              a pointer is NULL; `classes` and `events` may be if they have a count of 0
     IDSM_CONFIGURATION     *fault is the first fault of the configuration
     IDSM_OUT_OF_RANGE      `count` is not the configuration's number of callers, or above IDSM_MOST_CALLERS
     IDSM_SMALL_BUFFER      a turn's messages can take more than options->room
     IDSM_NO_MEMORY         the heap has not enough: it takes IDSM_CFG_MEMORY bytes, and IDSM_CFG_JOURNAL for a journal
     IDSM_OCCUPIED          a handle has something already; IDSM_CLOSED if it was closed: fill it with zeros
     IDSM_BUSY              another init works with a handle, or fills an arena
   At each answer but IDSM_DONE the handles are as they were. */
idsm_answer idsm_init(const idsm_config *config, const idsm_options *options, idsm_caller *callers, size_t count,
                      idsm_manager *manager, idsm_fault *fault);

/* The same with all memory from `arena`: IDSM_CFG_ARENA bytes, and IDSM_CFG_ARENA_JOURNAL more with a journal, are enough,
   and one less is IDSM_NO_MEMORY. It has to be aligned to 16, else IDSM_OUT_OF_RANGE. IDSM_BUSY if another init is under
   way, and so is each init while this one is. The arena belongs to the manager until it is freed, and can then be used
   again. A program that calls no other init needs no malloc. */
idsm_answer idsm_init_in(const idsm_config *config, const idsm_options *options, void *arena, size_t bytes,
                         idsm_caller *callers, size_t count, idsm_manager *manager, idsm_fault *fault);

/* The same of the JSON text of a configuration, with all memory from the heap. It takes far more stack. A program that does
   not call it, linked with -Wl,--gc-sections, has no reader of JSON. */
idsm_answer idsm_init_text(const uint8_t *text, size_t bytes, const idsm_options *options, idsm_caller *callers,
                           size_t count, idsm_manager *manager, idsm_fault *fault);

/* Reports. An event is its place in the configuration, from 0. (NULL, 0) is no context. From any task or interrupt that has
   this caller for itself; the context is copied before the call returns.
     IDSM_DONE            reported, and the next turns take it
     IDSM_WITHOUT_CONTEXT reported without its context, which is counted as lost: no buffer that fits was free, or none is
                          large enough
     IDSM_LOST            no event buffer was free; it is counted as lost
     IDSM_UNKNOWN_EVENT, IDSM_ZERO_COUNT, IDSM_NULL, IDSM_OTHER_ROLE  a mistake of the program; counted nowhere
     IDSM_UNSET, IDSM_CLOSED  before the init, after a stop or the last turn; counted nowhere
     IDSM_BUSY            another context works with this caller; counted nowhere
     IDSM_SPENT           the caller has made 2^40 calls */
idsm_answer idsm_set_event(idsm_caller *caller, uint16_t event);
idsm_answer idsm_set_event_count(idsm_caller *caller, uint16_t event, uint16_t count);
idsm_answer idsm_set_event_context(idsm_caller *caller, uint16_t event, const uint8_t *context, size_t bytes);
idsm_answer idsm_set_event_count_context(idsm_caller *caller, uint16_t event, uint16_t count, const uint8_t *context,
                                         size_t bytes);

/* A report with a timestamp of 64 bits, which goes into its message as it is: see IDSM_STAMP. */
idsm_answer idsm_set_event_at(idsm_caller *caller, uint16_t event, uint16_t count, uint64_t stamp,
                              const uint8_t *context, size_t bytes);

/* Controls: another block state, or another reporting mode of an event, for all reports that come after it. They take an
   event buffer, and answer as reports do. A lost control is not among the lost events. IDSM_OUT_OF_RANGE: there is no such
   mode. */
idsm_answer idsm_set_state(idsm_caller *caller, uint8_t state);
idsm_answer idsm_set_mode(idsm_caller *caller, uint16_t event, uint8_t mode);

/* How many calls a caller made, lost ones too. One that is refused is none. Contexts and answers as of a report; *calls is 0
   at each answer but IDSM_DONE. */
idsm_answer idsm_calls(idsm_caller *caller, uint64_t *calls);

/* How many bytes a turn's messages have at most: IDSM_CFG_BUFFER of the configuration. From a task. */
idsm_answer idsm_buffer_size(idsm_manager *manager, uint64_t *bytes);

/* Makes a turn: takes what was reported, filters it, and writes the messages to the front of the buffer. *sent is zeros if
   none was made, so two tasks that may call it at once need a `sent` and a buffer each. From a task, or from one interrupt.
     IDSM_DONE            the turn was made
     IDSM_TICK_BACK, IDSM_TICK_TOO_LARGE  no turn can have this tick. A tick that is by mistake too far ahead cannot be
                          taken back: each smaller one is then refused
     IDSM_SMALL_BUFFER    the buffer has less than the bytes of idsm_buffer_size
     IDSM_BUSY            another call works with the manager
     IDSM_NOT_SENT        idsm_main_send has messages left that were not taken
     IDSM_UNSET, IDSM_CLOSED  before the init, after the last turn
     IDSM_NULL, IDSM_OTHER_ROLE  a mistake of the program
     IDSM_SPENT           the manager has made 2^62 turns
   At each answer but IDSM_DONE no turn was made, and what was reported is there for the next one. */
idsm_answer idsm_main(idsm_manager *manager, uint64_t tick, uint8_t *buffer, size_t bytes, idsm_sent *sent);

/* Takes one message, which is valid during the call alone: `to` is what idsm_main_send was given. It returns IDSM_DONE if
   it took the message, and anything else if it could not. It may report, but each call on the manager is answered IDSM_BUSY
   meanwhile. */
typedef idsm_answer idsm_send(void *to, const uint8_t *message, size_t length);

/* Makes a turn and calls send(to, message, length) for each of its messages in order, all before it gives the manager's
   handle back. From a task or one interrupt; several tasks may call it with the same buffer and `sent`, since it writes the
   buffer only while it has the handle, and `sent` only if a turn was made. If `send` does not take a message, this one and
   all after it are offered again at the next call, before it makes a turn. Until all are taken no turn is made and the call
   answers IDSM_NOT_SENT, so the buffer has to stay as it is. The call that made the turn answers IDSM_DONE all the same.
   The other answers are those of idsm_main. */
idsm_answer idsm_main_send(idsm_manager *manager, uint64_t tick, uint8_t *buffer, size_t bytes, idsm_send *send,
                           void *to, idsm_sent *sent);

/* The length of the message that begins at byte `at` of a turn's messages, or of sealed ones: IDSM_OUT_OF_RANGE if none
   does, as at their end. From any context: it looks at nothing but the bytes. */
idsm_answer idsm_message(const uint8_t *messages, size_t bytes, size_t at, size_t *length);

/* Puts a unit of the first messages to the front of `unit`, for a bus whose frames have one size (docs/FORMATS.md): as many
   whole messages as have at most `size` bytes, with 4 bytes before them. The next call is for the messages behind the *taken
   bytes, until none are left. Sealed messages may be packed, too. The bytes behind the unit stay. `messages` and `unit` may
   not overlap. From any context; it takes time with the unit and the message behind it.
     IDSM_DONE            *unit_bytes is how many bytes the unit has, at most size + 4
     IDSM_OUT_OF_RANGE    `size` is below 64, or there are no messages
     IDSM_BAD_MESSAGE     the first message cannot be read, or has more than `size` bytes
     IDSM_SMALL_BUFFER    `room` is less than *unit_bytes, which the unit has
     IDSM_NULL            a pointer is NULL; `messages` and `unit` may be if they have no bytes
   At each answer but IDSM_DONE `unit` is as it was and *taken is 0, and *unit_bytes is 0 if nothing else is said. */
idsm_answer idsm_unit(uint16_t size, const uint8_t *messages, size_t bytes, uint8_t *unit, size_t room,
                      size_t *unit_bytes, size_t *taken);

/* Fills a sealer with a key of 1 to 64 bytes and the counter of the first message, at most 2^62. IDSM_OUT_OF_RANGE: there is no
   such key or counter; the sealer is as it was then. From any context; one call at a time for a sealer, this one or
   idsm_seal. */
idsm_answer idsm_sealer_init(idsm_sealer *sealer, const uint8_t *key, size_t bytes, uint64_t start);

/* Seals messages to the front of `out`: each gets the counter that is due and a tag under the key (docs/FORMATS.md), 42 bytes.
   The bytes behind them stay. The sealer, `messages` and `out` may not overlap. From any context; one call at a time for a
   sealer. It takes time with the bytes, with three blocks of SHA-256 for each message, and with two for the call.
     IDSM_DONE            all are sealed, none if there are none; *written is how many bytes they have
     IDSM_UNSET           the sealer is zeros
     IDSM_OUT_OF_RANGE    the sealer's counter is above 2^62
     IDSM_BAD_MESSAGE     the message at byte *written cannot be read, or has a signature already
     IDSM_SMALL_BUFFER    `room` is less than *written, which they have when they are sealed
     IDSM_NULL            a pointer is NULL; `messages` and `out` may be if they have no bytes
   At each answer but IDSM_DONE `out` and the sealer are as they were, and *written is 0 if nothing else is said. */
idsm_answer idsm_seal(idsm_sealer *sealer, const uint8_t *messages, size_t bytes, uint8_t *out, size_t room,
                      size_t *written);

/* The event memory as the last turn left it. From a task; IDSM_BUSY while a turn runs. How many records it has; the record
   i, from the one stored longest ago on, with its context (IDSM_OUT_OF_RANGE if there is no such record, IDSM_SMALL_BUFFER
   if the context has more than `bytes`); or all records as they are at one moment, with the context of record i at contexts
   + i * each. IDSM_SMALL_BUFFER if there are more than `most`, and *count is then how many, or if a context is longer than
   `each`. */
idsm_answer idsm_rows(idsm_manager *manager, uint64_t *rows);
idsm_answer idsm_row_at(idsm_manager *manager, uint16_t i, uint8_t *context, size_t bytes, idsm_row *row);
idsm_answer idsm_snapshot(idsm_manager *manager, idsm_row *rows, size_t most, uint8_t *contexts, size_t each,
                          size_t *count);

/* How many context data buffers of a class wait for a place among the free ones: IDSM_OUT_OF_RANGE if there is no such class. From a task;
   IDSM_BUSY while a turn runs. */
idsm_answer idsm_late(idsm_manager *manager, uint8_t class_index, uint64_t *late);

/* What all turns so far did, and the reporting mode of an event as the last turn left it: IDSM_OUT_OF_RANGE if there is no
   such event. From a task; IDSM_BUSY while a turn runs. What is told is zeros at each answer but IDSM_DONE. */
idsm_answer idsm_read_status(idsm_manager *manager, idsm_status *status);
idsm_answer idsm_mode(idsm_manager *manager, uint16_t event, uint8_t *mode);

/* The lines of the last turn as a journal has them (docs/FORMATS.md): as many bytes as fit, from byte `at` on, at the front
   of the buffer. *bytes is how many: 0 at their end, and before the first turn. IDSM_OUT_OF_RANGE if no journal was asked
   for, IDSM_SMALL_BUFFER if the init took no room for so long a turn. From the task that makes the turns; IDSM_BUSY while
   one runs. */
idsm_answer idsm_journal(idsm_manager *manager, size_t at, uint8_t *buffer, size_t size, size_t *bytes);

/* Stops the callers of a manager for good: a call that begins after it answers IDSM_CLOSED and is in no total. IDSM_DONE:
   no call of them is under way any more. IDSM_BUSY: one is, or one of the manager; ask again. From a task. */
idsm_answer idsm_stop(idsm_manager *manager);

/* Makes a last turn, which takes all that was reported, and frees the callers. The totals are those of all turns. What the
   manager keeps can still be read, and a turn answers IDSM_CLOSED. IDSM_BUSY if a call of a caller is under way: the callers
   are stopped then, so a later try comes through. At any other answer but IDSM_DONE no turn was made, and callers that were
   not stopped before may call again. From a task. The answers are those of idsm_main. */
idsm_answer idsm_last(idsm_manager *manager, uint64_t tick, uint8_t *buffer, size_t bytes, idsm_sent *sent,
                      idsm_totals *totals);

/* The same, with the messages handed out as by idsm_main_send. IDSM_NOT_SENT: messages were not taken; call it again, until
   it answers IDSM_DONE. Messages of the turn before come first, and while some of them are left no last turn is made, and
   *sent and *totals are as they were. The call that makes the last turn tells *sent, this one and each later one tells
   *totals. */
idsm_answer idsm_last_send(idsm_manager *manager, uint64_t tick, uint8_t *buffer, size_t bytes, idsm_send *send,
                           void *to, idsm_sent *sent, idsm_totals *totals);

/* Frees a manager that made its last turn. IDSM_BUSY if it did not, IDSM_NOT_SENT if messages of it were not taken. From a
   task. */
idsm_answer idsm_free(idsm_manager *manager);

/* idsm_last and idsm_free in one: each call on a handle then answers IDSM_CLOSED. From a task. */
idsm_answer idsm_close(idsm_manager *manager, uint64_t tick, uint8_t *buffer, size_t bytes, idsm_sent *sent,
                       idsm_totals *totals);

/* idsm_last_send and idsm_free in one: the manager is freed when all messages are taken. A `send` that takes each message
   and does nothing gives them up. From a task. */
idsm_answer idsm_close_send(idsm_manager *manager, uint64_t tick, uint8_t *buffer, size_t bytes, idsm_send *send,
                            void *to, idsm_sent *sent, idsm_totals *totals);

/* A timestamp of whole seconds and the nanoseconds of the second (docs/FORMATS.md): seconds in the lower 32 bits,
   nanoseconds in the 30 above. Bit 62 is reserved and 0, and so is bit 63, which names the source: who sets it adds
   (uint64_t)1U << 63. */
#define IDSM_STAMP(seconds, nanoseconds) \
    ((((uint64_t)(nanoseconds) & 0x3FFFFFFFU) << 32U) | ((uint64_t)(seconds) & 0xFFFFFFFFU))

/* A tick of 32 bits that wraps, as one of 64 bits that does not: call it at least once each 2^32 ticks, from one task, with
   ticks in their order. A tick that is by mistake before the last one counts as almost 2^32 ticks later, and a turn cannot
   go back behind it. Returns `now` if there is no clock. */
uint64_t idsm_widen(idsm_clock *clock, uint32_t now);

#ifdef __cplusplus
}
#endif

#endif
