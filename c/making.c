/* The inits: callers and manager of a configuration are made, or none of them. */
#include "handles.h"

void idsm_own_free_all(idsm_word *words, size_t count)
{
    size_t i;
    for (i = 0U; i < count; i++) {
        (void)idsm_raw_close(&words[i]);
    }
}

/* Takes all handles that an init fills, or none of them. */
static idsm_answer take_all_unset(idsm_caller *callers, size_t count, idsm_manager *manager)
{
    size_t taken = 0U;
    idsm_answer answer = idsm_own_take_unset(&manager->at);
    if (answer != IDSM_DONE) {
        return answer;
    }
    while ((taken < count) && (answer == IDSM_DONE)) {
        answer = idsm_own_take_unset(&callers[taken].at);
        taken += (answer == IDSM_DONE) ? 1U : 0U;
    }
    if (answer != IDSM_DONE) {
        while (taken > 0U) {
            taken--;
            idsm_own_give(&callers[taken].at, NULL);
        }
        idsm_own_give(&manager->at, NULL);
    }
    return answer;
}

/* Makes callers and manager; none if a turn's messages can take more bytes than there is room. */
static idsm_answer make(const idsm_making *making, const idsm_options *options, idsm_word *callers, size_t count,
                        idsm_word *manager, idsm_fault *fault)
{
    uint64_t wanted = 0U;
    idsm_answer answer = making->fill(making->from, options->journal, callers, count, manager, fault);
    if (answer != IDSM_DONE) {
        return answer;
    }
    answer = idsm_raw_buffer_size(manager, &wanted);
    if ((answer == IDSM_DONE) && (options->room > 0U) && (wanted > options->room)) {
        answer = IDSM_SMALL_BUFFER;
    }
    if (answer != IDSM_DONE) {
        idsm_own_free_all(callers, count);
        idsm_own_free_all(manager, 1U);
    }
    return answer;
}

/* The same, with all memory from a source. */
static idsm_answer make_from(const idsm_source *source, const idsm_making *making, const idsm_options *options,
                             idsm_word *callers, size_t count, idsm_word *manager, idsm_fault *fault)
{
    idsm_answer answer = idsm_own_open(source);
    if (answer == IDSM_DONE) {
        answer = make(making, options, callers, count, manager, fault);
        idsm_own_shut(source);
    }
    return answer;
}

idsm_answer idsm_own_init(const idsm_making *making, const idsm_options *options, const idsm_source *source,
                          idsm_caller *callers, size_t count, idsm_manager *manager, idsm_fault *fault)
{
    static const idsm_options no_options = {0U, 0U};
    idsm_word words[IDSM_MOST_CALLERS] = {0};
    idsm_word own = {NULL};
    idsm_answer answer = idsm_own_clear(fault, sizeof *fault);
    size_t i;
    if ((answer != IDSM_DONE) || (manager == NULL) || (making->from == NULL) || idsm_own_is_no_memory(callers, count)) {
        return IDSM_NULL;
    }
    if (count > IDSM_MOST_CALLERS) {
        return IDSM_OUT_OF_RANGE;
    }
    answer = take_all_unset(callers, count, manager);
    if (answer != IDSM_DONE) {
        return answer;
    }
    answer = make_from(source, making, (options == NULL) ? &no_options : options, words, count, &own, fault);
    if (answer == IDSM_DONE) {
        manager->callers = callers;
        manager->count = count;
        manager->sum = making->sum;
        manager->stopped = IDSM_OWN_RUNNING;
        if (source->heap == NULL) {
            manager->stopped |= IDSM_OWN_IN_ARENA;
        }
    }
    for (i = 0U; i < count; i++) {
        idsm_own_give(&callers[i].at, words[i].at);
    }
    idsm_own_give(&manager->at, own.at);
    return answer;
}

static idsm_answer fill_of_tables(const void *from, uint8_t journal, idsm_word *callers, size_t count,
                                  idsm_word *manager, idsm_fault *fault)
{
    static const idsm_class no_class;
    static const idsm_event no_event;
    const idsm_config *config = (const idsm_config *)from;
    const idsm_class *classes = (config->classes == NULL) ? &no_class : config->classes;
    const idsm_event *events = (config->events == NULL) ? &no_event : config->events;
    return idsm_raw_init_tables(&config->top, classes, config->class_count, events, config->event_count, journal,
                                callers, count, manager, fault);
}

idsm_making idsm_own_tables(const idsm_config *config)
{
    idsm_making making = {fill_of_tables, NULL, 0U};
    if ((config != NULL) && !idsm_own_is_no_memory(config->classes, config->class_count) &&
        !idsm_own_is_no_memory(config->events, config->event_count)) {
        making.from = config;
        making.sum = config->sum;
    }
    return making;
}

idsm_answer idsm_init_in(const idsm_config *config, const idsm_options *options, void *arena, size_t bytes,
                         idsm_caller *callers, size_t count, idsm_manager *manager, idsm_fault *fault)
{
    const idsm_source source = {NULL, arena, bytes};
    const idsm_making making = idsm_own_tables(config);
    if (arena == NULL) {
        return IDSM_NULL;
    }
    if (((uintptr_t)(uint8_t *)arena % IDSM_OWN_ALIGNED) != 0U) {
        return IDSM_OUT_OF_RANGE;
    }
    return idsm_own_init(&making, options, &source, callers, count, manager, fault);
}
