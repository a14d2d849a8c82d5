// A first program in C++: four tasks report, the main function makes turns, and the close tells the totals.
#include <cstdio>
#include <thread>
#include <vector>

#include "IdsM.h"
#include "IdsM_Binding.h"
#include "IdsM_Cfg.h"

static thread_local idsm_caller *own_caller;

idsm_caller *unit_caller(void)
{
    return own_caller;
}

uint64_t unit_tick(void)
{
    static uint64_t ticks;
    return ticks++;
}

int unit_send(const uint8_t *message, size_t length)
{
    std::printf("a message of %zu bytes, of event %u\n", length, message[3] * 256u + message[4]);
    return 0;
}

static void task(unsigned number)
{
    const uint8_t context[] = {1, 2, static_cast<uint8_t>(number)};
    own_caller = &IdsM_Unit.callers[number];
    if (IdsM_SetSecurityEventWithContextData(IDSM_EVENT_BAD_FIRMWARE, context, sizeof context) != IDSM_DONE)
        std::printf("task %u: its report was not taken\n", number);
}

int main()
{
    if (IdsM_Init(nullptr) != IDSM_DONE) {
        std::printf("the configuration has fault %u\n", IdsM_Unit.fault.number);
        return 1;
    }
    std::vector<std::thread> tasks;
    for (unsigned i = 0; i < IDSM_CFG_CALLERS; i++)
        tasks.emplace_back(task, i);
    for (auto &it : tasks)
        it.join();
    idsm_totals totals;
    if (IdsM_MainFunction() != IDSM_DONE || IdsM_DeInit(&totals) != IDSM_DONE)
        return 1;
    std::printf("%llu reports, %llu lost\n", static_cast<unsigned long long>(totals.entries),
                static_cast<unsigned long long>(totals.lost_events));
    return 0;
}
