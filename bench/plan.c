/* Times planning by the library `bench_plan`.

       plan SHEET...

   prints a line for each sheet: its name, the number of places of its plan, or the refusal's number below zero, and the
   nanoseconds of reading, ordering and layout together, without those of reserving the memory. */

#include <stdint.h>
#include <stdio.h>

#include "measure.h"

/* Reads the sheet and plans it by least degree, `repetitions` times over, and answers the number of places or the
   refusal's number below zero. */
extern int64_t plan_sheet(const uint8_t *bytes, uint64_t length, uint64_t repetitions);

/* Reserves the memory of one planning and gives it back, `repetitions` times over. */
extern uint64_t reserve_rooms(uint64_t repetitions);

typedef struct {
    File sheet;
    int64_t answer;
} Planning;

static void plan(void *context, uint64_t repetitions)
{
    Planning *planning = context;
    planning->answer = plan_sheet(planning->sheet.bytes, planning->sheet.length, repetitions);
}

static void reserve(void *context, uint64_t repetitions)
{
    (void)context;
    reserve_rooms(repetitions);
}

int main(int count, char **arguments)
{
    static Planning planning;
    double reserving = best_ns(reserve, NULL);
    for (int i = 1; i < count; i++) {
        read_file(arguments[i], &planning.sheet);
        double ns = best_ns(plan, &planning) - reserving;
        printf("%s %lld %.0f\n", arguments[i], (long long)planning.answer, ns);
    }
    return 0;
}
