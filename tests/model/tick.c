/* tick: plays the schedule on standard input; a line for each record, and the last line of values. */
#include "play.h"

int main(void) {
    struct answer a = { 'O', 0 };
    for (u64 number = 0; !ends_reading(a) && (a = play_record()).letter != 0; number++)
        put_answer(number, a);
    put_values();
    return finish();
}
