/* Prints where each struct has its parts, then what each call answers on log C of document 01 (400 bytes, 1 at 99, 199 and 299). */

#include "thrunglow.h"
#include <inttypes.h>
#include <stdio.h>

#define SIZE(type) printf("%s %zu\n", #type, sizeof(thrunglow_##type))
#define PART(type, part) printf("%s.%s %zu\n", #type, #part, offsetof(thrunglow_##type, part))

static void layout(void) {
    SIZE(Settings); PART(Settings, bits); PART(Settings, target); PART(Settings, minimum); PART(Settings, maximum);
    SIZE(Carry); PART(Carry, settings); PART(Carry, taken); PART(Carry, since); PART(Carry, window); PART(Carry, signature);
    PART(Carry, closed);
    SIZE(Outcome); PART(Outcome, number); PART(Outcome, count);
    SIZE(Passed); PART(Passed, number); PART(Passed, count); PART(Passed, carry);
    SIZE(Amendment); PART(Amendment, number); PART(Amendment, front); PART(Amendment, recut); PART(Amendment, back);
    SIZE(Reading); PART(Reading, number); PART(Reading, label); PART(Reading, settings); PART(Reading, count);
}

/* The number and the count on a line, then that many entries. */
static void show(const char *call, uint32_t number, uint64_t count, const uint64_t *entries) {
    printf("%s: number %" PRIu32 ", %" PRIu64 ":", call, number, count);
    for (uint64_t k = 0; k < count; k++) printf(" %" PRIu64, entries[k]);
    printf("\n");
}

int main(void) {
    const thrunglow_Settings settings = {31, 1, 48, 200};
    uint8_t log[401] = {0};
    uint64_t list[9], amended[9], board[30] = {0};
    uint8_t bytes[64];
    layout();
    log[99] = log[199] = log[299] = 1;

    thrunglow_Outcome whole = thrunglow_cut_log(settings, log, 400, list, 9);
    show("cut_log", whole.number, whole.count, list);
    whole = thrunglow_cut_log(settings, log, 400, list, 8);
    show("cut_log, short room", whole.number, whole.count, list);
    whole = thrunglow_cut_log(settings, NULL, 0, list, 1);
    show("cut_log, empty", whole.number, whole.count, list);

    thrunglow_Passed passed = thrunglow_fresh(settings);
    show("fresh", passed.number, passed.count, list);
    passed = thrunglow_block(passed.carry, log, 250, list, 6);
    show("block", passed.number, passed.count, list);
    passed = thrunglow_block(passed.carry, log + 250, 150, list, 4);
    show("block", passed.number, passed.count, list);
    passed = thrunglow_close(passed.carry, list, 1);
    show("close", passed.number, passed.count, list);
    passed = thrunglow_close(passed.carry, list, 1);
    show("close again", passed.number, passed.count, list);
    passed.carry.closed = 2;
    passed = thrunglow_close(passed.carry, list, 1);
    show("close, neither open nor closed", passed.number, passed.count, list);
    passed.carry.settings.bits = 0;
    passed = thrunglow_block(passed.carry, log, 250, list, 6);
    show("block, its settings wrong too", passed.number, passed.count, list);

    thrunglow_Outcome recorded = thrunglow_segment(settings, log, 400, 150, 10, 2, board, 30);
    show("segment 2", recorded.number, recorded.count, board + 20);
    recorded = thrunglow_record(settings, log, 400, 150, 1, board + 10, 10);
    show("record 1", recorded.number, recorded.count, board + 10);
    thrunglow_Outcome merged = thrunglow_merge(settings, 400, 150, 10, board, 30, list, 9);
    show("merge too early", merged.number, merged.count, list);
    recorded = thrunglow_segment(settings, log, 400, 150, 10, 0, board, 30);
    show("segment 0", recorded.number, recorded.count, board);
    merged = thrunglow_merge(settings, 400, 150, 10, board, 30, list, 9);
    show("merge", merged.number, merged.count, list);

    thrunglow_Outcome written = thrunglow_write_sheet(settings, false, list, 4, bytes, 64);
    printf("write_sheet: number %" PRIu32 ", %" PRIu64 ": %02X%02X%02X%02X\n", written.number, written.count, bytes[60], bytes[61],
           bytes[62], bytes[63]);
    thrunglow_Reading reading = thrunglow_read_sheet(bytes, 64, false, amended, 9);
    printf("label %c, settings %" PRIu32 " %" PRIu32 " %" PRIu64 " %" PRIu64 "\n", reading.label, reading.settings.bits,
           reading.settings.target, reading.settings.minimum, reading.settings.maximum);
    show("read_sheet", reading.number, reading.count, amended);
    reading = thrunglow_read_sheet(bytes, 64, true, amended, 9);
    show("read_sheet as live", reading.number, reading.count, amended);

    for (size_t k = 400; k > 150; k--) log[k] = log[k - 1];
    log[150] = 1;
    thrunglow_Amendment amendment = thrunglow_amend(settings, list, 4, 150, 0, 1, log, 401, amended, 9);
    printf("counts %" PRIu64 " %" PRIu64 " %" PRIu64 "\n", amendment.front, amendment.recut, amendment.back);
    show("amend", amendment.number, amendment.front + amendment.recut + amendment.back, amended);
    return 0;
}
