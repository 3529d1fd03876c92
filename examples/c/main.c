/*
 * One task of a gateway: the tariff password of a cabinet file goes to the charge controller, and what the controller says goes to the
 * service display without it. Prints what each of them gets.
 */
#include <stdio.h>
#include <string.h>

#include "dollar.h"

enum { DEPTH_MAX = 8, WORK_MAX = 100000, TEXT_MOST = 128 };

static const char block[] = "TARIFF_PASS=s0l${LIMIT}ar\0GRID=meter-7";

static dollar_bytes bytes_of(const char *text)
{
    dollar_bytes bytes = {(const uint8_t *)text, strlen(text)};
    return bytes;
}

static void print(const char *who, dollar_bytes bytes)
{
    printf("%s: %.*s\n", who, (int)bytes.length, (const char *)bytes.at);
}

/* The text of a file with its references replaced, for the controller; else why there is none, for the display. */
static int hand_over(dollar_session *session, dollar_marks *marks, const dollar_lent *lent, const char *file)
{
    dollar_bytes text = bytes_of(file);
    dollar_outcome outcome = dollar_value_lent(session, text, marks, lent);
    dollar_bytes told = dollar_text(&outcome, text, lent);
    if (outcome.refusal == DOLLAR_ANSWERED) {
        print("controller", told);
        return 1;
    }
    printf("display: refused %u, %.*s: ", (unsigned)outcome.refusal, (int)(outcome.end - outcome.start), file + outcome.start);
    printf("%.*s\n", (int)told.length, (const char *)told.at);
    return 0;
}

/* What the controller says, as it may be shown. */
static void show(dollar_marks *marks, const dollar_lent *lent, const char *said)
{
    dollar_bytes text = bytes_of(said);
    dollar_outcome outcome = dollar_message_lent(text, marks, lent);
    if (outcome.refusal == DOLLAR_ANSWERED)
        print("display", dollar_text(&outcome, text, lent));
    else
        printf("display: a message that cannot be shown (%u)\n", (unsigned)outcome.refusal);
}

int main(void)
{
    static dollar_frame frames[DOLLAR_FRAMES(TEXT_MOST)];
    static dollar_pair records[8];
    static uint8_t bytes[512], area[256];
    dollar_lent lent = {.table = {(const uint8_t *)block, sizeof block},
                        .frames = frames,
                        .frames_len = sizeof frames / sizeof *frames,
                        .records = records,
                        .records_len = sizeof records / sizeof *records,
                        .bytes = bytes,
                        .bytes_len = sizeof bytes,
                        .area = area,
                        .area_len = sizeof area};
    dollar_session session;
    dollar_marks marks = DOLLAR_MARKS;
    dollar_outcome opened = dollar_open_lent(&session, DOLLAR_BLOCK, DOLLAR_BRACED, DEPTH_MAX, WORK_MAX, &lent);
    dollar_scope outer;
    if (opened.refusal != DOLLAR_ANSWERED) {
        printf("display: the properties are unlawful (%u)\n", (unsigned)opened.refusal);
        return 1;
    }
    outer = dollar_scope_begin(&marks);
    if (hand_over(&session, &marks, &lent, "pass: ${TARIFF_PASS}"))
        show(&marks, &lent, "login refused: pass: s0l${LIMIT}ar");
    hand_over(&session, &marks, &lent, "unit: ${UNIT?set UNIT in the cabinet}");
    dollar_scope_end(&marks, outer);
    printf("work: %zu\n", session.total);
    return 0;
}
