/* check_and_run SHEET [GOAL [WORKINGS]]: checks a sheet and prints it written afresh, or runs a goal over it and prints the answers, or checks workings of the
 * goal, whose bytes are written in hexadecimal, and prints the answer; or the whole fault. C11 and C++. */
#include <stdio.h>
#include <string.h>
#include "pilvaust.h"

static const char *const texts[] = {"neither text", "sheet", "goal", "trace", "workings"};
static const char *const kinds[] = {"wanted", "done", "steps", "full", "deep"};

/* The five numbers of a refusal, and the name where it stands in the text at fault. */
static int show_fault(const size_t *numbers, const char *sheet, const char *goal)
{
    const char *text = numbers[PILVAUST_TEXT] == PILVAUST_IN_GOAL ? goal : sheet;
    printf("%s: refusal %zu, byte %zu, clause %zu, literal %zu, argument %zu, name '%.*s'\n", texts[numbers[PILVAUST_TEXT]], numbers[PILVAUST_NUMBER],
           numbers[PILVAUST_BYTE], numbers[PILVAUST_CLAUSE], numbers[PILVAUST_LITERAL], numbers[PILVAUST_ARGUMENT], (int)numbers[PILVAUST_NAME_LEN],
           text + numbers[PILVAUST_NAME_AT]);
    return 1;
}

static int check(const char *sheet)
{
    size_t numbers[PILVAUST_VERDICT_NUMBERS], entry[PILVAUST_ENTRY_NUMBERS], found[PILVAUST_LOOKUP_NUMBERS], i;
    uint32_t words[64 * PILVAUST_ENTRY_WORDS];
    const uint8_t *bytes = (const uint8_t *)sheet;
    if (pilvaust_check(bytes, strlen(sheet), numbers, PILVAUST_VERDICT_NUMBERS) != PILVAUST_NONE)
        return show_fault(numbers, sheet, "");
    printf("accepted: declarations %zu, clauses %zu\n", numbers[PILVAUST_DECLARATION_COUNT], numbers[PILVAUST_CLAUSE_COUNT]);
    for (i = 0; pilvaust_entry(bytes, strlen(sheet), i, entry, PILVAUST_ENTRY_NUMBERS) != 0; i++) {
        uint32_t *word = words + i * PILVAUST_ENTRY_WORDS;
        word[PILVAUST_WORD_AT] = (uint32_t)entry[PILVAUST_ENTRY_AT];
        word[PILVAUST_WORD_LEN] = (uint32_t)entry[PILVAUST_ENTRY_LEN];
        word[PILVAUST_WORD_ARGUMENTS] = (uint32_t)entry[PILVAUST_ENTRY_ARGUMENTS];
        word[PILVAUST_WORD_FREE] = 0;
        printf("declared: %.*s/%zu\n", (int)entry[PILVAUST_ENTRY_LEN], sheet + entry[PILVAUST_ENTRY_AT], entry[PILVAUST_ENTRY_ARGUMENTS]);
    }
    if (pilvaust_look_up(bytes, strlen(sheet), words, i * PILVAUST_ENTRY_WORDS, (const uint8_t *)"next", 4, 2, found, PILVAUST_LOOKUP_NUMBERS) != 0)
        printf("next/2: entry %zu, compared %zu\n", found[PILVAUST_PLACE], found[PILVAUST_COMPARED]);
    return 0;
}

static int run(const char *sheet, const char *goal)
{
    size_t numbers[PILVAUST_RUN_NUMBERS], single[PILVAUST_DETERMINACY_NUMBERS];
    uint8_t text[4096];
    if (pilvaust_determinate((const uint8_t *)sheet, strlen(sheet), single, PILVAUST_DETERMINACY_NUMBERS) == PILVAUST_NONE)
        printf("at most one line: %s\n", single[PILVAUST_AT_MOST_ONE] == 1 ? "yes" : "no");
    if (pilvaust_run((const uint8_t *)sheet, strlen(sheet), (const uint8_t *)goal, strlen(goal), 65536, 16, false, text, sizeof text, numbers,
                     PILVAUST_RUN_NUMBERS) != PILVAUST_NONE)
        return show_fault(numbers, sheet, goal);
    fwrite(text, 1, numbers[PILVAUST_WRITTEN], stdout);
    printf("end %s: answers %zu, steps %zu\n", kinds[numbers[PILVAUST_KIND]], numbers[PILVAUST_ANSWER_COUNT], numbers[PILVAUST_STEP_COUNT]);
    return 0;
}

static int write_afresh(const char *sheet)
{
    size_t numbers[PILVAUST_FORMAT_NUMBERS];
    uint8_t out[16384];
    if (pilvaust_format((const uint8_t *)sheet, strlen(sheet), out, sizeof out, numbers, PILVAUST_FORMAT_NUMBERS) != PILVAUST_NONE)
        return show_fault(numbers, sheet, "");
    fwrite(out, 1, numbers[PILVAUST_LENGTH], stdout);
    return 0;
}

static int check_workings(const char *sheet, const char *goal, const char *written)
{
    size_t numbers[PILVAUST_WORKINGS_NUMBERS], count = 0;
    uint8_t workings[1024], text[4096];
    unsigned byte;
    while (count < sizeof workings && sscanf(written + 2 * count, "%2x", &byte) == 1)
        workings[count++] = (uint8_t)byte;
    if (pilvaust_check_workings((const uint8_t *)sheet, strlen(sheet), (const uint8_t *)goal, strlen(goal), workings, count, text, sizeof text, numbers,
                                PILVAUST_WORKINGS_NUMBERS) != PILVAUST_NONE)
        return show_fault(numbers, sheet, goal);
    fwrite(text, 1, numbers[PILVAUST_LINE_BYTES], stdout);
    return 0;
}

int main(int argc, char **argv)
{
    if (argc < 2 || pilvaust_version() != PILVAUST_VERSION)
        return 2;
    if (check(argv[1]) != 0)
        return 1;
    if (argc < 3)
        return write_afresh(argv[1]);
    return argc < 4 ? run(argv[1], argv[2]) : check_workings(argv[1], argv[2], argv[3]);
}
