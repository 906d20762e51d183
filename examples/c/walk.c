/* Compares a few formulas, and walks a docket from entry to entry. */
#include <inttypes.h>
#include <stdio.h>

#include "yard.h"

static const char *compared(uint32_t outcome)
{
    switch (outcome) {
    case YARD_NO: return "no";
    case YARD_YES: return "yes";
    case YARD_FIRST_LONG: return "the first list is too long";
    case YARD_FIRST_LARGE: return "the first formula is too large";
    case YARD_FIRST_MISSING: return "the first list lacks a byte";
    case YARD_SECOND_LONG: return "the second list is too long";
    case YARD_SECOND_LARGE: return "the second formula is too large";
    case YARD_SECOND_MISSING: return "the second list lacks a byte";
    default: return "unknown";
    }
}

static void compare(const char *what, const uint8_t *first, size_t first_len, const uint8_t *second, size_t second_len)
{
    printf("%s: %s\n", what, compared(yard_compare(first, first_len, second, second_len)));
}

static void compare_some(void)
{
    static const uint8_t both[] = {0x00, 0x01, 0x00, 0x02};
    static const uint8_t either[] = {0x00, 0x03};
    static const uint8_t nine[] = {0, 1, 0, 2, 0, 4, 0, 8, 0, 16, 0, 32, 0, 64, 0, 128, 1, 0};
    static const uint8_t many[130];

    compare("0001.0002 implies 0003", both, sizeof both, either, sizeof either);
    compare("0003 implies 0001.0002", either, sizeof either, both, sizeof both);
    compare("T implies 0003", both, 0, either, sizeof either);
    compare("0001.0002 implies T", both, sizeof both, either, 0);
    compare("three bytes imply 0003", both, 3, either, sizeof either);
    compare("0003 implies one byte", either, sizeof either, both, 1);
    compare("nine parties imply 0003", nine, sizeof nine, either, sizeof either);
    compare("0003 implies nine parties", either, sizeof either, nine, sizeof nine);
    compare("65 clauses imply 0003", many, sizeof many, either, sizeof either);
    compare("0003 implies 65 clauses", either, sizeof either, many, sizeof many);
    compare("64 equal clauses imply 0003", many, 128, either, sizeof either);
}

static void print_entry(uint64_t place, const struct yard_entry *entry)
{
    printf("%" PRIu64 ": %s, task %" PRIu64 ", record %" PRIu64 ", ", place, entry->kind ? "endorse" : "release", entry->task, entry->record);
    if (entry->question == 0)
        printf("granted");
    else
        printf("refused %" PRIu32, entry->question);
    if (entry->question == 16)
        printf(" with %04x", (unsigned)entry->group);
    printf(", new ");
    for (uint16_t i = 0; i < entry->count; i++)
        printf("%s%04x", i ? "." : "", (unsigned)entry->clauses[i]);
    printf("%s\n", entry->count ? "" : "T");
}

/* Reads entry after entry, up to the end or the first refusal. */
static void walk(const char *what, const uint8_t *docket, size_t len, uint64_t place)
{
    struct yard_entry entry;

    printf("%s\n", what);
    for (;;) {
        uint32_t outcome = yard_read_entry(docket, len, place, &entry);
        if (outcome == YARD_ENTRY) {
            print_entry(place, &entry);
            place = entry.next;
        } else {
            printf("%" PRIu64 ": %s\n", place, outcome == YARD_OVER ? "over" : outcome == YARD_MISSING ? "bits are missing" : "unlawful");
            return;
        }
    }
}

int main(void)
{
    static const uint8_t docket[] = {
        0x21, 0x62, 0x00, 0x06,       /* release, task 2, record 5, granted, 0003 */
        0x00, 0x10, 0x00, 0x01, 0x00, /* release, task 0, record 0, refused 16 with 0001, T */
        0xff, 0xcc, 0x20, 0x00, 0x10, 0x00, 0x20 /* endorse, task 7, record 63, refused 12, 0001.0002 */
    };
    static const uint8_t damaged[] = {
        0x21, 0x62, 0x00, 0x06, /* release, task 2, record 5, granted, 0003 */
        0x21, 0x62, 0x00, 0x07  /* the same with a bit set behind its last clause */
    };

    compare_some();
    walk("a docket", docket, sizeof docket, 0);
    walk("without its last byte", docket, sizeof docket - 1, 0);
    walk("from a place beyond its end", docket, sizeof docket, 17);
    walk("a damaged docket", damaged, sizeof damaged, 0);
    return 0;
}
