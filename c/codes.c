/* Prints the table of codes that stands in the header and in README: a row for the values of an attribute that delampuk_explain tells
 * the same of, with their codes in hex. */
#include "delampuk.h"

#include <stdio.h>
#include <string.h>

enum { ATTRIBUTES = 8, VALUES = 32 };

static const char *const kinds[] = {"other", "neutral", "audio", "data", "escape", "message"};

static struct delampuk_code told_of(int attribute, int value) { return delampuk_explain((uint8_t)(attribute * VALUES + value)); }

static int same(int attribute, int one, int other) {
    struct delampuk_code first = told_of(attribute, one), second = told_of(attribute, other);
    return memcmp(&first, &second, sizeof first) == 0;
}

/* Whether no smaller value of the attribute is told the same of. */
static int opens_a_row(int attribute, int value) {
    for (int smaller = 0; smaller < value; smaller++)
        if (same(attribute, smaller, value))
            return 0;
    return 1;
}

/* The values that are told the same of as one of them, each number as told by the format and raised by so much, runs as their ends. */
static void put_values(char *to, const char *format, int attribute, int of, int raised) {
    for (int value = 0; value < VALUES; value++) {
        int first = value;
        if (!same(attribute, of, value))
            continue;
        while (value + 1 < VALUES && same(attribute, of, value + 1))
            value++;
        to += sprintf(to, "%s", first == of ? "" : " ");
        to += sprintf(to, format, first + raised);
        if (value > first) {
            to += sprintf(to, "-");
            to += sprintf(to, format, value + raised);
        }
    }
}

/* A range as its ends, or a dash where it is empty. */
static void put_range(char *to, int first, int last) {
    if (first > last)
        sprintf(to, "-");
    else if (first == last)
        sprintf(to, "%d", first);
    else
        sprintf(to, "%d-%d", first, last);
}

static void put_row(int attribute, int value) {
    char values[4 * VALUES], codes[4 * VALUES], bits[16], octets[16];
    struct delampuk_code told = told_of(attribute, value);
    put_values(values, "%d", attribute, value, 0);
    put_values(codes, "%02X", attribute, value, attribute * VALUES);
    put_range(bits, told.first_bit, told.last_bit);
    put_range(octets, told.first_sc, told.last_sc);
    printf("(%d%d%d)  %-24s  %-23s  %-7s  %-7s  %-10s  %s\n", attribute >> 2, attribute >> 1 & 1, attribute & 1, values, codes,
           kinds[told.kind], told.carried ? "yes" : "no", bits, octets);
}

int main(void) {
    printf("%-5s  %-24s  %-23s  %-7s  %-7s  %-10s  %s\n", "", "values", "codes", "kind", "carried", "octet bits", "SC octets");
    for (int attribute = 0; attribute < ATTRIBUTES; attribute++)
        for (int value = 0; value < VALUES; value++)
            if (opens_a_row(attribute, value))
                put_row(attribute, value);
    return 0;
}
