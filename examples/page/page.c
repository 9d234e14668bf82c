/*
 * Writes a page about a support statement: a table of its queries, or the refusal with a caret under its place.
 *
 *   page < STATEMENT              the statement as bytes
 *   page --chain FIRST < MEMORY   a chain memory and the index of its first record
 */
#include "statement.h"

#include <stdbool.h>
#include <stdio.h>
#include <stdlib.h>
#include <string.h>

/* One byte more than a text may have, so that a longer one is seen to be longer. */
#define INPUT_MOST (STATEMENT_LONGEST + 1)

/* How many characters of a refused statement are shown on either side of its place. */
#define SHOWN_AROUND 36

static uint8_t input[INPUT_MOST];
static uint8_t covered[STATEMENT_LONGEST];
static uint64_t queries[STATEMENT_MOST_QUERIES * STATEMENT_QUERY_WORDS];
static uint64_t separators[STATEMENT_MOST_QUERIES * STATEMENT_SEPARATOR_WORDS];

/* The text that places count in, and where the trimmed text begins in it. */
struct text {
    const uint8_t *bytes;
    size_t len;
    size_t offset;
};

static const char *const form_names[] = {
    [STATEMENT_LAST] = "Last",
    [STATEMENT_UNRELEASED] = "Unreleased",
    [STATEMENT_YEARS] = "Years",
    [STATEMENT_SINCE] = "Since",
    [STATEMENT_PERCENTAGE] = "Percentage",
    [STATEMENT_COVER] = "Cover",
    [STATEMENT_SUPPORTS] = "Supports",
    [STATEMENT_ELECTRON] = "Electron",
    [STATEMENT_NODE] = "Node",
    [STATEMENT_BROWSER] = "Browser",
    [STATEMENT_BASELINE] = "Baseline",
    [STATEMENT_FIREFOX_ESR] = "FirefoxESR",
    [STATEMENT_OPERA_MINI] = "OperaMini",
    [STATEMENT_CURRENT_NODE] = "CurrentNode",
    [STATEMENT_MAINTAINED_NODE] = "MaintainedNode",
    [STATEMENT_PHANTOM] = "Phantom",
    [STATEMENT_DEFAULTS] = "Defaults",
    [STATEMENT_DEAD] = "Dead",
    [STATEMENT_UNKNOWN] = "Unknown",
};

/* ---- Characters ---- */

static bool is_tail(const struct text *text, size_t at, uint8_t low, uint8_t high)
{
    return at < text->len && text->bytes[at] >= low && text->bytes[at] <= high;
}

/* How many bytes the character at a place has; 0 where the bytes there are no UTF-8. */
static size_t char_len(const struct text *text, size_t at)
{
    uint8_t lead = text->bytes[at];
    uint8_t low = lead == 0xE0 ? 0xA0 : lead == 0xF0 ? 0x90 : 0x80;
    uint8_t high = lead == 0xED ? 0x9F : lead == 0xF4 ? 0x8F : 0xBF;
    size_t len = lead < 0x80 ? 1 : lead < 0xC2 ? 0 : lead < 0xE0 ? 2 : lead < 0xF0 ? 3 : lead < 0xF5 ? 4 : 0;

    if (len >= 2 && !is_tail(text, at + 1, low, high))
        return 0;
    for (size_t i = 2; i < len; i++)
        if (!is_tail(text, at + i, 0x80, 0xBF))
            return 0;
    return len;
}

/* Writes the character at a place as text of a page, one column wide; answers the place behind it. */
static size_t put_char(const struct text *text, size_t at)
{
    uint8_t byte = text->bytes[at];
    size_t len = char_len(text, at);

    if (len == 0) {
        fputs("&#xFFFD;", stdout);
        return at + 1;
    }
    if (byte == '&')
        fputs("&amp;", stdout);
    else if (byte == '<')
        fputs("&lt;", stdout);
    else if (byte == '>')
        fputs("&gt;", stdout);
    else if (byte == '"')
        fputs("&quot;", stdout);
    else if (byte == '\'')
        fputs("&#39;", stdout);
    else if (byte < 0x20)
        printf("&#x%X;", 0x2400u + byte); /* the picture of a control character */
    else if (byte == 0x7F)
        fputs("&#x2421;", stdout);
    else
        fwrite(text->bytes + at, 1, len, stdout);
    return at + len;
}

/* A part of the trimmed text. */
static void put_part(const struct text *text, uint64_t start, uint64_t end)
{
    for (size_t at = text->offset + start; at < text->offset + end;)
        at = put_char(text, at);
}

/* ---- The table ---- */

/* How a query is joined to the one before it: by what stands in the separator. */
static const char *joined_by(const struct text *text, uint64_t k)
{
    const uint64_t *record;

    if (k == 0)
        return "";
    if (queries[k * STATEMENT_QUERY_WORDS + STATEMENT_IS_AND])
        return "and";
    record = separators + (k - 1) * STATEMENT_SEPARATOR_WORDS;
    for (uint64_t at = record[STATEMENT_SEPARATOR_START]; at < record[STATEMENT_SEPARATOR_END]; at++)
        if (text->bytes[text->offset + at] == ',')
            return "comma";
    return "or";
}

static void put_row(const struct text *text, uint64_t k)
{
    const uint64_t *query = queries + k * STATEMENT_QUERY_WORDS;

    printf("<tr><td>%llu</td><td>%s</td><td><code>", (unsigned long long)k, joined_by(text, k));
    put_part(text, query[STATEMENT_RAW_START], query[STATEMENT_RAW_END]);
    printf("</code></td><td>%s%s</td><td>", query[STATEMENT_NEGATED] ? "not " : "", form_names[query[STATEMENT_FORM]]);
    put_part(text, query[STATEMENT_NAME_START], query[STATEMENT_NAME_END]);
    puts("</td></tr>");
}

static void put_table(const struct text *text, uint64_t n)
{
    printf("<p>%llu queries</p>\n<table>\n", (unsigned long long)n);
    puts("<tr><th>#</th><th>joined by</th><th>query</th><th>form</th><th>name</th></tr>");
    for (uint64_t k = 0; k < n; k++)
        put_row(text, k);
    puts("</table>");
}

/* ---- A refusal ---- */

static const char *reason(uint64_t refusal)
{
    switch (refusal) {
    case STATEMENT_BAD_CELL:
        return "The memory is damaged or too long";
    case STATEMENT_ILL_FORMED:
        return "The statement is not UTF-8";
    case STATEMENT_NO_READING:
        return "There is no query here";
    default:
        return "There are too few slots";
    }
}

/* The place of a refusal in the text that was given. */
static size_t place_in(const struct text *text, const uint64_t *outcome)
{
    if (outcome[STATEMENT_REFUSAL] == STATEMENT_NO_READING)
        return text->offset + outcome[STATEMENT_PLACE];
    return outcome[STATEMENT_PLACE];
}

/* The statement around a place, with a caret under it. */
static void put_caret(const struct text *text, size_t place)
{
    size_t at = place > SHOWN_AROUND ? place - SHOWN_AROUND : 0;
    size_t end = text->len - place > SHOWN_AROUND ? place + SHOWN_AROUND : text->len;
    size_t column = 0;

    /* Begin at the start of a character. */
    while (at > 0 && at < place && (text->bytes[at] & 0xC0) == 0x80)
        at++;
    fputs("<pre>", stdout);
    while (at < end) {
        if (at < place)
            column++;
        at = put_char(text, at);
    }
    printf("\n%*s^</pre>\n", (int)column, "");
}

static void put_refusal(const struct text *text, const uint64_t *outcome)
{
    size_t place = place_in(text, outcome);

    printf("<p>Refused %llu: %s", (unsigned long long)outcome[STATEMENT_REFUSAL], reason(outcome[STATEMENT_REFUSAL]));
    if (outcome[STATEMENT_REFUSAL] == STATEMENT_BAD_CELL)
        printf(" (fault %llu at %llu of its store)", (unsigned long long)outcome[STATEMENT_FAULT],
               (unsigned long long)outcome[STATEMENT_OWN_PLACE]);
    printf(", at byte %zu</p>\n", place);
    if (place <= text->len)
        put_caret(text, place);
}

/* ---- The page ---- */

static void put_page(const struct text *text, uint64_t n, const uint64_t *outcome)
{
    puts("<!DOCTYPE html>\n<meta charset=\"utf-8\">\n<title>Support statement</title>");
    if (outcome[STATEMENT_REFUSAL] == 0)
        put_table(text, n);
    else
        put_refusal(text, outcome);
}

static void page_of_bytes(size_t len)
{
    uint64_t outcome[STATEMENT_OUTCOME_WORDS];
    struct text text = {input, len, (size_t)statement_offset(input, len)};
    uint64_t n = statement_fill(input, len, queries, sizeof queries / sizeof *queries, separators,
                                sizeof separators / sizeof *separators, outcome, STATEMENT_OUTCOME_WORDS);

    put_page(&text, n, outcome);
}

static void page_of_chain(size_t len, uint16_t first)
{
    uint64_t outcome[STATEMENT_OUTCOME_WORDS];
    size_t cells = (size_t)statement_chain_text(input, len, first, covered, sizeof covered);
    struct text text = {covered, cells, (size_t)statement_chain_offset(input, len, first)};
    uint64_t n = statement_chain_fill(input, len, first, queries, sizeof queries / sizeof *queries, separators,
                                      sizeof separators / sizeof *separators, outcome, STATEMENT_OUTCOME_WORDS);

    put_page(&text, n, outcome);
}

/* The index of a record, from 0 to 65,535. */
static bool parse_index(const char *word, uint16_t *index)
{
    char *rest;
    unsigned long value = strtoul(word, &rest, 10);

    *index = (uint16_t)value;
    return word[0] >= '0' && word[0] <= '9' && *rest == '\0' && value <= UINT16_MAX;
}

int main(int argc, char **argv)
{
    uint16_t first;
    size_t len = fread(input, 1, sizeof input, stdin);

    if (ferror(stdin)) {
        perror("page");
        return EXIT_FAILURE;
    }
    if (argc == 1) {
        page_of_bytes(len);
    } else if (argc == 3 && strcmp(argv[1], "--chain") == 0 && parse_index(argv[2], &first)) {
        page_of_chain(len, first);
    } else {
        fputs("usage: page [--chain FIRST]\n", stderr);
        return EXIT_FAILURE;
    }
    return ferror(stdout) || fflush(stdout) ? EXIT_FAILURE : EXIT_SUCCESS;
}
