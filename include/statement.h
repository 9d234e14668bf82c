/*
 * The reader of a support statement: Browserslist queries, as numbers.
 *
 * Every slice is a pointer and a length; a null pointer with length 0 is a slice of nothing. No call keeps a pointer,
 * allocates, or writes anything but what is told here. Slices that a call writes must not overlap with others.
 *
 * A statement is given as bytes (statement_...), or as a chain memory with the index of its first record
 * (statement_chain_...). A chain memory is read under a cover: comments and line ends count as spaces.
 *
 * All places in records are in the trimmed text: the text without white space in front and behind. Add
 * statement_offset() for the place in the text given.
 *
 * docs/API.md tells more, and how to link.
 */
#ifndef STATEMENT_H
#define STATEMENT_H

#include <stddef.h>
#include <stdint.h>

#ifdef __cplusplus
extern "C" {
#endif

/* How many words a record has, and how many an outcome. */
#define STATEMENT_QUERY_WORDS 24
#define STATEMENT_SEPARATOR_WORDS 2
#define STATEMENT_OUTCOME_WORDS 5
#define STATEMENT_READ_OUTCOME_WORDS 4 /* of statement_read: those before the count */

/* The longest text, in bytes. A longer one is refused with STATEMENT_BAD_CELL and fault 5. */
#define STATEMENT_LONGEST 16384

/* Enough records for every text: each query takes a byte, and each separator too. */
#define STATEMENT_MOST_QUERIES 8192

/* The words of an outcome. */
#define STATEMENT_REFUSAL 0   /* 0: not refused */
#define STATEMENT_PLACE 1     /* of refusals 1 and 2 in the text given, of 3 in the trimmed text */
#define STATEMENT_FAULT 2     /* of a bad cell */
#define STATEMENT_OWN_PLACE 3 /* of a bad cell: its place in the store that made it */
#define STATEMENT_COUNT 4     /* not refused: how many; too few slots: how many queries want slots */

/* Refusals. */
#define STATEMENT_BAD_CELL 1
#define STATEMENT_ILL_FORMED 2
#define STATEMENT_NO_READING 3
#define STATEMENT_TOO_FEW_SLOTS 4
#define STATEMENT_AT_START 5
#define STATEMENT_OUTSIDE_BYTES 6

/* The words of a query record. What a form does not have is 0. */
#define STATEMENT_RAW_START 0
#define STATEMENT_RAW_END 1
#define STATEMENT_NEGATED 2
#define STATEMENT_IS_AND 3
#define STATEMENT_FORM 4
#define STATEMENT_KIND 5
#define STATEMENT_COMPARATOR 6
#define STATEMENT_NUMBER 7 /* count of Last; year of Since (the 32 bits of a signed number) and of Baseline */
#define STATEMENT_MONTH 8
#define STATEMENT_DAY 9
#define STATEMENT_MAJOR 10      /* of Last */
#define STATEMENT_DOWNSTREAM 10 /* of Baseline */
#define STATEMENT_KAIOS 11      /* of Baseline */
#define STATEMENT_NAME_START 12 /* the name, the feature or the unknown text */
#define STATEMENT_NAME_END 13
#define STATEMENT_AMOUNT_START 14 /* the number of Years, Percentage and Cover */
#define STATEMENT_AMOUNT_END 15
#define STATEMENT_VERSION_START 16 /* the version, or the lower one */
#define STATEMENT_VERSION_END 17
#define STATEMENT_UPPER_START 18 /* the upper version of Bounded */
#define STATEMENT_UPPER_END 19
#define STATEMENT_REGION_START 20
#define STATEMENT_REGION_END 21

/* The words of a separator record. */
#define STATEMENT_SEPARATOR_START 0
#define STATEMENT_SEPARATOR_END 1

/* Forms. */
#define STATEMENT_LAST 1
#define STATEMENT_UNRELEASED 2
#define STATEMENT_YEARS 3
#define STATEMENT_SINCE 4
#define STATEMENT_PERCENTAGE 5
#define STATEMENT_COVER 6
#define STATEMENT_SUPPORTS 7
#define STATEMENT_ELECTRON 8
#define STATEMENT_NODE 9
#define STATEMENT_BROWSER 10
#define STATEMENT_BASELINE 11
#define STATEMENT_FIREFOX_ESR 12
#define STATEMENT_OPERA_MINI 13
#define STATEMENT_CURRENT_NODE 14
#define STATEMENT_MAINTAINED_NODE 15
#define STATEMENT_PHANTOM 16
#define STATEMENT_DEFAULTS 17
#define STATEMENT_DEAD 18
#define STATEMENT_UNKNOWN 19

/* Kinds. Last and Unreleased: whether there is a name. */
#define STATEMENT_NAMED 1
/* Percentage and Cover: all the world (0) or a region. */
#define STATEMENT_REGION 1
/* Supports: plainly (0), fully, partially. */
#define STATEMENT_FULLY 1
#define STATEMENT_PARTIALLY 2
/* Electron, Node and Browser: the range. */
#define STATEMENT_BOUNDED 1
#define STATEMENT_UNBOUNDED 2
#define STATEMENT_ACCURATE 3
#define STATEMENT_PREVIEW 4
/* Baseline. */
#define STATEMENT_YEAR 1
#define STATEMENT_LEGACY_YEAR 2
#define STATEMENT_INVALID_YEAR 3
#define STATEMENT_NEWLY 4
#define STATEMENT_NEWLY_ON_DATE 5
#define STATEMENT_WIDELY 6
#define STATEMENT_WIDELY_ON_DATE 7
/* Phantom: 1 for 2.1, 0 for 1.9. */
#define STATEMENT_PHANTOM_2 1

/* Comparators. */
#define STATEMENT_LESS 1
#define STATEMENT_LESS_OR_EQUAL 2
#define STATEMENT_GREATER 3
#define STATEMENT_GREATER_OR_EQUAL 4

/* What a field is where there is no such query or word. */
#define STATEMENT_ABSENT UINT64_MAX

/* What statement_chain_text writes for a bad cell. */
#define STATEMENT_SUBSTITUTE 26

/*
 * How many queries the statement has. At a refusal it is 0. The outcome's words are written if there are five.
 */
uint64_t statement_count(const uint8_t *bytes, size_t bytes_len, uint64_t *outcome, size_t outcome_len);

/*
 * The whole reading: n query records into the first 24 n words of queries, n - 1 separator records into the first
 * 2 (n - 1) words of separators, and nothing else; answers n. Where one slice has room for fewer, or the statement
 * is refused, it answers 0 and both slices stay as they were.
 */
uint64_t statement_fill(const uint8_t *bytes, size_t bytes_len, uint64_t *queries, size_t queries_len,
                        uint64_t *separators, size_t separators_len, uint64_t *outcome, size_t outcome_len);

/*
 * Query by query: a record for each query that is given, also before a refusal, while there is room for whole records.
 * Answers how many queries were given, with or without room. The outcome's first four words are written if there are
 * four.
 */
uint64_t statement_read(const uint8_t *bytes, size_t bytes_len, uint64_t *records, size_t records_len,
                        uint64_t *outcome, size_t outcome_len);

/*
 * The same, with a record for each separator between two queries too, and all five words of the outcome.
 */
uint64_t statement_steps(const uint8_t *bytes, size_t bytes_len, uint64_t *queries, size_t queries_len,
                         uint64_t *separators, size_t separators_len, uint64_t *outcome, size_t outcome_len);

/*
 * One word of query k (from 0), or STATEMENT_ABSENT. Each call steps through the statement: for more than a few fields
 * use statement_fill.
 */
uint64_t statement_field(const uint8_t *bytes, size_t bytes_len, size_t k, size_t field);

/*
 * Copies the bytes from start up to end, as many as out has room for, and answers how many they are. Where start
 * passes end or end passes the bytes, it answers 0, the outcome tells STATEMENT_OUTSIDE_BYTES, and out stays as it was.
 */
uint64_t statement_part(const uint8_t *bytes, size_t bytes_len, size_t start, size_t end, uint8_t *out, size_t out_len,
                        uint64_t *outcome, size_t outcome_len);

/*
 * How many bytes of white space are dropped in front.
 */
uint64_t statement_offset(const uint8_t *bytes, size_t bytes_len);

/*
 * The same of a chain memory. first is the index of its first record; 0 is the empty chain.
 */
uint64_t statement_chain_count(const uint8_t *memory, size_t memory_len, uint16_t first, uint64_t *outcome,
                               size_t outcome_len);
uint64_t statement_chain_fill(const uint8_t *memory, size_t memory_len, uint16_t first, uint64_t *queries,
                              size_t queries_len, uint64_t *separators, size_t separators_len, uint64_t *outcome,
                              size_t outcome_len);
uint64_t statement_chain_field(const uint8_t *memory, size_t memory_len, uint16_t first, size_t k, size_t field);
uint64_t statement_chain_offset(const uint8_t *memory, size_t memory_len, uint16_t first);

/*
 * The covered text of a chain memory, as many bytes as out has room for, with STATEMENT_SUBSTITUTE for a bad cell.
 * Answers how many cells the text has.
 */
uint64_t statement_chain_text(const uint8_t *memory, size_t memory_len, uint16_t first, uint8_t *out, size_t out_len);

#ifdef __cplusplus
}
#endif

#endif
