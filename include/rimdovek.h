/* The C functions of libexports.a. A text is a pointer and its length in bytes; an output is lent, and bytes past what is written keep their
   values. No function allocates, keeps a pointer or asks anything of its caller beyond valid pointers that do not overlap;
   where a length is 0 its pointer is not looked at and may be NULL. A double travels as its bits, but for the draws, an array of doubles. */
#ifndef RIMDOVEK_H
#define RIMDOVEK_H

#include <stdbool.h>
#include <stddef.h>
#include <stdint.h>

#ifdef __cplusplus
extern "C" {
#endif

/* The highest bit of an answer: the texts are refused, and nothing is written. */
#define RIMDOVEK_REFUSED UINT64_C(0x8000000000000000)

/* Of a refusal: the document's number, the text (0 query, 1 plan, 2 table) and the line, at most 32,769. */
static inline uint8_t rimdovek_refusal_number(uint64_t answer) { return (uint8_t)(answer >> 24); }
static inline uint8_t rimdovek_refusal_text(uint64_t answer) { return (uint8_t)(answer >> 16); }
static inline uint16_t rimdovek_refusal_line(uint64_t answer) { return (uint16_t)answer; }

/* The square root; 7ff8000000000000 for NaN and below 0. */
uint64_t rimdovek_sqrt(uint64_t bits);

/* The generator's state after `state`, and the number drawn at it. */
uint64_t rimdovek_splitmix64_state(uint64_t state);
uint64_t rimdovek_splitmix64_draw(uint64_t state);

/* The selectivity of a path; `fanout` counts only where `measured` holds. */
uint64_t rimdovek_path_selectivity(bool measured, uint64_t fanout, uint32_t denom);

/* The measurement from its draws: 0, and the mean's bits are set; 1 where the guard rejects it; 2 without draws, with more than 64, or with
   more than 256 resamples. */
uint8_t rimdovek_estimate_draws(const double *draws, size_t draws_len, size_t k, size_t bootstrap, uint64_t cv, uint64_t *mean);

/* Plans a query text. Where `handed` holds, a table text stands beside it, from which frame 24 takes the samples; an empty text is a table. Without
   frame 24 it is not looked at. Accepted: bytes written in bits 48 to 62 (no plan is longer than 20,565), steps in 32 to 47, tallied in 16 to 31,
   rejected in 0 to 15. A refusal is of the query (0) or of the table (2). It takes less than 380,000 bytes of stack, whatever the query. */
uint64_t rimdovek_plan(const uint8_t *query, size_t query_len, bool handed, const uint8_t *table, size_t table_len, uint8_t *out,
                       size_t out_len);

/* The costs of round number `round` of a query, from 0: the bits of the first atoms' costs, as far as the array is long, and all ones for an
   atom that is no candidate and past the atoms. A table text may stand beside the query, as above. Accepted: the atom chosen in bits 0 to 7, or
   RIMDOVEK_ENDED where no atom is a candidate. It takes as much stack as planning. */
#define RIMDOVEK_ENDED UINT64_C(0x100)
uint64_t rimdovek_round_costs(const uint8_t *query, size_t query_len, bool handed, const uint8_t *table, size_t table_len, size_t round,
                              uint64_t *costs, size_t costs_len);

/* No atom is named as the new one of a run. */
#define RIMDOVEK_NO_ATOM UINT64_MAX

/* Runs a plan over a table with an allowance of tries, a line for each match. `atom` is the atom that the run names as its new one, whose Join
   tries the rows from the table's frame 33 on, Joins of lower atoms those before it; or RIMDOVEK_NO_ATOM. An atom without a Join is refused (12).
   Classes go by the leaders of the table's frames 34, and are told by them; a row that equals an earlier one so is not tried.
   Accepted: 0 done, 1 spent or 2 full in bits 32 and 33, the bytes written below, modulo 4,294,967,296: lend at most 4,294,967,295 bytes, so that
   they are told whole. Tries and matches are set; a refusal sets 0. The run takes some 1,700 bytes of stack for a Join and 290,000 besides:
   400,000 for a plan of the planner, which has at most 64 Joins, and less than 4,700,000 for the longest plan text that is accepted. */
uint64_t rimdovek_run(const uint8_t *plan, size_t plan_len, const uint8_t *table, size_t table_len, uint64_t allowance, uint64_t atom,
                      uint8_t *out, size_t out_len, uint64_t *tries, uint64_t *matches);

/* Some match of a run that names `atom`, or RIMDOVEK_NO_ATOM: 0 none, 1 spent, 2 a match, whose line is written where it has room; 419 bytes
   always suffice. It takes as much stack as the run. */
uint64_t rimdovek_some_match(const uint8_t *plan, size_t plan_len, const uint8_t *table, size_t table_len, uint64_t allowance, uint64_t atom,
                             uint8_t *out, size_t out_len);

#ifdef __cplusplus
}
#endif
#endif
